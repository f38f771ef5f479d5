//! zigrunk report: summarises the log that zigrunk-nvcc and zigrunk batch write to `ZIGRUNK_LOG`. zigrunk
//! why: compares records of `ZIGRUNK_RECORDS`.
#![forbid(unsafe_code)]

mod causes;
mod chains;
mod log;
mod log_lines;
mod machines;
mod missed;
mod page;
mod places;
mod recorded;
#[cfg(test)]
mod small;
mod summary;
mod timeline;
mod trace;
pub mod why;

use lexopt::prelude::{Long, Short, Value};
use lexopt::{Error, Parser};
use log::Log;
use machine::excerpts::plain;
use machine::nearest::{unexpected, value};
use machine::streams::{complain, say};
use std::ffi::OsString;
use std::fs;
use std::path::PathBuf;

const USAGE: &str = "usage: zigrunk report [--trace OUT] [--html OUT] FILE..";
const HELP: &str = "
Summarises logs of ZIGRUNK_LOG.

--trace OUT   write a trace for chrome://tracing and Perfetto
--html OUT    write a page for a browser, in one file
-h, --help    print this text
";

/// What is asked for.
#[derive(Clone, PartialEq, Eq, Debug, Default)]
struct Asked {
    logs: Vec<PathBuf>,
    trace: Option<PathBuf>,
    html: Option<PathBuf>,
}

/// Parses the words of a call. `Ok(None)` asks for help.
/// Errors: what is wrong with the words.
fn asked(words: &[OsString]) -> Result<Option<Asked>, Error> {
    let mut asked = Asked::default();
    let mut words = Parser::from_args(words);
    while let Some(word) = words.next()? {
        match word {
            Short('h') | Long("help") => return Ok(None),
            Long("trace") => asked.trace = Some(value(&mut words, "--trace needs a file")?.into()),
            Long("html") => asked.html = Some(value(&mut words, "--html needs a file")?.into()),
            Value(log) => asked.logs.push(log.into()),
            option => return Err(unexpected(&option, HELP)),
        }
    }
    if asked.logs.is_empty() { Err("a log is missing".into()) } else { Ok(Some(asked)) }
}

/// Makes what is asked for.
/// Errors: which file can't be read or written or is no log, and why.
fn report(asked: &Asked) -> Result<(), String> {
    let mut log = Log::default();
    for path in &asked.logs {
        let text =
            fs::read(path).map_err(|error| format!("cannot read {}: {}", path.display(), plain(&error)))?;
        if !log.add(&text) {
            return Err(format!(
                "{} is no log of ZIGRUNK_LOG: none of its lines is an entry",
                path.display()
            ));
        }
    }
    let made = [(&asked.trace, trace::trace as fn(&Log) -> String), (&asked.html, page::page)];
    for (path, text) in made.iter().filter_map(|(path, make)| Some((path.as_ref()?, make(&log)))) {
        fs::write(path, text)
            .map_err(|error| format!("cannot write {}: {}", path.display(), plain(&error)))?;
    }
    say(1, summary::summary(&log).as_bytes()).map_err(|error| format!("cannot write: {}", plain(&error)))
}

/// Reports on the logs that these words name. Says the exit status: 1 if a file can't be read or written or
/// is no log, 2 for wrong usage.
pub fn run(words: &[OsString]) -> i32 {
    let asked = match asked(words) {
        Ok(Some(asked)) => asked,
        Ok(None) => {
            return i32::from(say(1, format!("{USAGE}\n{HELP}").as_bytes()).is_err());
        }
        Err(complaint) => {
            complain(&format!("zigrunk report: {complaint}\n{USAGE}"));
            return 2;
        }
    };
    report(&asked).map_or_else(
        |complaint| {
            complain(&format!("zigrunk report: {complaint}"));
            1
        },
        |()| 0,
    )
}

#[cfg(test)]
mod tests {
    use super::*;
    use crate::small::{SMALL, small};

    #[test]
    fn words_are_read() {
        let words = |line: &str| line.split_whitespace().map(OsString::from).collect::<Vec<_>>();
        let read = |line: &str| asked(&words(line)).map_err(|error| error.to_string());
        let wanted =
            Asked { logs: vec!["a".into(), "--b".into()], trace: Some("t".into()), html: Some("h".into()) };
        assert_eq!(read("--trace t a --html=h -- --b"), Ok(Some(wanted)));
        assert_eq!(read("a --help"), Ok(None));
        for (line, complaint) in
            [("", "a log is missing"), ("-x a", "unexpected option -x"), ("a --html", "--html needs a file")]
        {
            assert_eq!(read(line), Err(complaint.into()), "{line}");
        }
    }

    #[test]
    fn hits_are_those_of_commands_or_what_the_cache_counted() {
        let call =
            |counted: &str| format!(r#"{{"begin":1,"end":2,"status":0,{counted}"commands":[],"words":[]}}"#);
        let mut log = Log::default();
        log.add(call("").as_bytes());
        assert_eq!(log.hits(), None);
        log.add(call(r#""counted":[5,7,9,8],"#).as_bytes());
        log.add(call(r#""counted":[4,7,10,7],"#).as_bytes());
        assert_eq!((log.hits(), small().hits()), (Some((6.0, 1.0)), Some((0.0, 1.0))));
        assert!(summary::summary(&log).contains("hits: 6 of 7 (86 %)\n"));
        assert!(page::page(&log).contains("<b>6 / 1</b><span>cache hits / misses"));
    }

    #[test]
    fn each_cut_log_gives_a_report() {
        for size in (0..SMALL.len()).step_by(7) {
            let mut log = Log::default();
            log.add(&SMALL.as_bytes()[..size]);
            assert!(log.bad <= 1 && summary::summary(&log).starts_with("calls: "), "{size} bytes");
            assert!(
                page::page(&log).ends_with("</html>\n") && trace::trace(&log).ends_with('}'),
                "{size} bytes"
            );
        }
    }
}
