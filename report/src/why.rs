//! zigrunk why: says why two calls, of which `ZIGRUNK_RECORDS` has records, made different products.
use crate::causes::{Cause, Pair};
use crate::missed::Looked;
use crate::recorded::{Found, records};
use lexopt::Parser;
use lexopt::prelude::{Long, Short, Value, ValueExt};
use machine::nearest::unexpected;
use machine::streams::{complain, say};
use serde::Serialize;
use std::collections::BTreeMap;
use std::ffi::OsString;
use std::path::{Path, PathBuf};

const USAGE: &str = "usage: zigrunk why [--json] A B\n       zigrunk why [--json] --miss NVCC WORD..";
const HELP: &str = "
Says why two calls made different products: the first command that made another
file, and what it had otherwise. A and B are records of ZIGRUNK_RECORDS, lines
of a log, as in log:3, or folders: of these, calls with products of the same
names are compared.

It names a word (a path), a variable (a locale), a tool, a source or header, or
a folder. If all that is the same, it names what looks like a time or an id.

--json       print the causes for programs
--miss NVCC  say why the cache has nothing for a call, whose words follow
-h, --help   print this text

The status is 0 if all products are the same, or the cache has the call, 1 if
not, 2 for trouble.
";
/// How many causes are shown of two builds.
const MOST_SHOWN: usize = 2;

/// What is asked for.
#[derive(Clone, PartialEq, Eq, Debug)]
struct Asked {
    about: About,
    is_json: bool,
}

/// What it is asked about.
#[derive(Clone, PartialEq, Eq, Debug)]
enum About {
    Builds([PathBuf; 2]),
    /// A call, by nvcc's name and its words.
    Miss(String, Vec<String>),
}

/// Parses the words of a call. `Ok(None)` asks for help.
/// Errors: what is wrong with the words.
fn asked(words: &[OsString]) -> Result<Option<Asked>, lexopt::Error> {
    let (mut builds, mut is_json) = (Vec::new(), false);
    let mut words = Parser::from_args(words);
    while let Some(word) = words.next()? {
        match word {
            Short('h') | Long("help") => return Ok(None),
            Long("json") => is_json = true,
            Long("miss") => {
                let nvcc = words.value().map_err(|_| "--miss needs nvcc and its words")?.string()?;
                let words = words.raw_args()?.map(OsString::into_string).collect::<Result<_, _>>()?;
                return Ok(Some(Asked { about: About::Miss(nvcc, words), is_json }));
            }
            Value(build) => builds.push(PathBuf::from(build)),
            option => return Err(unexpected(&option, HELP)),
        }
    }
    let builds = builds.try_into().map_err(|_| "two records, or folders of records, are needed")?;
    Ok(Some(Asked { about: About::Builds(builds), is_json }))
}

/// What has come of two builds.
#[derive(Clone, PartialEq, Eq, Debug, Default, Serialize)]
struct Answer {
    /// How many calls were compared.
    compared: usize,
    /// The products that only one build has.
    only: [Vec<String>; 2],
    /// Why products differ.
    causes: Vec<Cause>,
}

type Build = BTreeMap<String, Found>;

/// The calls to compare: those of one name, or the only one of each.
fn pairs<'a>(one: &'a Build, other: &'a Build) -> Vec<Pair<'a>> {
    if let ([one], [other]) = (&one.values().collect::<Vec<_>>()[..], &other.values().collect::<Vec<_>>()[..])
    {
        return vec![Pair { one, other }];
    }
    one.iter().filter_map(|(name, one)| Some(Pair { one, other: other.get(name)? })).collect()
}

fn compare(one: &Build, other: &Build) -> Result<Answer, String> {
    let pairs = pairs(one, other);
    let only =
        |own: &Build, other: &Build| own.keys().filter(|name| !other.contains_key(*name)).cloned().collect();
    let only = if one.len() == 1 && other.len() == 1 {
        Default::default()
    } else {
        [only(one, other), only(other, one)]
    };
    let mut causes = Vec::new();
    for pair in &pairs {
        causes.extend(pair.cause().map_err(|_| "out of memory")?);
    }
    Ok(Answer { compared: pairs.len(), only, causes })
}

/// A value as a line shows it.
fn value(value: Option<&String>) -> &str {
    value.map_or("(missing)", String::as_str)
}

/// What is said of a cause, each line with these blanks before it.
pub fn told(cause: &Cause) -> String {
    let mut lines = vec![format!("{}: {} {}", cause.product, cause.kind, cause.name).trim_end().to_owned()];
    lines.push(format!("  command: {}", cause.command));
    if cause.values.iter().any(Option::is_some) {
        lines.extend(
            ["A", "B"]
                .iter()
                .zip(&cause.values)
                .map(|(side, own)| format!("  {side}: {}", value(own.as_ref()))),
        );
    }
    if let Some(place) = &cause.place {
        let at = place.line.map_or_else(|| format!("byte {}", place.byte), |line| format!("line {line}"));
        lines.push(format!("  first difference: {at}"));
        lines
            .extend(["A", "B"].iter().zip(&place.excerpts).map(|(side, text)| format!("    {side}: {text}")));
    }
    if let Some([one, other]) = &cause.line {
        lines.push(format!("  nvcc's words: {} in A, {} in B", value(one.as_ref()), value(other.as_ref())));
    }
    lines.join("\n") + "\n"
}

fn text(answer: &Answer) -> String {
    let Answer { compared, only, causes } = answer;
    let mut lines = vec![format!("{} of {compared} calls differ\n", causes.len())];
    for (side, names) in ["A", "B"].iter().zip(only).filter(|(_, names)| !names.is_empty()) {
        lines.push(format!("only {side} has {} of them: {}\n", names.len(), names[0]));
    }
    lines.extend(causes.iter().take(MOST_SHOWN).map(told));
    if causes.len() > MOST_SHOWN {
        lines.push(format!("and {} more: --json has all\n", causes.len() - MOST_SHOWN));
    }
    lines.concat()
}

/// An answer for programs.
fn json(answer: &impl Serialize) -> Result<String, String> {
    Ok(serde_json::to_string_pretty(answer).map_err(|error| error.to_string())? + "\n")
}

fn answer(Asked { about, is_json }: &Asked) -> Result<i32, String> {
    let (text, is_same) = match about {
        About::Builds(builds) => {
            let [one, other] = builds.each_ref().map(|build| records(build));
            let answer = compare(&one?, &other?)?;
            (if *is_json { json(&answer)? } else { text(&answer) }, answer.causes.is_empty())
        }
        About::Miss(nvcc, words) => {
            let looked = Looked::up(nvcc, words)?;
            (if *is_json { json(&looked)? } else { looked.text() }, looked.found)
        }
    };
    say(1, text.as_bytes()).map_err(|error| format!("cannot write: {error}"))?;
    Ok(i32::from(!is_same))
}

/// What has come of calls that were made twice.
#[derive(Clone, PartialEq, Eq, Debug)]
pub struct Twice {
    /// What to say of them.
    pub text: String,
    /// Whether both times all commands made the same.
    pub is_same: bool,
}

/// Compares calls that were made twice, by the folders of their records.
/// Errors: that there are none, or memory runs out.
pub fn twice(one: &Path, other: &Path) -> Result<Twice, String> {
    let of = |folder| records(folder).map_err(|_| "no call made a file, so there is nothing to compare");
    let (one, other) = (of(one)?, of(other)?);
    let pairs = pairs(&one, &other);
    let (mut causes, mut commands) = (Vec::new(), 0);
    for pair in &pairs {
        commands += pair.one.call.commands.len();
        let own = pair.not_deterministic().map_err(|_| "out of memory")?;
        let further = if own.is_empty() { pair.cause().map_err(|_| "out of memory")? } else { None };
        causes.extend(own.into_iter().chain(further));
    }
    let text = causes.iter().map(told).collect::<String>();
    let count = format!("{} of {commands} commands are not deterministic\n", causes.len());
    Ok(Twice { text: text + &count, is_same: causes.is_empty() })
}

/// Answers what these words ask. Says the exit status: 0 if all products are the same, or the cache has the
/// call, 1 if not, 2 for wrong usage and what can't be read.
pub fn run(words: &[OsString]) -> i32 {
    let result = match asked(words) {
        Ok(Some(asked)) => answer(&asked),
        Ok(None) => return i32::from(say(1, format!("{USAGE}\n{HELP}").as_bytes()).is_err()),
        Err(complaint) => Err(format!("{complaint}\n{USAGE}")),
    };
    result.unwrap_or_else(|complaint| {
        complain(&format!("zigrunk why: {complaint}"));
        2
    })
}

#[cfg(test)]
mod tests {
    use super::*;

    #[test]
    fn words_are_read() {
        let words = |line: &str| line.split_whitespace().map(OsString::from).collect::<Vec<_>>();
        let read = |line: &str| asked(&words(line)).map_err(|error| error.to_string());
        let wanted = |is_json| Ok(Some(Asked { about: About::Builds(["a".into(), "b".into()]), is_json }));
        assert_eq!(
            (read("a b"), read("--json a b"), read("a --help")),
            (wanted(false), wanted(true), Ok(None))
        );
        let needed = "two records, or folders of records, are needed";
        for (line, complaint) in
            [("", needed), ("a", needed), ("a b c", needed), ("-x a b", "unexpected option -x")]
        {
            assert_eq!(read(line), Err(complaint.into()), "{line}");
        }
        let call = About::Miss("nvcc".into(), vec!["--json".into(), "--miss".into()]);
        let asked = |is_json| Ok(Some(Asked { about: call.clone(), is_json }));
        assert_eq!(read("--miss nvcc --json --miss"), asked(false));
        assert_eq!(read("--json --miss nvcc --json --miss"), asked(true));
        assert_eq!(read("--miss"), Err("--miss needs nvcc and its words".into()));
    }

    #[test]
    fn an_answer_fits_a_screen() {
        let place = crate::places::place(b"a\nb", b"a\nc");
        let cause = Cause {
            product: "k.o".into(),
            kind: "header",
            command: "gcc for k.ii (1 of 7)".into(),
            name: "a.h".into(),
            values: [Some("digest 1".into()), None],
            place,
            line: Some([Some("-O1".into()), None]),
        };
        let lines = "k.o: header a.h\n  command: gcc for k.ii (1 of 7)\n  A: digest 1\n  B: (missing)\n  first difference: line 2\n    A: b\n    B: c\n  nvcc's words: -O1 in A, (missing) in B\n";
        assert_eq!(told(&cause), lines);
        let answer = |count| Answer {
            compared: 9,
            causes: vec![cause.clone(); count],
            only: [vec!["x.o".into()], vec![]],
        };
        assert_eq!(text(&answer(1)), format!("1 of 9 calls differ\nonly A has 1 of them: x.o\n{lines}"));
        assert!(
            text(&answer(9)).lines().count() <= 24
                && text(&answer(9)).ends_with("and 7 more: --json has all\n")
        );
    }
}
