//! `zigrunk plan`: prints the plan of an nvcc line, or that of two dry runs in files. It makes the dry runs
//! as `zigrunk nvcc` does, and runs nothing else.
use crate::stored_plan::Stored;
use crate::system::{self, Signals};
use call::environments::Environment;
use call::programs;
use call::{Disk, ErrorKind, Format, MOST_BYTES as MOST_OF_NVCC, NvccLine, Planning};
use lexopt::Parser;
use lexopt::prelude::{Long, Short, Value};
use machine::folder::Folder;
use machine::guard::Shared;
use machine::host::Host;
use machine::lacking::not_found;
use machine::nearest::{question, shown, unexpected, value};
use machine::places::{absolute, working_directory};
use machine::settings::{Settings, own_variable};
use machine::streams::{complain, say};
use runner::nvcc_jobs::{Jobs, Stopped};
use std::ffi::{OsStr, OsString};
use std::fmt::Display;
use std::path::Path;

const USAGE: &str = "usage: zigrunk plan FORMAT [--] NVCC WORD..
       zigrunk plan --dry-runs FILE FILE [OPTION].. FORMAT";

/// How many bytes parsing a dry run may take by default, because a few variables that name each other make a
/// short one explode.
const MOST_BYTES: usize = 1 << 21;

/// Why there is no plan: the exit status, and what to say.
#[derive(PartialEq, Eq, Debug)]
struct Refusal {
    status: i32,
    text: String,
}

fn refusal(status: i32, text: impl Into<String>) -> Refusal {
    Refusal { status, text: text.into() }
}

fn misuse(reason: impl Display) -> Refusal {
    refusal(2, format!("zigrunk plan: {reason}\n{USAGE}"))
}

/// A call of nvcc to plan.
#[derive(PartialEq, Eq, Debug)]
struct Call {
    nvcc: OsString,
    words: Vec<OsString>,
}

/// What is asked for.
#[derive(PartialEq, Eq, Debug)]
enum Asked {
    Help,
    /// The names of the formats.
    Formats,
    Call(Format, Call),
    Stored(Format, Stored),
}

/// The options, as the help has them.
const OPTIONS: &str = "\
--dry-runs FILE FILE  plan the dry runs of a call that are in two files, instead of a call; - is standard input
--cwd DIR      where nvcc was called; by default the working directory
--tmp DIR      the DIR of the second dry run; by default that of --cwd
--flag FLAG    what nvcc makes; by default -c
--keep         generated files keep nvcc's names
--whole        fail if the plan drops a command
--limit BYTES  fail if parsing a dry run takes over so many bytes; by default 2097152
--suffix S     S, such as .gpu, ends the names of further generated files; give it again for more
--formats      print the names of the formats
-h, --help     print this text
";

/// What the options say of dry runs in files, as far as they say it.
#[derive(Default)]
struct Options {
    /// The first option.
    first: Option<String>,
    files: Option<[String; 2]>,
    cwd: Option<String>,
    tmp: Option<String>,
    flag: Option<String>,
    keeps: bool,
    whole: bool,
    limit: Option<usize>,
    suffixes: Vec<String>,
}

/// The value of the option that was read last, which needs one.
fn text(words: &mut Parser, needs: &str) -> Result<String, Refusal> {
    let value = value(words, needs).map_err(misuse)?;
    value.into_string().map_err(|_| refusal(2, "zigrunk plan: a word isn't UTF-8"))
}

/// A number of bytes.
fn limit(number: &str) -> Result<usize, Refusal> {
    let is_number = !number.is_empty() && number.bytes().all(|byte| byte.is_ascii_digit());
    let limit = number.parse().ok().filter(|&limit: &usize| is_number && limit > 0);
    limit.ok_or_else(|| misuse(format!("--limit needs a number of bytes, not {}", shown(number.as_ref()))))
}

impl Options {
    /// Takes an option with its value.
    fn take(&mut self, option: &str, words: &mut Parser) -> Result<(), Refusal> {
        let mut of = |what: &str| text(words, &format!("--{option} needs {what}"));
        match option {
            "dry-runs" => self.files = Some([of("two files")?, of("two files")?]),
            "cwd" => self.cwd = Some(of("a directory")?),
            "tmp" => self.tmp = Some(of("a directory")?),
            "flag" => self.flag = Some(of("a flag, as -c")?),
            "suffix" => self.suffixes.push(of("a suffix, as .gpu")?),
            "limit" => self.limit = Some(limit(&of("a number of bytes")?)?),
            "keep" => self.keeps = true,
            "whole" => self.whole = true,
            _ => return Err(misuse(unexpected(&Long(option), OPTIONS))),
        }
        self.first.get_or_insert_with(|| format!("--{option}"));
        Ok(())
    }

    /// The dry runs that these options mean.
    fn stored(self, files: [String; 2]) -> Result<Stored, Refusal> {
        let here = || working_directory().and_then(|here| here.into_os_string().into_string().ok());
        let cwd = self
            .cwd
            .or_else(here)
            .ok_or_else(|| refusal(1, "zigrunk plan: there is no working directory"))?;
        Ok(Stored {
            files,
            tmp: self.tmp.unwrap_or_else(|| cwd.clone()),
            cwd,
            flag: self.flag.unwrap_or_else(|| "-c".into()),
            keeps: self.keeps,
            whole: self.whole,
            limit: self.limit.unwrap_or(MOST_BYTES),
            suffixes: self.suffixes,
        })
    }
}

/// The format of a word. Who forgets it has nvcc's name there.
fn format_of(word: &OsStr) -> Result<Format, Refusal> {
    let (name, names) = (word.to_string_lossy(), Format::ALL.map(Format::name));
    let unknown = || {
        let near = question(&name, names);
        let list = format!("; a format is one of {}", names.join(", "));
        misuse(format!("unknown format {}{}", shown(word), if near.is_empty() { list } else { near }))
    };
    Format::named(&name).ok_or_else(unknown)
}

/// Parses `FORMAT [--] NVCC WORD..`, or options with `--dry-runs` before and behind a format.
fn asked(words: &[OsString]) -> Result<Asked, Refusal> {
    let mut words = Parser::from_args(words);
    let (mut format, mut options) = (None, Options::default());
    while let Some(word) = words.next().map_err(misuse)? {
        match (word, format) {
            (Short('h') | Long("help"), _) => return Ok(Asked::Help),
            (Long("formats"), _) => return Ok(Asked::Formats),
            (Long(option), _) => {
                let option = option.to_owned();
                options.take(&option, &mut words)?;
            }
            (Value(name), None) => format = Some(format_of(&name)?),
            (Value(nvcc), Some(format)) if options.first.is_none() => {
                let words = words.raw_args().map_err(misuse)?.collect();
                return Ok(Asked::Call(format, Call { nvcc, words }));
            }
            (Value(_), Some(_)) if options.files.is_none() => break,
            (word @ Short(_), Some(_)) if options.first.is_none() => {
                let unexpected = unexpected(&word, OPTIONS);
                return Err(misuse(format!("{unexpected}; nvcc's name or path comes before its words")));
            }
            (word, _) => return Err(misuse(unexpected(&word, OPTIONS))),
        }
    }
    let format = format.ok_or_else(|| misuse("a format is missing"))?;
    match (options.files.take(), &options.first) {
        (Some(files), _) => Ok(Asked::Stored(format, options.stored(files)?)),
        (None, Some(option)) => Err(misuse(format!("{option} needs --dry-runs"))),
        (None, None) => Err(misuse("nvcc and its words are missing")),
    }
}

/// The line of a call, with all variables that count.
fn line_of(call: &Call) -> Result<NvccLine, Refusal> {
    let text = |word: &OsStr| {
        word.to_str().map(String::from).ok_or_else(|| refusal(2, "zigrunk plan: a word isn't UTF-8"))
    };
    let cwd = working_directory().ok_or_else(|| refusal(1, "zigrunk plan: there is no working directory"))?;
    let names = ["NVCC_PREPEND_FLAGS", "NVCC_APPEND_FLAGS", "ZIGRUNK_JOBS", "MAKEFLAGS"];
    let set = names.iter().filter_map(|name| Some((name, own_variable(name)?)));
    let variables =
        set.map(|(name, value)| Ok(((*name).to_owned(), text(&value)?))).collect::<Result<_, _>>()?;
    let words = call.words.iter().map(|word| text(word)).collect::<Result<_, _>>()?;
    Ok(NvccLine { cwd: text(cwd.as_os_str())?, nvcc: text(&call.nvcc)?, words, variables })
}

/// The path of the directory that the call itself would have. The user's folder above it is made, as private
/// as a call needs it: what runs the plan makes directories that all can read.
fn directory_of(line: &NvccLine) -> Result<String, Refusal> {
    let settings =
        Settings::of_environment().map_err(|complaint| refusal(2, format!("zigrunk plan: {complaint}")))?;
    let above = absolute(settings.plans(), line.cwd.as_ref());
    let name = line.directory_name().map_err(|error| refused(&error))?;
    let user = format!("zigrunk-{}", system::user());
    let _ = Folder::private(&above, &user);
    let path = above.join(user).join(name);
    path.into_os_string()
        .into_string()
        .map_err(|_| refusal(1, "zigrunk plan: the temporary directory isn't UTF-8"))
}

/// A machine without slots, for the dry runs.
fn machine() -> std::io::Result<Host> {
    Host::new(
        Signals::open()?,
        Shared::new()?,
        None,
        None,
        Environment::own().with("ZIGRUNK_INSIDE", OsStr::new("")),
    )
}

/// Why there is no plan of a call.
fn refused(error: &call::Error) -> Refusal {
    match error.kind() {
        ErrorKind::ToNvcc => refusal(3, format!("zigrunk plan: {error}")),
        ErrorKind::Nvcc => refusal(1, format!("{error}\nzigrunk plan: a dry run fails")),
        _ => refusal(1, format!("zigrunk plan: {error}")),
    }
}

/// Whether the call's nvcc is anywhere.
fn is_there(nvcc: &OsStr) -> Result<(), Refusal> {
    let path = own_variable("PATH").unwrap_or_default();
    let found = programs::find(nvcc, &path, Path::new(""));
    found.map(|_| ()).ok_or_else(|| refusal(1, format!("zigrunk plan: {}", not_found(nvcc, Path::new("")))))
}

/// The plan of a call, in a format.
fn plan_of(format: Format, call: &Call) -> Result<String, Refusal> {
    is_there(&call.nvcc)?;
    let line = line_of(call)?;
    let tmp = directory_of(&line)?;
    let call = call::Call::read(line, tmp).map_err(|error| refused(&error))?;
    let mut machine = machine().map_err(|error| refusal(1, format!("zigrunk plan: {error}")))?;
    let dry_runs =
        call.make_dry_runs(&mut Jobs::new(&mut machine, || Ok(()))).map_err(|stopped| match stopped {
            Stopped::Refused(error) => refused(&error),
            Stopped::Signal(number) => refusal(128 + number, ""),
        })?;
    let planning = Planning {
        variables: &[],
        keeps_names: call.keep_dir().is_some(),
        programs: &Disk::default(),
        limit: Some(MOST_OF_NVCC),
    };
    call.plan_made(&dry_runs, &planning).and_then(|plan| plan.text(format)).map_err(|error| refused(&error))
}

fn help() -> String {
    let formats: Vec<String> =
        Format::ALL.iter().map(|format| format!("  {:<7} {}", format.name(), format.about())).collect();
    format!(
        "{USAGE}

Prints the commands that nvcc runs for these words, and runs none of them.

FORMAT is one of
{}

These make two files for --dry-runs, which the options before --formats need:
  nvcc WORD.. --dryrun --keep 2> FILE
  nvcc WORD.. --keep-dir DIR --dryrun --keep 2> FILE

{OPTIONS}
The status is 1 for an error, 2 for wrong usage, and 3 if zigrunk leaves the call to nvcc. man zigrunk-plan has the rest.
",
        formats.join("\n")
    )
}

/// Prints what these words ask for. Says the exit status: 2 for wrong usage, 3 if the line goes to nvcc
/// unchanged.
pub fn run(words: &[OsString]) -> i32 {
    let text = asked(words).and_then(|asked| match asked {
        Asked::Help => Ok(help()),
        Asked::Formats => Ok(Format::ALL.map(|format| format!("{}\n", format.name())).concat()),
        Asked::Call(format, call) => plan_of(format, &call),
        Asked::Stored(format, stored) => {
            stored.text(format).map_err(|reason| refusal(1, format!("zigrunk plan: {reason}")))
        }
    });
    match text.map(|text| say(1, text.as_bytes())) {
        Ok(Ok(())) => 0,
        Ok(Err(_)) => {
            complain("zigrunk plan: cannot write");
            1
        }
        Err(Refusal { status, text }) => {
            if !text.is_empty() {
                complain(&text);
            }
            status
        }
    }
}

#[cfg(test)]
mod tests {
    use super::*;

    fn words(line: &str) -> Vec<OsString> {
        line.split_whitespace().map(OsString::from).collect()
    }

    #[test]
    fn wrong_usage_is_said() {
        let cases = [
            ("", "a format is missing"),
            ("yaml nvcc", "unknown format yaml; a format is one of json, ninja, shell, compdb, text"),
            ("jsn nvcc", "unknown format jsn; did you mean json?"),
            ("json", "nvcc and its words are missing"),
            ("json --", "nvcc and its words are missing"),
            ("-- nvcc", "unknown format nvcc; a format is one of json, ninja, shell, compdb, text"),
            ("json -c k.cu", "unexpected option -c; nvcc's name or path comes before its words"),
            ("-x nvcc", "unexpected option -x"),
            ("--json nvcc", "unexpected option --json"),
            ("--dry-run a b json", "unexpected option --dry-run; did you mean --dry-runs?"),
            ("--dry-runs a", "--dry-runs needs two files"),
            ("--dry-runs a b", "a format is missing"),
            ("--dry-runs a b json nvcc", "unexpected word nvcc"),
            ("--keep json nvcc", "--keep needs --dry-runs"),
            ("--dry-runs a b --limit", "--limit needs a number of bytes"),
            ("--dry-runs a b --limit 2M json", "--limit needs a number of bytes, not 2M"),
            ("--dry-runs a b json --limit -1", "--limit needs a number of bytes, not -1"),
            ("--dry-runs a b json --limit +1", "--limit needs a number of bytes, not +1"),
            ("--dry-runs a b json --limit 0", "--limit needs a number of bytes, not 0"),
            ("json --dry-runs a b --cwd", "--cwd needs a directory"),
            ("json --dry-runs a b --suffix", "--suffix needs a suffix, as .gpu"),
        ];
        for (line, wanted) in cases {
            assert_eq!(asked(&words(line)), Err(misuse(wanted)), "{line}");
        }
    }

    #[test]
    fn each_option_of_the_help_is_one() {
        for option in machine::nearest::options(OPTIONS) {
            let refusal = asked(&words(option)).err().map(|refusal| refusal.text);
            assert!(!refusal.unwrap_or_default().contains("unexpected"), "{option}");
        }
        assert!(OPTIONS.contains(&format!("by default {MOST_BYTES}\n")));
    }

    #[test]
    fn a_dry_run_that_fails_is_told() {
        let refusal = refused(&call::Error::by_nvcc(b"#$ gcc a\nbad\n#$x\n".to_vec()));
        assert_eq!((refusal.status, refusal.text.as_str()), (1, "bad\n#$x\nzigrunk plan: a dry run fails"));
        assert_eq!(refused(&call::Error::to_nvcc(call::Reason::ReadOtherwise)).status, 3);
    }

    #[test]
    fn a_call_has_nvcc_and_its_words() {
        for line in ["json -- nvcc -c k.cu", "json nvcc -c k.cu", "-- json nvcc -c k.cu"] {
            let call = Call { nvcc: "nvcc".into(), words: words("-c k.cu") };
            assert_eq!(asked(&words(line)), Ok(Asked::Call(Format::Json, call)), "{line}");
        }
        assert_eq!(asked(&words("--formats")), Ok(Asked::Formats));
        assert_eq!(asked(&words("-h")), Ok(Asked::Help));
    }

    #[test]
    fn options_of_dry_runs_have_any_order() {
        let wanted = Stored {
            files: ["a", "-"].map(String::from),
            cwd: "/w".into(),
            tmp: "/t".into(),
            flag: "-ptx".into(),
            keeps: true,
            whole: true,
            limit: 7,
            suffixes: [".b", ".a"].map(String::from).to_vec(),
        };
        let lines = [
            "--dry-runs a - --cwd /w --tmp /t --flag -ptx --keep --whole --limit 7 --suffix .b --suffix .a ninja",
            "ninja --dry-runs a - --suffix=.b --limit=9 --whole --keep --flag=-ptx --tmp /t --cwd /w --suffix .a --limit 07",
            "--keep --limit 1 --cwd /x --suffix .b --dry-runs a - ninja --whole --cwd /w --flag -ptx --limit 7 --suffix .a --tmp /t",
        ];
        for line in lines {
            assert_eq!(asked(&words(line)), Ok(Asked::Stored(Format::Ninja, wanted.clone())), "{line}");
        }
        let Ok(Asked::Stored(_, stored)) = asked(&words("--dry-runs a b --cwd /w json")) else {
            panic!("no dry runs")
        };
        assert_eq!(
            stored,
            Stored {
                files: ["a", "b"].map(String::from),
                cwd: "/w".into(),
                tmp: "/w".into(),
                flag: "-c".into(),
                keeps: false,
                whole: false,
                limit: MOST_BYTES,
                suffixes: vec![]
            }
        );
    }
}
