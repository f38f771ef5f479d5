//! The words of zigrunk batch.
use lexopt::prelude::{Long, Short, Value};
use lexopt::{Error, Parser};
use machine::nearest::{shown, unexpected, value};
use std::ffi::OsString;

pub const USAGE: &str =
    "usage: zigrunk batch [-j N] [-k N] [--progress] [--incremental] [--part I/N] [--missing] [FILE]";

pub const HELP: &str = "
Makes the calls of a list, split into their commands, side by side.

FILE          a call on each line, as you would type it, or a compile_commands.json; standard input if it is - or missing
-j N          run N commands at once; ZIGRUNK_JOBS says the same
-k N          start nothing more once N calls have failed; 0, as without it, makes all other calls
--progress    say how far it is, also if standard error is no terminal
--incremental  leave out the calls whose words, products and files are as they were when --incremental made them last
--part I/N    make the calls I, I+N, I+2N .. of FILE, as with --incremental: a task of a scheduler
--missing     make none; print each call of FILE, or of the part, that --incremental hasn't made, and why
--unless-made NVCC WORD..    make one call, unless a batch with --incremental has made it in this directory: a launcher for CMake
--version     print the version
-h, --help    print this text

Right behind the word batch may stand --root FOLDER and --check-twice, as for zigrunk nvcc.
The status is that of the first call in the list that failed. man zigrunk-batch has the rest.";

/// What is asked for.
#[derive(Clone, PartialEq, Eq, Debug)]
pub enum Wanted {
    Batch(Options),
    UnlessMade(Vec<OsString>),
    Version,
    Help,
}

/// How calls are made.
#[derive(Clone, PartialEq, Eq, Debug, Default)]
pub struct Options {
    /// How many commands run at once, if that is said.
    pub jobs: Option<usize>,
    /// After how many failed calls nothing starts any more, if after any.
    pub failures: Option<usize>,
    pub progress: bool,
    pub incremental: bool,
    /// The calls to make, if not all.
    pub part: Option<Part>,
    /// Whether to print the calls that are missing, and make none.
    pub missing: bool,
    /// The list, if it isn't standard input.
    pub list: Option<OsString>,
}

/// Each so-many-th call of a list, from one on. Both are numbers from 1.
#[derive(Clone, Copy, PartialEq, Eq, Debug)]
pub struct Part {
    first: usize,
    parts: usize,
}

impl Part {
    /// The part that a text such as `3/8` means: the third of eight.
    fn of(text: &str) -> Option<Part> {
        let (first, parts) = text.split_once('/')?;
        let (first, parts) = (positive(first)?, positive(parts)?);
        (first <= parts).then_some(Part { first, parts })
    }

    /// Whether it has the call at a place of the list, from 0.
    pub fn has(self, place: usize) -> bool {
        place % self.parts == self.first - 1
    }
}

/// A number from 1, without zeros in front.
pub fn positive(text: &str) -> Option<usize> {
    let is_number =
        !text.is_empty() && !text.starts_with('0') && text.bytes().all(|byte| byte.is_ascii_digit());
    is_number.then(|| text.parse().unwrap_or(usize::MAX))
}

/// The number of `-j` or `-k`; none for `-k 0`.
fn number(words: &mut Parser, option: &str) -> Result<Option<usize>, Error> {
    let value = value(words, &format!("{option} needs a number"))?;
    let text = value.to_string_lossy();
    if option == "-k" && text == "0" {
        return Ok(None);
    }
    let from = if option == "-k" { "" } else { " from 1" };
    let value = shown(&value);
    positive(&text).map(Some).ok_or_else(|| format!("{option} needs a number{from}, not {value}").into())
}

/// Parses the words.
/// Errors: what is wrong with them.
pub fn parse(words: &[OsString]) -> Result<Wanted, Error> {
    let mut options = Options::default();
    let mut words = Parser::from_args(words);
    let mut has_list = false;
    while let Some(word) = words.next()? {
        match word {
            Short('h') | Long("help") => return Ok(Wanted::Help),
            Long("version") => return Ok(Wanted::Version),
            Long("unless-made") => {
                let words: Vec<OsString> = words.raw_args()?.collect();
                if words.is_empty() {
                    return Err("--unless-made needs nvcc and its words".into());
                }
                return Ok(Wanted::UnlessMade(words));
            }
            Long("progress") => options.progress = true,
            Long("incremental") => options.incremental = true,
            Long("missing") => options.missing = true,
            Long("part") => {
                let needs = "--part needs two numbers from 1, such as 3/8";
                options.part = Some(Part::of(&value(&mut words, needs)?.to_string_lossy()).ok_or(needs)?);
            }
            Short('j') => options.jobs = number(&mut words, "-j")?,
            Short('k') => options.failures = number(&mut words, "-k")?,
            Value(list) if has_list => {
                return Err(format!("one list at a time, not {} too", list.to_string_lossy()).into());
            }
            Value(list) => {
                has_list = true;
                options.list = Some(list).filter(|list| list != "-");
            }
            option => return Err(unexpected(&option, HELP)),
        }
    }
    if options.list.is_none() && (options.missing || options.part.is_some()) {
        return Err("--part and --missing need a list in a file".into());
    }
    Ok(Wanted::Batch(options))
}

#[cfg(test)]
mod tests {
    use super::*;
    use machine::nearest::options;

    fn read(line: &str) -> Result<Wanted, String> {
        parse(&line.split_whitespace().map(OsString::from).collect::<Vec<_>>())
            .map_err(|error| error.to_string())
    }

    #[test]
    fn words_are_read() {
        let batch = |jobs, failures, list: Option<&str>| {
            Ok(Wanted::Batch(Options {
                jobs,
                failures,
                list: list.map(OsString::from),
                ..Options::default()
            }))
        };
        for (line, wanted) in [
            ("", batch(None, None, None)),
            ("-", batch(None, None, None)),
            ("-j 3 -k2 a", batch(Some(3), Some(2), Some("a"))),
            ("-j2 -k 0 -- -a", batch(Some(2), None, Some("-a"))),
            ("a -j2 -k=4", batch(Some(2), Some(4), Some("a"))),
            ("--version x", Ok(Wanted::Version)),
            ("-h", Ok(Wanted::Help)),
            ("--unless-made nvcc -c", Ok(Wanted::UnlessMade(vec!["nvcc".into(), "-c".into()]))),
        ] {
            assert_eq!(read(line), wanted, "{line}");
        }
        assert_eq!(
            read("--progress --incremental a"),
            Ok(Wanted::Batch(Options {
                progress: true,
                incremental: true,
                list: Some("a".into()),
                ..Options::default()
            }))
        );
    }

    #[test]
    fn each_option_of_the_help_is_one() {
        for option in options(HELP) {
            assert!(!read(option).err().unwrap_or_default().contains("unexpected"), "{option}");
        }
        assert_eq!(options(HELP).count(), 10);
    }

    #[test]
    fn parts_are_read() {
        let part = |first, parts| Some(Part { first, parts });
        for (text, wanted) in [
            ("1/1", part(1, 1)),
            ("3/8", part(3, 8)),
            ("8/8", part(8, 8)),
            ("9/8", None),
            ("0/8", None),
            ("1/0", None),
            ("3", None),
            ("a/8", None),
            ("1/8/9", None),
        ] {
            assert_eq!(Part::of(text), wanted, "{text}");
        }
        let of = |first| (0..7).filter(|&place| Part { first, parts: 3 }.has(place)).collect::<Vec<_>>();
        assert_eq!([of(1), of(2), of(3)], [vec![0, 3, 6], vec![1, 4], vec![2, 5]]);
        let wanted =
            Options { part: part(2, 3), missing: true, list: Some("a".into()), ..Options::default() };
        for line in ["--part 2/3 --missing a", "a --missing --part=2/3"] {
            assert_eq!(read(line), Ok(Wanted::Batch(wanted.clone())), "{line}");
        }
    }

    #[test]
    fn wrong_words_are_said() {
        for (line, wanted) in [
            ("one two", "one list at a time, not two too"),
            ("-x", "unexpected option -x"),
            ("-j", "-j needs a number"),
            ("-j 0", "-j needs a number from 1, not 0"),
            ("-j x", "-j needs a number from 1, not x"),
            ("-k -1", "-k needs a number, not -1"),
            ("-k 01", "-k needs a number, not 01"),
            ("--unless-made", "--unless-made needs nvcc and its words"),
            ("-jx", "-j needs a number from 1, not x"),
            ("--version1", "unexpected option --version1; did you mean --version?"),
            ("--workers", "unexpected option --workers"),
            ("--prat 1/2 a", "unexpected option --prat; did you mean --part?"),
            ("--part 1/0 a", "--part needs two numbers from 1, such as 3/8"),
            ("--part", "--part needs two numbers from 1, such as 3/8"),
            ("--part 1/2", "--part and --missing need a list in a file"),
            ("--missing -", "--part and --missing need a list in a file"),
            ("a -- -j2", "one list at a time, not -j2 too"),
        ] {
            assert_eq!(read(line), Err(wanted.into()), "{line}");
        }
    }
}
