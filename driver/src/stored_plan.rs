//! Plans of two dry runs that are in files.
use call::{Disk, Error, ErrorKind, Format, Input, Plan, PlanCall, plan};
use machine::excerpts::{excerpt, plain};
use std::fs;
use std::io::{self, Read};
use std::num::NonZeroUsize;

/// What to plan.
#[derive(Clone, PartialEq, Eq, Debug)]
pub struct Stored {
    /// The files of the dry runs; `-` is standard input.
    pub files: [String; 2],
    /// Where nvcc was called.
    pub cwd: String,
    /// The directory for temporary files.
    pub tmp: String,
    /// What nvcc makes, as `-c`.
    pub flag: String,
    /// Whether generated files keep nvcc's names.
    pub keeps: bool,
    /// Whether a plan that dropped a command is an error.
    pub whole: bool,
    /// How many bytes parsing a dry run may take: a few variables can make a short one explode.
    pub limit: usize,
    /// Further suffixes of generated files.
    pub suffixes: Vec<String>,
}

/// How the line begins that nvcc prints for a dependency file. It is no command.
const FILTER: &[u8] = b"#$ -- Filter Dependencies --";
/// How much of a text, and of a line, a message shows, since a stored line may have a megabyte.
const MOST_TEXT: usize = 1000;
const MOST_LINE: usize = 120;

fn shown(text: &str) -> String {
    excerpt(text.as_bytes(), MOST_TEXT)
}

/// All that a file has. `-` is standard input.
fn read(file: &str) -> Result<Vec<u8>, String> {
    let mut bytes = Vec::new();
    let read = if file == "-" { io::stdin().read_to_end(&mut bytes).map(|_| bytes) } else { fs::read(file) };
    read.map_err(|error| format!("cannot read {}: {}", shown(file), plain(&error)))
}

impl Stored {
    /// The file of an input, and the text of one of its lines.
    fn input<'a>(&'a self, input: Input, runs: [&'a [u8]; 2], line: usize) -> (&'a str, &'a [u8]) {
        let number = usize::from(input == Input::Second);
        let text = runs[number].split(|&byte| byte == b'\n').nth(line.saturating_sub(1)).unwrap_or_default();
        (&self.files[number], text.strip_suffix(b"\r").unwrap_or(text))
    }

    /// What is wrong with a line of a run: where it is, the reason, and the line itself.
    fn at_line(&self, runs: [&[u8]; 2], (input, line): (Input, usize), error: &Error) -> String {
        let (file, text) = self.input(input, runs, line);
        let advice =
            "this line filters dependencies: make the dry runs without dependency options, such as -MD";
        let more = if error.kind() == ErrorKind::OverLimit { ": --limit allows more" } else { "" };
        let reason = if text.starts_with(FILTER) {
            advice.into()
        } else {
            format!("{}{more}", shown(&error.what().to_string()))
        };
        format!("{}:{line}: {reason}\n    {}", shown(file), excerpt(text, MOST_LINE))
    }

    /// The message of an error.
    fn message(&self, runs: [&[u8]; 2], error: &Error) -> String {
        let Some(place) = error.place() else { return shown(&error.to_string()) };
        let folder = |option: &str, folder: &str| {
            format!("{option} {}: the path has to be absolute, without an empty part, . or ..", shown(folder))
        };
        match (place.input, place.line) {
            (input, Some(line)) => self.at_line(runs, (input, line), error),
            (Input::First | Input::Second, None) => {
                format!(
                    "{}: no dry run: no line begins with \"#$ \"",
                    shown(self.input(place.input, runs, 0).0)
                )
            }
            (Input::Cwd, None) => folder("--cwd", &self.cwd),
            (Input::Tmp, None) => folder("--tmp", &self.tmp),
            (Input::Suffixes, None) => {
                let rule = "a suffix begins with ., ends in a letter or digit and has no /, and none is the end of another";
                format!("--suffix {}: {rule}", shown(&self.suffixes.join(" ")))
            }
            _ => shown(&error.to_string()),
        }
    }

    /// The plan of two dry runs.
    fn planned(&self, runs: [&[u8]; 2]) -> Result<Plan, Error> {
        let (suffixes, disk): (Vec<&str>, Disk) =
            (self.suffixes.iter().map(String::as_str).collect(), Disk::default());
        let call = PlanCall::new(runs[0], runs[1], &disk).at(&self.cwd, &self.tmp);
        plan(&PlanCall {
            flag: &self.flag,
            keeps_names: self.keeps,
            suffixes: &suffixes,
            limit: NonZeroUsize::new(self.limit),
            ..call
        })
    }

    /// The plan in a format.
    /// Errors: why there is none.
    pub fn text(&self, format: Format) -> Result<String, String> {
        let [one, other] = [read(&self.files[0])?, read(&self.files[1])?];
        if self.files[0] == self.files[1] {
            return Err(format!("{}: both dry runs are the same file", shown(&self.files[0])));
        }
        let runs = [one.as_slice(), other.as_slice()];
        let plan = self.planned(runs).map_err(|error| self.message(runs, &error))?;
        if self.whole && plan.dropped().len() > 0 {
            return Err("the plan dropped a command".into());
        }
        plan.text(format).map_err(|error| error.to_string())
    }
}
