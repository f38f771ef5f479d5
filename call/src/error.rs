//! Why a call has no answer.
pub(crate) mod reason;

use crate::memory::{OutOfMemory, copied};
use plan_texts::Refusal;
use rattle_std::alloc::AllocError;
use reason::Reason;
use std::collections::TryReserveError;
use std::fmt;
use std::io;
use texts::fault::Fault;

/// The kinds of errors.
#[derive(Clone, Copy, Debug, PartialEq, Eq, Hash)]
#[non_exhaustive]
pub enum ErrorKind {
    /// An allocation failed.
    OutOfMemory,
    /// A text isn't UTF-8: a word, a path or a variable. A line of a dry run is
    /// [`BadDryRun`](ErrorKind::BadDryRun).
    NotUtf8,
    /// A number has no meaning: too many roots of a key.
    BadNumber,
    /// A text ends inside quotes or in a backslash.
    OpenQuote,
    /// A line of a dry run can't be read.
    BadDryRun,
    /// A program that a dry run names isn't there.
    NotFound,
    /// The suffixes and the standard ones break the rule of such a list.
    BadSuffixes,
    /// The format can't represent the plan.
    Unwritable,
    /// A line of a tool can't be read, or isn't to be cached.
    BadLine,
    /// nvcc has to make the call itself: [`Error::reason`] says why.
    ToNvcc,
    /// A line of a dry run exceeds the limit of the call.
    OverLimit,
    /// The texts aren't the dry runs of the call.
    NoDryRun,
    /// A directory isn't absolute and plain: a part of its path is empty, `.` or `..`.
    OddDirectory,
    /// nvcc refuses a dry run: the message is what it printed.
    Nvcc,
    /// A dry run can't be started, or a file can't be read: [`source`](std::error::Error::source) says why.
    Io,
}

impl ErrorKind {
    /// All kinds.
    pub const ALL: [ErrorKind; 15] = [
        ErrorKind::OutOfMemory,
        ErrorKind::NotUtf8,
        ErrorKind::BadNumber,
        ErrorKind::OpenQuote,
        ErrorKind::BadDryRun,
        ErrorKind::NotFound,
        ErrorKind::BadSuffixes,
        ErrorKind::Unwritable,
        ErrorKind::BadLine,
        ErrorKind::ToNvcc,
        ErrorKind::OverLimit,
        ErrorKind::NoDryRun,
        ErrorKind::OddDirectory,
        ErrorKind::Nvcc,
        ErrorKind::Io,
    ];

    /// The number of the kind, from 1, as the other languages have it. 0 is success.
    #[must_use]
    pub fn status(self) -> i32 {
        self as i32 + 1
    }

    /// What it means, in a few words.
    #[must_use]
    pub fn text(self) -> &'static str {
        match self {
            ErrorKind::OutOfMemory => "out of memory",
            ErrorKind::NotUtf8 => "a text is not UTF-8",
            ErrorKind::BadNumber => "a number has no meaning",
            ErrorKind::OpenQuote => "open quote or backslash at the end",
            ErrorKind::BadDryRun => "a line of a dry run cannot be read",
            ErrorKind::NotFound => "a program is not found",
            ErrorKind::BadSuffixes => "bad generated suffixes",
            ErrorKind::Unwritable => "the format cannot represent the plan",
            ErrorKind::BadLine => "a line of a tool cannot be read",
            ErrorKind::ToNvcc => "the line goes to nvcc",
            ErrorKind::OverLimit => "a dry run exceeds the limit",
            ErrorKind::NoDryRun => "the texts are not the dry runs of the call",
            ErrorKind::OddDirectory => "a directory is not absolute and plain",
            ErrorKind::Nvcc => "nvcc refuses a dry run",
            ErrorKind::Io => "a process or a file fails",
        }
    }
}

/// An input of a call.
#[derive(Clone, Copy, Debug, PartialEq, Eq, Hash)]
#[non_exhaustive]
pub enum Input {
    /// The first dry run.
    First,
    /// The second dry run.
    Second,
    /// The working directory.
    Cwd,
    /// The directory for temporary files.
    Tmp,
    /// The option that says what nvcc makes.
    Flag,
    /// The dry run of the line as it is.
    Own,
    /// The environment.
    Variables,
    /// The suffixes of generated files.
    Suffixes,
    /// nvcc's name or path.
    Nvcc,
    /// The words of the line.
    Words,
}

impl Input {
    /// Its number, from 1, as the other languages have it.
    #[must_use]
    pub fn number(self) -> u32 {
        self as u32 + 1
    }
}

/// Where a call is refused.
#[derive(Clone, Copy, Debug, PartialEq, Eq, Hash)]
#[non_exhaustive]
pub struct Place {
    /// Which input is at fault.
    pub input: Input,
    /// The number of the line, from 1, if the input is a dry run and one of its lines is at fault.
    pub line: Option<usize>,
}

/// Why texts aren't the dry runs of a call, or a plan isn't the call's.
#[derive(Clone, Debug, PartialEq, Eq)]
pub(crate) enum Unfit {
    /// No line of the text begins as a dry run's do: 1 or 2.
    NoDryRun(usize),
    /// The flag is none of nvcc's.
    Flag,
    /// The dry runs differ.
    Differ,
    /// One has more lines than the other.
    Lines,
    /// The second doesn't have the directory for temporary files.
    OtherDirectory,
    /// Its source, of this path, is another file than the call's.
    OtherSource(String),
    /// No command reads the call's source.
    Unread(String),
    /// No command writes the call's product.
    Unwritten(String),
    /// The plan has no command.
    NoCommand,
    /// The plan dropped a command.
    Dropped,
    /// No command writes what another reads.
    Unmade(String),
}

/// What is wrong with a line of a dry run.
#[derive(Clone, Debug, PartialEq, Eq)]
pub(crate) enum BadLine {
    NotUtf8,
    Shell,
    Empty,
    NoPath,
    /// The program, and the value of `PATH` there if that is known.
    NotFound(String, Option<String>),
    TooLong(usize),
}

/// What has gone wrong.
#[derive(Clone)]
enum Cause {
    /// The kind says it all.
    Plain(ErrorKind),
    /// A directory that isn't absolute and plain.
    OddDirectory(Input),
    /// A directory for temporary files that nvcc's shell reads as something else.
    ExpandedDirectory,
    /// A line of a dry run: 1 or 2.
    DryRun(usize, BadLine),
    Unfit(Unfit),
    ToNvcc(Reason),
    /// A tool's line that compiles nothing.
    NoCompilation,
    /// A tool's line that no cache can serve: why, and a word about it.
    Uncacheable(&'static str, Option<String>),
    /// A fault of writing a line back.
    Fault(String),
    Nul,
    Unwritable(Refusal),
    Nvcc(Vec<u8>),
    Io(&'static str, IoError),
}

/// Why something can't be done. A copy has the system's number, or the kind if there is none: one that is
/// shared would need memory.
struct IoError(io::Error);

impl fmt::Display for IoError {
    /// What Rust's library says, but of rare errors the kind alone: the system's text needs memory.
    fn fmt(&self, f: &mut fmt::Formatter<'_>) -> fmt::Result {
        match self.0.kind() {
            io::ErrorKind::NotFound => f.write_str("No such file or directory")?,
            io::ErrorKind::PermissionDenied => f.write_str("Permission denied")?,
            kind => write!(f, "{kind}")?,
        }
        self.0.raw_os_error().map_or(Ok(()), |number| write!(f, " (os error {number})"))
    }
}

impl Clone for IoError {
    fn clone(&self) -> IoError {
        IoError(self.0.raw_os_error().map_or_else(|| self.0.kind().into(), io::Error::from_raw_os_error))
    }
}

/// Why a call has no answer: its kind, a message for people, and the place if one input is at fault.
#[derive(Clone)]
pub struct Error {
    cause: Cause,
    place: Option<Place>,
}

impl Error {
    fn of(cause: Cause) -> Error {
        Error { cause, place: None }
    }

    pub(crate) fn plain(kind: ErrorKind) -> Error {
        Error::of(Cause::Plain(kind))
    }

    pub(crate) fn odd_directory(input: Input) -> Error {
        Error::of(Cause::OddDirectory(input)).at(input)
    }

    pub(crate) fn expanded_directory() -> Error {
        Error::of(Cause::ExpandedDirectory).at(Input::Tmp)
    }

    pub(crate) fn dry_run(run: usize, line: usize, what: BadLine) -> Error {
        Error::of(Cause::DryRun(run, what)).at_line(run, line)
    }

    pub(crate) fn no_dry_run(why: Unfit) -> Error {
        Error::of(Cause::Unfit(why))
    }

    /// nvcc has to make the call itself, for a reason.
    #[must_use]
    pub fn to_nvcc(reason: impl Into<Reason>) -> Error {
        Error::of(Cause::ToNvcc(reason.into()))
    }

    pub(crate) fn no_compilation() -> Error {
        Error::of(Cause::NoCompilation)
    }

    pub(crate) fn uncacheable(why: &'static str, word: Option<String>) -> Error {
        Error::of(Cause::Uncacheable(why, word))
    }

    pub(crate) fn nul() -> Error {
        Error::of(Cause::Nul)
    }

    /// nvcc refuses a dry run, and has printed this.
    #[must_use]
    pub fn by_nvcc(printed: Vec<u8>) -> Error {
        Error::of(Cause::Nvcc(printed))
    }

    /// Something can't be done, which the text names behind "cannot".
    #[must_use]
    pub fn io(deed: &'static str, error: io::Error) -> Error {
        match error.kind() {
            io::ErrorKind::OutOfMemory => OutOfMemory.into(),
            _ => Error::of(Cause::Io(deed, IoError(error))),
        }
    }

    pub(crate) fn at(self, input: Input) -> Error {
        Error { place: Some(Place { input, line: None }), ..self }
    }

    /// The error, with its line of a dry run, 1 or 2; of the whole text if the line is 0.
    pub(crate) fn at_line(self, run: usize, line: usize) -> Error {
        let input = if run == 1 { Input::First } else { Input::Second };
        Error { place: Some(Place { input, line: (line > 0).then_some(line) }), ..self }
    }

    /// The error, with the line of a dry run that lacks a program, and the value of `PATH` there.
    pub(crate) fn in_line(self, run: usize, line: usize, path: String) -> Error {
        let cause = match self.cause {
            Cause::DryRun(_, BadLine::NotFound(program, _)) => {
                Cause::DryRun(run, BadLine::NotFound(program, Some(path)))
            }
            other => other,
        };
        Error { cause, ..self }.at_line(run, line)
    }

    /// The message without the place.
    #[must_use]
    pub fn what(&self) -> impl fmt::Display + '_ {
        What(&self.cause)
    }

    /// Its kind.
    #[must_use]
    pub fn kind(&self) -> ErrorKind {
        match &self.cause {
            Cause::Plain(kind) => *kind,
            Cause::OddDirectory(_) | Cause::ExpandedDirectory => ErrorKind::OddDirectory,
            Cause::DryRun(_, BadLine::NotFound(..)) => ErrorKind::NotFound,
            Cause::DryRun(_, BadLine::TooLong(_)) => ErrorKind::OverLimit,
            Cause::DryRun(..) => ErrorKind::BadDryRun,
            Cause::Unfit(Unfit::Unmade(_) | Unfit::Dropped) | Cause::ToNvcc(_) => ErrorKind::ToNvcc,
            Cause::Unfit(_) => ErrorKind::NoDryRun,
            Cause::NoCompilation | Cause::Uncacheable(..) | Cause::Fault(_) | Cause::Nul => {
                ErrorKind::BadLine
            }
            Cause::Unwritable(_) => ErrorKind::Unwritable,
            Cause::Nvcc(_) => ErrorKind::Nvcc,
            Cause::Io(..) => ErrorKind::Io,
        }
    }

    /// The number of its kind, as the other languages have it. It is never 0.
    #[must_use]
    pub fn status(&self) -> i32 {
        self.kind().status()
    }

    /// Where the call is refused, if one input is at fault.
    #[must_use]
    pub fn place(&self) -> Option<Place> {
        self.place
    }

    /// Why nvcc has to make the call, if the line is why.
    #[must_use]
    pub fn reason(&self) -> Option<&Reason> {
        match &self.cause {
            Cause::ToNvcc(reason) => Some(reason),
            _ => None,
        }
    }

    /// Why nvcc makes a call that has this error.
    pub(crate) fn into_reason(self) -> Reason {
        match self.cause {
            Cause::ToNvcc(reason) => reason,
            Cause::Nvcc(_) => Reason::DryRunFails,
            _ => Reason::Unplanned(Box::new(self)),
        }
    }
}

impl fmt::Debug for Error {
    fn fmt(&self, f: &mut fmt::Formatter<'_>) -> fmt::Result {
        f.debug_struct("Error")
            .field("kind", &self.kind())
            .field("message", &self.to_string())
            .field("place", &self.place)
            .finish_non_exhaustive()
    }
}

impl PartialEq for Error {
    /// Whether they say the same.
    fn eq(&self, other: &Error) -> bool {
        (self.kind(), self.place) == (other.kind(), other.place) && self.to_string() == other.to_string()
    }
}

impl Eq for Error {}

impl fmt::Display for Unfit {
    fn fmt(&self, f: &mut fmt::Formatter<'_>) -> fmt::Result {
        let of_another = "the dry runs are of another call: none of their commands";
        match self {
            Unfit::NoDryRun(run) => {
                let which = if *run == 1 { "first" } else { "second" };
                write!(f, "the {which} text is no dry run: no line begins with \"#$ \"")
            }
            Unfit::Flag => f.write_str("the flag isn't an option that says what nvcc makes"),
            Unfit::Differ => {
                f.write_str("the dry runs differ by more than the directory for temporary files")
            }
            Unfit::Lines => f.write_str("the dry runs have different numbers of lines"),
            Unfit::OtherDirectory => {
                f.write_str("this dry run doesn't have the directory for temporary files")
            }
            Unfit::OtherSource(path) => write!(f, "the dry runs were made elsewhere: their source is {path}"),
            Unfit::Unread(path) => write!(f, "{of_another} reads {path}"),
            Unfit::Unwritten(path) => write!(f, "{of_another} writes {path}"),
            Unfit::NoCommand => f.write_str("the plan has no command"),
            Unfit::Dropped => f.write_str("the plan dropped a command"),
            Unfit::Unmade(path) => write!(f, "no command of its plan writes {path}"),
        }
    }
}

impl fmt::Display for BadLine {
    fn fmt(&self, f: &mut fmt::Formatter<'_>) -> fmt::Result {
        match self {
            BadLine::NotUtf8 => f.write_str("the line isn't UTF-8"),
            BadLine::Shell => f.write_str("the command has an open quote or ends in a backslash"),
            BadLine::Empty => f.write_str("the command has no words"),
            BadLine::NoPath => f.write_str("no line before this one sets PATH"),
            BadLine::NotFound(program, None) => write!(f, "cannot find {program}"),
            BadLine::NotFound(program, _) if program.contains('/') => {
                write!(f, "cannot find {program}: no such program")
            }
            BadLine::NotFound(program, Some(path)) => write!(f, "cannot find {program} in PATH ({path})"),
            BadLine::TooLong(limit) => write!(f, "with this line, the dry run makes over {limit} bytes"),
        }
    }
}

/// What is wrong, wherever it is.
struct What<'a>(&'a Cause);

impl fmt::Display for What<'_> {
    fn fmt(&self, f: &mut fmt::Formatter<'_>) -> fmt::Result {
        match self.0 {
            Cause::Plain(kind) => f.write_str(kind.text()),
            Cause::OddDirectory(input) => {
                let which =
                    if *input == Input::Tmp { "directory for temporary files" } else { "working directory" };
                write!(f, "the {which} has to be absolute, without an empty part, . or ..")
            }
            Cause::ExpandedDirectory => {
                f.write_str("nvcc's dry runs can't have this directory for temporary files")
            }
            Cause::DryRun(_, what) => what.fmt(f),
            Cause::Unfit(why) => why.fmt(f),
            Cause::ToNvcc(reason) => write!(f, "goes to nvcc: {reason}"),
            Cause::NoCompilation => f.write_str("not a compilation"),
            Cause::Uncacheable(why, None) => write!(f, "cannot cache: {why}"),
            Cause::Uncacheable(why, Some(word)) => write!(f, "cannot cache: {why}: {word}"),
            Cause::Fault(text) => f.write_str(text),
            Cause::Nul => f.write_str("a text contains NUL"),
            Cause::Unwritable(refusal) => refusal.fmt(f),
            Cause::Nvcc(printed) => write_said(f, printed),
            Cause::Io(deed, error) => write!(f, "cannot {deed}: {error}"),
        }
    }
}

/// Writes nvcc's messages in what it printed, without a copy: that of a long text could be refused.
fn write_said(f: &mut fmt::Formatter<'_>, printed: &[u8]) -> fmt::Result {
    let lines = || printed.split_inclusive(|&byte| byte == b'\n').filter(|line| !line.starts_with(b"#$ "));
    let last = lines().enumerate().filter(|(_, line)| !line.trim_ascii_end().is_empty()).last();
    let Some((last, _)) = last else { return Ok(()) };
    for (number, line) in lines().take(last + 1).enumerate() {
        let line = if number == last { line.trim_ascii_end() } else { line };
        for chunk in line.utf8_chunks() {
            f.write_str(chunk.valid())?;
            f.write_str(if chunk.invalid().is_empty() { "" } else { "\u{fffd}" })?;
        }
    }
    Ok(())
}

impl fmt::Display for Error {
    fn fmt(&self, f: &mut fmt::Formatter<'_>) -> fmt::Result {
        if let (Cause::DryRun(run, _), Some(line)) = (&self.cause, self.place.and_then(|place| place.line)) {
            write!(f, "dry run {run}, line {line}: ")?;
        }
        self.what().fmt(f)
    }
}

impl std::error::Error for Error {
    fn source(&self) -> Option<&(dyn std::error::Error + 'static)> {
        match &self.cause {
            Cause::ToNvcc(reason) => Some(reason),
            Cause::Unwritable(refusal) => Some(refusal),
            Cause::Io(_, error) => Some(&error.0),
            _ => None,
        }
    }
}

impl From<ErrorKind> for Error {
    fn from(kind: ErrorKind) -> Error {
        Error::plain(kind)
    }
}

impl From<OutOfMemory> for Error {
    fn from(_: OutOfMemory) -> Error {
        Error::plain(ErrorKind::OutOfMemory)
    }
}

impl From<TryReserveError> for Error {
    fn from(_: TryReserveError) -> Error {
        OutOfMemory.into()
    }
}

impl From<AllocError> for Error {
    fn from(_: AllocError) -> Error {
        OutOfMemory.into()
    }
}

impl From<Refusal> for Error {
    fn from(refusal: Refusal) -> Error {
        match refusal {
            Refusal::Memory => OutOfMemory.into(),
            refusal => Error::of(Cause::Unwritable(refusal)),
        }
    }
}

impl From<Fault> for Error {
    fn from(fault: Fault) -> Error {
        match fault {
            Fault::Memory => OutOfMemory.into(),
            Fault::BadSuffixes => Error::plain(ErrorKind::BadSuffixes).at(Input::Suffixes),
            Fault::NotUtf8 { run, line } => Error::dry_run(run, line + 1, BadLine::NotUtf8),
            Fault::BadShell { run, line } => Error::dry_run(run, line + 1, BadLine::Shell),
            Fault::EmptyCommand { run, line } => Error::dry_run(run, line + 1, BadLine::Empty),
            Fault::NoPath { run, line } => Error::dry_run(run, line + 1, BadLine::NoPath),
            Fault::NotFound { program } => match copied(program.as_str()) {
                Ok(program) => Error::of(Cause::DryRun(0, BadLine::NotFound(program, None))),
                Err(lack) => lack.into(),
            },
            fault => message_of(&fault).map_or_else(Error::from, |text| Error::of(Cause::Fault(text))),
        }
    }
}

fn message_of(fault: &Fault) -> Result<String, OutOfMemory> {
    copied(fault.message(rattle_std::alloc::Global)?.as_str())
}

#[cfg(test)]
mod tests {
    use super::*;

    #[test]
    fn kinds_have_numbers() {
        let numbers = ErrorKind::ALL.map(ErrorKind::status);
        assert!(numbers.iter().copied().eq(1..=15));
        assert_eq!((ErrorKind::NotFound.status(), ErrorKind::OddDirectory.status()), (6, 13));
    }

    #[test]
    fn errors_say_where_and_why() {
        let error = Error::dry_run(2, 7, BadLine::Shell);
        assert_eq!(
            error.to_string(),
            "dry run 2, line 7: the command has an open quote or ends in a backslash"
        );
        assert_eq!(
            (error.kind(), error.place()),
            (ErrorKind::BadDryRun, Some(Place { input: Input::Second, line: Some(7) }))
        );
        let error = Error::to_nvcc(Reason::ReadOtherwise);
        assert_eq!(
            (error.to_string().as_str(), error.reason()),
            ("goes to nvcc: nvcc reads the line otherwise", Some(&Reason::ReadOtherwise))
        );
        let error = Error::io("run nvcc", io::ErrorKind::NotFound.into());
        assert!(
            std::error::Error::source(&error).and_then(|source| source.downcast_ref::<io::Error>()).is_some()
        );
        assert_eq!(Error::by_nvcc(b"nvcc fatal\n".to_vec()).to_string(), "nvcc fatal");
    }
}
