//! Why nvcc makes a call as it is.
use crate::error::Error;
use std::fmt;

/// What the reader of lines says of a line that isn't split.
pub use nvcc_calls::Reason as LineReason;

/// Why nvcc makes a call as it is. Each says in a few words why.
#[derive(Clone, Debug, PartialEq)]
#[non_exhaustive]
pub enum Reason {
    /// What the line asks for isn't split.
    Line(LineReason),
    /// There is no plan, or not the line's.
    Unplanned(Box<Error>),
    /// nvcc's own dry run of the line has other commands than that of its normal form.
    ReadOtherwise,
    /// nvcc refuses a dry run, so it says itself why.
    DryRunFails,
    /// A dry run can't be started.
    NoDryRunProcess,
    /// A word of the line, or its directory, isn't UTF-8.
    WordNotUtf8,
    /// The path of the directory for temporary files isn't UTF-8.
    TemporaryNotUtf8,
    /// There is no working directory.
    NoWorkingDirectory,
    /// There can be no directory for temporary files.
    NoTemporaryDirectory,
    /// There is no room in the directory for temporary files.
    NoTemporaryRoom,
    /// The directory for temporary files is gone.
    TemporaryGone,
    /// The process may open too few files.
    TooFewFiles,
    /// The machine lacks something for the call.
    Lacks(&'static str),
    /// An nvcc calls this program, which an nvcc called.
    Inside,
    /// `DEPENDENCIES_OUTPUT` or `SUNPRO_DEPENDENCIES` is set.
    DependencyVariable,
    /// The directory that is to keep files isn't there.
    NoKeepDirectory,
    /// It keeps a file that only its dependency file needs.
    KeepsForDependencies,
    /// The dependency file is standard error.
    DependenciesToErrors,
    /// An input is a pipe.
    ReadsPipe,
    /// A link leads from a file of its own to one that was open when it began.
    OpenFile,
    /// The name of a generated file is too long for the disk.
    LongName,
    /// The product can't be written.
    NoProduct,
    /// A message of a cached command may name other lines than this source has.
    OtherLines,
    /// The assembler of the host compile fails, or says something.
    Assembler,
    /// A command hasn't run.
    NotRun,
    /// Writing the dependency file fails.
    DependenciesFail,
    /// A preprocessor fails, and nvcc goes on with its threads.
    PreprocessorFails,
    /// A command fails, and an nvcc of before 12 has them in another order.
    OtherOrder,
    /// The machine can't go on, and says why.
    Machine(String),
}

impl From<LineReason> for Reason {
    fn from(reason: LineReason) -> Reason {
        Reason::Line(reason)
    }
}

impl Reason {
    /// What a user can do about it, if there is something.
    #[must_use]
    pub fn hint(&self) -> Option<&'static str> {
        match self {
            Reason::NoTemporaryDirectory | Reason::NoTemporaryRoom => {
                Some("make room for temporary files, or set TMPDIR")
            }
            Reason::NoKeepDirectory => Some("make the directory that --keep-dir names"),
            Reason::TooFewFiles => Some("raise the number of open files, with ulimit -n"),
            Reason::Line(LineReason::OptionsFile) => {
                Some("set CMAKE_CUDA_USE_RESPONSE_FILE_FOR_INCLUDES to 0, if CMake writes the file")
            }
            Reason::Line(LineReason::VariableQuotes) => {
                Some("take quotes out of NVCC_PREPEND_FLAGS and NVCC_APPEND_FLAGS")
            }
            _ => None,
        }
    }

    /// Whether such a call compiles something. One that links, lists, cleans or has no source doesn't.
    #[must_use]
    pub fn compiles(&self) -> bool {
        use LineReason::{Cleans, HostSource, Links, NoInput, NotSource, OtherPhase, Prints};
        !matches!(self, Reason::Line(Links | OtherPhase | NoInput | NotSource | HostSource | Prints | Cleans))
    }

    /// What it says, if that is the same for each call.
    fn text(&self) -> Option<&'static str> {
        Some(match self {
            Reason::Line(_) | Reason::Unplanned(_) | Reason::Lacks(_) | Reason::Machine(_) => return None,
            Reason::ReadOtherwise => "nvcc reads the line otherwise",
            Reason::DryRunFails => "a dry run fails",
            Reason::NoDryRunProcess => "no process for a dry run",
            Reason::WordNotUtf8 => "a word isn't UTF-8",
            Reason::TemporaryNotUtf8 => "the temporary directory isn't UTF-8",
            Reason::NoWorkingDirectory => "there is no working directory",
            Reason::NoTemporaryDirectory => "no temporary directory",
            Reason::NoTemporaryRoom => "no room for temporary files",
            Reason::TemporaryGone => "its temporary directory is gone",
            Reason::TooFewFiles => "it may open too few files",
            Reason::Inside => "it is called by an nvcc",
            Reason::DependencyVariable => "a variable has gcc write dependencies",
            Reason::NoKeepDirectory => "the keep directory is missing",
            Reason::KeepsForDependencies => "it keeps a file that only its dependencies need",
            Reason::DependenciesToErrors => "its dependency file is standard error",
            Reason::ReadsPipe => "it reads a pipe",
            Reason::OpenFile => "it uses an open file",
            Reason::LongName => "a generated file's name is too long",
            Reason::NoProduct => "its output can't be written",
            Reason::OtherLines => "a message may name lines of an earlier text",
            Reason::Assembler => "its assembler fails, or says something",
            Reason::NotRun => "a command didn't run",
            Reason::DependenciesFail => "its dependency file fails",
            Reason::PreprocessorFails => "a preprocessor fails, and nvcc goes on",
            Reason::OtherOrder => "a command fails, and nvcc has them in another order",
        })
    }
}

impl fmt::Display for Reason {
    fn fmt(&self, f: &mut fmt::Formatter<'_>) -> fmt::Result {
        match self {
            Reason::Line(reason) => f.write_str(reason.text()),
            Reason::Unplanned(error) => error.fmt(f),
            Reason::Lacks(thing) => write!(f, "no {thing} for the call"),
            Reason::Machine(text) => f.write_str(text),
            _ => f.write_str(self.text().unwrap_or_default()),
        }
    }
}

impl std::error::Error for Reason {
    fn source(&self) -> Option<&(dyn std::error::Error + 'static)> {
        match self {
            Reason::Unplanned(error) => Some(error),
            _ => None,
        }
    }
}

impl From<Error> for Reason {
    fn from(error: Error) -> Reason {
        error.into_reason()
    }
}

#[cfg(test)]
mod tests {
    use super::*;

    #[test]
    fn reasons_that_a_user_can_mend_have_hints() {
        let mend = |reason: Reason| reason.hint().and_then(|hint| hint.split_whitespace().nth(1));
        let cases = [
            (LineReason::VariableQuotes.into(), Some("quotes")),
            (LineReason::OptionsFile.into(), Some("CMAKE_CUDA_USE_RESPONSE_FILE_FOR_INCLUDES")),
            (LineReason::Links.into(), None),
            (Reason::NoTemporaryDirectory, Some("room")),
            (Reason::NoTemporaryRoom, Some("room")),
            (Reason::NoKeepDirectory, Some("the")),
            (Reason::TooFewFiles, Some("the")),
            (Reason::Inside, None),
        ];
        for (reason, wanted) in cases {
            assert_eq!(mend(reason.clone()), wanted, "{reason}");
        }
    }

    #[test]
    fn calls_that_link_or_list_compile_nothing() {
        let compiles = |reason: LineReason| Reason::from(reason).compiles();
        assert!(
            ![LineReason::Links, LineReason::Prints, LineReason::NoInput, LineReason::OtherPhase]
                .map(compiles)
                .contains(&true)
        );
        assert!(
            compiles(LineReason::UnknownOption)
                && compiles(LineReason::SeveralInputs)
                && Reason::DryRunFails.compiles()
        );
    }

    #[test]
    fn a_reason_says_why() {
        let error = Error::no_dry_run(crate::error::Unfit::NoCommand);
        let cases = [
            (Reason::from(LineReason::Links), "it links"),
            (Reason::from(error), "the plan has no command"),
            (Reason::Lacks("memory"), "no memory for the call"),
            (Reason::Machine("lost".into()), "lost"),
            (Reason::ReadOtherwise, "nvcc reads the line otherwise"),
        ];
        for (reason, wanted) in cases {
            assert_eq!(reason.to_string(), wanted);
        }
        assert_ne!(Reason::from(LineReason::Links), LineReason::Prints.into());
        assert_eq!(Reason::from(LineReason::Links), LineReason::Links.into());
    }
}
