//! Why the eraser stops.

use crate::source::Fault;
use std::fmt;
use std::io;
use std::path::{Path, PathBuf};

/// What went wrong, and with which file.
#[derive(Debug)]
pub enum Error {
    /// A file or folder can't be read or written.
    Io(PathBuf, io::Error),
    /// A source can't be erased.
    Source(PathBuf, Fault),
    /// A file of theorems that no file declares as a module.
    NoModule(PathBuf),
    /// A crate needs a crate that isn't there.
    NoDependency { of: String, name: String },
    /// `rustfmt` refuses the result.
    Format(String),
    /// A folder of crates lacks some that the workspace needs, as cargo says.
    LacksCrates { folder: PathBuf, said: String },
}

impl Error {
    /// An error with a file.
    pub fn io(path: &Path, error: io::Error) -> Error {
        Error::Io(path.to_path_buf(), error)
    }
}

impl fmt::Display for Error {
    fn fmt(&self, f: &mut fmt::Formatter<'_>) -> fmt::Result {
        match self {
            Error::Io(path, error) => write!(f, "{}: {error}", path.display()),
            Error::Source(path, fault) => write!(f, "{}: {fault}", path.display()),
            Error::NoModule(path) => write!(f, "{}: no file declares this module", path.display()),
            Error::NoDependency { of, name } => write!(
                f,
                "{of} needs {name}, which is no crate and has no stand-in"
            ),
            Error::Format(said) => write!(f, "rustfmt: {said}"),
            Error::LacksCrates { folder, said } => write!(
                f,
                "{} lacks crates; `make vendor` fills vendor\n{said}",
                folder.display()
            ),
        }
    }
}
