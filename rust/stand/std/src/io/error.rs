//! Why a call of the system failed.

use crate::alloc::{AllocError, AllocFailed};
use core::fmt;
use rust::io as rust_io;

/// What an I/O call gives.
pub type Result<T> = core::result::Result<T, Error>;

/// Why an I/O call failed. Unlike Rust's it never owns memory.
#[derive(Clone, Copy)]
pub struct Error {
    kind: ErrorKind,
    number: Option<i32>,
}

/// What sort of failure an error is: of Rust's kinds those that the crates tell apart, some of which have no name in older
/// or in today's Rust.
#[derive(Clone, Copy, Debug, PartialEq, Eq, PartialOrd, Ord, Hash)]
#[non_exhaustive]
pub enum ErrorKind {
    /// There is no such file.
    NotFound,
    /// The process may not do it.
    PermissionDenied,
    /// Nobody reads the pipe.
    BrokenPipe,
    /// A part of a path that isn't the last is no directory.
    NotADirectory,
    /// A file was wanted.
    IsADirectory,
    /// A path leads through too many symbolic links.
    FilesystemLoop,
    /// An argument is wrong: a path has a NUL, for example.
    InvalidInput,
    /// The bytes don't have the form that was wanted.
    InvalidData,
    /// A writer took no bytes.
    WriteZero,
    /// A file's name is too long.
    InvalidFilename,
    /// A signal came first.
    Interrupted,
    /// The stream ended too early.
    UnexpectedEof,
    /// An allocation failed.
    OutOfMemory,
    /// Whatever a program says.
    Other,
    /// Any other failure.
    Uncategorized,
}

// The numbers of the two kinds that Rust 1.85 has no name for.
#[cfg(any(target_os = "linux", target_os = "android"))]
const LOOP_AND_NAME: Option<(i32, i32)> = Some((40, 36));
#[cfg(all(unix, not(any(target_os = "linux", target_os = "android"))))]
const LOOP_AND_NAME: Option<(i32, i32)> = Some((62, 63));
#[cfg(not(unix))]
const LOOP_AND_NAME: Option<(i32, i32)> = None;

fn kind_of_number(number: i32) -> Option<ErrorKind> {
    match LOOP_AND_NAME? {
        (looped, _) if number == looped => Some(ErrorKind::FilesystemLoop),
        (_, named) if number == named => Some(ErrorKind::InvalidFilename),
        _ => None,
    }
}

fn kind_of(kind: rust_io::ErrorKind) -> ErrorKind {
    match kind {
        rust_io::ErrorKind::NotFound => ErrorKind::NotFound,
        rust_io::ErrorKind::PermissionDenied => ErrorKind::PermissionDenied,
        rust_io::ErrorKind::BrokenPipe => ErrorKind::BrokenPipe,
        rust_io::ErrorKind::NotADirectory => ErrorKind::NotADirectory,
        rust_io::ErrorKind::IsADirectory => ErrorKind::IsADirectory,
        rust_io::ErrorKind::InvalidInput => ErrorKind::InvalidInput,
        rust_io::ErrorKind::InvalidData => ErrorKind::InvalidData,
        rust_io::ErrorKind::WriteZero => ErrorKind::WriteZero,
        rust_io::ErrorKind::Interrupted => ErrorKind::Interrupted,
        rust_io::ErrorKind::UnexpectedEof => ErrorKind::UnexpectedEof,
        rust_io::ErrorKind::OutOfMemory => ErrorKind::OutOfMemory,
        rust_io::ErrorKind::Other => ErrorKind::Other,
        _ => ErrorKind::Uncategorized,
    }
}

impl Error {
    /// The system's error of this number.
    pub fn from_raw_os_error(number: i32) -> Error {
        Error::from(rust_io::Error::from_raw_os_error(number))
    }

    /// What sort of failure it is.
    pub fn kind(&self) -> ErrorKind {
        self.kind
    }

    /// The system's number of the error, if it is the system's.
    pub fn raw_os_error(&self) -> Option<i32> {
        self.number
    }
}

impl From<rust_io::Error> for Error {
    fn from(error: rust_io::Error) -> Error {
        let number = error.raw_os_error();
        let kind = number
            .and_then(kind_of_number)
            .unwrap_or_else(|| kind_of(error.kind()));
        Error { kind, number }
    }
}

impl From<ErrorKind> for Error {
    fn from(kind: ErrorKind) -> Error {
        Error { kind, number: None }
    }
}

impl From<AllocError> for Error {
    fn from(_error: AllocError) -> Error {
        Error::from(ErrorKind::OutOfMemory)
    }
}

impl<T> From<AllocFailed<T>> for Error {
    fn from(_refused: AllocFailed<T>) -> Error {
        Error::from(ErrorKind::OutOfMemory)
    }
}

impl From<fmt::Error> for Error {
    fn from(_error: fmt::Error) -> Error {
        Error::from(ErrorKind::Uncategorized)
    }
}

impl fmt::Debug for Error {
    fn fmt(&self, f: &mut fmt::Formatter<'_>) -> fmt::Result {
        match self.number {
            Some(number) => f
                .debug_struct("Os")
                .field("code", &number)
                .field("kind", &self.kind)
                .finish(),
            None => f.debug_tuple("Kind").field(&self.kind).finish(),
        }
    }
}
