//! What the process was started with.

use crate::alloc::AllocError;
use crate::io;
use crate::string::String;
use crate::vec::{IntoIter, Vec};

/// Why a variable has no text.
#[derive(Clone, Copy, Debug, PartialEq, Eq)]
pub enum VarError {
    /// The environment doesn't have it.
    NotPresent,
    /// Its value isn't UTF-8.
    NotUnicode,
    /// An allocation failed.
    OutOfMemory,
}

impl From<AllocError> for VarError {
    fn from(_error: AllocError) -> VarError {
        VarError::OutOfMemory
    }
}

/// A handle that may see the arguments and the environment.
pub trait Env {
    /// The argument at `index`, or `NotPresent` behind the last. The first is the program's name.
    #[doc(hidden)]
    fn argument(&self, index: usize) -> Result<String, VarError>;

    /// The value of a variable.
    #[doc(hidden)]
    fn variable(&self, name: &str) -> Result<String, VarError>;
}

/// The arguments, the program's name first.
pub type Args = IntoIter<String>;

/// Copies all arguments. It fails with `InvalidData` if one isn't UTF-8.
pub fn args<R: Env>(rt: &R) -> io::Result<Args> {
    let mut all = Vec::default();
    loop {
        match rt.argument(all.len()) {
            Ok(argument) => all.push(argument)?,
            Err(VarError::NotPresent) => return Ok(all.into_iter()),
            Err(VarError::NotUnicode) => return Err(io::Error::from(io::ErrorKind::InvalidData)),
            Err(VarError::OutOfMemory) => return Err(io::Error::from(AllocError)),
        }
    }
}

/// The value of a variable of the environment.
pub fn var<R: Env>(rt: &R, name: &str) -> Result<String, VarError> {
    rt.variable(name)
}
