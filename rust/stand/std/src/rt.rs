//! The handle that `main` gets.

use crate::alloc::Global;
use crate::env::VarError;
use crate::fs::Files;
use crate::io::{Stderr, Stdin, Stdout};
use crate::string::String;

pub use crate::env::Env;
pub use crate::time::Clock;

/// A handle that gives the allocator.
pub trait AllocGlobal {
    /// The allocator.
    fn alloc(&self) -> Global;
}

/// The process: its allocator, streams, files, arguments and environment.
pub struct HostRuntime {
    #[cfg(unix)]
    started: crate::process::Started,
}

impl HostRuntime {
    #[cfg(unix)]
    pub(crate) fn new(started: crate::process::Started) -> HostRuntime {
        HostRuntime { started }
    }

    #[cfg(not(unix))]
    pub(crate) fn new() -> HostRuntime {
        HostRuntime {}
    }

    /// The allocator.
    pub fn alloc(&self) -> Global {
        Global
    }

    /// Standard input.
    pub fn stdin(&self) -> Stdin {
        Stdin(())
    }

    /// Standard output.
    pub fn stdout(&self) -> Stdout {
        Stdout(())
    }

    /// Standard error.
    pub fn stderr(&self) -> Stderr {
        Stderr(())
    }
}

impl AllocGlobal for HostRuntime {
    fn alloc(&self) -> Global {
        Global
    }
}

impl Files for HostRuntime {}

impl Clock for HostRuntime {}

#[cfg(unix)]
impl Env for HostRuntime {
    fn argument(&self, index: usize) -> Result<String, VarError> {
        text_of(self.started.argument(index))
    }

    fn variable(&self, name: &str) -> Result<String, VarError> {
        text_of(self.started.variable(name))
    }
}

#[cfg(unix)]
fn text_of(bytes: Option<&[u8]>) -> Result<String, VarError> {
    let text = core::str::from_utf8(bytes.ok_or(VarError::NotPresent)?);
    Ok(String::copy_of(text.map_err(|_| VarError::NotUnicode)?)?)
}

// Rust's own calls, which abort if there is no memory.
#[cfg(not(unix))]
impl Env for HostRuntime {
    fn argument(&self, index: usize) -> Result<String, VarError> {
        text_of(rust::env::args_os().nth(index))
    }

    fn variable(&self, name: &str) -> Result<String, VarError> {
        text_of(rust::env::var_os(name))
    }
}

#[cfg(not(unix))]
fn text_of(text: Option<rust::ffi::OsString>) -> Result<String, VarError> {
    let text = text.ok_or(VarError::NotPresent)?;
    Ok(String::copy_of(text.to_str().ok_or(VarError::NotUnicode)?)?)
}
