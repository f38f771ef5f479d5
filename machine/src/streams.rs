//! Whole files and streams, and what messages begin with.
use std::sync::OnceLock;

pub use unix::streams::*;

/// Texts for the two standard streams, each with whether it is for standard error.
pub type Said = Vec<(bool, Vec<u8>)>;

/// How the program was called.
static CALLED: OnceLock<&str> = OnceLock::new();

/// Notes the program that was called, for messages of calls and commands.
pub fn set_called(program: &'static str) {
    let _ = CALLED.set(program);
}

/// What messages of a call begin with: the program as it was called.
pub fn called() -> &'static str {
    CALLED.get().copied().unwrap_or("zigrunk-nvcc")
}
