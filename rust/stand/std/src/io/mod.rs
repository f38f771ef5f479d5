//! Streams of bytes, and why one fails.

mod error;
mod stdio;
mod streams;

pub use error::{Error, ErrorKind, Result};
pub use stdio::{Stderr, Stdin, Stdout};
pub use streams::{Read, Write};
