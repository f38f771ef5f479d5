//! What each module has in scope.

/// The prelude of edition 2024.
pub mod rust_2024 {
    pub use crate::rt::{AllocGlobal, HostRuntime};
    pub use crate::string::{Replace, String, TextToString, ToString};
    pub use crate::vec::{Collect, Vec};
    pub use crate::{format, matches, unreachable, vec, write, writeln};
    pub use core::prelude::rust_2024::*;
    /// For `str::from_utf8`, which the type has only since Rust 1.87.
    pub use core::str;
}
