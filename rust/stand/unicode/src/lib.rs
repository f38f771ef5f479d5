//! Classes of characters.
#![forbid(unsafe_code)]
#![warn(missing_docs)]

pub mod perl;
mod word;
