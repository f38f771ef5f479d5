//! JSON values, and their text without blanks.
#![forbid(unsafe_code)]
#![warn(missing_docs)]

mod number;
mod text;
mod value;

pub use number::Number;
pub use value::{Map, Value, push, put};
