//! Maps and sets in the order in which keys were first inserted.
#![forbid(unsafe_code)]
#![warn(missing_docs)]

pub mod map;
pub mod set;

pub use map::IndexMap;
pub use set::IndexSet;
