//! The cache of commands: what a command of the same tool, words and inputs has made and said before is made
//! and said again.
#![forbid(unsafe_code)]

pub mod calls;
mod checkout;
pub mod counts;
pub mod digest;
mod entry;
mod host_text;
mod inputs;
mod key;
mod lines;
mod manifest;
mod marked;
pub mod miss;
pub mod observed;
pub mod observer;
pub mod place;
pub mod processor;
pub mod program;
mod recipe;
mod session;
mod source;
mod stamps;
mod store;
mod stored;
pub mod tool;
mod ways;
mod words;

pub use inputs::Refusal;
pub use recipe::environment_of;
pub use session::{Beginning, Finished, Session};
pub use stamps::Stamp;
pub use store::Store;

use unix as system;
#[cfg(test)]
use unix::{forked, test_folder};
