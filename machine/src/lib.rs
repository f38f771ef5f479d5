//! The machine on which calls run: its processes, slots, signals and folders, and the tasks that a call is
//! made of.
#![forbid(unsafe_code)]

pub mod bytes;
pub mod clock;
pub mod excerpts;
pub mod folder;
pub mod guard;
pub mod head_start;
pub mod host;
pub mod host_compilers;
pub mod jobs;
pub mod jobserver;
pub mod lacking;
pub mod nearest;
pub mod piped;
pub mod places;
pub mod planned;
pub mod proved;
pub mod quota;
pub mod rooted;
pub mod settings;
pub mod slots;
pub mod streams;
pub mod task;
pub mod withheld;

use unix as system;
#[cfg(test)]
use unix::{forked, test_folder};
