//! A call that is split, from its line to what its commands have said.
#![forbid(unsafe_code)]

pub mod caches;
pub mod late;
pub mod log;
pub mod nvcc_jobs;
pub mod products;
pub mod records;
pub mod remote;
pub mod rule;
pub mod run;
pub mod served;
pub mod split;
pub mod tasks;
pub mod threads;
pub mod voice;
#[cfg(test)]
mod whole_call;

use unix as system;
#[cfg(test)]
use unix::test_folder;
