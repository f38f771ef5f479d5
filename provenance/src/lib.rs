//! What the products of calls were made from, as statements that an auditor can check: in-toto Statements v1
//! with SLSA Provenance v1.
#![forbid(unsafe_code)]

pub mod audit;
mod folder;
mod moment;
pub mod resource;
pub mod statement;
mod sums;
pub mod trace;
pub mod witness;

pub use folder::place_of;
pub use sums::Sums;
pub use witness::{Finished, Whole, Witness, make_folder};

#[cfg(test)]
use unix::test_folder;
