//! What stands in for Rattle's standard library when its sources are built as plain Rust.
//!
//! Rattle's std is Rust's with two differences: whatever allocates takes the allocator and returns a `Result`, and whatever
//! does I/O takes a handle. The erased crates depend on this crate under the name `std`, so their paths, their prelude and
//! their macros work as they are.
//!
//! It has what those crates use and nothing else. A failed allocation is an error here, as in the proved build. So the sorted
//! map, the shared pointer and the start of a process are our own, because Rust's abort; what can abort on systems other than
//! Linux says so.
//!
//! Neither this crate nor those beside it have dependencies: the crates of the same names take no allocator and abort too.
//! `tests/stand_ins.sh` compares them all with Rattle's.
#![deny(unsafe_op_in_unsafe_fn)]
#![warn(missing_docs)]

extern crate std as rust;

pub use rust::{
    cmp, convert, default, error, fmt, hash, iter, marker, mem, ops, option, result, slice, str,
};
pub use rust::{matches, unreachable, write, writeln};

pub mod alloc;
pub mod clone;
pub mod collections;
pub mod env;
pub mod fs;
pub mod io;
#[doc(hidden)]
pub mod macros;
pub mod os;
pub mod prelude;
pub mod process;
pub mod rt;
pub mod simd;
pub mod string;
pub mod sync;
pub mod time;
pub mod vec;
