//! A call of nvcc, from its words to its plan: the one way there, over the proved crates. The driver, the
//! crate for Rust and the C library stand on it.
//!
//! [`Call`] reads a line, makes its dry runs by an [`Nvcc`], and plans them; [`plan`] plans two dry runs
//! alone.

mod cache_key;
mod call;
mod compdb;
#[cfg(unix)]
pub mod compiler;
mod dry_runs;
#[cfg(unix)]
pub mod environments;
mod error;
mod fitness;
mod formats;
mod headers;
mod json;
mod keys;
mod lines;
mod memory;
mod nvcc_line;
mod outline;
mod pairs;
mod plan;
pub mod programs;
pub mod ptx;
pub mod schedule;
mod variable;
mod words;

pub use cache_key::CacheKey;
pub use call::{Call, MOST_BYTES, Planning, Processes};
pub use dry_runs::{DryRuns, Nvcc, Ran};
pub use error::reason::{LineReason, Reason};
pub use error::{Error, ErrorKind, Input, Place};
pub use formats::Format;
pub use headers::headers;
pub use keys::{KeyCall, command_key};
pub use lines::{ColorMode, Language, Line, LineCall, Output, Tool, line_records, line_words};
pub use memory::{OutOfMemory, copied, copied_bytes, displayed, listed};
pub use nvcc_line::{FLAG_VARIABLES, NvccCall, NvccLine};
pub use outline::{Outline, Run};
pub use plan::{
    Command, CommandTool, Commands, DropReason, Group, Groups, HostCompiler, Missing, Plan, PlanCall, Stage,
    Variables, plan,
};
pub use programs::{
    Disk, FoundProgram, Lookup, ProgramRow, Programs, candidates, find_programs, found_in, lookups,
};
#[cfg(test)]
use unix::test_folder;
pub use variable::{Variable, variables};
pub use words::{Texts, TextsIter, quote, remap, split};
