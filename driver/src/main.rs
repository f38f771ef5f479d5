//! The program: see the library.
#![no_main]

use std::env;
use std::ffi::{c_char, c_int};
use zigrunk_driver::{open_standard_streams, run_words};

/// The start of the process. It is C's, because Rust's own changes what this process hands on: it ignores
/// PIPE and opens closed streams.
#[unsafe(no_mangle)]
pub extern "C" fn main(_count: c_int, _words: *const *const c_char) -> c_int {
    open_standard_streams();
    run_words(&env::args_os().collect::<Vec<_>>())
}
