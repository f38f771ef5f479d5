//! What Linux does for the driver, each call behind a safe function: files below a folder, locks, pipes,
//! signals, processes.
//!
//! This is the one crate with `unsafe`. Most calls are those of `rustix`; those on signals, and on files by
//! their numbers alone, are of `nix`. `libc` has what both lack.
mod bounds;
mod files;
#[cfg(any(test, feature = "testing"))]
pub mod forked;
mod image;
mod pipes;
mod processes;
mod shared;
mod signals;
mod spawned;
pub mod streams;
#[cfg(any(test, feature = "testing"))]
pub mod test_folder;
#[cfg(test)]
mod tests;
mod waits;
mod watches;
pub mod words;

pub use bounds::{MOST_TRIES, UNBLOCKED};
pub use files::{
    Access, give, kind_of_file_system, make_folder, make_pipe, may_run, may_write, memory_file, open,
    open_below, real_path, remove_below, room_in, touch, try_lock, withhold,
};
pub use image::Image;
pub use pipes::{
    SMALL_PIPE, is_same_pipe, pipe, read_byte, read_into, set_unblocked, small_pipe, terminal, unread,
    write_byte,
};
pub use processes::{
    Status, end_of, end_with_parent, exit, fork_apart, fork_to, open_standard_streams, process, processors,
    signal_group, signal_process, signal_rest, spare_files, user, wait_for_child,
};
pub use shared::SharedPage;
pub use signals::{CHLD, CONT, HUP, INT, KILL, STOP, Signals, TERM, TSTP, end_by};
pub use spawned::Spawned;
pub use waits::{wait_for, wait_for_end, wait_for_streams, wait_to_write};
pub use watches::Watch;
