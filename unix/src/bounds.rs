//! Numbers that several modules have.

/// How often a call is made again that a signal interrupts. There is an end, since signals that keep coming
/// would otherwise hold the process for ever.
pub const MOST_TRIES: usize = 1000;
/// The flag of an open file that doesn't wait.
pub const UNBLOCKED: i32 = libc::O_NONBLOCK;
