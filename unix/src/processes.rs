//! This process, and others.
use crate::signals::TERM;
use nix::fcntl::OFlag;
use nix::sys::signal::kill;
use nix::unistd::{ForkResult, dup3, fork};
use rustix::fs::{Mode, OFlags, open};
use rustix::process::{
    self, Pid, Resource, Signal, WaitOptions, WaitStatus, getrlimit, set_parent_process_death_signal,
    setpgid, waitpid,
};
use rustix::stdio::{dup2_stderr, dup2_stdin, dup2_stdout, stderr, stdin, stdout};
use std::io;
use std::os::fd::{AsRawFd, BorrowedFd, IntoRawFd, OwnedFd};
use std::panic::{AssertUnwindSafe, catch_unwind};

/// The status of a forked process whose function panics.
pub(crate) const PANICKED: i32 = 101;

/// The effective user's number.
pub fn user() -> u32 {
    process::geteuid().as_raw()
}

/// This process's number.
pub fn process() -> i32 {
    process::getpid().as_raw_nonzero().get()
}

/// How many processors this process may use by its affinity.
pub fn processors() -> usize {
    let mut mask = [0_u8; 1024];
    // SAFETY: the kernel writes at most as many bytes as the mask has, whose bits are the processors.
    let size = unsafe { libc::sched_getaffinity(0, mask.len(), mask.as_mut_ptr().cast()) };
    if size < 0 { 1 } else { mask.iter().map(|byte| byte.count_ones() as usize).sum() }
}

/// How many more files this process may open. Its caller may have left some open.
pub fn spare_files() -> usize {
    let Some(most) = getrlimit(Resource::Nofile).current else { return usize::MAX };
    // The folder itself is open while it is read, so it would be in its own list.
    let open = std::fs::read_dir("/proc/self/fd").map_or(3, |files| files.count().saturating_sub(1));
    usize::try_from(most).unwrap_or(usize::MAX).saturating_sub(open)
}

pub(crate) fn null() -> io::Result<OwnedFd> {
    Ok(open(c"/dev/null", OFlags::RDWR | OFlags::CLOEXEC, Mode::empty())?)
}

/// Opens /dev/null in place of each standard stream that is closed. No program that is run gets it.
pub fn open_standard_streams() {
    for stream in [stdin(), stdout(), stderr()] {
        if rustix::io::fcntl_getfd(stream).is_err() {
            // The lowest number that is free is this stream's. It stays open, because the next file that is
            // opened would otherwise become the stream.
            let _ = null().map(OwnedFd::into_raw_fd);
        }
    }
}

/// How a process ended, as a shell's status: its own, or 128 and the number of the signal that ended it.
#[derive(Clone, Copy, PartialEq, Eq, Debug)]
pub struct Status {
    /// The shell's status.
    pub code: i32,
    /// The signal that ended it, if one did.
    pub signal: Option<i32>,
    /// Whether its memory was dumped.
    pub dumped: bool,
}

impl Status {
    fn of(state: WaitStatus) -> Status {
        Status::of_raw(i32::from_ne_bytes(state.as_raw().to_ne_bytes()))
    }

    fn of_raw(state: i32) -> Status {
        if libc::WIFEXITED(state) {
            return Status { code: libc::WEXITSTATUS(state), signal: None, dumped: false };
        }
        let signal = libc::WTERMSIG(state);
        Status { code: 128 + signal, signal: Some(signal), dumped: libc::WCOREDUMP(state) }
    }

    /// Whether it ended with 0.
    pub fn succeeded(self) -> bool {
        self.code == 0
    }
}

/// The state of a child that has ended, if it has.
fn state_of(child: i32, options: WaitOptions) -> rustix::io::Result<Option<WaitStatus>> {
    let child = (child > 0).then(|| Pid::from_raw(child)).flatten().ok_or(rustix::io::Errno::CHILD)?;
    waitpid(Some(child), options)
}

/// How a child has ended; nothing if it runs. The ends of other children, which others wait for, stay.
/// Errors: those of `waitpid`: it is no child, or its end is told already.
pub fn end_of(child: i32) -> io::Result<Option<Status>> {
    Ok(state_of(child, WaitOptions::NOHANG)?.map(Status::of))
}

/// Waits for a child.
pub fn wait_for_child(child: i32) {
    let _ = status_at_end(child);
}

/// Waits for a child, and says how it has ended.
/// Errors: those of `waitpid`.
pub(crate) fn status_at_end(child: i32) -> io::Result<Status> {
    let mut tries = 0;
    loop {
        match state_of(child, WaitOptions::empty()) {
            Err(rustix::io::Errno::INTR) if tries < crate::bounds::MOST_TRIES => tries += 1,
            state => return state?.map(Status::of).ok_or_else(|| rustix::io::Errno::CHILD.into()),
        }
    }
}

/// Sends a signal to a process, or to a group if its number is negative. What is no signal's number only asks
/// whether it is there.
fn send(to: i32, number: i32) -> bool {
    let signal = nix::sys::signal::Signal::try_from(number).ok();
    kill(nix::unistd::Pid::from_raw(to), signal).is_ok()
}

/// Sends a signal to a process.
pub fn signal_process(process: i32, number: i32) {
    send(process, number);
}

/// Sends a signal to a process group, or to its first process if that has no group yet. Says whether there
/// was one.
pub fn signal_group(group: i32, number: i32) -> bool {
    send(-group, number) || send(group, number)
}

/// Sends a signal to what is left of a process group whose first process may have ended. Says whether
/// something was. (That process's number may be another's by then, but not the group's while somebody is in
/// it.)
pub fn signal_rest(group: i32, number: i32) -> bool {
    send(-group, number)
}

/// Has this process end by TERM once its parent has ended.
pub fn end_with_parent() {
    let _ = set_parent_process_death_signal(Signal::from_raw(TERM));
}

/// Ends this process at once.
pub fn exit(status: i32) -> ! {
    // SAFETY: nothing of this process runs after it, so nothing is missed.
    unsafe { libc::_exit(status) }
}

/// Starts a copy of this process that runs a function and ends, also if the function panics: what its parent
/// left half done isn't its own to undo. Says its number.
/// Errors: those of `fork`.
pub fn fork_to(run: impl FnOnce()) -> io::Result<i32> {
    // SAFETY: the copy has its own memory and its own numbers of files, and the C library's allocator is
    // right in it. It leaves by `exit` alone, so nothing that its parent has is dropped twice. A lock that
    // another thread has here stays locked there.
    if let ForkResult::Parent { child } = unsafe { fork() }? {
        return Ok(child.as_raw());
    }
    exit(if catch_unwind(AssertUnwindSafe(run)).is_ok() { 0 } else { PANICKED })
}

/// Starts a copy as `fork_to` does, in a group of its own, which no terminal's signal reaches. It has
/// /dev/null in place of the standard streams and of these files, so nobody waits for it because of them.
/// Errors: those of `fork` and of opening /dev/null.
pub fn fork_apart(files: &[BorrowedFd<'_>], run: impl FnOnce()) -> io::Result<i32> {
    let null = null()?;
    fork_to(|| {
        let _ = setpgid(None, None);
        for file in files {
            // (the number stays that of an open file, and its owner is in the parent)
            let _ = dup3(null.as_raw_fd(), file.as_raw_fd(), OFlag::O_CLOEXEC);
        }
        let _ = dup2_stdin(&null).and_then(|()| dup2_stdout(&null)).and_then(|()| dup2_stderr(&null));
        run();
    })
}

#[cfg(test)]
mod tests {
    use super::*;

    #[test]
    fn a_state_is_a_status() {
        let status = |code, signal, dumped| Status { code, signal, dumped };
        let cases = [
            (0, status(0, None, false)),
            (0x300, status(3, None, false)),
            (0xff00, status(255, None, false)),
            (9, status(137, Some(9), false)),
            (0x8b, status(139, Some(11), true)),
        ];
        for (state, wanted) in cases {
            assert_eq!(Status::of_raw(state), wanted, "{state}");
        }
        assert!(status(0, None, false).succeeded() && !status(1, None, false).succeeded());
    }
}
