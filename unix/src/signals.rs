//! Signals, which come by a file.
use nix::sys::signal::Signal::{self, SIGCHLD, SIGCONT, SIGHUP, SIGINT, SIGTERM, SIGTSTP};
use nix::sys::signal::{SigHandler, SigSet, raise, signal};
use nix::sys::signalfd::{SfdFlags, SignalFd};
use rustix::io::Errno;
use std::io;
use std::os::fd::{AsFd, BorrowedFd};
use std::sync::atomic::{AtomicBool, Ordering};
use std::thread::sleep;
use std::time::Duration;

/// The terminal is gone.
pub const HUP: i32 = libc::SIGHUP;
/// The user wants it to end.
pub const INT: i32 = libc::SIGINT;
/// What ends a process at once.
pub const KILL: i32 = libc::SIGKILL;
/// Somebody wants it to end.
pub const TERM: i32 = libc::SIGTERM;
/// A child has ended.
pub const CHLD: i32 = libc::SIGCHLD;
/// Go on.
pub const CONT: i32 = libc::SIGCONT;
/// What stops a process at once.
pub const STOP: i32 = libc::SIGSTOP;
/// The user wants it to stop.
pub const TSTP: i32 = libc::SIGTSTP;

/// How long what `signalfd` says of a signal is.
const SIZE: usize = size_of::<libc::signalfd_siginfo>();

/// Sets what this process does at a signal: nothing of its own, or `note_continue`. Says what it did until
/// now.
pub(crate) fn set_handler(number: Signal, handler: SigHandler) -> SigHandler {
    // SAFETY: `note_continue` only sets an atomic truth.
    unsafe { signal(number, handler) }.unwrap_or(SigHandler::SigDfl)
}

/// Sets what this process does at a signal, unless it ignores it. Says whether it does.
fn set_unless_ignored(number: Signal, handler: SigHandler) -> bool {
    let is_ignored = set_handler(number, handler) == SigHandler::SigIgn;
    if is_ignored {
        set_handler(number, SigHandler::SigIgn);
    }
    is_ignored
}

/// Ends this process by a signal, whatever it does with that signal otherwise: a caller such as a shell's
/// loop then knows that the user ended it. Comes back only for the first process of a container, which no
/// default action of a signal ends: with the status that says the same.
#[must_use]
pub fn end_by(number: i32) -> i32 {
    if let Ok(signal) = Signal::try_from(number) {
        set_handler(signal, SigHandler::SigDfl);
        let _ = SigSet::empty().thread_set_mask().and_then(|()| raise(signal));
    }
    128 + number
}

/// Whether CONT has come.
static CONTINUED: AtomicBool = AtomicBool::new(false);

extern "C" fn note_continue(_: i32) {
    CONTINUED.store(true, Ordering::SeqCst);
}

/// The signals that come by a file. Those that the caller ignores stay ignored.
#[derive(Debug)]
pub struct Signals {
    file: SignalFd,
    stop_ignored: bool,
}

impl Signals {
    /// From now on HUP, INT, TERM, TSTP and CHLD come by the file.
    ///
    /// TSTP is ignored too: one that a child gets before it has a group of its own is dropped then, and
    /// doesn't stop it for ever.
    /// Errors: those of `signalfd`.
    pub fn open() -> io::Result<Signals> {
        let mut set = SigSet::from(SIGCHLD);
        for number in [SIGHUP, SIGINT, SIGTERM] {
            if !set_unless_ignored(number, SigHandler::SigDfl) {
                set.add(number);
            }
        }
        set_handler(SIGCHLD, SigHandler::SigDfl);
        set_unless_ignored(SIGCONT, SigHandler::Handler(note_continue));
        let stop_ignored = set_unless_ignored(SIGTSTP, SigHandler::SigIgn);
        if !stop_ignored {
            set.add(SIGTSTP);
        }
        set.thread_block()?;
        let file = SignalFd::with_flags(&set, SfdFlags::SFD_NONBLOCK | SfdFlags::SFD_CLOEXEC)?;
        Ok(Signals { file, stop_ignored })
    }

    /// The file.
    #[must_use]
    pub fn file(&self) -> BorrowedFd<'_> {
        self.file.as_fd()
    }

    /// The next signal that has come. If it can't be read, that takes a moment: the file says all the time
    /// that there is one.
    #[must_use]
    pub fn next(&self) -> Option<i32> {
        CONTINUED.store(false, Ordering::SeqCst);
        next_of(self.file())
    }

    /// Gives the signals back to what this process becomes.
    pub fn give_back(&self) {
        let _ = SigSet::empty().thread_set_mask();
        if !self.stop_ignored {
            set_handler(SIGTSTP, SigHandler::SigDfl);
        }
    }

    /// Stops this process as TSTP does, until it is continued. If CONT has come since TSTP was read, this
    /// process goes on: nobody would continue it.
    pub fn stop() {
        set_handler(SIGTSTP, SigHandler::SigDfl);
        let _ = raise(SIGTSTP);
        // TSTP waits now, and a CONT that comes from here on takes it away. An earlier one has been noted,
        // and to ignore TSTP takes it away.
        if CONTINUED.load(Ordering::SeqCst) {
            set_handler(SIGTSTP, SigHandler::SigIgn);
        }
        let stop = SigSet::from(SIGTSTP);
        let _ = stop.thread_unblock().and_then(|()| stop.thread_block());
        set_handler(SIGTSTP, SigHandler::SigIgn);
    }
}

/// The next signal of a file, as `Signals::next` says.
pub(crate) fn next_of(file: BorrowedFd<'_>) -> Option<i32> {
    let mut one = [0_u8; SIZE];
    let size = rustix::io::read(file, &mut one);
    if size.is_err_and(|error| error != Errno::WOULDBLOCK) {
        sleep(Duration::from_millis(1));
    }
    (size == Ok(SIZE)).then(|| i32::from_ne_bytes([one[0], one[1], one[2], one[3]]))
}

impl Drop for Signals {
    fn drop(&mut self) {
        self.give_back();
    }
}
