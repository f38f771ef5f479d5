//! The guard of a call: a process that outlives it. If the call is killed, the guard ends its commands,
//! removes its directory and gives its jobs back to make. It does nothing else, and ends with the call.
use crate::folder::CallFolder;
use crate::system::{self, KILL, SharedPage, TERM};
use std::io;
use std::os::fd::{AsFd, BorrowedFd, OwnedFd};
use std::sync::atomic::{AtomicI32, AtomicU8, Ordering};
use std::thread::sleep;
use std::time::Duration;

/// How many commands may run at once, because all have to have a place in the page that the guard sees.
pub const MOST_GROUPS: usize = 512;
/// How many jobs of make a call may have at once. Each is a byte of the same page, so that the guard gives
/// back the very bytes that make has lent.
pub const MOST_TOKENS: usize = 1024;
/// How long a command may take to end after TERM, in hundredths of a second: so long because a compiler
/// removes its temporary files, and no longer because nothing limits a command that ignores TERM.
const GRACE: usize = 100;

/// What a call and its guard both see: the process groups that run, the jobs that the call has of make, and
/// whether it has ended.
#[derive(Clone, Copy, Debug)]
pub struct Shared(&'static SharedPage);

impl Shared {
    /// # Errors
    ///
    /// If there is no memory.
    pub fn new() -> io::Result<Shared> {
        SharedPage::new().map(Shared)
    }

    /// The place of a group's number; 0 if there is none.
    pub fn group(self, number: usize) -> &'static AtomicI32 {
        &self.0.numbers[..MOST_GROUPS][number]
    }

    /// The place of a job that make has given; 0 if there is none.
    pub fn token(self, number: usize) -> &'static AtomicU8 {
        &self.0.bytes[..MOST_TOKENS][number]
    }

    /// 1 once the call has ended by itself.
    fn done(self) -> &'static AtomicU8 {
        &self.0.bytes[MOST_TOKENS]
    }

    fn groups(self) -> impl Iterator<Item = i32> {
        (0..MOST_GROUPS)
            .map(move |number| self.group(number).load(Ordering::SeqCst))
            .filter(|&group| group > 0)
    }
}

/// The guard, as its call sees it.
#[derive(Debug)]
pub struct Guard {
    /// Nobody else has this end, so the guard sees when the call is gone.
    alive: OwnedFd,
    shared: Shared,
    process: i32,
}

impl Guard {
    /// Starts the guard of a call with this directory, and with these jobs of make to give back. It hasn't
    /// these files: locks of slots, which would last as long as it does.
    /// An error if there is no process or no pipe for it.
    pub fn start(
        shared: Shared,
        folder: &CallFolder,
        tokens: Option<&OwnedFd>,
        locks: &[BorrowedFd<'_>],
    ) -> io::Result<Guard> {
        let (gone, alive) = system::pipe()?;
        let left: Vec<BorrowedFd<'_>> = locks.iter().copied().chain([alive.as_fd()]).collect();
        let process = system::fork_apart(&left, || watch(&gone, shared, folder, tokens))?;
        Ok(Guard { alive, shared, process })
    }

    /// Says that the call has ended by itself. The guard ends then, and this process waits for it.
    pub fn dismiss(self) {
        self.shared.done().store(1, Ordering::SeqCst);
        drop(self.alive);
        system::wait_for_child(self.process);
    }
}

/// What the guard does, once nobody has the other end of `gone` any more.
fn watch(gone: &OwnedFd, shared: Shared, folder: &CallFolder, tokens: Option<&OwnedFd>) {
    system::wait_for_end(gone.as_fd());
    let has_ended = shared.done().load(Ordering::SeqCst) != 0;
    if !has_ended {
        end_groups(shared);
    }
    for number in 0..MOST_TOKENS {
        let token = shared.token(number).load(Ordering::SeqCst);
        if let (Some(server), true) = (tokens, token != 0) {
            system::write_byte(server.as_fd(), token);
        }
    }
    if !has_ended {
        folder.remove();
    }
}

/// Ends all groups: by TERM, and by KILL what is left a second later.
fn end_groups(shared: Shared) {
    for number in [TERM, KILL] {
        let mut left: Vec<i32> =
            shared.groups().filter(|&group| system::signal_group(group, number)).collect();
        for _ in 0..GRACE {
            left.retain(|&group| system::signal_group(group, 0));
            if left.is_empty() {
                return;
            }
            sleep(Duration::from_millis(10));
        }
    }
}

#[cfg(test)]
mod tests {
    use super::*;

    #[test]
    fn the_guard_sees_the_groups_that_run() {
        let shared = Shared::new().unwrap();
        assert_eq!(shared.groups().count(), 0);
        for (number, group) in [(0, 7), (MOST_GROUPS - 1, 9)] {
            shared.group(number).store(group, Ordering::SeqCst);
        }
        assert_eq!(shared.groups().collect::<Vec<_>>(), [7, 9]);
    }
}
