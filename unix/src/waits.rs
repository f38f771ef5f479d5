//! Waiting for open files.
use rustix::event::{PollFd, PollFlags, poll};
use std::os::fd::BorrowedFd;
use std::thread::sleep;
use std::time::Duration;

/// How often a pipe that can't be read is tried again. Not for ever, since a guard would then outlive its
/// call.
const MOST_FAILURES: usize = 1000;

/// Waits until one of these files is as it should be, at most so many milliseconds; -1 is for ever. Says how
/// many are. If a signal or a lack of memory ends it early, it has waited for a moment all the same.
fn wait(files: &mut [PollFd<'_>], milliseconds: i32) -> usize {
    poll(files, milliseconds).unwrap_or_else(|_| {
        sleep(Duration::from_millis(1));
        0
    })
}

/// Waits until one of these files can be read, at most so many milliseconds; -1 is for ever. Says which can
/// be. If a signal or a lack of memory ends it early, it has waited for a moment all the same.
pub fn wait_for(files: &[BorrowedFd<'_>], milliseconds: i32) -> Vec<bool> {
    let mut list: Vec<_> = files.iter().map(|&file| PollFd::from_borrowed_fd(file, PollFlags::IN)).collect();
    let count = wait(&mut list, milliseconds);
    list.iter().map(|it| count > 0 && !it.revents().is_empty()).collect()
}

/// Waits until one of these files can be read, or written if that counts too, at most so many milliseconds.
/// Says of each whether it can be read and whether it can be written; a connection that is gone can be read.
pub fn wait_for_streams(files: &[(BorrowedFd<'_>, bool)], milliseconds: i32) -> Vec<[bool; 2]> {
    let flags = |writes| if writes { PollFlags::IN | PollFlags::OUT } else { PollFlags::IN };
    let mut list: Vec<_> =
        files.iter().map(|&(file, writes)| PollFd::from_borrowed_fd(file, flags(writes))).collect();
    let count = wait(&mut list, milliseconds);
    let said = |it: &PollFd<'_>| {
        let said = it.revents();
        [!(said - PollFlags::OUT).is_empty(), said.contains(PollFlags::OUT)].map(|is_so| count > 0 && is_so)
    };
    list.iter().map(said).collect()
}

/// Waits until a stream takes more, at most so many milliseconds.
pub fn wait_to_write(file: BorrowedFd<'_>, milliseconds: i32) {
    wait(&mut [PollFd::from_borrowed_fd(file, PollFlags::OUT)], milliseconds);
}

/// Waits until nobody has the other end of a pipe. If it can't be read again and again, though there is
/// something to read, that is the end.
pub fn wait_for_end(pipe: BorrowedFd<'_>) {
    let (mut byte, mut failures) = ([0], 0);
    while failures < MOST_FAILURES {
        wait_for(&[pipe], -1);
        match rustix::io::read(pipe, &mut byte) {
            Ok(0) => return,
            Ok(_) => {}
            Err(_) => failures += 1,
        }
    }
}
