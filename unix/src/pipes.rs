//! Pipes and terminals.
use nix::fcntl::{FcntlArg, fcntl};
use rustix::fs::{self, FileType, Mode, OFlags};
use rustix::pipe::{PipeFlags, pipe_with};
use rustix::pty::{OpenptFlags, grantpt, openpt, ptsname, unlockpt};
use rustix::termios::{InputModes, LocalModes, OptionalActions, OutputModes, tcgetattr, tcsetattr};
use std::fs::File;
use std::io;
use std::os::fd::{AsFd, AsRawFd, BorrowedFd, OwnedFd, RawFd};
use std::sync::atomic::AtomicU8;

/// How many bytes a small pipe takes at once: the smallest page, so that a writer sees soon whether somebody
/// reads.
pub const SMALL_PIPE: usize = SMALL as usize;
const SMALL: u16 = 4096;

/// Both ends of a pipe, first the one to read.
pub fn pipe() -> io::Result<(OwnedFd, OwnedFd)> {
    Ok(pipe_with(PipeFlags::CLOEXEC)?)
}

/// Both ends of a pipe that takes a part only if it's empty, and at most `SMALL_PIPE` bytes. No end waits for
/// the other.
pub fn small_pipe() -> io::Result<(OwnedFd, OwnedFd)> {
    let (read, write) = pipe()?;
    // (a kernel's page may be larger, but a part always takes a whole one, so the pipe is full all the same)
    fcntl(write.as_raw_fd(), FcntlArg::F_SETPIPE_SZ(SMALL.into()))?;
    set_unblocked(write.as_fd())?;
    Ok((read, write))
}

/// How many bytes of a pipe nobody has read yet.
pub fn unread(pipe: BorrowedFd<'_>) -> io::Result<usize> {
    usize::try_from(rustix::io::ioctl_fionread(pipe)?).map_err(|_| io::ErrorKind::InvalidData.into())
}

/// Has an open file not wait.
/// Errors: those of `fcntl`.
pub fn set_unblocked(file: BorrowedFd<'_>) -> io::Result<()> {
    Ok(fs::fcntl_setfl(file, OFlags::NONBLOCK)?)
}

/// Whether these numbers are those of two open files that are ends of one pipe.
pub fn is_same_pipe(one: RawFd, other: RawFd) -> bool {
    let pipe_of = |number: RawFd| {
        let status = fs::stat(format!("/proc/self/fd/{number}")).ok()?;
        (FileType::from_raw_mode(status.st_mode) == FileType::Fifo).then_some((status.st_dev, status.st_ino))
    };
    pipe_of(one).is_some_and(|pipe| pipe_of(other) == Some(pipe))
}

/// Reads a byte, without waiting on an open file that doesn't wait. `None` if there was none.
pub fn read_byte(file: BorrowedFd<'_>) -> Option<u8> {
    let mut byte = [0];
    (rustix::io::read(file, &mut byte) == Ok(1)).then_some(byte[0])
}

/// Reads a byte as `read_byte` does, but into a place that another process may see: if this process is
/// killed, the byte is in the pipe or there. Says whether there was one.
pub fn read_into(file: BorrowedFd<'_>, to: &AtomicU8) -> bool {
    // SAFETY: the place is one byte, which the kernel writes at once, and lasts.
    unsafe { libc::read(file.as_raw_fd(), to.as_ptr().cast(), 1) == 1 }
}

/// Writes a byte. Says whether that could be done.
pub fn write_byte(file: BorrowedFd<'_>, byte: u8) -> bool {
    rustix::io::write(file, &[byte]) == Ok(1)
}

/// A terminal: the end that its owner reads, and the one that a program has. It hands over lines as they are.
/// Errors: those of a machine without terminals to give.
pub fn terminal() -> io::Result<(File, OwnedFd)> {
    let owner = openpt(OpenptFlags::RDWR | OpenptFlags::NOCTTY | OpenptFlags::CLOEXEC)?;
    grantpt(&owner)?;
    unlockpt(&owner)?;
    let program = fs::open(
        ptsname(&owner, Vec::new())?,
        OFlags::RDWR | OFlags::NOCTTY | OFlags::CLOEXEC,
        Mode::empty(),
    )?;
    let mut modes = tcgetattr(&program)?;
    modes.input_modes = InputModes::empty();
    modes.output_modes = OutputModes::empty();
    modes.local_modes = LocalModes::empty();
    tcsetattr(&program, OptionalActions::Now, &modes)?;
    set_unblocked(owner.as_fd())?;
    Ok((File::from(owner), program))
}
