//! Files: how they are opened, below a folder too, their locks and leases.
use crate::bounds::MOST_TRIES;
use rustix::fs::{
    self, AtFlags, FileType, FlockOperation, MemfdFlags, Mode, OFlags, StatVfsMountFlags, Timespec,
    Timestamps, UTIME_NOW,
};
use rustix::io::Errno;
use std::ffi::CStr;
use std::fs::File;
use std::io;
use std::os::fd::{AsRawFd, BorrowedFd, OwnedFd};
use std::path::Path;

/// What a file's owner may do with it.
const OWNERS: Mode = Mode::RUSR.union(Mode::WUSR);
/// What everybody may do with a file, but for the modes that new ones lack.
const EVERYBODYS: Mode = OWNERS.union(Mode::RGRP).union(Mode::WGRP).union(Mode::ROTH).union(Mode::WOTH);
/// Which signal tells of somebody who waits for a file. (The crate libc has this word for a few machines
/// alone.)
const SET_SIGNAL: i32 = 10;

/// A file in memory, which no program that is run inherits by itself.
pub fn memory_file() -> io::Result<File> {
    Ok(fs::memfd_create(c"said", MemfdFlags::CLOEXEC)?.into())
}

/// How a file is opened, and what others may do with one that is made.
#[derive(Clone, Copy)]
pub struct Access(OFlags, Mode);

impl Access {
    /// For reading.
    pub const READ: Access = Access(OFlags::RDONLY, OWNERS);
    /// For reading and writing what is there.
    pub const BOTH: Access = Access(OFlags::RDWR, OWNERS);
    /// For writing what takes the place of all that is there.
    pub const WRITE: Access = Access(OFlags::WRONLY.union(OFlags::CREATE).union(OFlags::TRUNC), EVERYBODYS);
    /// For writing behind what is there.
    pub const APPEND: Access = Access(OFlags::WRONLY.union(OFlags::CREATE).union(OFlags::APPEND), EVERYBODYS);
    /// For reading and writing, if there's no such file yet.
    pub const NEW: Access = Access(OFlags::RDWR.union(OFlags::CREATE).union(OFlags::EXCL), EVERYBODYS);
    /// For reading and writing a file that its owner alone may use, which is made if it isn't there.
    pub const KEPT: Access = Access(OFlags::RDWR.union(OFlags::CREATE), OWNERS);
    /// As a folder, and no link to one.
    pub const FOLDER: Access = Access(OFlags::DIRECTORY.union(OFlags::NOFOLLOW), OWNERS);
    /// As a pipe, to read and write, without waiting for anybody.
    pub const PIPE: Access = Access(OFlags::RDWR.union(OFlags::NONBLOCK), OWNERS);
    /// As the end of a pipe to read, without waiting.
    pub const PIPE_TO_READ: Access = Access(OFlags::RDONLY.union(OFlags::NONBLOCK), OWNERS);
    /// As the end of a pipe to write, if somebody reads it, without waiting.
    pub const PIPE_TO_WRITE: Access = Access(OFlags::WRONLY.union(OFlags::NONBLOCK), OWNERS);
}

/// Opens a file by its path. In contrast to std's, a call that is interrupted again and again ends, with that
/// error.
pub fn open(path: &Path, Access(flags, mode): Access) -> io::Result<File> {
    tried(|| fs::open(path, flags | OFlags::CLOEXEC, mode))
}

/// What opens a file, tried again if a signal interrupts it, so often and no more.
fn tried(open: impl Fn() -> rustix::io::Result<OwnedFd>) -> io::Result<File> {
    let mut tries = 0;
    loop {
        match open() {
            Err(Errno::INTR) if tries < MOST_TRIES => tries += 1,
            opened => return Ok(opened?.into()),
        }
    }
}

/// Opens a file below a folder. No link is followed.
/// Errors: those of `openat`, and that of a name with a NUL.
pub fn open_below(folder: BorrowedFd<'_>, name: &str, Access(flags, mode): Access) -> io::Result<File> {
    tried(|| fs::openat(folder, name, flags | OFlags::NOFOLLOW | OFlags::CLOEXEC, mode))
}

/// Whether this process may write a file, or the names in a folder.
pub fn may_write(path: &Path) -> bool {
    fs::access(path, fs::Access::WRITE_OK).is_ok()
}

/// The number of a file system's kind, as the kernel has it. `None` if it isn't known.
pub fn kind_of_file_system(path: &Path) -> Option<u64> {
    u64::try_from(fs::statfs(path).ok()?.f_type).ok()
}

/// Whether programs and libraries may be loaded from a file system.
pub fn may_run(path: &Path) -> bool {
    fs::statvfs(path).is_ok_and(|said| !said.f_flag.contains(StatVfsMountFlags::NOEXEC))
}

/// How many bytes a user may write to the disk of a folder.
/// Errors: those of looking.
pub fn room_in(folder: &Path) -> io::Result<u64> {
    let disk = fs::statvfs(folder)?;
    Ok(disk.f_bavail * disk.f_frsize)
}

/// Makes a folder that only its owner may use.
pub fn make_folder(folder: BorrowedFd<'_>, name: &str) -> io::Result<()> {
    Ok(fs::mkdirat(folder, name, Mode::RWXU)?)
}

/// Makes a named pipe that only its owner may use.
pub fn make_pipe(folder: BorrowedFd<'_>, name: &str) -> io::Result<()> {
    Ok(fs::mknodat(folder, name, FileType::Fifo, OWNERS, 0)?)
}

/// Removes a file below a folder.
pub fn remove_below(folder: BorrowedFd<'_>, name: &str) -> io::Result<()> {
    Ok(fs::unlinkat(folder, name, AtFlags::empty())?)
}

/// Sets the time of an open file's last change to now.
pub fn touch(file: BorrowedFd<'_>) {
    let now = Timespec { tv_sec: 0, tv_nsec: UTIME_NOW };
    let _ = fs::futimens(file, &Timestamps { last_access: now, last_modification: now });
}

/// Takes the lock of an open file if nobody has it. `Ok(false)` says that somebody has.
/// Errors: those of a disk without locks.
pub fn try_lock(file: BorrowedFd<'_>) -> io::Result<bool> {
    match fs::flock(file, FlockOperation::NonBlockingLockExclusive) {
        Ok(()) => Ok(true),
        Err(Errno::WOULDBLOCK) => Ok(false),
        Err(error) => Err(error.into()),
    }
}

/// Has whoever opens a file wait, which nobody but this process has open. The kernel's word for this is a
/// lease.
/// Errors: those of `fcntl`: the disk has no leases, or somebody else has the file open.
pub fn withhold(file: BorrowedFd<'_>) -> io::Result<()> {
    // Without another signal the kernel would end this process by IO once somebody waits.
    set(file, SET_SIGNAL, libc::SIGURG)?;
    set(file, libc::F_SETLEASE, libc::F_WRLCK)
}

/// Lets those go on that wait for a file.
/// Errors: those of `fcntl`: this process doesn't withhold it.
pub fn give(file: BorrowedFd<'_>) -> io::Result<()> {
    set(file, libc::F_SETLEASE, libc::F_UNLCK)
}

/// Sets what one of the words `SETSIG` and `SETLEASE` of `fcntl` names.
fn set(file: BorrowedFd<'_>, what: i32, value: i32) -> io::Result<()> {
    // SAFETY: these words take a number and touch no memory.
    let answer = unsafe { libc::fcntl(file.as_raw_fd(), what, value) };
    if answer < 0 { Err(io::Error::last_os_error()) } else { Ok(()) }
}

/// Where a path really leads. C's library can say so without memory, and the copy reports it if there is
/// none.
/// Errors: those of `realpath`, and `OutOfMemory`.
pub fn real_path(path: &CStr) -> io::Result<Vec<u8>> {
    let mut real = [0_u8; libc::PATH_MAX as usize];
    // SAFETY: there is room for the longest path.
    let found = unsafe { libc::realpath(path.as_ptr(), real.as_mut_ptr().cast()) };
    if found.is_null() {
        return Err(io::Error::last_os_error());
    }
    let (real, mut copy) = (real.split(|&byte| byte == 0).next().unwrap_or_default(), Vec::new());
    copy.try_reserve_exact(real.len())?;
    copy.extend_from_slice(real);
    Ok(copy)
}
