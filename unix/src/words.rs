//! The kernel's words for how a file is opened, as its number, and for what a file is, as its mode.
use rustix::fs::{Mode, OFlags};

/// It is opened for writing.
pub const WRITES: u32 = OFlags::WRONLY.bits();
/// It is opened for reading and writing.
pub const READS_AND_WRITES: u32 = OFlags::RDWR.bits();
/// It is made if it isn't there.
pub const CREATES: u32 = OFlags::CREATE.bits();
/// It may not be there yet.
pub const IS_NEW: u32 = OFlags::EXCL.bits();
/// What is in it goes.
pub const EMPTIES: u32 = OFlags::TRUNC.bits();

/// The part of a mode that says what a file is.
pub const FILE_TYPE: u32 = libc::S_IFMT;
/// The part of a mode that says who may do what.
pub const PERMISSIONS: u32 = Mode::RWXU
    .union(Mode::RWXG)
    .union(Mode::RWXO)
    .union(Mode::SUID)
    .union(Mode::SGID)
    .union(Mode::SVTX)
    .bits();
/// That of a folder that its owner alone may use.
pub const PRIVATE: u32 = Mode::RWXU.bits();
/// A folder.
pub const FOLDER: u32 = libc::S_IFDIR;
/// A plain file.
pub const PLAIN: u32 = libc::S_IFREG;
/// A pipe.
pub const PIPE: u32 = libc::S_IFIFO;
