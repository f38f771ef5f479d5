//! Calls on files that abort on no failed allocation.
//!
//! Rust's own calls copy a path to the stack, or, if it has 384 bytes or more, to the heap, and abort if there is no memory.

use crate::alloc::Global;
use crate::io::{Error, ErrorKind, Result};
use crate::vec::Vec;
use core::ffi::{CStr, c_int};
use rust::fs::{File, Metadata};
use rust::os::fd::FromRawFd;

const MOST_ON_STACK: usize = 383;

// The numbers of all processors that Rust supports on Linux, but for SPARC's.
const O_RDONLY: c_int = 0;
const O_PATH: c_int = 0o10_000_000;
const O_CLOEXEC: c_int = 0o2_000_000;

mod c {
    use core::ffi::{c_char, c_int};

    unsafe extern "C" {
        // On processors of 32 bits the plain one refuses files of more than 2 GB.
        #[cfg_attr(target_env = "gnu", link_name = "open64")]
        pub(super) fn open(path: *const c_char, flags: c_int, ...) -> c_int;
    }
}

pub(super) fn open(path: &str) -> Result<File> {
    if path.len() <= MOST_ON_STACK {
        return Ok(File::open(path)?);
    }
    open_long(path, O_RDONLY)
}

pub(super) fn metadata(path: &str) -> Result<Metadata> {
    if path.len() <= MOST_ON_STACK {
        return Ok(rust::fs::metadata(path)?);
    }
    // What is opened as a path needn't be readable.
    Ok(open_long(path, O_PATH)?.metadata()?)
}

fn open_long(path: &str, flags: c_int) -> Result<File> {
    let mut bytes = Vec::with_capacity(Global, path.len() + 1)?;
    bytes.extend_from_slice(path.as_bytes())?;
    bytes.push(0)?;
    let name = CStr::from_bytes_with_nul(&bytes);
    let name = name.map_err(|_| Error::from(ErrorKind::InvalidInput))?;
    loop {
        // SAFETY: the name ends in a NUL, and with these flags there are no more arguments.
        let number = unsafe { c::open(name.as_ptr(), flags | O_CLOEXEC) };
        if number >= 0 {
            // SAFETY: the system has just opened it, so nobody else has it.
            return Ok(unsafe { File::from_raw_fd(number) });
        }
        let error = Error::from(rust::io::Error::last_os_error());
        if error.kind() != ErrorKind::Interrupted {
            return Err(error);
        }
    }
}
