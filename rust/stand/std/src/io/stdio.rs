//! The three standard streams, without a buffer: each call is one call of the system, so that no failure is lost.

use super::{Read, Result, Write};
use rust::io as rust_io;

/// Standard input.
#[derive(Clone, Copy)]
pub struct Stdin(pub(crate) ());

/// Standard output.
#[derive(Clone, Copy)]
pub struct Stdout(pub(crate) ());

/// Standard error.
#[derive(Clone, Copy)]
pub struct Stderr(pub(crate) ());

// Rust's own streams have buffers, and take a closed one for one that swallows all it is given.
#[cfg(unix)]
mod system {
    use core::mem::ManuallyDrop;
    use rust::fs::File;
    use rust::io::{Read, Result, Write};
    use rust::os::fd::{FromRawFd, RawFd};

    fn stream(number: RawFd) -> ManuallyDrop<File> {
        // SAFETY: the three streams belong to the whole process. The file is never dropped, so it closes none; and if one is
        // closed already, the system refuses the call.
        ManuallyDrop::new(unsafe { File::from_raw_fd(number) })
    }

    pub(super) fn read(buf: &mut [u8]) -> Result<usize> {
        stream(0).read(buf)
    }

    pub(super) fn write_out(buf: &[u8]) -> Result<usize> {
        stream(1).write(buf)
    }

    pub(super) fn write_err(buf: &[u8]) -> Result<usize> {
        stream(2).write(buf)
    }
}

#[cfg(not(unix))]
mod system {
    use rust::io::{Read, Result, Write, stderr, stdin, stdout};

    pub(super) fn read(buf: &mut [u8]) -> Result<usize> {
        stdin().read(buf)
    }

    pub(super) fn write_out(buf: &[u8]) -> Result<usize> {
        let count = stdout().write(buf)?;
        stdout().flush()?;
        Ok(count)
    }

    pub(super) fn write_err(buf: &[u8]) -> Result<usize> {
        stderr().write(buf)
    }
}

fn counted(count: rust_io::Result<usize>) -> Result<usize> {
    Ok(count?)
}

impl Read for Stdin {
    fn read(&mut self, buf: &mut [u8]) -> Result<usize> {
        counted(system::read(buf))
    }
}

impl Read for &Stdin {
    fn read(&mut self, buf: &mut [u8]) -> Result<usize> {
        counted(system::read(buf))
    }
}

impl Write for Stdout {
    fn write(&mut self, buf: &[u8]) -> Result<usize> {
        counted(system::write_out(buf))
    }

    fn flush(&mut self) -> Result<()> {
        Ok(())
    }
}

impl Write for Stderr {
    fn write(&mut self, buf: &[u8]) -> Result<usize> {
        counted(system::write_err(buf))
    }

    fn flush(&mut self) -> Result<()> {
        Ok(())
    }
}
