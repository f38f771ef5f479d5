//! Readers and writers.

use super::{Error, ErrorKind, Result};
use crate::vec::Vec;
use core::fmt;

// How many bytes `read_to_end` asks for at least.
const LEAST_READ: usize = 4096;

/// Where bytes come from.
pub trait Read {
    /// Reads some bytes to the start of `buf` and says how many, or 0 at the end.
    fn read(&mut self, buf: &mut [u8]) -> Result<usize>;

    /// Appends all bytes up to the end and says how many. On an error `buf` has those before it.
    fn read_to_end(&mut self, buf: &mut Vec<u8>) -> Result<usize>
    where
        Self: Sized,
    {
        let start = buf.len();
        loop {
            match read_more(self, buf) {
                Ok(0) => return Ok(buf.len() - start),
                Ok(_) => {}
                Err(error) if error.kind() == ErrorKind::Interrupted => {}
                Err(error) => return Err(error),
            }
        }
    }
}

// Appends what one read gives.
fn read_more<R: Read>(reader: &mut R, buf: &mut Vec<u8>) -> Result<usize> {
    let filled = buf.len();
    buf.resize_to_room(LEAST_READ)?;
    let got = reader.read(&mut buf[filled..]);
    buf.truncate(filled + got.unwrap_or(0));
    got
}

impl<R: Read> Read for &mut R {
    fn read(&mut self, buf: &mut [u8]) -> Result<usize> {
        (**self).read(buf)
    }
}

impl Read for &[u8] {
    fn read(&mut self, buf: &mut [u8]) -> Result<usize> {
        let count = self.len().min(buf.len());
        let (now, later) = self.split_at(count);
        buf[..count].copy_from_slice(now);
        *self = later;
        Ok(count)
    }
}

/// Where bytes go.
pub trait Write {
    /// Writes the first bytes of `buf` and says how many.
    fn write(&mut self, buf: &[u8]) -> Result<usize>;

    /// Passes on what the writer holds back.
    fn flush(&mut self) -> Result<()>;

    /// Writes all of `buf`.
    fn write_all(&mut self, buf: &[u8]) -> Result<()> {
        let mut rest = buf;
        while !rest.is_empty() {
            match self.write(rest) {
                Ok(0) => return Err(Error::from(ErrorKind::WriteZero)),
                Ok(count) => rest = &rest[count..],
                Err(error) if error.kind() == ErrorKind::Interrupted => {}
                Err(error) => return Err(error),
            }
        }
        Ok(())
    }

    /// What `write!` calls. The writer's own error comes before one of the value.
    fn write_fmt(&mut self, arguments: fmt::Arguments<'_>) -> Result<()>
    where
        Self: Sized,
    {
        let mut printing = Printing {
            writer: self,
            error: None,
        };
        let printed = fmt::Write::write_fmt(&mut printing, arguments);
        match printing.error {
            Some(error) => Err(error),
            None => Ok(printed?),
        }
    }
}

// A writer of bytes as a writer of text. It keeps the error, which `fmt::Error` can't carry.
struct Printing<'a, W> {
    writer: &'a mut W,
    error: Option<Error>,
}

impl<W: Write> fmt::Write for Printing<'_, W> {
    fn write_str(&mut self, text: &str) -> fmt::Result {
        self.writer.write_all(text.as_bytes()).map_err(|error| {
            self.error = Some(error);
            fmt::Error
        })
    }
}

impl<W: Write> Write for &mut W {
    fn write(&mut self, buf: &[u8]) -> Result<usize> {
        (**self).write(buf)
    }

    fn flush(&mut self) -> Result<()> {
        (**self).flush()
    }

    fn write_all(&mut self, buf: &[u8]) -> Result<()> {
        (**self).write_all(buf)
    }
}

impl Write for Vec<u8> {
    fn write(&mut self, buf: &[u8]) -> Result<usize> {
        self.extend_from_slice(buf)?;
        Ok(buf.len())
    }

    fn flush(&mut self) -> Result<()> {
        Ok(())
    }
}
