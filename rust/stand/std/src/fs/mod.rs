//! Files.

#[cfg(any(target_os = "linux", target_os = "android"))]
#[path = "linux.rs"]
mod system;
#[cfg(not(any(target_os = "linux", target_os = "android")))]
#[path = "portable.rs"]
mod system;

use crate::io::{Read, Result};
use crate::string::String;
use crate::vec::Vec;
use rust::fs as rust_fs;
pub use rust::fs::Metadata;

/// A handle that may open files.
pub trait Files {}

/// An open file. It is closed where it is dropped.
#[derive(Debug)]
pub struct File {
    file: rust_fs::File,
}

impl Read for File {
    fn read(&mut self, buf: &mut [u8]) -> Result<usize> {
        Ok(rust::io::Read::read(&mut self.file, buf)?)
    }
}

/// Opens a file to be read.
pub fn open<R: Files>(_files: &R, path: &str) -> Result<File> {
    Ok(File {
        file: system::open(path)?,
    })
}

/// What the system knows of a file, whose path may be that of a symbolic link to it.
pub fn metadata<R: Files>(_files: &R, path: &str) -> Result<Metadata> {
    system::metadata(path)
}

/// All bytes of a file.
pub fn read<R: Files>(files: &R, path: &str) -> Result<Vec<u8>> {
    let mut bytes = Vec::default();
    open(files, path)?.read_to_end(&mut bytes)?;
    Ok(bytes)
}

/// All text of a file. It fails with `InvalidData` if that isn't UTF-8.
pub fn read_to_string<R: Files>(files: &R, path: &str) -> Result<String> {
    use crate::io::{Error, ErrorKind};
    String::from_utf8(read(files, path)?).map_err(|_| Error::from(ErrorKind::InvalidData))
}
