//! Rust's own calls on files. They abort if there is no memory for a long path.

use crate::io::Result;
use rust::fs::{File, Metadata};

pub(super) fn open(path: &str) -> Result<File> {
    Ok(File::open(path)?)
}

pub(super) fn metadata(path: &str) -> Result<Metadata> {
    Ok(rust::fs::metadata(path)?)
}
