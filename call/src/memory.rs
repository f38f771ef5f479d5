//! Copies that report a failed allocation. Inputs may be of any size, so no allocation that grows with one
//! ends the process.
use rattle_std::alloc::{AllocError, AllocFailed, Global};
use rattle_std::string::String as Text;
use rattle_std::vec::Vec as List;
use std::collections::TryReserveError;
use std::fmt::{self, Display, Write};
use std::io;
use std::path::Path;

/// An allocation failed.
#[derive(Clone, Copy, Debug, PartialEq, Eq)]
pub struct OutOfMemory;

impl fmt::Display for OutOfMemory {
    fn fmt(&self, f: &mut fmt::Formatter<'_>) -> fmt::Result {
        f.write_str("out of memory")
    }
}

impl std::error::Error for OutOfMemory {}

impl From<TryReserveError> for OutOfMemory {
    fn from(_: TryReserveError) -> OutOfMemory {
        OutOfMemory
    }
}

impl From<AllocError> for OutOfMemory {
    fn from(_: AllocError) -> OutOfMemory {
        OutOfMemory
    }
}

impl<T> From<AllocFailed<T>> for OutOfMemory {
    fn from(_: AllocFailed<T>) -> OutOfMemory {
        OutOfMemory
    }
}

/// A copy of a text.
///
/// # Errors
///
/// [`OutOfMemory`].
pub fn copied(text: &str) -> Result<String, OutOfMemory> {
    let mut copy = String::new();
    copy.try_reserve_exact(text.len())?;
    copy.push_str(text);
    Ok(copy)
}

/// A path as what runs in a directory finds it.
pub(crate) fn path_from(cwd: &str, path: &str) -> Result<String, OutOfMemory> {
    if path.starts_with('/') { copied(path) } else { joined(&[cwd, "/", path]) }
}

/// A path that Linux may open. The standard library copies one of 384 bytes or more to open it, and ends the
/// process if that is refused: so it doesn't get one that is too long to be opened, and what it copies
/// doesn't grow with the input.
pub(crate) fn openable(path: &str) -> io::Result<&Path> {
    const LONGEST: usize = 4095;
    const TOO_LONG: i32 = 36;
    if path.len() > LONGEST { Err(io::Error::from_raw_os_error(TOO_LONG)) } else { Ok(Path::new(path)) }
}

/// Adds to a text.
pub(crate) fn push(text: &mut String, more: &str) -> Result<(), OutOfMemory> {
    text.try_reserve(more.len())?;
    text.push_str(more);
    Ok(())
}

/// A copy of bytes.
///
/// # Errors
///
/// [`OutOfMemory`].
pub fn copied_bytes(bytes: &[u8]) -> Result<Vec<u8>, OutOfMemory> {
    let mut copy = Vec::new();
    copy.try_reserve_exact(bytes.len())?;
    copy.extend_from_slice(bytes);
    Ok(copy)
}

/// The texts one behind the other.
pub(crate) fn joined(parts: &[&str]) -> Result<String, OutOfMemory> {
    let mut whole = String::new();
    whole.try_reserve_exact(parts.iter().map(|part| part.len()).sum())?;
    for part in parts {
        whole.push_str(part);
    }
    Ok(whole)
}

/// Copies of names and values.
pub(crate) fn copied_pairs<'a>(
    pairs: impl Iterator<Item = &'a (String, String)>,
) -> Result<Vec<(String, String)>, OutOfMemory> {
    listed(pairs.map(|(name, value)| Ok((copied(name)?, copied(value)?))))
}

/// A text that grows as long as memory is left.
struct Growing(String);

impl Write for Growing {
    fn write_str(&mut self, text: &str) -> fmt::Result {
        push(&mut self.0, text).map_err(|_| fmt::Error)
    }
}

/// What a value displays.
///
/// # Errors
///
/// [`OutOfMemory`].
pub fn displayed(value: &impl Display) -> Result<String, OutOfMemory> {
    let mut text = Growing(String::new());
    write!(text, "{value}").map_err(|_| OutOfMemory)?;
    Ok(text.0)
}

/// A list of what an iterator gives.
///
/// # Errors
///
/// The first that the iterator gives, or [`OutOfMemory`].
pub fn listed<T, E: From<OutOfMemory>>(items: impl Iterator<Item = Result<T, E>>) -> Result<Vec<T>, E> {
    let mut list = Vec::new();
    list.try_reserve(items.size_hint().0).map_err(OutOfMemory::from)?;
    for item in items {
        list.try_reserve(1).map_err(OutOfMemory::from)?;
        list.push(item?);
    }
    Ok(list)
}

/// A copy of a text for the proved crates.
pub(crate) fn text(text: &str) -> Result<Text, OutOfMemory> {
    Ok(Text::from_str(Global, text)?)
}

/// Copies of texts for the proved crates.
pub(crate) fn texts<S: AsRef<str>>(texts: &[S]) -> Result<List<Text>, OutOfMemory> {
    let mut list = List::with_capacity(Global, texts.len())?;
    for one in texts {
        list.push(text(one.as_ref())?)?;
    }
    Ok(list)
}

/// Copies of names and values for the proved crates.
pub(crate) fn pairs<S: AsRef<str>>(variables: &[(S, S)]) -> Result<List<(Text, Text)>, OutOfMemory> {
    let mut list = List::with_capacity(Global, variables.len())?;
    for (name, value) in variables {
        list.push((text(name.as_ref())?, text(value.as_ref())?))?;
    }
    Ok(list)
}

/// Copies of texts of the proved crates.
pub(crate) fn strings(texts: &[Text]) -> Result<Vec<String>, OutOfMemory> {
    listed(texts.iter().map(|text| copied(text.as_str())))
}
