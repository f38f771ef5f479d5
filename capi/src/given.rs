//! What callers pass: texts, lists of them, and numbers.
use call::{Error, ErrorKind, Variable, copied_bytes, listed};
use std::ffi::{CStr, OsStr, c_char};
use std::os::unix::ffi::OsStrExt;
use std::path::Path;
use std::slice;

/// As a length: up to a NUL. As the number of texts: up to a NULL. As a command: none. (cbindgen can't write
/// it: see cbindgen.toml.)
pub const ZIGRUNK_ALL: usize = usize::MAX;

/// A text.
#[repr(C)]
#[derive(Clone, Copy)]
pub struct zigrunk_text {
    /// Its bytes.
    pub bytes: *const c_char,
    /// How many there are.
    pub length: usize,
}

/// A list of texts.
#[repr(C)]
#[derive(Clone, Copy)]
pub struct zigrunk_texts {
    /// The texts.
    pub items: *const *const c_char,
    /// Their lengths.
    pub lengths: *const usize,
    /// How many there are.
    pub count: usize,
}

/// The elements of an array, which may be NULL if it has none.
///
/// # Safety
///
/// The pointer is valid for so many elements.
pub(crate) unsafe fn elements<'a, T>(items: *const T, count: usize) -> &'a [T] {
    if items.is_null() {
        return &[];
    }
    // SAFETY: the caller ensures it.
    unsafe { slice::from_raw_parts(items, count) }
}

/// A list of what an iterator gives.
pub(crate) fn collected<T>(items: impl Iterator<Item = T>) -> Result<Vec<T>, Error> {
    listed(items.map(Ok))
}

/// The value that a number of a caller's means, of all that there are.
pub(crate) fn meant<T: Copy>(all: &[T], number: u32, number_of: impl Fn(T) -> u32) -> Result<T, Error> {
    all.iter().copied().find(|one| number_of(*one) == number).ok_or_else(|| ErrorKind::BadNumber.into())
}

/// A text that has to be UTF-8.
fn utf8(text: &OsStr) -> Result<&str, Error> {
    text.to_str().ok_or_else(|| ErrorKind::NotUtf8.into())
}

/// # Safety
///
/// The pointer is NULL, or valid for the length, or up to a NUL.
unsafe fn bytes_of<'a>(text: *const c_char, length: usize) -> &'a [u8] {
    if length == ZIGRUNK_ALL && !text.is_null() {
        // SAFETY: the caller ensures that a NUL ends it.
        return unsafe { CStr::from_ptr(text) }.to_bytes();
    }
    // SAFETY: the caller ensures it.
    unsafe { elements(text.cast(), length) }
}

/// Of all of these the caller ensures that the pointer is valid for the length, or up to a NUL.
impl zigrunk_text {
    pub(crate) unsafe fn bytes<'a>(&self) -> &'a [u8] {
        // SAFETY: the caller ensures it.
        unsafe { bytes_of(self.bytes, self.length) }
    }

    pub(crate) unsafe fn os<'a>(&self) -> &'a OsStr {
        // SAFETY: the caller ensures it.
        OsStr::from_bytes(unsafe { self.bytes() })
    }

    pub(crate) unsafe fn path<'a>(&self) -> &'a Path {
        // SAFETY: the caller ensures it.
        Path::new(unsafe { self.os() })
    }

    pub(crate) unsafe fn utf8<'a>(&self) -> Result<&'a str, Error> {
        // SAFETY: the caller ensures it.
        utf8(unsafe { self.os() })
    }
}

/// Of all of these the caller ensures that the pointers are valid for their numbers and lengths.
impl zigrunk_texts {
    unsafe fn count(&self) -> usize {
        if self.items.is_null() || self.count != ZIGRUNK_ALL {
            return if self.items.is_null() { 0 } else { self.count };
        }
        // SAFETY: the caller ensures that a NULL ends the list.
        (0..usize::MAX).take_while(|&number| !unsafe { *self.items.add(number) }.is_null()).count()
    }

    pub(crate) unsafe fn listed<'a>(&self) -> Result<Vec<&'a OsStr>, Error> {
        // SAFETY: the caller ensures it.
        let (items, lengths) =
            unsafe { (elements(self.items, self.count()), elements(self.lengths, self.count())) };
        collected(items.iter().enumerate().map(|(number, &item)| {
            let length = lengths.get(number).copied().unwrap_or(ZIGRUNK_ALL);
            // SAFETY: as above; a text that is NULL is empty.
            OsStr::from_bytes(if item.is_null() { &[] } else { unsafe { bytes_of(item, length) } })
        }))
    }

    pub(crate) unsafe fn utf8<'a>(&self) -> Result<Vec<&'a str>, Error> {
        // SAFETY: the caller ensures it.
        listed(unsafe { self.listed()? }.into_iter().map(utf8))
    }

    /// The variables of a list of `NAME=VALUE`, whatever their bytes. What has no `=` behind a first byte is
    /// no variable.
    pub(crate) unsafe fn variables<'a>(&self) -> Result<Vec<Variable<'a>>, Error> {
        // SAFETY: the caller ensures it.
        collected(unsafe { self.listed()? }.into_iter().filter_map(variable_of))
    }
}

fn variable_of(text: &OsStr) -> Option<Variable<'_>> {
    let text = text.as_bytes();
    let equals = text.iter().skip(1).position(|byte| *byte == b'=')? + 1;
    Some(Variable::new(OsStr::from_bytes(&text[..equals]), OsStr::from_bytes(&text[equals + 1..])))
}

/// An environment: its variables that are UTF-8, and the others as they are, which commands get too.
pub(crate) struct Environment<'a> {
    pub(crate) variables: Vec<Variable<'a>>,
    pub(crate) others: Vec<&'a [u8]>,
}

impl<'a> Environment<'a> {
    /// # Safety
    ///
    /// The pointers are valid for their numbers and lengths.
    pub(crate) unsafe fn of(texts: &zigrunk_texts) -> Result<Environment<'a>, Error> {
        // SAFETY: the caller ensures it.
        let texts: Vec<&'a OsStr> = unsafe { texts.listed()? };
        let is_text = |text: &&&OsStr| text.to_str().is_some();
        let variables = collected(texts.iter().filter(is_text).filter_map(|text| variable_of(text)))?;
        let others = collected(texts.iter().filter(|text| !is_text(text)).map(|text| text.as_bytes()))?;
        Ok(Environment { variables, others })
    }
}

/// Copies of bytes.
pub(crate) fn copies(texts: &[&[u8]]) -> Result<Vec<Vec<u8>>, Error> {
    listed(texts.iter().map(|text| Ok(copied_bytes(text)?)))
}
