//! Growable texts.

use crate::alloc::{AllocError, Global, allocated};
use crate::vec::Vec;
use core::borrow::Borrow;
use core::fmt::{self, Write};
use core::ops::Deref;
use core::str::Utf8Error;

/// Rust's `String` with methods that report a failed allocation, and none that abort on one.
#[derive(PartialEq, Eq, PartialOrd, Ord, Hash, Default)]
pub struct String {
    text: rust::string::String,
}

impl String {
    /// The empty text. It doesn't allocate.
    #[inline]
    pub const fn new(_alloc: Global) -> String {
        String {
            text: rust::string::String::new(),
        }
    }

    /// The empty text with room for `capacity` bytes.
    #[inline]
    pub fn with_capacity(_alloc: Global, capacity: usize) -> Result<String, AllocError> {
        let text = rust::string::String::from_utf8(allocated(capacity)?).unwrap_or_default();
        Ok(String { text })
    }

    /// A copy of `text`.
    #[inline]
    pub fn from_str(_alloc: Global, text: &str) -> Result<String, AllocError> {
        String::copy_of(text)
    }

    #[inline]
    pub(crate) fn copy_of(text: &str) -> Result<String, AllocError> {
        let mut copy = String::with_capacity(Global, text.len())?;
        copy.text.push_str(text);
        Ok(copy)
    }

    /// The text whose UTF-8 is `bytes`, which it doesn't copy. The error gives them back.
    #[inline]
    pub fn from_utf8(bytes: Vec<u8>) -> Result<String, FromUtf8Error> {
        match rust::string::String::from_utf8(bytes.into_rust()) {
            Ok(text) => Ok(String { text }),
            Err(error) => Err(FromUtf8Error { error }),
        }
    }

    /// What `format!` calls.
    #[doc(hidden)]
    pub fn format(alloc: Global, arguments: fmt::Arguments<'_>) -> Result<String, AllocError> {
        let mut made = String::new(alloc);
        made.write_fmt(arguments)?;
        Ok(made)
    }

    /// How many bytes there is room for.
    pub fn capacity(&self) -> usize {
        self.text.capacity()
    }

    /// The text.
    #[inline]
    pub fn as_str(&self) -> &str {
        &self.text
    }

    /// The text's UTF-8.
    #[inline]
    pub fn into_bytes(self) -> Vec<u8> {
        Vec::from_rust(self.text.into_bytes())
    }

    /// Makes room for `additional` more bytes.
    #[inline]
    pub fn reserve(&mut self, additional: usize) -> Result<(), AllocError> {
        Ok(self.text.try_reserve(additional)?)
    }

    /// Appends `text`. On an error this text is unchanged.
    #[inline]
    pub fn push_str(&mut self, text: &str) -> Result<(), AllocError> {
        // Rust's `push_str` asks this again, unless the compiler sees that it has been asked.
        if text.len() > self.text.capacity() - self.text.len() {
            return self.grow_and_push_str(text);
        }
        self.text.push_str(text);
        Ok(())
    }

    #[cold]
    fn grow_and_push_str(&mut self, text: &str) -> Result<(), AllocError> {
        self.text.try_reserve(text.len())?;
        self.text.push_str(text);
        Ok(())
    }

    /// Appends a character. On an error this text is unchanged.
    #[inline]
    pub fn push(&mut self, c: char) -> Result<(), AllocError> {
        self.text.try_reserve(c.len_utf8())?;
        self.text.push(c);
        Ok(())
    }

    /// Takes the last character.
    pub fn pop(&mut self) -> Option<char> {
        self.text.pop()
    }

    /// Makes this the empty text, and keeps its room.
    pub fn clear(&mut self) {
        self.text.clear();
    }

    /// Keeps the first `count` bytes, which have to end with a character.
    pub fn truncate(&mut self, count: usize) {
        self.text.truncate(count);
    }

    /// What `write!` calls. On an error this text is unchanged, also if it is the value's own.
    pub fn write_fmt(&mut self, arguments: fmt::Arguments<'_>) -> Result<(), AllocError> {
        let before = self.len();
        Appending { text: self }.write_fmt(arguments).map_err(|_| {
            self.truncate(before);
            AllocError
        })
    }
}

// Not on `String` itself, whose own `write_fmt` reports a failed allocation.
struct Appending<'a> {
    text: &'a mut String,
}

impl fmt::Write for Appending<'_> {
    #[inline]
    fn write_str(&mut self, text: &str) -> fmt::Result {
        self.text.push_str(text).map_err(|_| fmt::Error)
    }
}

impl Deref for String {
    type Target = str;

    #[inline]
    fn deref(&self) -> &str {
        &self.text
    }
}

impl AsRef<str> for String {
    fn as_ref(&self) -> &str {
        self
    }
}

// With the same hash and order as `str`, since both are derived from Rust's `String`.
impl Borrow<str> for String {
    #[inline]
    fn borrow(&self) -> &str {
        self
    }
}

impl PartialEq<str> for String {
    fn eq(&self, other: &str) -> bool {
        self.as_str() == other
    }
}

impl PartialEq<&str> for String {
    fn eq(&self, other: &&str) -> bool {
        self.as_str() == *other
    }
}

impl fmt::Display for String {
    fn fmt(&self, f: &mut fmt::Formatter<'_>) -> fmt::Result {
        f.pad(self)
    }
}

impl fmt::Debug for String {
    fn fmt(&self, f: &mut fmt::Formatter<'_>) -> fmt::Result {
        self.text.fmt(f)
    }
}

/// Bytes that aren't UTF-8.
#[derive(Debug, PartialEq, Eq)]
pub struct FromUtf8Error {
    error: rust::string::FromUtf8Error,
}

impl FromUtf8Error {
    /// The bytes.
    pub fn into_bytes(self) -> Vec<u8> {
        Vec::from_rust(self.error.into_bytes())
    }

    /// Where the first wrong byte is.
    pub fn utf8_error(&self) -> Utf8Error {
        self.error.utf8_error()
    }
}

/// A value's printed form.
pub trait ToString: fmt::Display {
    /// What `{}` prints.
    fn to_string(&self, alloc: Global) -> Result<String, AllocError>;
}

// Not for `str`, which has no size: it has `TextToString`.
impl<T: fmt::Display> ToString for T {
    fn to_string(&self, alloc: Global) -> Result<String, AllocError> {
        String::format(alloc, format_args!("{self}"))
    }
}

/// A text's printed form, which is a copy of it.
pub trait TextToString {
    /// A copy of the text.
    fn to_string(&self, alloc: Global) -> Result<String, AllocError>;
}

impl TextToString for str {
    #[inline]
    fn to_string(&self, alloc: Global) -> Result<String, AllocError> {
        String::from_str(alloc, self)
    }
}

/// `str::replace`, under another name, since Rust's can't be hidden.
pub trait Replace {
    /// A copy with each `from` replaced by `to`, from left to right.
    fn replace_in(&self, alloc: Global, from: &str, to: &str) -> Result<String, AllocError>;
}

impl Replace for str {
    fn replace_in(&self, alloc: Global, from: &str, to: &str) -> Result<String, AllocError> {
        let mut made = String::with_capacity(alloc, self.len())?;
        let mut end = 0;
        for (place, found) in self.match_indices(from) {
            made.push_str(&self[end..place])?;
            made.push_str(to)?;
            end = place + found.len();
        }
        made.push_str(&self[end..])?;
        Ok(made)
    }
}
