//! Environment variables.
use crate::error::{Error, ErrorKind, Input};
use std::ffi::OsStr;
use std::fmt;

/// An environment variable, borrowed. One that isn't UTF-8 is an error of the call that reads it
/// ([`ErrorKind::NotUtf8`](crate::ErrorKind)).
#[derive(Clone, Copy, PartialEq, Eq, Hash)]
pub struct Variable<'a> {
    name: &'a OsStr,
    value: &'a OsStr,
}

impl<'a> Variable<'a> {
    /// A variable.
    #[must_use]
    pub fn new<N: AsRef<OsStr> + ?Sized, V: AsRef<OsStr> + ?Sized>(name: &'a N, value: &'a V) -> Self {
        Variable { name: name.as_ref(), value: value.as_ref() }
    }

    /// Its name and its value, if both are UTF-8.
    pub(crate) fn texts(&self) -> Result<(&'a str, &'a str), Error> {
        let texts = self.name.to_str().zip(self.value.to_str());
        texts.ok_or_else(|| Error::plain(ErrorKind::NotUtf8).at(Input::Variables))
    }

    /// The bytes of its name, and those of its value: UTF-8 if they are text.
    pub(crate) fn bytes(&self) -> (&'a [u8], &'a [u8]) {
        (self.name.as_encoded_bytes(), self.value.as_encoded_bytes())
    }
}

impl fmt::Debug for Variable<'_> {
    fn fmt(&self, f: &mut fmt::Formatter<'_>) -> fmt::Result {
        (self.name, self.value).fmt(f)
    }
}

/// Views of names and values, as [`std::env::vars_os`] gives them. Nothing is copied.
pub fn variables<N: AsRef<OsStr>, V: AsRef<OsStr>>(pairs: &[(N, V)]) -> Vec<Variable<'_>> {
    pairs.iter().map(|(name, value)| Variable::new(name, value)).collect()
}
