//! Texts in order, words for shells, and canonical names.
use crate::error::{Error, ErrorKind, Input};
use crate::memory::{copied, texts};
use ::texts::shell;
use ::texts::words::Words;
use canonical_names::{Renames, all_suffixes, remap_generated_filenames};
use rattle_std::alloc::Global;
use rattle_std::string::String as Text;
use std::fmt;
use std::iter::FusedIterator;
use std::ops::Index;
use std::slice;

/// A list of texts.
#[derive(PartialEq)]
pub struct Texts(Words);

impl Texts {
    pub(crate) fn of(words: Words) -> Texts {
        Texts(words)
    }

    /// How many texts there are.
    #[must_use]
    pub fn len(&self) -> usize {
        self.0.len()
    }

    /// Whether there is none.
    #[must_use]
    pub fn is_empty(&self) -> bool {
        self.0.is_empty()
    }

    /// The text with a number, from 0.
    #[must_use]
    pub fn get(&self, number: usize) -> Option<&str> {
        self.0.as_slice().get(number).map(Text::as_str)
    }

    /// The texts in order.
    #[must_use]
    pub fn iter(&self) -> TextsIter<'_> {
        TextsIter::of(self.0.as_slice())
    }
}

impl Eq for Texts {}

impl Index<usize> for Texts {
    type Output = str;

    /// The text with a number, from 0. Panics if there is none, as a slice does.
    fn index(&self, number: usize) -> &str {
        self.0.as_slice()[number].as_str()
    }
}

impl fmt::Debug for Texts {
    fn fmt(&self, f: &mut fmt::Formatter<'_>) -> fmt::Result {
        self.iter().fmt(f)
    }
}

impl<'a> IntoIterator for &'a Texts {
    type Item = &'a str;
    type IntoIter = TextsIter<'a>;

    fn into_iter(self) -> TextsIter<'a> {
        self.iter()
    }
}

/// The texts of a list, in order.
#[derive(Clone)]
pub struct TextsIter<'a>(slice::Iter<'a, Text>);

impl<'a> TextsIter<'a> {
    pub(crate) fn of(texts: &'a [Text]) -> Self {
        TextsIter(texts.iter())
    }
}

impl<'a> Iterator for TextsIter<'a> {
    type Item = &'a str;

    fn next(&mut self) -> Option<&'a str> {
        self.0.next().map(Text::as_str)
    }

    fn size_hint(&self) -> (usize, Option<usize>) {
        self.0.size_hint()
    }
}

impl DoubleEndedIterator for TextsIter<'_> {
    fn next_back(&mut self) -> Option<Self::Item> {
        self.0.next_back().map(Text::as_str)
    }
}

impl ExactSizeIterator for TextsIter<'_> {}
impl FusedIterator for TextsIter<'_> {}

impl fmt::Debug for TextsIter<'_> {
    fn fmt(&self, f: &mut fmt::Formatter<'_>) -> fmt::Result {
        f.debug_list().entries(self.clone()).finish()
    }
}

/// Splits a text into the words that a POSIX shell reads: quotes and backslashes group characters. Nothing is
/// expanded.
///
/// # Errors
///
/// [`ErrorKind::OpenQuote`] if the text ends inside quotes or in a backslash, `OutOfMemory`.
pub fn split(text: &str) -> Result<Texts, Error> {
    shell::split(Global, text)?
        .map(|words| Texts(Words::from_vec(words)))
        .ok_or_else(|| Error::plain(ErrorKind::OpenQuote))
}

/// Writes words as one text, which a POSIX shell and [`split`] read as these words.
///
/// # Errors
///
/// [`ErrorKind::OutOfMemory`].
pub fn quote<I>(words: I) -> Result<String, Error>
where
    I: IntoIterator,
    I::Item: AsRef<str>,
{
    let mut list = Words::new(Global);
    for word in words {
        list.push_str(Global, word.as_ref())?;
    }
    Ok(copied(shell::quote(Global, list.as_slice())?.as_str())?)
}

/// Lists words with canonical names for the files that nvcc generates: as many words, in their order. Pass
/// the words of all commands of a dry run, one command behind the other. The suffixes are behind the standard
/// ones.
///
/// # Errors
///
/// [`ErrorKind::BadSuffixes`], `OutOfMemory`.
pub fn remap<S: AsRef<str>, T: AsRef<str>>(words: &[S], suffixes: &[T]) -> Result<Texts, Error> {
    let suffixes =
        all_suffixes(Global, &texts(suffixes)?).map_err(|fault| Error::from(fault).at(Input::Suffixes))?;
    let mut renames = Renames::new(Global, &suffixes)?;
    let words = texts(words)?;
    Ok(Texts(remap_generated_filenames(Global, &words, &mut renames)?))
}
