//! The classes of Perl's regular expressions, as Unicode Technical Standard 18 defines them.

use crate::word::BOUNDARIES;

/// Whether `\w` matches `c`.
#[inline]
pub fn is_word_character(c: char) -> bool {
    if c.is_ascii() {
        c.is_ascii_alphanumeric() || c == '_'
    } else {
        is_word_code(u32::from(c))
    }
}

// Behind an odd number of boundaries a code is in the set.
fn is_word_code(code: u32) -> bool {
    BOUNDARIES.partition_point(|boundary| *boundary <= code) % 2 == 1
}
