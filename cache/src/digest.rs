//! Digests: BLAKE3 with 32 bytes.
use serde::{Deserialize, Serialize};
use std::fmt::{self, Display, Formatter};
use std::str::FromStr;

/// A digest. It is shown in hexadecimal digits.
#[derive(Clone, Copy, PartialEq, Eq, Debug, Serialize, Deserialize)]
pub struct Digest(pub [u8; 32]);

impl Digest {
    /// The digest of a text.
    pub fn of(text: &[u8]) -> Digest {
        Digest(blake3::hash(text).into())
    }
}

impl FromStr for Digest {
    type Err = ();

    /// A digest by its hexadecimal digits, of which it has 64.
    fn from_str(text: &str) -> Result<Digest, ()> {
        let mut bytes = [0; 32];
        let is_digits = text.len() == 64 && text.bytes().all(|byte| byte.is_ascii_hexdigit());
        for (place, byte) in bytes.iter_mut().enumerate().filter(|_| is_digits) {
            *byte = u8::from_str_radix(&text[2 * place..2 * place + 2], 16).map_err(drop)?;
        }
        is_digits.then_some(Digest(bytes)).ok_or(())
    }
}

impl Display for Digest {
    fn fmt(&self, out: &mut Formatter<'_>) -> fmt::Result {
        self.0.iter().try_for_each(|byte| write!(out, "{byte:02x}"))
    }
}

/// Takes a text in parts, and says its digest. (Its state has two kilobytes, too many for what has it as a
/// part.)
#[derive(Clone, Debug, Default)]
pub struct Hasher(Box<blake3::Hasher>);

impl Hasher {
    /// Takes the next part of the text.
    pub fn update(&mut self, part: &[u8]) {
        self.0.update(part);
    }

    /// Takes a text with its length, so that texts that follow each other don't run together.
    pub fn add(&mut self, text: &[u8]) {
        self.update(&(text.len() as u64).to_le_bytes());
        self.update(text);
    }

    /// The digest of what was taken.
    pub fn finish(self) -> Digest {
        Digest(self.0.finalize().into())
    }
}

#[cfg(test)]
mod tests {
    use super::*;

    #[test]
    fn parts_do_not_count_but_their_lengths_can() {
        let of = |parts: &[&[u8]], add: fn(&mut Hasher, &[u8])| {
            let mut hasher = Hasher::default();
            for part in parts {
                add(&mut hasher, part);
            }
            hasher.finish()
        };
        let long = [7; 300];
        assert_eq!(of(&[&long[..100], &[], &long[100..]], Hasher::update), Digest::of(&long));
        assert_ne!(of(&[b"ab", b"c"], Hasher::add), of(&[b"a", b"bc"], Hasher::add));
    }

    #[test]
    fn a_digest_is_read_back() {
        let digest = Digest::of(b"text");
        assert_eq!(digest.to_string().parse(), Ok(digest));
        for text in ["", "0", &"g".repeat(64), &"0".repeat(63), &"0".repeat(65), &"+0".repeat(32)] {
            assert_eq!(text.parse::<Digest>(), Err(()), "{text}");
        }
    }
}
