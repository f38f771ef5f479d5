//! What the cache keeps of a command.
use crate::marked::Marked;
use serde::{Deserialize, Serialize};

/// What a command has made of an output.
#[derive(Clone, PartialEq, Eq, Debug, Serialize, Deserialize)]
pub enum Made {
    /// It left it out.
    Nothing,
    File(Marked),
}

/// What a command has made and said.
#[derive(Clone, PartialEq, Eq, Debug, Default, Serialize, Deserialize)]
pub struct Entry {
    /// What has become of its outputs, in the order of its record.
    pub outputs: Vec<Made>,
    pub out: Marked,
    pub errors: Marked,
    /// The kind of terminal for which its messages are; empty if for none.
    pub terminal: Vec<u8>,
}

impl Entry {
    /// Whether the command said something.
    pub fn speaks(&self) -> bool {
        [&self.out, &self.errors]
            .iter()
            .any(|text| text.has_marks() || text.0.iter().any(|part| !part.is_empty()))
    }
}

#[cfg(test)]
mod tests {
    use super::*;
    use crate::stored::{of_bytes, to_bytes};

    fn example() -> Entry {
        Entry {
            outputs: vec![
                Made::File(Marked::of(b"x /t y", b"/t")),
                Made::Nothing,
                Made::File(Marked::of(b"\0\x01", b"")),
            ],
            out: Marked::of(b"", b""),
            errors: Marked::of(b"k.cu:1: warning", b""),
            terminal: b"xterm".to_vec(),
        }
    }

    #[test]
    fn entries_are_read_back() {
        for entry in [example(), Entry::default()] {
            assert_eq!(of_bytes(&to_bytes(&entry)), Some(entry));
        }
    }

    #[test]
    fn a_part_of_an_entry_is_none() {
        let bytes = to_bytes(&example());
        for size in 0..bytes.len() {
            assert_eq!(of_bytes::<Entry>(&bytes[..size]), None, "{size}");
        }
        assert_eq!(of_bytes::<Entry>(&[&bytes[..], &[0]].concat()), None, "a byte more");
        for place in 0..8 * bytes.len() {
            let mut damaged = bytes.clone();
            damaged[place / 8] ^= 1 << (place % 8);
            assert_ne!(of_bytes(&damaged), Some(example()), "bit {place}");
        }
        let long = [&[0xff; 9][..], &[1], &bytes[1..]].concat();
        assert_eq!(of_bytes::<Entry>(&long), None, "a count without end");
    }

    #[test]
    fn silent_entries_are_known() {
        assert!(example().speaks() && !Entry::default().speaks());
        assert!(!Entry { errors: example().out, ..Entry::default() }.speaks());
        assert!(Entry { out: Marked::of(b"/t", b"/t"), ..Entry::default() }.speaks());
    }
}
