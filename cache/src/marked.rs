//! Texts in which the call's directory has a mark, and a name that doesn't count.
use crate::digest::Hasher;
use crate::stored;
use machine::bytes::{contains, find};
use serde::{Deserialize, Serialize};
use std::borrow::Cow;

/// What stands in a text in place of a name that doesn't count.
const NAME: u8 = 0;

/// The parts of a text between the places where it has a directory's path. An empty path is nowhere.
pub fn parts<'a>(text: &'a [u8], directory: &[u8]) -> Vec<&'a [u8]> {
    let (mut parts, mut rest) = (Vec::new(), text);
    while let Some(begin) = find(rest, directory) {
        parts.push(&rest[..begin]);
        rest = &rest[begin + directory.len()..];
    }
    parts.push(rest);
    parts
}

/// A text with a mark wherever it has a name. `None` if it has such marks itself.
pub fn unnamed<'a>(text: &'a [u8], name: &[u8]) -> Option<Cow<'a, [u8]>> {
    if text.contains(&NAME) {
        return None;
    }
    let parts = parts(text, name);
    Some(if parts.len() > 1 { Cow::Owned(parts.join(&NAME)) } else { Cow::Borrowed(text) })
}

/// The text that has a name in place of each mark.
pub fn named(text: &[u8], name: &[u8]) -> Vec<u8> {
    text.split(|&byte| byte == NAME).collect::<Vec<_>>().join(name)
}

/// Whether a text has a name in the form that a symbol has: with `_` for what a symbol can't have. No mark is
/// put there.
pub fn has_symbol(text: &[u8], name: &[u8]) -> bool {
    let is_plain = |byte: u8| byte.is_ascii_alphanumeric() || matches!(byte, b'.' | b'_' | b'$');
    let symbol: Vec<u8> = name.iter().map(|&byte| if is_plain(byte) { byte } else { b'_' }).collect();
    symbol != name && contains(text, &symbol)
}

/// Whether a preprocessed text has a name elsewhere than in line markers.
pub fn shows(text: &[u8], name: &[u8]) -> bool {
    let mut from = 0;
    while let Some(place) = find(&text[from..], name) {
        let line = text[..from + place].iter().rposition(|&byte| byte == b'\n').map_or(0, |end| end + 1);
        if !text[line..].starts_with(b"# ") {
            return true;
        }
        from += place + 1;
    }
    false
}

/// Takes a text into a digest, with marks for a directory.
pub fn add_to(hasher: &mut Hasher, text: &[u8], directory: &[u8]) {
    let parts = parts(text, directory);
    hasher.update(&(parts.len() as u64).to_le_bytes());
    for part in parts {
        hasher.add(part);
    }
}

/// A text with marks for a directory.
#[derive(Clone, PartialEq, Eq, Debug, Default, Serialize, Deserialize)]
pub struct Marked(#[serde(with = "stored::texts")] pub Vec<Vec<u8>>);

impl Marked {
    /// A text, with a mark wherever it has a directory's path.
    pub fn of(text: &[u8], directory: &[u8]) -> Marked {
        Marked(parts(text, directory).into_iter().map(<[u8]>::to_vec).collect())
    }

    pub fn has_marks(&self) -> bool {
        self.0.len() > 1
    }

    /// The text for a directory.
    pub fn filled(&self, directory: &[u8]) -> Vec<u8> {
        self.0.join(directory)
    }
}

#[cfg(test)]
mod tests {
    use super::*;

    #[test]
    fn a_name_has_marks() {
        let text = b"# 1 \"k.a.cpp\"\n.file \"k.a.cpp\"\nk.b";
        let marked = unnamed(text, b"k.a").unwrap();
        assert_eq!(
            (&marked[..], named(&marked, b"k.a")),
            (&b"# 1 \"\0.cpp\"\n.file \"\0.cpp\"\nk.b"[..], text.to_vec())
        );
        assert_eq!(named(&marked, b"j.c"), b"# 1 \"j.c.cpp\"\n.file \"j.c.cpp\"\nk.b");
        assert_eq!(
            (unnamed(b"a\0b", b"k"), unnamed(b"ab", b"k").unwrap()),
            (None, Cow::Borrowed(&b"ab"[..]))
        );
        assert_eq!((named(b"", b"k"), named(b"\0", b"k")), (vec![], b"k".to_vec()));
        let symbols =
            [("_I_k_a.b.cpp", "k-a.b", true), ("_I_k-a.b", "k-a.b", false), ("_I_k.b", "k.b", false)];
        assert!(
            symbols
                .iter()
                .all(|(text, name, wanted)| has_symbol(text.as_bytes(), name.as_bytes()) == *wanted)
        );
        let cases = [
            ("# 1 \"k.a.cpp\"\nint a;\n", false),
            ("int a;\n", false),
            ("# 1 \"k.a\"\nk.a", true),
            (" # 1 \"k.a\"", true),
            ("# 1 \"k.a\" \"k.a\"\n# k.a", false),
            ("k.a\n# 1 \"k.a\"\n", true),
        ];
        assert_eq!(cases.map(|(text, _)| shows(text.as_bytes(), b"k.a")), cases.map(|(_, wanted)| wanted));
    }

    #[test]
    fn marks_are_filled_with_any_directory() {
        let marked = Marked::of(b"/t/a.h and /t/b.h", b"/t");
        assert_eq!(
            (marked.filled(b"/t"), marked.filled(b"/other")),
            (b"/t/a.h and /t/b.h".to_vec(), b"/other/a.h and /other/b.h".to_vec())
        );
        assert!(
            marked.has_marks()
                && !Marked::of(b"/t", b"").has_marks()
                && !Marked::of(b"/t", b"/u").has_marks()
        );
    }

    #[test]
    fn digests_see_where_marks_are() {
        let digest = |text: &str, directory: &str| {
            let mut hasher = Hasher::default();
            add_to(&mut hasher, text.as_bytes(), directory.as_bytes());
            hasher.finish()
        };
        assert_eq!(digest("a/t/b", "/t"), digest("a/other/b", "/other"));
        assert_ne!(digest("a/t/b", "/t"), digest("a/t/b", "/u"));
        assert_ne!(digest("a/tb", "/t"), digest("ab/t", "/t"));
        assert_ne!(digest("a/t", "/t"), digest("a", "/t"));
    }
}
