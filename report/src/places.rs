//! Where two texts first differ.
use serde::Serialize;

/// How many bytes an excerpt shows, and how many of them are before the difference.
const MOST: usize = 60;
const BEFORE: usize = 20;

/// Where two texts first differ.
#[derive(Clone, PartialEq, Eq, Debug, Serialize)]
pub struct Place {
    /// The line, from 1, if both are texts.
    pub line: Option<usize>,
    /// The byte, from 0.
    pub byte: usize,
    /// What is there in each.
    pub excerpts: [String; 2],
}

fn is_text(bytes: &[u8]) -> bool {
    !bytes.contains(&0) && std::str::from_utf8(bytes).is_ok()
}

/// What is shown of a text around a byte: of a text the line's part, of other bytes those that can be shown.
fn excerpt(bytes: &[u8], at: usize, is_text: bool) -> String {
    let begin = bytes[..at].iter().rposition(|&byte| is_text && byte == b'\n').map_or(0, |line| line + 1);
    let begin = begin.max(at.saturating_sub(BEFORE));
    let rest = &bytes[begin..bytes.len().min(begin + MOST)];
    let end = rest.iter().position(|&byte| is_text && byte == b'\n').filter(|end| begin + end >= at);
    let shown = &rest[..end.unwrap_or(rest.len())];
    if is_text {
        String::from_utf8_lossy(shown).into_owned()
    } else {
        shown.iter().flat_map(|&byte| std::ascii::escape_default(byte)).map(char::from).collect()
    }
}

/// Where two texts first differ, if they do.
pub fn place(one: &[u8], other: &[u8]) -> Option<Place> {
    let same = one.iter().zip(other).take_while(|(a, b)| a == b).count();
    if same == one.len() && same == other.len() {
        return None;
    }
    let are_texts = is_text(one) && is_text(other);
    let line = one[..same].split(|&byte| byte == b'\n').count();
    let excerpts = [one, other].map(|text| excerpt(text, same, are_texts));
    Some(Place { line: are_texts.then_some(line), byte: same, excerpts })
}

#[cfg(test)]
mod tests {
    use super::*;

    #[test]
    fn texts_differ_in_lines_and_others_in_bytes() {
        let at = |line, byte, one: &str, other: &str| {
            Some(Place { line, byte, excerpts: [one, other].map(String::from) })
        };
        let cases: [(&[u8], &[u8], Option<Place>); 6] = [
            (b"a\nbc\nd", b"a\nbx\nd", at(Some(2), 3, "bc", "bx")),
            (b"a\n", b"a\nb\n", at(Some(2), 2, "", "b")),
            (b"a", b"a", None),
            (b"\x7fELF\0a", b"\x7fELF\0b", at(None, 5, "\\x7fELF\\x00a", "\\x7fELF\\x00b")),
            (b"", b"a", at(Some(1), 0, "", "a")),
            (b"x\nab", b"x\nac", at(Some(2), 3, "ab", "ac")),
        ];
        for (one, other, wanted) in cases {
            assert_eq!(place(one, other), wanted, "{one:?} {other:?}");
        }
        let long = [&[b'a'; 100][..], b"\n"].concat();
        let other = [&[b'a'; 99][..], b"b\n"].concat();
        assert_eq!(place(&long, &other).unwrap().excerpts, ["a".repeat(21), "a".repeat(20) + "b"]);
    }
}
