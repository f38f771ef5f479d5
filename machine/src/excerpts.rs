//! Texts as messages show them: shortened, on one line, and without control characters.
use std::io;

/// Whether a character shows nothing, or changes where the following ones are shown. With it, a file's name
/// could make a terminal show another message.
fn is_hidden(c: char) -> bool {
    c.is_control()
        || matches!(c, '\u{200b}'..='\u{200f}' | '\u{2028}'..='\u{202e}' | '\u{2060}'..='\u{206f}' | '\u{feff}')
}

fn shown(c: char) -> String {
    match c {
        '\0' => "\\0".into(),
        _ if is_hidden(c) => c.escape_default().to_string(),
        _ => c.to_string(),
    }
}

/// A byte of a text that isn't UTF-8.
fn shown_byte(byte: u8) -> String {
    if byte.is_ascii() { shown(char::from(byte)) } else { byte.escape_ascii().to_string() }
}

/// The first characters of a text, at most so many, and `..` if there are more. If it isn't UTF-8, each byte
/// is a character.
pub fn excerpt(text: &[u8], most: usize) -> String {
    let all: Vec<String> = match std::str::from_utf8(text) {
        Ok(text) => text.chars().take(most + 1).map(shown).collect(),
        Err(_) => text.iter().take(most + 1).map(|&byte| shown_byte(byte)).collect(),
    };
    let more = if all.len() > most { ".." } else { "" };
    format!("{}{more}", all[..all.len().min(most)].concat())
}

/// An error's text without the number that std adds.
pub fn plain(error: &io::Error) -> String {
    let text = error.to_string();
    text.split(" (os error").next().unwrap_or_default().to_owned()
}

#[cfg(test)]
mod tests {
    use super::*;

    #[test]
    fn reasons_have_no_number() {
        assert_eq!(plain(&io::Error::from_raw_os_error(2)), "No such file or directory");
        assert_eq!(plain(&io::Error::other("odd")), "odd");
    }

    #[test]
    fn excerpts_are_short_and_visible() {
        let cases: [(&[u8], usize, &str); 8] = [
            (b"", 3, ""),
            (b"abc", 3, "abc"),
            (b"abcd", 3, "abc.."),
            ("é\u{202e}b".as_bytes(), 9, "é\\u{202e}b"),
            (b"a\x1b[31m\n", 9, "a\\u{1b}[31m\\n"),
            (b"a\0b", 2, "a\\0.."),
            (b"x\xffy\n", 9, "x\\xffy\\n"),
            (b"\xff\xff\xff", 2, "\\xff\\xff.."),
        ];
        for (text, most, wanted) in cases {
            assert_eq!(excerpt(text, most), wanted);
        }
    }
}
