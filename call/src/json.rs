//! Texts in JSON.
use crate::memory::{OutOfMemory, push};

/// Adds the text that these parts make, in JSON.
pub(crate) fn push_text(text: &mut String, parts: &[&str]) -> Result<(), OutOfMemory> {
    push(text, "\"")?;
    for c in parts.iter().flat_map(|part| part.chars()) {
        match c {
            '"' | '\\' | '\0'..='\x1f' | '\x7f' => push(text, &format!("\\u{:04x}", u32::from(c)))?,
            _ => push(text, c.encode_utf8(&mut [0; 4]))?,
        }
    }
    push(text, "\"")
}

#[cfg(test)]
mod tests {
    use super::*;

    #[test]
    fn texts_keep_their_characters() {
        let mut text = String::new();
        push_text(&mut text, &["a \"b\"", "\\\n\x7fé"]).unwrap();
        assert_eq!(text, "\"a \\u0022b\\u0022\\u005c\\u000a\\u007fé\"");
    }
}
