//! Which files a preprocessor read.
use crate::memory::OutOfMemory;

/// The files that a preprocessor's output says it was made from, each once, in the order of its line markers.
/// A path that isn't UTF-8 has U+FFFD in it.
///
/// # Errors
///
/// [`OutOfMemory`].
pub fn headers(preprocessed: &[u8]) -> Result<Vec<String>, OutOfMemory> {
    let mut found: Vec<String> = Vec::new();
    for quoted in preprocessed.split(|byte| *byte == b'\n').filter_map(quoted_in) {
        let Some(name) = name_in(quoted)? else { continue };
        if !name.starts_with('<') && !found.contains(&name) {
            found.try_reserve(1)?;
            found.push(name);
        }
    }
    Ok(found)
}

/// What is behind the first quote of a line marker, as `# 1 "k.cu"`.
fn quoted_in(line: &[u8]) -> Option<&[u8]> {
    let rest = line.strip_prefix(b"#line ").or_else(|| line.strip_prefix(b"# "))?;
    let digits = rest.iter().take_while(|byte| byte.is_ascii_digit()).count();
    rest[digits..].strip_prefix(b" \"").filter(|_| digits > 0)
}

/// The name up to a quote, without its escapes.
fn name_in(quoted: &[u8]) -> Result<Option<String>, OutOfMemory> {
    let (mut name, mut bytes) = (Vec::new(), quoted.iter());
    name.try_reserve_exact(quoted.len())?;
    loop {
        match bytes.next() {
            None => return Ok(None),
            Some(b'"') => return lossy(&name).map(Some),
            Some(b'\\') => name.extend(bytes.next()),
            Some(byte) => name.push(*byte),
        }
    }
}

/// A text with U+FFFD in place of what isn't UTF-8.
fn lossy(bytes: &[u8]) -> Result<String, OutOfMemory> {
    let mut text = String::new();
    for chunk in bytes.utf8_chunks() {
        text.try_reserve(chunk.valid().len() + char::REPLACEMENT_CHARACTER.len_utf8())?;
        text.push_str(chunk.valid());
        text.extend((!chunk.invalid().is_empty()).then_some(char::REPLACEMENT_CHARACTER));
    }
    Ok(text)
}

#[cfg(test)]
mod tests {
    use super::*;

    #[test]
    fn each_file_is_named_once() {
        let text = b"# 1 \"a.h\"\n#line 2 \"c\\\"d.h\"\n# 3 \"a.h\" 2\n# 1 \"<built-in>\"\n# pragma x\n# x \"b.h\"\n# 1 \"open\n# 4 \"e\xff\"";
        assert_eq!(headers(text).unwrap(), ["a.h", "c\"d.h", "e\u{fffd}"]);
    }
}
