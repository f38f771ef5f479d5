//! The text of a value.

use crate::value::{Map, Value};
use std::fmt::{self, Write};

impl fmt::Display for Value {
    fn fmt(&self, f: &mut fmt::Formatter<'_>) -> fmt::Result {
        let mut text = Text {
            f,
            pieces: [0; ROOM],
            count: 0,
        };
        text.value(self)?;
        text.flush()
    }
}

const ROOM: usize = 512;

// Collects the many short pieces of a text, since to pass each on by itself takes most of the time.
struct Text<'a, 'b> {
    f: &'a mut fmt::Formatter<'b>,
    // Whole pieces, so they are UTF-8.
    pieces: [u8; ROOM],
    count: usize,
}

impl Text<'_, '_> {
    fn flush(&mut self) -> fmt::Result {
        let pieces = std::str::from_utf8(&self.pieces[..self.count]).map_err(|_| fmt::Error)?;
        self.f.write_str(pieces)?;
        self.count = 0;
        Ok(())
    }

    fn value(&mut self, value: &Value) -> fmt::Result {
        match value {
            Value::Null => self.write_str("null"),
            Value::Bool(true) => self.write_str("true"),
            Value::Bool(false) => self.write_str("false"),
            Value::Number(number) => write!(self, "{number}"),
            Value::String(text) => self.quoted(text),
            Value::Array(items) => self.items(items),
            Value::Object(members) => self.members(members),
        }
    }

    fn items(&mut self, items: &[Value]) -> fmt::Result {
        self.mark(b'[')?;
        for (place, item) in items.iter().enumerate() {
            if place > 0 {
                self.mark(b',')?;
            }
            self.value(item)?;
        }
        self.mark(b']')
    }

    fn members(&mut self, members: &Map<String, Value>) -> fmt::Result {
        self.mark(b'{')?;
        for (place, (name, value)) in members.iter().enumerate() {
            if place > 0 {
                self.mark(b',')?;
            }
            self.quoted(name)?;
            self.mark(b':')?;
            self.value(value)?;
        }
        self.mark(b'}')
    }

    // Writes a character of ASCII.
    #[inline]
    fn mark(&mut self, mark: u8) -> fmt::Result {
        if self.count == ROOM {
            self.flush()?;
        }
        self.pieces[self.count] = mark;
        self.count += 1;
        Ok(())
    }

    fn quoted(&mut self, text: &str) -> fmt::Result {
        self.mark(b'"')?;
        if is_plain(text.as_bytes()) {
            self.write_str(text)?;
        } else {
            self.escaped(text)?;
        }
        self.mark(b'"')
    }

    // Writes a text up to each byte that needs an escape, and then that.
    fn escaped(&mut self, text: &str) -> fmt::Result {
        let mut rest = text;
        while let Some(place) = rest.bytes().position(needs_escape) {
            self.write_str(&rest[..place])?;
            self.escape(rest.as_bytes()[place])?;
            rest = &rest[place + 1..];
        }
        self.write_str(rest)
    }

    fn escape(&mut self, byte: u8) -> fmt::Result {
        match byte {
            b'"' => self.write_str("\\\""),
            b'\\' => self.write_str("\\\\"),
            b'\n' => self.write_str("\\n"),
            b'\r' => self.write_str("\\r"),
            b'\t' => self.write_str("\\t"),
            8 => self.write_str("\\b"),
            12 => self.write_str("\\f"),
            _ => write!(self, "\\u{byte:04x}"),
        }
    }
}

impl fmt::Write for Text<'_, '_> {
    fn write_str(&mut self, piece: &str) -> fmt::Result {
        if piece.len() > ROOM - self.count {
            self.flush()?;
        }
        if piece.len() > ROOM {
            return self.f.write_str(piece);
        }
        self.pieces[self.count..self.count + piece.len()].copy_from_slice(piece.as_bytes());
        self.count += piece.len();
        Ok(())
    }
}

// Whether no byte needs an escape, as in most texts: eight bytes at once, the last eight of which may overlap those before.
fn is_plain(bytes: &[u8]) -> bool {
    let Some(last) = bytes.last_chunk() else {
        return !bytes.iter().copied().any(needs_escape);
    };
    let chunks = bytes.chunks_exact(last.len());
    let mut chunks = chunks.map(|chunk| chunk.try_into().unwrap_or_default());
    !need_escapes(*last) && !chunks.any(need_escapes)
}

fn needs_escape(byte: u8) -> bool {
    byte < b' ' || byte == b'"' || byte == b'\\'
}

// Whether one of eight bytes needs an escape. If `n` is subtracted from a byte below it, that sets the byte's highest bit; it counts only
// if the byte hadn't it before. The byte above may lose one more then, which is no matter if one is found anyway.
fn need_escapes(bytes: [u8; 8]) -> bool {
    const ONES: u64 = u64::from_le_bytes([1; 8]);
    let below = |bytes: u64, n: u8| bytes.wrapping_sub(ONES * u64::from(n)) & !bytes;
    let bytes = u64::from_le_bytes(bytes);
    let quotes = bytes ^ (ONES * u64::from(b'"'));
    let backslashes = bytes ^ (ONES * u64::from(b'\\'));
    (below(bytes, b' ') | below(quotes, 1) | below(backslashes, 1)) & (ONES << 7) != 0
}
