//! Rust text as tokens. Ghost text is read by the same rules: it has strings and brackets as Rust has them.

use std::fmt;

/// What a token is.
#[derive(Clone, Copy, Debug, PartialEq, Eq)]
pub enum Kind {
    /// An identifier or a keyword.
    Word,
    /// `'a`, also as the label of a loop.
    Lifetime,
    /// A string, a character or a number.
    Literal,
    /// A comment, with the marks that make it one.
    Comment,
    /// One character of anything else.
    Symbol,
}

/// A token and where it begins in its file, in bytes.
#[derive(Clone, Copy, Debug, PartialEq, Eq)]
pub struct Token<'a> {
    pub kind: Kind,
    pub start: usize,
    pub text: &'a str,
}

impl Token<'_> {
    /// The byte after the token.
    pub fn end(&self) -> usize {
        self.start + self.text.len()
    }

    /// Whether the token is a comment that documents what surrounds it: `//!`.
    pub fn is_inner_doc(&self) -> bool {
        self.kind == Kind::Comment && self.text.starts_with("//!")
    }
}

/// A comment or literal that the file ends in.
#[derive(Debug, PartialEq, Eq)]
pub struct Unended {
    /// The byte at which it begins.
    pub start: usize,
}

impl fmt::Display for Unended {
    fn fmt(&self, f: &mut fmt::Formatter<'_>) -> fmt::Result {
        write!(
            f,
            "the comment or literal at byte {} has no end",
            self.start
        )
    }
}

/// The tokens of a text, in order. Only blanks are between them.
pub fn tokens(text: &str) -> Result<Vec<Token<'_>>, Unended> {
    let mut found = Vec::new();
    let mut start = 0;
    while let Some(first) = text[start..].chars().next() {
        if first.is_whitespace() {
            start += first.len_utf8();
            continue;
        }
        let (kind, length) = first_token(&text[start..]).ok_or(Unended { start })?;
        found.push(Token {
            kind,
            start,
            text: &text[start..start + length],
        });
        start += length;
    }
    Ok(found)
}

// The kind and the length of the token that a text begins with, unless it has no end.
fn first_token(text: &str) -> Option<(Kind, usize)> {
    if text.starts_with("//") {
        return Some((Kind::Comment, text.find('\n').unwrap_or(text.len())));
    }
    if text.starts_with("/*") {
        return Some((Kind::Comment, block_comment(text)?));
    }
    if let Some(length) = prefixed_literal(text) {
        return Some((Kind::Literal, length?));
    }
    match text.chars().next()? {
        '"' => Some((Kind::Literal, quoted(text, '"')?)),
        '\'' => Some(quote(text)),
        c if c.is_ascii_digit() => Some((Kind::Literal, word(text))),
        c if is_in_word(c) => Some((Kind::Word, word(text))),
        c => Some((Kind::Symbol, c.len_utf8())),
    }
}

fn is_in_word(c: char) -> bool {
    c.is_alphanumeric() || c == '_'
}

// How long the word at the beginning is.
fn word(text: &str) -> usize {
    text.find(|c| !is_in_word(c)).unwrap_or(text.len())
}

// How long the block comment at the beginning is. Such comments nest.
fn block_comment(text: &str) -> Option<usize> {
    let mut depth = 0;
    let mut at = 0;
    loop {
        let rest = &text[at..];
        if rest.starts_with("/*") {
            depth += 1;
            at += 2;
        } else if rest.starts_with("*/") {
            depth -= 1;
            at += 2;
            if depth == 0 {
                return Some(at);
            }
        } else {
            at += rest.chars().next()?.len_utf8();
        }
    }
}

// How long the literal with letters in front is that the text begins with. The inner option is empty if it has no end.
fn prefixed_literal(text: &str) -> Option<Option<usize>> {
    let letters = ["br", "cr", "r", "b", "c"];
    let prefix = letters.into_iter().find(|it| text.starts_with(it))?;
    let rest = &text[prefix.len()..];
    let length = if prefix.ends_with('r') {
        raw(rest)?
    } else if rest.starts_with('"') {
        quoted(rest, '"')
    } else if prefix == "b" && rest.starts_with('\'') {
        quoted(rest, '\'')
    } else {
        return None;
    };
    Some(length.map(|it| prefix.len() + it))
}

// How long a raw string is from its number signs on, if it is one.
fn raw(text: &str) -> Option<Option<usize>> {
    let signs = text.find(|c| c != '#')?;
    let inner = text[signs..].strip_prefix('"')?;
    let close = format!("\"{}", "#".repeat(signs));
    Some(inner.find(&close).map(|it| signs + 1 + it + close.len()))
}

// How long a literal between two quotes is, in which a backslash escapes a character.
fn quoted(text: &str, mark: char) -> Option<usize> {
    let mut characters = text.char_indices().skip(1);
    while let Some((place, c)) = characters.next() {
        match c {
            '\\' => drop(characters.next()),
            c if c == mark => return Some(place + 1),
            _ => {}
        }
    }
    None
}

// What a single quote begins: a character, a lifetime, or nothing of Rust, in ghost text.
fn quote(text: &str) -> (Kind, usize) {
    let mut characters = text.chars().skip(1);
    match (characters.next(), characters.next()) {
        (Some('\\'), _) => match quoted(text, '\'') {
            Some(length) => (Kind::Literal, length),
            None => (Kind::Symbol, 1),
        },
        (Some(c), Some('\'')) => (Kind::Literal, 2 + c.len_utf8()),
        (Some(c), _) if is_in_word(c) => (Kind::Lifetime, 1 + word(&text[1..])),
        _ => (Kind::Symbol, 1),
    }
}

#[cfg(test)]
mod tests {
    use super::{Kind, Unended, tokens};

    fn seen(text: &str) -> Vec<(Kind, &str)> {
        let found = tokens(text).expect("a text with an end");
        found.into_iter().map(|it| (it.kind, it.text)).collect()
    }

    #[test]
    fn strings_hide_what_they_hold() {
        for literal in [
            r#""ensures { \" }""#,
            r##"r#"ghost use "x" { "#"##,
            r#"br"\""#,
            r#"b"{\\""#,
            r#"c"{""#,
            "b'{'",
            r"b'\''",
            "'{'",
            r"'\''",
            r"'\u{7d}'",
            "'é'",
        ] {
            assert_eq!(seen(literal), [(Kind::Literal, literal)]);
        }
    }

    #[test]
    fn lifetimes_are_no_characters() {
        let text = "<'a>(c: 'a', 'b: loop)";
        let kinds: Vec<_> = seen(text)
            .into_iter()
            .filter(|it| it.1.starts_with('\''))
            .collect();
        let expected = [
            (Kind::Lifetime, "'a"),
            (Kind::Literal, "'a'"),
            (Kind::Lifetime, "'b"),
        ];
        assert_eq!(kinds, expected);
    }

    #[test]
    fn comments_nest_and_hide() {
        let text = "/* ghost /* use */ \" */ x // ensures {\ny";
        assert_eq!(
            seen(text),
            [
                (Kind::Comment, "/* ghost /* use */ \" */"),
                (Kind::Word, "x"),
                (Kind::Comment, "// ensures {"),
                (Kind::Word, "y"),
            ]
        );
    }

    #[test]
    fn words_that_begin_like_literals() {
        let text = "br b c cr r rb bread";
        assert!(seen(text).iter().all(|it| it.0 == Kind::Word));
        assert_eq!(seen("x.0.1"), seen("x . 0 . 1"));
    }

    #[test]
    fn unended_texts_are_refused() {
        for (text, start) in [("a \"b", 2), ("/* /* */", 0), ("x r#\"\"", 2)] {
            assert_eq!(tokens(text), Err(Unended { start }));
        }
    }
}
