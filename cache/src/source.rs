//! What a source text is made of: its layout, its words, and its lines as they are joined.
use machine::bytes::pairs;
use rattle_std::alloc::Global;
use rattle_std::vec::Vec as List;
use std::borrow::Cow;
use std::iter;

/// Words right before a quote that make a raw string of it.
const RAW_PREFIXES: [&[u8]; 5] = [b"R", b"LR", b"uR", b"UR", b"u8R"];

/// The layout of a text, which the proved crate `source_layouts` defines. `None` if it has none, or if memory
/// runs out.
pub fn layout_of(text: &[u8], is_lined: bool) -> Option<List<u8>> {
    source_layouts::layout(Global, text, is_lined).ok()?
}

/// Whether some preprocessors take a byte for a part of a letter, and some don't.
fn may_be_letter(byte: u8) -> bool {
    byte == b'$' || byte >= 0x80
}

/// Whether a byte belongs to identifiers and numbers.
pub fn is_word(byte: u8) -> bool {
    byte.is_ascii_alphanumeric() || byte == b'_' || may_be_letter(byte)
}

/// The words of a text: identifiers, numbers and their parts, wherever they stand. Behind each comes what may
/// be words to some preprocessors.
pub fn words_of(text: &[u8]) -> impl Iterator<Item = &[u8]> {
    let words = text.split(|&byte| !is_word(byte)).filter(|word| !word.is_empty());
    let has_parts = text.iter().any(|&byte| may_be_letter(byte));
    words.flat_map(move |word| {
        let split = if has_parts { word } else { b"" };
        let parts = split
            .split(|&byte| may_be_letter(byte))
            .filter(|part| !part.is_empty() && part.len() < word.len());
        iter::once(word).chain(parts)
    })
}

/// Whether a quote behind this text begins a raw string for some preprocessor.
pub fn begins_raw_string(before: &[u8]) -> bool {
    let begin =
        before.iter().rposition(|&byte| !is_word(byte) || may_be_letter(byte)).map_or(0, |place| place + 1);
    RAW_PREFIXES.contains(&&before[begin..])
}

/// Whether a byte may stand between a backslash and the end of the line that it joins to the next.
fn is_blank(byte: u8) -> bool {
    matches!(byte, b' ' | b'\t' | b'\r' | 0x0b | 0x0c | 0)
}

/// Where a line has the backslash by which it is joined to the next, if it is: only blanks are behind that.
pub fn join_of(line: &[u8]) -> Option<usize> {
    line.iter().rposition(|&byte| !is_blank(byte)).filter(|&place| line[place] == b'\\')
}

/// The ends of lines that are joined to the next: where the backslash is, and where the next line begins.
fn joins(text: &[u8]) -> impl Iterator<Item = (usize, usize)> {
    pairs(text, b'\\', b'\\', 0).filter_map(|place| {
        let end = place + 1 + text[place + 1..].iter().position(|&byte| !is_blank(byte))?;
        (text[end] == b'\n').then_some((place, end + 1))
    })
}

/// A text without the ends of lines that are joined to the next.
pub fn spliced(text: &[u8]) -> Cow<'_, [u8]> {
    let (mut out, mut from) = (Vec::new(), 0);
    for (place, next) in joins(text) {
        out.extend_from_slice(&text[from..place]);
        from = next;
    }
    if from == 0 {
        return Cow::Borrowed(text);
    }
    out.extend_from_slice(&text[from..]);
    Cow::Owned(out)
}

#[cfg(test)]
mod tests {
    use super::*;

    fn shown(text: &str, is_lined: bool) -> Option<String> {
        layout_of(text.as_bytes(), is_lined).map(|text| String::from_utf8(text.as_slice().to_vec()).unwrap())
    }

    #[test]
    fn blanks_comments_and_empty_lines_do_not_count() {
        let wanted = "#define A(x) #x // y\nint a = A( b ) ;\nchar* s = \"a  // b\"\n";
        let texts = [
            "#define A(x) #x // y\nint a = A( b ) ;\nchar* s = \"a  // b\"\n",
            "// one\n\n  #define A(x) #x // y\n\tint\ta =/* x */A(  b\t)  ;  // two\n/* three\n * lines */\n char* /**/ s = \"a  // b\"",
            "/*\n*/ #define A(x) #x // y\nint a = A( b ) ;\n\n\nchar* s = \"a  // b\"\n\n",
        ];
        for text in texts {
            assert_eq!(shown(text, false).as_deref(), Some(wanted), "{text}");
        }
        assert_eq!(
            shown(texts[1], true).unwrap(),
            "\n\n#define A(x) #x // y\nint a = A( b ) ;\n\x0b\nchar* s = \"a  // b\"\n"
        );
        assert_eq!(
            (shown("", false), shown("\n\n", false), shown("/* a */", false)),
            (Some(String::new()), Some(String::new()), Some(String::new()))
        );
    }

    #[test]
    fn what_a_preprocessor_sees_counts() {
        let one = shown("#define A(x) #x\nint a = A(b);\n", false).unwrap();
        let others = [
            "#define A (x) #x\nint a = A(b);\n",
            "#define A(x)  #x\nint a = A(b);\n",
            "#define A(x) #x\nint a = A( b);\n",
            "#define A(x) #x\nint a = A(b) ;\n",
            "#define A(x) #x\nint a = A(/**/b);\n",
            "#define A(x) #x\nint a =\nA(b);\n",
            "#define A(x) #x int a = A(b);\n",
            "#define A(x) #x // c\nint a = A(b);\n",
            "#define A(x) \\\n #x\nint a = A(b);\n",
            "//#define A(x) #x\nint a = A(b);\n",
        ];
        for other in others {
            assert_ne!(shown(other, false).unwrap(), one, "{other}");
        }
        let pairs = [
            ("'\"' // '", "'\"'\n"),
            ("\"\\\"//\" /* \" */ x", "\"\\\"//\" x\n"),
            ("a // b /* c\nd */ e", "a\nd */ e\n"),
            ("u8\"a\"L'b'", "u8\"a\"L'b'\n"),
        ];
        for (text, wanted) in pairs {
            assert_eq!(shown(text, false).unwrap(), wanted, "{text}");
        }
    }

    #[test]
    fn lines_count_if_that_is_asked_for() {
        let texts = ["a\nb\n", "a\n\nb\n", "a /*\n*/ b\n", "\na\nb\n", "a /*\n*/\nb\n", "a\n/*\n*/b\n"];
        for (place, text) in texts.iter().enumerate() {
            let one = shown(text, true).unwrap();
            assert!(texts[..place].iter().all(|other| shown(other, true).unwrap() != one), "{text}");
        }
        assert_eq!(shown("a // x\n/* y */ b\n", true), shown("a\nb // z", true));
    }

    #[test]
    fn doubtful_texts_have_no_layout() {
        let texts = [
            "a \\\n b\n",
            "char* s = R\"(// x)\";\n",
            "auto s = u8R\"(x)\";\n",
            "#define S R\"(\n)\"\n",
            "\"a\n\"\n",
            "'a\n'\n",
            "don't\n",
            "int a = 1'000'000; 'x'\n",
            "1.'0'",
            "1R\"x\"",
            "\u{e4}R\"(\" // x)\"",
            "$1'0' // '",
            "1e+'0'",
            "\"a\\\nb\"",
            "/* a",
            "/* a /* b */",
            "// a \\\n b\n",
            "// a \\ b\n",
            "/* a \\ b */",
            "// a\rb\n",
            "#define A /* b\n*/ c\n",
            "#define A /*/ c\n",
            "#define A /\\\n* c\n*/\n",
            "#define A R\\ \n\"(\n)\"\n",
            "1.e+x'0'",
            "??=define A\n",
            "\u{feff}#define A\n",
            "a\0b",
            "a\x0cb",
            "#define A \\",
            "#\0line 5\n",
            "#define A\r#line 5\n",
            "\\",
        ];
        for text in texts {
            assert_eq!((shown(text, false), shown(text, true)), (None, None), "{text}");
        }
        let text = "'0'+'a' x.y 'b' FOOR\"x\" a . b 1.5e+3 a/**/b # c\n";
        assert_eq!(shown(text, false).unwrap(), text.replace("/**/", " "));
    }

    #[test]
    fn comments_with_other_letters_count() {
        let of = |text: &str| shown(text, false).unwrap();
        assert_ne!(of("a // b\u{e4}\n"), of("a // c\u{e4}\n"));
        assert_eq!(
            (of("a /* \u{e4} */b\n"), of("// \u{e4}\n#a\n")),
            ("a\x0c/* \u{e4} */\x0c b\n".into(), "\x0c// \u{e4}\x0c#a\n".into())
        );
        assert_eq!(of("/* \u{e4} */ #define A(\n"), "\x0c/* \u{e4} */\x0c#define A(\n");
        assert_ne!(of("a /* \u{e4} */ b\n"), of("a b\n"));
        assert_ne!(of("a/// \u{e4}\n-b\n"), of("a/ // \u{e4}\n-b\n"), "the first has no division");
        assert_ne!(of("a//* \u{e4} */\n-b\n"), of("a/ /* \u{e4} */\n-b\n"));
    }

    #[test]
    fn directives_in_brackets_or_with_lines_need_lines() {
        let texts = [
            "f(\n#if A\n1\n#endif\n)\n",
            ")\n(\n",
            "f(\n",
            "#line 5\n",
            "# 5 \"a\"\n",
            "%:line 7\n",
            "#\\\nli\\\nne 5\n",
            "# /**/ line 3\n",
        ];
        for text in texts {
            assert!(shown(text, false).is_none() && shown(text, true).is_some(), "{text}");
        }
        assert!(shown("f()\n#if A\n(1)\n#endif\n", false).is_some());
    }

    #[test]
    fn joined_lines_are_joined() {
        assert_eq!(&spliced(b"a \\\nb\\ \t\nc\nd\\x\n\\")[..], b"a bc\nd\\x\n\\");
        assert_eq!(&spliced(b"a\\ \\\\\n\\\n\\\r\n\\\n")[..], b"a\\ \\");
        assert_eq!(spliced(b"a\nb\\"), Cow::Borrowed(b"a\nb\\"));
    }

    #[test]
    fn words_are_found_anywhere() {
        let found: Vec<&[u8]> = words_of("a+b1 \"c d\" // e$_\n#define 5x \u{e4}".as_bytes()).collect();
        assert_eq!(
            found,
            [&b"a"[..], b"b1", b"c", b"d", b"e$_", b"e", b"_", b"define", b"5x", "\u{e4}".as_bytes()]
        );
    }
}
