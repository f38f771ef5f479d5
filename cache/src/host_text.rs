//! What preprocessed text says of files beside it.
use machine::bytes::{contains, find, pairs};
use std::collections::BTreeSet;

/// The words by which a text sees its lines.
const LINE_WORDS: [&[u8]; 5] =
    [b"__LINE__", b"__builtin_LINE", b"__builtin_FILE", b"__builtin_COLUMN", b"source_location"];

/// The name of a line marker's file, and its flags: 1 enters a file, 2 returns to one.
fn named_file(line: &[u8]) -> Option<(&[u8], &[u8])> {
    let number = line.strip_prefix(b"# ").filter(|rest| rest.first().is_some_and(u8::is_ascii_digit))?;
    let begin = number.iter().position(|&byte| byte == b'"')? + 1;
    let end = number.iter().rposition(|&byte| byte == b'"')?;
    Some((number.get(begin..end)?, &number[end + 1..]))
}

/// The line markers of a text: places, names and flags.
fn markers(text: &[u8]) -> impl Iterator<Item = (usize, &[u8], &[u8])> {
    let begins = pairs(text, b'#', b' ', 1).filter(|&place| place == 0 || text[place - 1] == b'\n');
    begins.filter_map(|place| {
        let (name, flags) = named_file(text[place..].split(|&byte| byte == b'\n').next()?)?;
        Some((place, name, flags))
    })
}

/// The files that a preprocessor has entered, by its text's line markers. `None` if a name is quoted in a way
/// that may mean another.
pub fn files_entered(text: &[u8]) -> Option<BTreeSet<&[u8]>> {
    let entering = markers(text).filter(|(_, _, flags)| flags.starts_with(b" 1"));
    let names: BTreeSet<&[u8]> = entering.map(|(_, name, _)| name).collect();
    names
        .iter()
        .all(|name| !name.contains(&b'\\'))
        .then(|| names.into_iter().filter(|name| !name.starts_with(b"<")).collect())
}

/// The absolute paths that a text's line markers name.
pub fn absolute_names(text: &[u8]) -> BTreeSet<&[u8]> {
    markers(text).map(|(_, name, _)| name).filter(|name| name.starts_with(b"/")).collect()
}

/// Files that are included more deeply are of the part of those that include them.
const DEEPEST_PART: usize = 1;

/// The parts of a preprocessed text, which begin at line markers that enter a file or return to one: what
/// the main file includes, and what that includes itself. So the main file's own text is in parts of its own.
pub fn parts_of(text: &[u8]) -> Vec<&[u8]> {
    let (mut parts, mut begin, mut depth) = (Vec::new(), 0, 0_usize);
    for (place, _, flags) in markers(text) {
        let (enters, returns) = (flags.starts_with(b" 1"), flags.starts_with(b" 2"));
        depth = depth.saturating_sub(usize::from(returns));
        if (enters || returns) && depth <= DEEPEST_PART {
            parts.push(&text[begin..place]);
            begin = place;
        }
        depth += usize::from(enters);
    }
    parts.push(&text[begin..]);
    parts
}

/// The lines of a preprocessed text, without those that are empty and without numbers of line markers. These
/// are lines if they enter a file, return to one, or name another than the last one. `None` if a raw string
/// may go on behind its line. Texts that have the same lines have the same tokens.
pub fn without_numbers(text: &[u8]) -> Option<Vec<u8>> {
    let (mut lines, mut last) = (Vec::with_capacity(text.len()), None);
    for line in text.split(|&byte| byte == b'\n').filter(|line| !line.is_empty()) {
        let Some((name, flags)) = named_file(line) else {
            lines.extend([line, b"\n"].concat());
            continue;
        };
        let moved = [b" 1", b" 2"].into_iter().find_map(|flag| flags.strip_prefix(flag));
        let place = Some((name, moved.unwrap_or(flags)));
        if moved.is_some() || place != last {
            lines.extend([b"# \"", name, b"\"", flags, b"\n"].concat());
        }
        last = place;
    }
    Some(lines).filter(|_| !contains(text, b"R\""))
}

/// Whether a text has what `__DATE__`, `__TIME__` or `__TIMESTAMP__` may have become: a time of day, or a
/// year at the end of a string, be that in another.
pub fn tells_time(text: &[u8]) -> bool {
    let is_digit = |place: usize| text.get(place).is_some_and(u8::is_ascii_digit);
    let are_digits = |begin: usize, count: usize| (begin..begin + count).all(is_digit);
    let is_time = |place: usize| place >= 2 && are_digits(place - 2, 2) && are_digits(place + 1, 2);
    let is_year = |place: usize| {
        place >= 8 && are_digits(place - 4, 4) && is_digit(place - 6) && text[place - 8] == b' '
    };
    let years = |quote| pairs(text, b' ', quote, 5).any(|place| is_year(place + 5));
    pairs(text, b':', b':', 3).any(is_time) || years(b'"') || years(b'\\')
}

/// Whether a source may have a preprocessor compare the times of files, by `#pragma GCC dependency`, which it
/// doesn't write. Macros may put that together, or the text of a definition.
pub fn compares_times(text: &[u8]) -> bool {
    let is_word = |byte: &u8| byte.is_ascii_alphanumeric() || *byte == b'_';
    let is_between = |byte: &u8| byte.is_ascii_whitespace() || *byte == b'\\';
    let mut from = 0;
    while let Some(place) = find(&text[from..], b"ncy").map(|place| from + place) {
        from = place + 3;
        let begin = text[..place].iter().rposition(|byte| !is_word(byte)).map_or(0, |last| last + 1);
        let is_whole = !text.get(from).is_some_and(is_word);
        if &text[begin..from] == b"dependency" && is_whole {
            let end = text[..begin].iter().rposition(|byte| !is_between(byte)).map_or(0, |last| last + 1);
            let behind = text[from..].iter().find(|byte| !is_between(byte));
            let line =
                text[..begin].rsplit(|&byte| byte == b'\n').next().unwrap_or_default().trim_ascii_start();
            let is_defined = contains(line, b"define") && !line.starts_with(b"*") && !line.starts_with(b"//");
            let is_named = text[..end].ends_with(b"GCC") || text[..end].ends_with(b"*/") || is_defined;
            if is_named || matches!(behind, Some(b'"' | b'<')) {
                return true;
            }
        } else if is_whole && b"dependency".ends_with(&text[begin..from]) {
            return true;
        }
    }
    contains(text, b"??/")
}

/// Whether a text sees its lines, as its definition says, which is only asked where one of the words is for
/// which it looks.
pub fn sees_lines(text: &[u8]) -> bool {
    let sees = |word: &&[u8]| {
        find(text, word).is_some_and(|begin| token_texts::sees_lines(&text[begin..begin + word.len()]))
    };
    LINE_WORDS.iter().any(sees)
}

/// Whether a text has eight hexadecimal digits, as nvcc writes a sum.
fn is_sum(text: &str) -> bool {
    text.len() == 8 && text.bytes().all(|byte| byte.is_ascii_hexdigit())
}

/// Whether a module id is the same each time: the sum of a path, the length of a file's name, that name, and
/// a name that the source defines or its sum. If the source defines no external name, a sum and the number of
/// a process stand for it.
pub fn is_stable_id(id: &[u8]) -> bool {
    let parts = || {
        let (path, rest) = std::str::from_utf8(id).ok()?.trim_end().strip_prefix('_')?.split_once('_')?;
        let (length, rest) = rest.split_once('_')?;
        Some((path, rest.split_at_checked(length.parse().ok()?)?.1.strip_prefix('_')?))
    };
    let is_process = |name: &str| {
        let parts = name.split_once('_');
        parts.is_some_and(|(sum, number)| is_sum(sum) && number.bytes().all(|byte| byte.is_ascii_digit()))
    };
    parts().is_some_and(|(path, name)| is_sum(path) && !name.is_empty() && !is_process(name))
}

#[cfg(test)]
mod tests {
    use super::*;
    use rattle_std::alloc::Global;
    use std::collections::BTreeMap;

    #[test]
    fn a_source_may_compare_times() {
        let cases = [
            ("#pragma GCC dependency \"data\"\n", true),
            ("_Pragma(\"GCC \\\n dependency \\\"data\\\"\")\n", true),
            ("#pragma GCC /* x */dependency \"data\"\n", true),
            ("#pragma GCC depend\\\nency <data>\n", true),
            ("#define D dependency\n", true),
            ("P(G dependency \"data\")\nP(GCC CAT(depend, ency) \"data\")\n", true),
            ("P(GCC CAT(depend, ency) data)\n", true),
            ("#pragma GCC depend??/\nency\n", true),
            ("// a dependency of GCC\n", false),
            (" * they define a dependency.\n", false),
            ("a frequency's dependency is latency\n", false),
        ];
        for (text, wanted) in cases {
            assert_eq!(compares_times(text.as_bytes()), wanted, "{text}");
        }
    }

    #[test]
    fn markers_say_what_was_entered() {
        let text =
            b"# 0 \"k.cu\"\n# 1 \"a.h\" 1\n# 1 \"/usr/b.h\" 1 3 4\n# 12 \"a.h\" 2\n# 5 \"c.y\"\n# 1 \"<command-line>\" 1\n#pragma x 1\nint a;\n";
        assert_eq!(files_entered(text).unwrap().into_iter().collect::<Vec<_>>(), [&b"/usr/b.h"[..], b"a.h"]);
        assert_eq!(files_entered(b"# 1 \"a\\\\b.h\" 1\n"), None);
    }

    #[test]
    fn what_the_main_file_includes_is_a_part() {
        let parts = [
            "# 0 \"k.cu\"\n",
            "# 1 \"a.h\" 1\n",
            "# 1 \"b.h\" 1 3\n# 1 \"deep.h\" 1 3\n# 2 \"b.h\" 2 3\n",
            "# 2 \"a.h\" 2\nint b;\n",
            "# 5 \"k.cu\" 2\nint a;\n# 9 \"k.cu\"\n",
            "# 1 \"c.h\" 1 3 4\nint c;",
        ];
        assert_eq!(parts_of(parts.concat().as_bytes()), parts.map(str::as_bytes));
        assert_eq!(parts_of(parts[1].as_bytes()), [b"", parts[1].as_bytes()]);
        assert_eq!(
            (parts_of(b""), parts_of(b" # 1 \"a.h\" 1\n")),
            (vec![&b""[..]], vec![&b" # 1 \"a.h\" 1\n"[..]])
        );
    }

    #[test]
    fn lines_have_no_numbers() {
        let of = |text: &str| without_numbers(text.as_bytes()).map(|lines| String::from_utf8(lines).unwrap());
        let one = of("# 0 \"k.cu\"\nint a;\n# 1 \"a.h\" 1 3\nint b;\n# 5 \"k.cu\" 2\nint c;\n");
        assert_eq!(one.as_deref(), Some("# \"k.cu\"\nint a;\n# \"a.h\" 1 3\nint b;\n# \"k.cu\" 2\nint c;\n"));
        let same = [
            "# 0 \"k.cu\"\n\n\nint a;\n# 1 \"a.h\" 1 3\nint b;\n# 7 \"k.cu\" 2\nint c;\n",
            "# 0 \"k.cu\"\nint a;\n# 9 \"k.cu\"\n# 1 \"a.h\" 1 3\n# 3 \"a.h\" 3\nint b;\n# 5 \"k.cu\" 2\n# 8 \"k.cu\"\nint c;",
        ];
        assert!(same.iter().all(|text| of(text) == one));
        let others = [
            "# 0 \"k.cu\"\nint a;\n# 1 \"a.h\" 1 3\nint b;\n# 5 \"j.cu\" 2\nint c;\n",
            "# 0 \"k.cu\"\nint a;\n# 1 \"a.h\" 1 3\nint b;\n# 5 \"a.h\"\n# 5 \"k.cu\" 2\nint c;\n",
            "# 0 \"k.cu\"\nint a;\n# 1 \"a.h\" 1\nint b;\n# 5 \"k.cu\" 2\nint c;\n",
            "# 0 \"k.cu\"\nint a; \n# 1 \"a.h\" 1 3\nint b;\n# 5 \"k.cu\" 2\nint c;\n",
        ];
        assert!(others.iter().all(|text| of(text).is_some_and(|lines| Some(lines) != one)));
        assert_ne!(of("# 1 \"a\nint a;\n"), of("# 2 \"a\nint a;\n"), "no line marker");
        assert_eq!(of("auto a = u8R\"(\n# 1 \"k.cu\"\n\n)\";\n"), None);
    }

    #[test]
    fn texts_of_the_same_lines_have_the_same_tokens() {
        let lines = [
            "# 0 \"k\"\n",
            "# 1 \"a\" 1 3\n",
            "# 3 \"a\" 3\n",
            "# 4 \"a\"\n",
            "# 5 \"k\" 2\n",
            "\n",
            "int a;\n",
            "a \"# 7\"\n",
            "# pragma\n",
        ];
        let mut known: BTreeMap<Vec<u8>, Option<Vec<u8>>> = BTreeMap::new();
        for number in 0..lines.len().pow(5) {
            let text: String =
                (0..5).map(|place| lines[number / lines.len().pow(place) % lines.len()]).collect();
            let tokens = token_texts::token_text(Global, text.as_bytes()).unwrap();
            let tokens = tokens.map(|tokens| tokens.as_slice().to_vec());
            let of = without_numbers(text.as_bytes()).unwrap();
            assert_eq!(known.entry(of).or_insert_with(|| tokens.clone()), &tokens, "{text}");
        }
    }

    #[test]
    fn dates_and_times_are_seen() {
        let cases = [
            ("const char* s = \"12:34:56\";", true),
            ("\"Nov  8 2026\"", true),
            ("\"built \\\"Nov  8 2026\\\"\"", true),
            ("\"Sat Nov 28 09:21:06 2026\"", true),
            ("std::vector<int> a; b ? 12:34; \"1:23:45\" \"copyright 2026\" 2026", false),
            ("", false),
            ("12:34:", true),
            ("2:34:56", false),
            ("12:34", false),
        ];
        for (text, wanted) in cases {
            assert_eq!(tells_time(text.as_bytes()), wanted, "{text}");
        }
    }

    #[test]
    fn a_text_sees_its_lines_by_some_words() {
        let words = [
            "__LINE__",
            "__builtin_LINE",
            "__builtin_FILE",
            "__builtin_COLUMN",
            "source_location",
            "__builtin_LIN",
            "__LINE_",
            "source_locatio",
        ];
        for word in words {
            for text in [
                format!("int __builtin_abs {word}"),
                format!("__builtin_{word}(x)"),
                format!("a__LINE{word}"),
            ] {
                assert_eq!(sees_lines(text.as_bytes()), token_texts::sees_lines(text.as_bytes()), "{text}");
            }
        }
        assert!(LINE_WORDS.iter().all(|word| token_texts::sees_lines(word)));
    }

    #[test]
    fn ids_with_a_process_are_not_stable() {
        let cases = [
            ("_0ab662b8_4_k_cu_1d3c70b5", true),
            ("_0ab662b8_7_k_12_cu_1d3c70b5\n", true),
            ("_edf60b65_4_k_cu__Z4filev", true),
            ("_edf60b65_4_k_cu_run_5", true),
            ("_9f1b1dc8_4_s_cu_778e0101_7547", false),
            ("_9f1b1dc8_4_s_cu_778e0101_", false),
            ("9f1b1dc8_4_s_cu_f", false),
            ("_9f1b1dc8_4_s_cu_", false),
            ("_9f1b1dc8_99_s_cu_778e0101", false),
            ("made", false),
            ("", false),
        ];
        for (id, wanted) in cases {
            assert_eq!(is_stable_id(id.as_bytes()), wanted, "{id}");
        }
    }
}
