//! Whether the number of a line may reach what a preprocessor writes.
//!
//! `__LINE__` is the number of the line from which it comes, be it by way of other macros. So the lines of a
//! text don't count if none of its words leads there by any definition in any text, or on a command line,
//! whether a preprocessor takes that definition or leaves it out. Macros may put parts of words together:
//! then any words of what is reached may be parts, in any order. What the words reach is sought here, and the
//! proved crate `source_layouts` says whether that is all, and has no such number.
use crate::source::{spliced, words_of};
use machine::bytes::{contains, find};
use rattle_std::alloc::Global;
use source_layouts::{Macro, shuts_lines_out};
use std::borrow::Cow;
use std::collections::{HashMap, HashSet};

/// The macro that is the number of a line.
const LINE: &[u8] = b"__LINE__";
/// What gcc's own macros put behind a word.
const SUFFIXES: [&[u8]; 5] = [b"L", b"LL", b"U", b"UL", b"ULL"];

/// A text as definitions are sought in it. `None` if a preprocessor may see more of them.
pub fn definitions_in(text: &[u8]) -> Option<Cow<'_, [u8]>> {
    (!contains(text, b"??=") && !contains(text, b"??/")).then(|| spliced(text))
}

/// A layout without its definitions: a macro counts where it's used.
pub fn without_definitions(layout: &[u8]) -> Vec<u8> {
    let defines = |line: &[u8]| {
        line.strip_prefix(b"#").is_some_and(|directive| directive.trim_ascii_start().starts_with(b"define"))
    };
    spliced(layout)
        .split_inclusive(|&byte| byte == b'\n')
        .filter(|line| !defines(line))
        .flatten()
        .copied()
        .collect()
}

/// All macros of some texts, and the words of all that each may become.
#[derive(Default)]
pub struct Macros<'a>(HashMap<&'a [u8], HashSet<&'a [u8]>>);

/// A text behind blanks and comments.
pub fn behind_blanks(mut text: &[u8]) -> &[u8] {
    loop {
        text = text.trim_ascii_start();
        match text
            .strip_prefix(b"/*")
            .map(|rest| find(rest, b"*/").map_or(&rest[rest.len()..], |end| &rest[end + 2..]))
        {
            Some(rest) => text = rest,
            None => return text,
        }
    }
}

/// Whether a comment that begins in a text may be open behind it.
pub fn may_be_open(text: &[u8]) -> bool {
    let last = |sought: &[u8]| text.windows(2).rposition(|pair| pair == sought);
    last(b"/*").is_some_and(|open| last(b"*/").is_none_or(|close| close < open + 2))
}

/// Where a directive ends: with its line, unless a comment may be open there.
fn end_of_directive(text: &[u8]) -> usize {
    let mut ends = (0..text.len()).filter(|&place| text[place] == b'\n');
    ends.find(|&end| !may_be_open(&text[..end])).unwrap_or(text.len())
}

impl<'a> Macros<'a> {
    /// Takes what a command line defines, as `NAME=WORDS`.
    pub fn define(&mut self, definition: &'a [u8]) {
        let mut words = words_of(definition);
        if let Some(name) = words.next() {
            self.0.entry(name).or_default().extend(words);
        }
    }

    /// Takes all definitions of a text. `None` if one may go on behind its line.
    pub fn read(&mut self, mut text: &'a [u8]) -> Option<()> {
        while let Some(place) = text.iter().position(|byte| matches!(byte, b'#' | b'%')) {
            let size = if text[place..].starts_with(b"%:") { 2 } else { 1 };
            let is_mark = size == 2 || text[place] == b'#';
            text = &text[place + size..];
            if let Some(rest) = behind_blanks(text).strip_prefix(b"define").filter(|_| is_mark) {
                let definition = &rest[..end_of_directive(rest)];
                if contains(definition, b"R\"") {
                    return None;
                }
                self.define(behind_blanks(definition));
            }
        }
        Some(())
    }

    /// Whether words may become the number of a line.
    pub fn see_lines(&self, words: impl Iterator<Item = &'a [u8]>) -> bool {
        let words: Vec<&[u8]> = words.collect();
        let reached = self.reached(&words);
        reached.contains(LINE) || !self.are_all(&words, &reached)
    }

    /// What words may become, if that isn't the number of a line.
    fn reached(&self, words: &[&'a [u8]]) -> HashSet<&'a [u8]> {
        let mut reached: HashSet<&[u8]> = HashSet::new();
        let mut new: Vec<&[u8]> = words.iter().copied().chain(SUFFIXES).collect();
        while !new.is_empty() && !reached.contains(LINE) {
            while let Some(word) = new.pop() {
                if reached.insert(word) {
                    new.extend(self.0.get(word).into_iter().flatten());
                }
            }
            new.extend(self.joined(&reached));
        }
        reached
    }

    /// Whether these are sure to be all that words may become. Without memory they aren't.
    fn are_all(&self, words: &[&[u8]], reached: &HashSet<&[u8]>) -> bool {
        let lists: Vec<(&[u8], Vec<&[u8]>)> =
            self.0.iter().map(|(name, words)| (*name, words.iter().copied().collect())).collect();
        let macros: Vec<Macro<'_>> = lists.iter().map(|(name, words)| Macro { name, words }).collect();
        let reached: Vec<&[u8]> = reached.iter().copied().collect();
        shuts_lines_out(Global, &macros, words, &reached).unwrap_or(false)
    }

    /// The macros whose names are words put together, and that aren't among these.
    fn joined<'b>(&'b self, words: &'b HashSet<&[u8]>) -> impl Iterator<Item = &'a [u8]> + 'b {
        let longest = words.iter().map(|word| word.len()).max().unwrap_or_default();
        let names = self.0.keys().copied().chain([LINE]).filter(|name| !words.contains(name));
        names.filter(move |name| is_joined(name, words, longest))
    }
}

/// Whether a name is words put together, of which none is longer than so many bytes.
fn is_joined(name: &[u8], words: &HashSet<&[u8]>, longest: usize) -> bool {
    let mut is_end = vec![false; name.len() + 1];
    is_end[0] = true;
    for begin in 0..name.len() {
        if is_end[begin] {
            let ends = begin + 1..=name.len().min(begin + longest);
            ends.filter(|&end| words.contains(&name[begin..end])).for_each(|end| is_end[end] = true);
        }
    }
    is_end[name.len()]
}

#[cfg(test)]
mod tests {
    use super::*;

    /// Whether a text sees lines by the definitions of another. `None` if these aren't known.
    fn sees(definitions: &str, text: &str) -> Option<bool> {
        let definitions = definitions_in(definitions.as_bytes())?;
        let mut macros = Macros::default();
        macros.read(&definitions)?;
        Some(macros.see_lines(words_of(text.as_bytes())))
    }

    #[test]
    fn words_lead_to_lines_by_macros() {
        let chain =
            "#define assert(x) ((x) ? 0 : fail(#x, __LINE__))\n#define CHECK(x) assert(x)\n#define SIZE 64\n";
        let cases = [
            (chain, "int a = SIZE;", false),
            (chain, "CHECK(a);", true),
            (chain, "int assert_a;", false),
            ("", "__LINE__", true),
            ("", "\u{20ac}__LINE__", true),
            ("#define \u{e4}b $__LINE__\n", "\u{e4}b", true),
            ("", "__LINE", false),
            (
                "#if 0\n#define A B\n#else\n#define A C\n#endif\n # define B D\n%:define D __LINE__\n",
                "A",
                true,
            ),
            ("#define A \\\n  1 \\ \n + __LINE__\n", "A", true),
            ("#def\\\nine A __LINE__\n", "A", true),
            ("# /* x */ define /* y */ A __LINE__\n", "A", true),
            ("#define A /* x\n */ __LINE__\n", "A", true),
            ("#define A \"/*\" __LINE__ \"*/\"\n", "A", true),
            ("#define A 1 // x\nint b = __LINE__;\n", "A", false),
            ("#define A(x) x\n", "A(__LINE__)", true),
        ];
        for (definitions, text, wanted) in cases {
            assert_eq!(sees(definitions, text), Some(wanted), "{definitions}{text}");
        }
    }

    #[test]
    fn words_may_be_put_together() {
        let join = "#define JOIN(a, b) a ## b\n#define seen __LINE__\n";
        let cases = [
            ("JOIN(__LI, NE__)", true),
            ("JOIN(se, en)", true),
            ("JOIN(s, en)", false),
            ("JOIN(JOIN(__, LINE), __)", true),
            ("JOIN(_, __INE)", false),
            ("JOIN(__, INE__)", true),
        ];
        for (text, wanted) in cases {
            assert_eq!(sees(join, text), Some(wanted), "{text}");
        }
        let further =
            "#define __annotate(a) __ ## a ## __\n#define first_name second\n#define second __LINE__\n";
        assert_eq!(sees(further, "__annotate(LINE)"), Some(true));
        assert_eq!(sees(further, "first name"), Some(false));
        assert_eq!(sees(further, "first _name"), Some(true));
        assert_eq!(sees("", "INE__ __"), Some(true), "gcc itself has a part");
    }

    #[test]
    fn words_that_were_not_found_are_missed() {
        let mut macros = Macros::default();
        macros.define(b"A=B");
        macros.define(b"B=__LINE__");
        macros.define(b"join=1");
        let are_all = |words: &[&'static [u8]], found: &[&'static [u8]]| {
            macros.are_all(words, &found.iter().copied().chain(SUFFIXES).collect())
        };
        assert!(are_all(&[b"C"], &[b"C"]) && are_all(&[b"join"], &[b"join", b"1"]));
        assert!(
            !are_all(&[b"A"], &[b"A"])
                && !are_all(&[b"A"], &[b"A", b"B"])
                && !are_all(&[b"A"], &[b"A", b"B", LINE])
        );
        assert!(!are_all(&[b"jo", b"in"], &[b"jo", b"in"]) && !are_all(&[b"C"], &[]));
    }

    #[test]
    fn a_definition_is_no_use() {
        let text =
            without_definitions(b"a\n#define HERE \\\n  __LINE__\n# define B\n#if B\nb # define\n#undef B\n");
        assert_eq!(String::from_utf8(text).unwrap(), "a\n#if B\nb # define\n#undef B\n");
    }

    #[test]
    fn what_may_be_another_definition_is_not_known() {
        for text in ["??=define A\n", "#define A ??/\n__LINE__\n", "#define A R\"(\n)\" __LINE__\n"] {
            assert_eq!(sees(text, ""), None, "{text}");
        }
    }

    #[test]
    fn a_command_line_defines_macros() {
        let mut macros = Macros::default();
        for definition in ["A=B", "B(x)=__LINE__", "C", "D=1"] {
            macros.define(definition.as_bytes());
        }
        assert_eq!(
            ["A", "B", "C", "D", "E"].map(|word| macros.see_lines(words_of(word.as_bytes()))),
            [true, true, false, false, false]
        );
    }
}
