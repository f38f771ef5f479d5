//! Host compiles that are found without a preprocessor: by the texts that they read, if all headers are as
//! they were.
use super::whole::Written;
use super::{Session, Taken};
use crate::digest::Digest;
use crate::key::{self, Text};
use crate::lines::may_be_open;
use crate::manifest::Manifest;
use crate::recipe::{Recipe, Role};
use crate::source::{begins_raw_string, join_of};
use machine::bytes::contains;
use machine::streams::content_of;
use std::collections::{BTreeMap, BTreeSet};
use std::path::{Path, PathBuf};

/// What is known of a compile without a preprocessor.
#[derive(Clone, PartialEq, Eq, Debug, Default)]
pub struct Direct {
    /// The key of the texts that it reads.
    key: Option<Digest>,
    /// That of its entry, by its preprocessed text.
    entry: Option<Digest>,
    /// What a preprocessor would depend on, if it was found so.
    pub found: Option<Manifest>,
}

/// The generated files that a compile reads: its own, cicc's stub file, which that includes, and the
/// fatbin's, which the stub file includes.
fn generated(recipe: &Recipe) -> Option<Vec<PathBuf>> {
    let source = recipe.reads.iter().find_map(|file| file.to_str()?.strip_suffix(".cudafe1.cpp"))?;
    let stub = PathBuf::from(format!("{source}.cudafe1.stub.c"));
    let text = String::from_utf8(content_of(&stub).ok()?).ok()?;
    let mut included =
        text.lines().filter_map(|line| line.strip_prefix("#include \"")?.strip_suffix(".fatbin.c\""));
    let fatbin = stub.with_file_name(format!("{}.fatbin.c", included.next()?));
    Some(recipe.reads.iter().cloned().chain([stub, fatbin]).collect())
}

/// Whether a raw string, or a comment of several lines, may begin in a text, or lines are joined.
fn may_go_on(text: &[u8]) -> bool {
    let goes_on = |line: &[u8]| join_of(line).is_some() || (line.contains(&b'*') && may_be_open(line));
    text.split(|&byte| byte == b'\n').any(goes_on)
        || contains(text, b"??")
        || (1..text.len())
            .any(|place| text[place] == b'"' && text[place - 1] == b'R' && begins_raw_string(&text[..place]))
}

/// Whether a part that is left out may not go on behind a line: at a directive that is no line marker, or at
/// a joined line.
fn may_end(line: &[u8]) -> bool {
    let begin = line.trim_ascii_start();
    let is_marker =
        begin.strip_prefix(b"# ").is_some_and(|rest| rest.first().is_some_and(u8::is_ascii_digit));
    join_of(line).is_some() || ((begin.starts_with(b"#") || begin.starts_with(b"%:")) && !is_marker)
}

/// A source of cudafe++ without device code, which that leaves out by `#if 0`. Its lines stay, but empty. The
/// source as it is, if such a part may end elsewhere.
fn without_device_code(text: Vec<u8>) -> Vec<u8> {
    if may_go_on(&text) {
        return text;
    }
    let (mut out, mut depth) = (Vec::with_capacity(text.len()), 0_usize);
    for line in text.split_inclusive(|&byte| byte == b'\n') {
        let is_inside = depth > 0;
        match line {
            b"#if 0\n" => depth += 1,
            b"#endif\n" if is_inside => depth -= 1,
            _ if is_inside && may_end(line.trim_ascii_end()) => return text,
            _ => {}
        }
        out.extend(if is_inside && depth > 0 { &b"\n"[..] } else { line });
    }
    if depth > 0 { text } else { out }
}

impl Session<'_> {
    /// The key of a compile by the texts that it reads and all of its words.
    fn direct_key(&mut self, task: usize) -> Option<Digest> {
        let recipe = &self.candidates.get(&task)?.recipe;
        let (question, file) = recipe.question.as_ref()?;
        let text = |file: &PathBuf| {
            Some(Text { role: Role::Source, content: without_device_code(content_of(file).ok()?) })
        };
        let texts: Vec<Text> = generated(recipe)?.iter().map(text).collect::<Option<_>>()?;
        let words = question.words.iter().filter(|word| Path::new(word) != file);
        let words: Vec<String> = words.cloned().collect();
        let start = self.start(task)?;
        key::direct(start, &self.candidates.get(&task)?.recipe, &texts, words.iter())
    }

    /// Makes what a compile makes, if the store knows that for its texts and for headers as they are.
    pub(super) fn take_directly(&mut self, task: usize, times: (f64, f64)) -> Option<Taken> {
        let key = self.direct_key(task)?;
        self.candidates.get_mut(&task)?.direct.key = Some(key);
        let recipe = &self.candidates.get(&task)?.recipe;
        let (entry, now) =
            Manifest::find(self.store, &key, (Path::new(&recipe.job.folder), None), &recipe.job.variables)?;
        let taken = self.take(recipe, self.entry(&entry, recipe)?, times)?;
        self.candidates.get_mut(&task)?.direct.found = Some(now);
        Some(taken)
    }

    /// Hears the key of a compile's entry, by its preprocessed text.
    pub fn found(&mut self, task: usize, entry: Digest) {
        if let Some(candidate) = self.candidates.get_mut(&task) {
            candidate.direct.entry = Some(entry);
        }
    }

    /// Whether a compile's preprocessor has entered no other files of the call than those that a key by texts
    /// has, nor may see its lines.
    fn is_known(&self, recipe: &Recipe, entered: &BTreeSet<PathBuf>) -> bool {
        let own = entered.iter().filter(|path| path.starts_with(self.tmp));
        generated(recipe).is_some_and(|generated| own.into_iter().all(|path| generated.contains(path)))
    }

    /// Keeps what the preprocessors of the call's compiles depended on, so that these are found without one.
    pub(super) fn keep_directly(&self, cwd: &str, questions: &BTreeMap<usize, Manifest>, written: &Written) {
        for (number, manifest) in questions {
            let Some(candidate) =
                self.candidates.get(number).filter(|candidate| candidate.recipe.job.folder == cwd)
            else {
                continue;
            };
            let entered =
                candidate.recipe.question.as_ref().and_then(|(_, file)| written.entered_without_lines(file));
            let is_known = entered.is_some_and(|entered| self.is_known(&candidate.recipe, entered));
            if let (Some(key), Some(entry), true) = (candidate.direct.key, candidate.direct.entry, is_known) {
                let _ = manifest.keep(self.store, &key, &entry);
            }
        }
    }
}

#[cfg(test)]
mod tests {
    use super::*;

    fn without(text: &str) -> String {
        String::from_utf8(without_device_code(text.into())).unwrap()
    }

    #[test]
    fn device_code_does_not_count() {
        let text = "int a;\n#if 0\n# 12 \"k.cu\"\n{ a = 5; } \n#endif\nint b; \n#if 0\n#endif\n#if 01\nint c;\n#endif\n";
        assert_eq!(
            without(text),
            "int a;\n#if 0\n\n\n#endif\nint b; \n#if 0\n#endif\n#if 01\nint c;\n#endif\n"
        );
        let nested = "#if 0\na\n#if 0\nb\n#endif\n# 3\nc\n#endif\nint d;\n#endif\n";
        assert_eq!(without(nested), "#if 0\n\n\n\n\n\n\n#endif\nint d;\n#endif\n");
        assert_eq!(
            (without(""), without("#if 0\n\"ERR\"\n#endif\n")),
            (String::new(), "#if 0\n\n#endif\n".into())
        );
    }

    #[test]
    fn a_part_that_may_end_elsewhere_counts() {
        let part = |inside: &str| format!("int a;\n#if 0\n{inside}\n#endif\nint b;\n");
        for inside in [
            "#else\nint c;",
            "#if 1\n#endif",
            " # endif",
            "%:endif",
            "a \\",
            "/* a",
            "R\"(",
            "a = u8R\"(",
            "\u{20ac}R\"(",
            "??=endif",
        ] {
            assert_eq!(without(&part(inside)), part(inside), "{inside}");
        }
        let comments = ["/* x */\n", "a /* x */ b /**/\n", "// /* x */\n"]
            .map(|line| format!("{line}#if 0\na\n#endif\n"));
        assert!(
            comments
                .iter()
                .all(|text| without(text) == text.replacen("a\n#endif", "\n#endif", 1)
                    && without(text) != *text)
        );
        for text in [
            "R\"(\n#if 0\na\n#endif\n)\"\n",
            "/*\n#if 0\n*/ a\n#endif\n",
            "/* */ /*/\n#if 0\na\n#endif\n",
            "a\\\n#if 0\na\n#endif\n",
            "#if 0\na\n",
            "#if 0\na\n#endif",
            "#if 0\na\n#endif \n",
        ] {
            assert_eq!(without(text), text);
        }
    }
}
