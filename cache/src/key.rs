//! The key of a command: what its outputs and messages depend on.
use crate::digest::{Digest, Hasher};
use crate::host_text::{parts_of, sees_lines, without_numbers};
use crate::marked;
use crate::processor::instructions;
use crate::recipe::{Recipe, Role};
use crate::store::Store;
use crate::tool::Kind;
use crate::words::program_of;
use command_keys::{command_key, tool_variables};
use machine::bytes::contains;
use rattle_std::alloc::Global;
use std::borrow::Cow;
use std::ffi::OsString;
use std::fs;
use std::os::unix::ffi::OsStrExt;
use std::path::{Path, PathBuf};
use token_texts::token_text;

/// What every key begins with. It changes with what is in an entry, or in a key.
const FORM: &[u8] = b"zigrunk command 9";

/// The variable that names folders in which the loader looks for libraries.
const LOADERS_FOLDERS: &str = "LD_LIBRARY_PATH";

/// A part of a text that has so many bytes is found in the store, with what its tokens are.
const LARGE: usize = 1 << 13;

/// A text that a command reads.
#[derive(Clone, PartialEq, Eq, Debug)]
pub struct Text {
    pub role: Role,
    pub content: Vec<u8>,
}

/// What counts of a text that a command reads, with marks for a directory.
fn text_identity(text: &[u8], directory: &[u8]) -> Digest {
    let mut hasher = Hasher::default();
    marked::add_to(&mut hasher, text, directory);
    hasher.finish()
}

/// What the tokens of a text are. `None` if it isn't sure to have these.
fn tokens_of(text: &[u8], recipe: &Recipe) -> Option<Digest> {
    let tokens = token_text(Global, text).ok()??;
    Some(text_identity(&recipe.unnamed(tokens.as_slice())?, recipe.directory.as_bytes()))
}

/// The same for a part of a text. Sources of a project have large ones in common, as what nvcc includes for
/// each: their tokens are read once, unless a name that doesn't count, or what stands for one, makes them the
/// call's own.
fn part_identity(part: &[u8], recipe: &Recipe, store: &Store) -> Option<Digest> {
    let names = [recipe.directory.as_str(), recipe.stem.as_deref().unwrap_or_default()];
    if part.len() < LARGE || part.contains(&0) || names.iter().any(|name| contains(part, name.as_bytes())) {
        return tokens_of(part, recipe);
    }
    let mut key = Hasher::default();
    key.add(b"zigrunk tokens 1");
    key.update(part);
    let key = key.finish();
    if let Some(kept) = store.read(&key).and_then(|kept| kept.try_into().ok()) {
        return Some(Digest(kept));
    }
    let tokens = tokens_of(part, recipe)?;
    let _ = store.write(&key, &tokens.0);
    Some(tokens)
}

/// What counts of a preprocessed text if lines, blanks and comments don't. `None` if the text may see its
/// lines, or isn't sure to have these tokens. Texts whose parts have the same tokens have the same tokens
/// (`token_texts::laws::parts`). A part has none if a comment or a literal goes on behind it.
fn token_identity(text: &[u8], recipe: &Recipe, store: &Store) -> Option<Digest> {
    if sees_lines(text) {
        return None;
    }
    // (what cudafe++ writes has no large parts in common with others, and blanks as it puts them)
    if let Some(lines) = (recipe.kind == Kind::Host).then(|| without_numbers(text)).flatten() {
        return Some(text_identity(&recipe.unnamed(&lines)?, recipe.directory.as_bytes()));
    }
    let mut hasher = Hasher::default();
    for part in parts_of(text) {
        hasher.update(&part_identity(part, recipe, store)?.0);
    }
    Some(hasher.finish())
}

/// A text as it counts. `None` if the name that doesn't count may reach more than line markers.
fn counted<'a>(text: &'a Text, recipe: &Recipe) -> Option<Cow<'a, [u8]>> {
    let is_seen =
        |stem: &String| text.role == Role::Preprocessed && marked::shows(&text.content, stem.as_bytes());
    if recipe.stem.as_ref().is_some_and(is_seen) { None } else { recipe.unnamed(&text.content) }
}

/// The key of a command's words and variables, by what is proved of keys. `PWD` is where the command runs,
/// which only debugging information has.
fn words_key(recipe: &Recipe, environment: &[(OsString, OsString)]) -> Option<Vec<u8>> {
    let variables: Vec<(&[u8], &[u8])> =
        environment.iter().map(|(name, value)| (name.as_bytes(), value.as_bytes())).collect();
    let chosen = tool_variables(Global, program_of(recipe.kind), &variables).ok()?;
    let names_count = recipe.directory.is_empty();
    let counted: Vec<_> =
        chosen.as_slice().iter().filter(|variable| names_count || variable.0 != b"PWD").copied().collect();
    let words: Vec<&[u8]> = recipe.counted.iter().map(String::as_bytes).collect();
    let stem = recipe.stem.as_deref().unwrap_or_default();
    let key =
        command_key(Global, &words, &counted, &[recipe.directory.as_bytes(), stem.as_bytes()]).ok()??;
    Some(key.as_slice().to_vec())
}

/// Where a path leads from a command's folder.
fn place_of(recipe: &Recipe, path: &str) -> PathBuf {
    fs::canonicalize(Path::new(&recipe.job.folder).join(path)).unwrap_or_default()
}

/// The places that a command may write beside their names: that of a source, of which a module id has a sum,
/// and the working directory.
fn places(recipe: &Recipe) -> Vec<PathBuf> {
    let sources = recipe
        .job
        .words
        .windows(2)
        .filter(|pair| pair[0] == "--orig_src_path_name")
        .map(|pair| place_of(recipe, &pair[1]));
    sources.chain(recipe.directory.is_empty().then(|| place_of(recipe, ""))).collect()
}

/// What counts of a command beside the texts that it reads, and what it depends on: the processor, its tool,
/// its words, its environment and its places.
pub fn start_of(recipe: &Recipe, environment: &[(OsString, OsString)]) -> Option<Hasher> {
    let mut start = Hasher::default();
    start.add(FORM);
    start.add(format!("{:?}", recipe.kind).as_bytes());
    start.add(instructions().as_bytes());
    let program = recipe.program();
    start.add(program.as_os_str().as_bytes());
    // (a link may lead to another one later, and back)
    start.add(fs::canonicalize(&program).unwrap_or_default().as_os_str().as_bytes());
    let folders = environment.iter().rev().find(|(name, _)| name == LOADERS_FOLDERS);
    start.add(folders.map(|(_, folders)| folders.as_bytes()).unwrap_or_default());
    start.add(&words_key(recipe, environment)?);
    for place in places(recipe) {
        start.add(place.as_os_str().as_bytes());
    }
    Some(start)
}

/// The key of a compile by the texts that it reads and by its words, those for the preprocessor too. `None`
/// if it may not have one.
pub fn direct<'a>(
    mut start: Hasher,
    recipe: &Recipe,
    texts: &[Text],
    words: impl Iterator<Item = &'a String>,
) -> Option<Digest> {
    start.add(b"direct 5");
    start.add(recipe.job.folder.as_bytes());
    for word in words {
        marked::add_to(&mut start, &recipe.unnamed(word.as_bytes())?, recipe.directory.as_bytes());
    }
    start.add(b"texts");
    for text in texts {
        start.update(&text_identity(&counted(text, recipe)?, recipe.directory.as_bytes()).0);
    }
    Some(start.finish())
}

/// The key of a command, but for the texts that it reads late.
#[derive(Clone, Debug)]
pub struct Part(Hasher);

impl Part {
    /// That by texts as they are. `None` if a name shows that isn't to count.
    pub fn by_texts(mut start: Hasher, recipe: &Recipe, texts: &[Text]) -> Option<Part> {
        start.add(b"texts");
        for text in texts.iter().filter(|text| text.role != Role::Late) {
            start.update(&text_identity(&counted(text, recipe)?, recipe.directory_in_texts()).0);
        }
        Some(Part(start))
    }

    /// That by the tokens of preprocessed texts. Commands that have it in common make the same, but may say
    /// other things. `None` if lines count, or if no text is preprocessed.
    pub fn by_tokens(mut start: Hasher, recipe: &Recipe, texts: &[Text], store: &Store) -> Option<Part> {
        if recipe.lines_count || !texts.iter().any(|text| text.role == Role::Preprocessed) {
            return None;
        }
        start.add(b"tokens");
        for text in texts {
            match text.role {
                Role::Preprocessed => start.update(&token_identity(&text.content, recipe, store)?.0),
                Role::Source | Role::Late => {}
                Role::Other => {
                    start.update(&text_identity(&counted(text, recipe)?, recipe.directory.as_bytes()).0);
                }
            }
        }
        Some(Part(start))
    }

    /// The whole key.
    pub fn key(&self, recipe: &Recipe, texts: &[Text]) -> Digest {
        let mut hasher = self.0.clone();
        for text in texts.iter().filter(|text| text.role == Role::Late) {
            hasher.update(&text_identity(&text.content, recipe.directory.as_bytes()).0);
        }
        hasher.finish()
    }

    /// Under this the store says that it has an entry, whatever was read late.
    pub fn mark(&self) -> Digest {
        let mut hasher = self.0.clone();
        hasher.add(b"but for what is read late");
        hasher.finish()
    }
}

#[cfg(test)]
mod tests {
    use super::*;
    use crate::test_folder::TestFolder;
    use crate::tool::Kind;
    use machine::jobs::Job;

    /// A store without entries.
    fn store() -> Store {
        Store::new(std::env::temp_dir().join("no-entries"), 1 << 20)
    }

    fn recipe(words: &str, directory: &str) -> Recipe {
        Recipe {
            kind: Kind::Cicc,
            counted: words.split(' ').map(String::from).collect(),
            job: Job { words: vec!["/a/cicc".into()], folder: "/".into(), ..Job::default() },
            reads: Vec::new(),
            outputs: Vec::new(),
            directory: directory.into(),
            lines_count: directory.is_empty(),
            question: None,
            assembles: false,
            stem: None,
            has_own_source: false,
        }
    }

    fn start(recipe: &Recipe, environment: &[(OsString, OsString)]) -> Hasher {
        start_of(recipe, environment).unwrap()
    }

    fn texts(texts: &[(Role, &str)]) -> Vec<Text> {
        texts.iter().map(|&(role, text)| Text { role, content: text.into() }).collect()
    }

    /// The key by tokens of a recipe with a preprocessed text and others.
    fn tokens(recipe: &Recipe, text: &str, others: &[(Role, &str)]) -> Option<Digest> {
        let texts = texts(&[&[(Role::Preprocessed, text)], others].concat());
        Part::by_tokens(start(recipe, &[]), recipe, &texts, &store()).map(|part| part.key(recipe, &texts))
    }

    fn key(recipe: &Recipe, variables: &[(&str, &str)], text: &str) -> Digest {
        let environment: Vec<_> = variables.iter().map(|(name, value)| (name.into(), value.into())).collect();
        Part::by_texts(start(recipe, &environment), recipe, &texts(&[(Role::Preprocessed, text)]))
            .unwrap()
            .key(recipe, &[])
    }

    #[test]
    fn the_calls_directory_does_not_count() {
        let one = key(&recipe("-o /t/1/x.ptx", "/t/1"), &[], "# 1 \"/t/1/x.h\"");
        assert_eq!(one, key(&recipe("-o /u/x.ptx", "/u"), &[], "# 1 \"/u/x.h\""));
        assert_ne!(one, key(&recipe("-o /t/1/x.ptx", "/t/1"), &[], "# 1 \"/u/x.h\""));
        assert_ne!(one, key(&recipe("-o /t/1/x.ptx", ""), &[], "# 1 \"/t/1/x.h\""));
    }

    #[test]
    fn what_a_tool_reads_counts() {
        let cicc = recipe("-g", "/t");
        let one = key(&cicc, &[("HOME", "/h"), ("PWD", "/w")], "text");
        assert_eq!(one, key(&cicc, &[("PWD", "/other")], "text"));
        let others = [
            key(&cicc, &[], "texts"),
            key(&cicc, &[("EDG_BASE", "/e")], "text"),
            key(&cicc, &[("LD_PRELOAD", "/l.so")], "text"),
            key(&cicc, &[("LD_LIBRARY_PATH", "/l")], "text"),
            key(&cicc, &[("GLIBC_TUNABLES", "glibc.cpu.hwcaps=-FMA")], "text"),
            key(&recipe("-G", "/t"), &[], "text"),
            key(&Recipe { kind: Kind::Ptxas, ..cicc.clone() }, &[], "text"),
        ];
        assert!(others.iter().all(|other| *other != one));
        let named = recipe("-g", "");
        assert_ne!(key(&named, &[("PWD", "/w")], "text"), key(&named, &[("PWD", "/other")], "text"));
        let another = Recipe {
            job: Job { words: vec!["/b/cicc".into()], folder: "/".into(), ..Job::default() },
            ..cicc.clone()
        };
        assert_ne!(key(&another, &[("HOME", "/h"), ("PWD", "/w")], "text"), one);
    }

    #[test]
    fn by_tokens_lines_do_not_count() {
        let cicc = recipe("-m64", "/t");
        let one = tokens(&cicc, "# 1 \"k.cu\"\nint a;\n", &[]).unwrap();
        let same = [
            "# 1 \"k.cu\"\n\n\n  int a ;\n",
            "# 1 \"k.cu\"\n# 7 \"k.cu\"\nint a;\n",
            "# 1 \"k.cu\"\n/* x */ int a; // y\n",
        ];
        assert_eq!(same.map(|text| tokens(&cicc, text, &[])), [Some(one); 3]);
        let others = [
            "# 1 \"j.cu\"\nint a;\n",
            "# 1 \"k.cu\"\ninta;\n",
            "# 1 \"k.cu\"\n# 1 \"a.h\" 1\n# 2 \"k.cu\" 2\nint a;\n",
            "# 1 \"k.cu\"\n#pragma x\nint a;\n",
        ];
        assert!(others.iter().all(|text| tokens(&cicc, text, &[]).is_some_and(|other| other != one)));
        assert_ne!(key(&cicc, &[], "int a;\n"), key(&cicc, &[], "int a; \n"));
        assert_ne!(tokens(&Recipe { kind: Kind::CudaFe, ..cicc }, "# 1 \"k.cu\"\nint a;\n", &[]), Some(one));
    }

    #[test]
    fn tokens_of_large_parts_are_kept() {
        let folder = TestFolder::new();
        let (store, cicc) = (Store::new(folder.join("store"), 1 << 20), recipe("-m64", "/t"));
        let text = |header: &str| {
            format!("# 0 \"k.cu\"\n# 1 \"a.h\" 1\n{}# 2 \"k.cu\" 2\nint k;\n", header.repeat(LARGE / 6))
        };
        let of = |text: &str, recipe: &Recipe| token_identity(text.as_bytes(), recipe, &store);
        let entries = || store.content().entries;
        let one = of(&text("int a;\n"), &cicc);
        assert_eq!((one.is_some(), entries(), of(&text("int a;\n"), &cicc), entries()), (true, 1, one, 1));
        assert_eq!(of(&text("int  a;\n\n"), &cicc), of(&text("int\ta ;\n"), &cicc), "the same tokens");
        let kept = entries();
        assert_ne!(of(&text("int b;\n"), &cicc), one);
        assert_eq!(
            (of(&text("/* a\n"), &cicc), of(&text("char a = '\n"), &cicc), entries()),
            (None, None, kept + 1)
        );
        let named = Recipe { stem: Some("k.cudafe1".into()), ..cicc.clone() };
        assert_eq!((of(&text("int a;\n"), &named), entries()), (one, kept + 1));
        for text in ["f(\"/t/a\");\n", "f(\"k.cudafe1\");\n", "f(\"\0\");\n"].map(text) {
            assert_eq!((of(&text, &named).is_some(), entries()), (!text.contains('\0'), kept + 1), "{text}");
        }
    }

    #[test]
    fn parts_have_the_tokens_of_the_text() {
        let texts = [
            "# 0 \"k\"\n",
            "int a;\n",
            "# 1 \"a\" 1\n",
            "# 3 \"k\" 2\n",
            "# 5 \"k\"\n",
            "\"/*\" // x\n",
            "#pragma x\n",
            "/* x\n */ + +\n",
            "R\"(\n",
            ")\";\n",
        ];
        for number in 0..texts.len().pow(4) {
            let lines = (0..4).map(|place| texts[number / texts.len().pow(place) % texts.len()]);
            let text: String = lines.collect();
            let of = |text: &[u8]| token_text(Global, text).unwrap().map(|tokens| tokens.as_slice().to_vec());
            let parts: Option<Vec<_>> = parts_of(text.as_bytes()).into_iter().map(of).collect();
            assert!(parts.is_none_or(|parts| Some(parts.concat()) == of(text.as_bytes())), "{text}");
        }
    }

    #[test]
    fn beside_tokens_other_texts_count_but_sources_do_not() {
        let cicc = recipe("-m64", "/t");
        let of = |role: Role, text: &str| tokens(&cicc, "int a;\n", &[(role, text)]);
        assert_ne!(of(Role::Other, "id"), of(Role::Other, "id\n"));
        assert_eq!(of(Role::Source, "x"), of(Role::Source, "y"));
        assert_eq!(
            tokens(&cicc, "f(\"/t/k\");\n", &[]),
            tokens(&recipe("-m64", "/u"), "f(\"/u/k\");\n", &[])
        );
        assert!(
            Part::by_tokens(start(&cicc, &[]), &cicc, &texts(&[(Role::Other, "int a;\n")]), &store())
                .is_none(),
            "no preprocessed text"
        );
    }

    #[test]
    fn a_name_that_does_not_count_may_only_stand_in_line_markers() {
        let of = |stem: &str, text: &str| {
            let recipe = Recipe { stem: Some(stem.into()), ..recipe(&format!("-o /t/{stem}.cpp"), "/t") };
            let texts = texts(&[(Role::Preprocessed, text)]);
            let by_texts =
                Part::by_texts(start(&recipe, &[]), &recipe, &texts).map(|part| part.key(&recipe, &texts));
            (
                by_texts,
                Part::by_tokens(start(&recipe, &[]), &recipe, &texts, &store())
                    .map(|part| part.key(&recipe, &texts)),
            )
        };
        let one = of("k.80.cudafe1", "# 1 \"k.80.cudafe1.cpp\"\nint a;\n");
        assert_eq!(one, of("k.90.cudafe1", "# 1 \"k.90.cudafe1.cpp\"\nint a;\n"));
        assert!(one.0.is_some() && one.1.is_some());
        let others = [
            of("k.90.cudafe1", "# 1 \"k.80.cudafe1.cpp\"\nint a;\n"),
            of("k.80.cudafe1", "# 1 \"k.80.cudafe1.cpp\"\nint b;\n"),
        ];
        assert!(others.iter().all(|other| other.0 != one.0 && other.1 != one.1));
        assert_eq!(of("k.80.cudafe1", "char* a = \"k.80.cudafe1\";\n").0, None);
        assert_eq!(of("k.80.cudafe1", "int \0;\n").0, None);
    }

    #[test]
    fn what_is_read_late_counts_in_keys_but_not_in_marks() {
        let cicc = recipe("-m64", "/t");
        let with = |text: &str, id: &str| {
            let texts = texts(&[(Role::Preprocessed, text), (Role::Late, id)]);
            let parts = [
                Part::by_texts(start(&cicc, &[]), &cicc, &texts).unwrap(),
                Part::by_tokens(start(&cicc, &[]), &cicc, &texts, &store()).unwrap(),
            ];
            parts.map(|part| (part.key(&cicc, &texts), part.mark(), part.key(&cicc, &[])))
        };
        for (one, other) in with("int a;\n", "_1").into_iter().zip(with("int a;\n", "_2")) {
            assert!(one.0 != other.0 && one.1 == other.1 && one.2 == other.2 && one.1 != one.2);
        }
        for (one, other) in with("int a;\n", "_1").into_iter().zip(with("int b;\n", "_1")) {
            assert!(one.0 != other.0 && one.1 != other.1);
        }
    }

    #[test]
    fn a_direct_key_has_all_words_and_texts() {
        let of = |words: &[&str], stem: &str, text: &str| {
            let recipe = Recipe { kind: Kind::Host, stem: Some(stem.into()), ..recipe("-m64", "/t") };
            let words: Vec<String> = words.iter().map(|&word| word.to_owned()).collect();
            direct(start(&recipe, &[]), &recipe, &texts(&[(Role::Source, text)]), words.iter())
        };
        let one =
            of(&["-DA", "/t/k.80.cudafe1.cpp"], "k.80.cudafe1", "#include \"/t/k.80.cudafe1.stub.c\"\n");
        assert_eq!(
            one,
            of(&["-DA", "/t/k.90.cudafe1.cpp"], "k.90.cudafe1", "#include \"/t/k.90.cudafe1.stub.c\"\n")
        );
        let others = [
            of(&["-DB", "/t/k.80.cudafe1.cpp"], "k.80.cudafe1", "#include \"/t/k.80.cudafe1.stub.c\"\n"),
            of(&["-DA", "/t/k.80.cudafe1.cpp"], "k.80.cudafe1", "#include \"/t/k.80.cudafe1.stub.c\"\n\n"),
            of(&["-DA/t/k.80.cudafe1.cpp"], "k.80.cudafe1", "#include \"/t/k.80.cudafe1.stub.c\"\n"),
        ];
        assert!(one.is_some() && others.iter().all(|other| other.is_some() && *other != one));
        assert_eq!(of(&[], "k", "\0"), None);
    }

    #[test]
    fn where_lines_may_show_there_is_no_key_by_tokens() {
        let cases = [
            ("-g", "", "int a;\n"),
            ("-m64", "/t", "int a = __builtin_LINE();\n"),
            ("-m64", "/t", "#define A(x) #x // y\n"),
            ("-m64", "/t", "a \\\n b\n"),
        ];
        for (words, directory, text) in cases {
            assert_eq!(tokens(&recipe(words, directory), text, &[]), None, "{words} {text}");
        }
    }

    #[test]
    fn in_what_fatbinary_packs_the_calls_directory_counts() {
        let of = |kind: Kind, directory: &str, text: &str| {
            let recipe = Recipe { kind, ..recipe(&format!("--create={directory}/x"), directory) };
            key(&recipe, &[], text)
        };
        assert_eq!(of(Kind::Fatbinary, "/t", "text"), of(Kind::Fatbinary, "/u", "text"));
        assert_ne!(of(Kind::Fatbinary, "/t", "/t/k.cu"), of(Kind::Fatbinary, "/u", "/u/k.cu"));
        assert_eq!(of(Kind::Cicc, "/t", "/t/k.cu"), of(Kind::Cicc, "/u", "/u/k.cu"));
    }
}
