//! Whole calls: what an equal call has made and said is made and said again, without a dry run, if all that
//! it read is as it was.
//!
//! A call's key leads to a manifest, the files that were read and the places where some were sought in vain.
//! Their digests lead to what the call made.
use crate::checkout::Checkout;
use crate::digest::{Digest, Hasher};
use crate::manifest::Manifest;
use crate::miss::Miss;
use crate::processor::instructions;
use crate::source::words_of;
use crate::store::Store;
use crate::stored;
use crate::system::may_write;
use call::NvccLine;
use machine::settings::{self, AskedRoot, own_variable, own_variables};
use machine::streams::{Said, write_all};
use serde::{Deserialize, Serialize};
use std::ffi::{OsStr, OsString};
use std::fs::{self, File};
use std::io::{self, ErrorKind, IsTerminal};
use std::os::unix::ffi::OsStrExt;
use std::path::{Path, PathBuf};

/// Variables that nothing of what a call makes depends on, unless a process asks for one. All others count,
/// since nvcc's profile may use any.
const FREE_VARIABLES: [&str; 39] = [
    "COLUMNS",
    "DISPLAY",
    "EDITOR",
    "GCC_COLORS",
    "HISTFILE",
    "HISTSIZE",
    "HOME",
    "HOSTNAME",
    "INVOCATION_ID",
    "JOURNAL_STREAM",
    "LESSCLOSE",
    "LESSOPEN",
    "LINES",
    "LOGNAME",
    "LS_COLORS",
    "MAIL",
    "MAKEFLAGS",
    "MAKELEVEL",
    "MAKEOVERRIDES",
    "MAKE_TERMERR",
    "MAKE_TERMOUT",
    "MFLAGS",
    "NINJA_STATUS",
    "OLDPWD",
    "PAGER",
    "PS1",
    "PWD",
    "SHELL",
    "SHLVL",
    "STY",
    "TERM",
    "TERM_PROGRAM",
    "TMPDIR",
    "TMUX",
    "TMUX_PANE",
    "USER",
    "VISUAL",
    "WINDOWID",
    "_",
];
/// The same for those that begin so.
const FREE_BEGINNINGS: [&str; 9] =
    ["CCACHE_", "CMAKE_", "DBUS_", "GITHUB_", "SLURM_", "SSH_", "VSCODE_", "XDG_", "ZIGRUNK_"];

/// The one among these that counts: products are others under a root.
const COUNTING: &str = "ZIGRUNK_ROOT";

/// Whether nothing of what a call makes depends on a variable, unless a process asks for it. All others are
/// in its key.
pub fn is_free(name: &OsStr) -> bool {
    if name == COUNTING {
        return false;
    }
    let name = name.as_bytes();
    FREE_VARIABLES.iter().any(|free| name == free.as_bytes())
        || FREE_BEGINNINGS.iter().any(|begin| name.starts_with(begin.as_bytes()))
}

/// For these of them tools ask, but nothing that they make depends on them; messages are kept for the kind of
/// terminal.
const HARMLESS: [&str; 6] = ["COLUMNS", "GCC_COLORS", "MAKEFLAGS", "PWD", "TERM", "TMPDIR"];

/// Whether nothing that tools make depends on a variable, though they ask for it.
pub fn is_harmless(name: &OsStr) -> bool {
    HARMLESS.iter().any(|harmless| name == *harmless)
}

/// Whether a text has the name of a variable that isn't in a call's key: a script may use any without asking.
pub fn names_free_variable(text: &[u8]) -> bool {
    words_of(text).any(|word| is_free(OsStr::from_bytes(word)))
}

/// A file that a call has made.
#[derive(Clone, PartialEq, Eq, Debug, Serialize, Deserialize)]
pub struct Product {
    /// Its path, seen from the call's working directory.
    #[serde(with = "stored::path")]
    pub path: PathBuf,
    /// Whether it takes the place of what was there.
    pub is_new: bool,
    /// What is in it.
    #[serde(with = "serde_bytes")]
    pub text: Vec<u8>,
}

/// What a call has made and said.
#[derive(Clone, PartialEq, Eq, Debug, Default, Serialize, Deserialize)]
pub struct Answer {
    /// What it has put in places outside its directory.
    pub products: Vec<Product>,
    /// Its dependency file, if it has one.
    pub rule: Option<Product>,
    /// What it has said.
    pub said: Said,
    /// The kind of terminal for which its messages are.
    pub terminal: Vec<u8>,
}

impl Answer {
    fn is_silent(&self) -> bool {
        self.said.iter().all(|(_, text)| text.is_empty())
    }

    /// Whether its messages would be the same now.
    fn may_be_said(&self) -> bool {
        self.is_silent() || self.terminal == terminal()
    }
}

/// The keys under which a call may be: with no folder, and with its own.
fn keys(line: &NvccLine, nvcc: &Path) -> [Digest; 2] {
    let places = fs::canonicalize(&line.cwd)
        .map(|real| [line.cwd.as_bytes(), b"\0", real.as_os_str().as_bytes()].concat());
    let places = places.unwrap_or_else(|_| line.cwd.clone().into_bytes());
    [&b""[..], &places].map(|folder| key(&line.words, nvcc, folder, own_variables()))
}

/// The variables that name folders: what is found there counts, not how they are called.
const LISTS: [&str; 7] = [
    "COMPILER_PATH",
    "CPATH",
    "CPLUS_INCLUDE_PATH",
    "C_INCLUDE_PATH",
    "LD_LIBRARY_PATH",
    "LIBRARY_PATH",
    "PATH",
];

/// A variable's value as any checkout has it. `None` if it may name the checkout's folder in another way.
fn value_in(checkout: &Checkout, name: &OsStr, value: &OsStr) -> Option<OsString> {
    match value.to_str().filter(|_| LISTS.iter().any(|list| name == *list)) {
        Some(list) => Some(checkout.list(list)?.into()),
        None => Some(OsStr::from_bytes(checkout.value(value.as_bytes())?).to_owned()),
    }
}

/// What a call's key has in each checkout under a root.
pub struct Rooted {
    /// The words of the line.
    pub words: Vec<String>,
    variables: Vec<(OsString, OsString)>,
}

impl Rooted {
    /// That of a call in a checkout. `None` if a product may have more of the folder's path than the root
    /// stands for.
    pub fn of(checkout: &Checkout, line: &NvccLine, nvcc: &Path) -> Option<Rooted> {
        let words = line.words.iter().map(|word| checkout.word(word)).collect::<Option<_>>()?;
        let counting = own_variables().filter(|(name, _)| !is_free(name) && name != COUNTING);
        let rooted = |(name, value): (OsString, OsString)| {
            value_in(checkout, &name, &value).map(|value| (name, value))
        };
        let variables = counting.map(rooted).collect::<Option<_>>()?;
        (!checkout.is_named_in(nvcc.as_os_str().as_bytes())).then_some(Rooted { words, variables })
    }

    /// The folders that its variables name.
    pub fn lists(&self) -> impl Iterator<Item = &str> {
        let lists = self.variables.iter().filter(|(name, _)| LISTS.iter().any(|list| name == *list));
        lists.filter_map(|(_, value)| value.to_str()).flat_map(|list| list.split(':'))
    }

    /// The call's key.
    pub fn key(&self, checkout: &Checkout, nvcc: &Path) -> Option<Digest> {
        let [cwd, real] = checkout.places()?;
        let folder = [cwd.as_os_str(), real.as_os_str(), checkout.name.as_ref()].map(OsStr::as_bytes);
        Some(key(&self.words, nvcc, &folder.join(&0), self.variables.iter().cloned()))
    }
}

/// The key of a call: the processor, its nvcc, its words and its variables, and its folder, with where that
/// really is, if that counts.
fn key(
    words: &[String],
    nvcc: &Path,
    folder: &[u8],
    variables: impl Iterator<Item = (OsString, OsString)>,
) -> Digest {
    let mut hasher = Hasher::default();
    hasher.add(b"zigrunk call 9");
    hasher.add(instructions().as_bytes());
    hasher.add(folder);
    hasher.add(nvcc.as_os_str().as_bytes());
    hasher.update(&(words.len() as u64).to_le_bytes());
    for word in words {
        hasher.add(word.as_bytes());
    }
    let mut variables: Vec<_> = variables.filter(|(name, _)| !is_free(name)).collect();
    variables.sort();
    for (name, value) in variables {
        hasher.add(name.as_bytes());
        hasher.add(value.as_bytes());
    }
    hasher.finish()
}

/// Whether calls are kept whole: unless `ZIGRUNK_CALLS` is no.
pub fn is_on() -> bool {
    settings::keeps_calls()
}

/// Makes what the store has of a whole call, which may be under a root, and gives what it said.
/// Errors: why the call has to be made.
pub fn serve(store: &Store, line: &NvccLine, nvcc: &Path, root: Option<&AskedRoot>) -> Result<Said, Miss> {
    by_places(store, line, nvcc, root, |place, cwd| place.served(place.found(store, cwd)?, cwd))
}

/// Why the store has nothing for a call, unless it has.
pub fn miss(store: &Store, line: &NvccLine, nvcc: &Path, root: Option<&AskedRoot>) -> Option<Miss> {
    by_places(store, line, nvcc, root, |place, cwd| place.found(store, cwd)).err()
}

/// What is found at the first place of a call.
/// Errors: why nothing is.
fn by_places<T>(
    store: &Store,
    line: &NvccLine,
    nvcc: &Path,
    root: Option<&AskedRoot>,
    find: impl Fn(&Place<'_>, &Path) -> Result<T, Miss>,
) -> Result<T, Miss> {
    let cwd = Path::new(&line.cwd);
    // Without a folder for temporary files nvcc fails.
    let folder = own_variable("TMPDIR").filter(|folder| !folder.is_empty()).map(|folder| cwd.join(folder));
    if !folder.is_none_or(|folder| folder.is_dir() && may_write(&folder)) {
        return Err(Miss::NotLookedUp("TMPDIR is no folder that can be written"));
    }
    let checkout = root.and_then(|root| Checkout::of(root, &line.cwd));
    let places = places_of(line, nvcc, checkout.as_ref());
    let found = places.iter().try_fold(Miss::Unknown, |miss, place| match find(place, cwd) {
        Ok(found) => Err(found),
        Err(other) => Ok(miss.or(other)),
    });
    let refused = || refusal(store, &keys(line, nvcc)).map_or(Miss::Unknown, Miss::Refused);
    found.map_or_else(Ok, |miss| Err(miss.or(refused())))
}

/// The key under which is why a call isn't kept, by its other keys.
fn refusal_key(keys: &[Digest; 2]) -> Digest {
    let mut hasher = Hasher::default();
    hasher.add(b"zigrunk refusal 1");
    for key in keys {
        hasher.update(&key.0);
    }
    hasher.finish()
}

fn refusal(store: &Store, keys: &[Digest; 2]) -> Option<String> {
    String::from_utf8(store.read(&refusal_key(keys))?).ok()
}

/// Keeps why a call isn't kept, if the store can be written.
pub fn refuse(store: &Store, line: &NvccLine, nvcc: &Path, why: &str) {
    let _ = store.write(&refusal_key(&keys(line, nvcc)), why.as_bytes());
}

/// Where a call may be in the store.
struct Place<'a> {
    key: Digest,
    /// The checkout whose paths have a mark there, if they have one.
    checkout: Option<&'a Checkout>,
}

fn places_of<'a>(line: &NvccLine, nvcc: &Path, checkout: Option<&'a Checkout>) -> Vec<Place<'a>> {
    let rooted = checkout.and_then(|own| Rooted::of(own, line, nvcc)?.key(own, nvcc));
    let rooted = rooted.map(|key| Place { key, checkout });
    rooted.into_iter().chain(keys(line, nvcc).map(|key| Place { key, checkout: None })).collect()
}

impl Place<'_> {
    /// What the store has of a call here. If other sources stand for those that the call depends on, it's
    /// kept for these, too.
    fn found(&self, store: &Store, cwd: &Path) -> Result<Answer, Miss> {
        let stored = Manifest::read(store, &self.key).ok_or(Miss::Unknown)?;
        let earlier = stored.own_in(self.checkout).ok_or(Miss::NoAnswer)?;
        let now = earlier.now(cwd, &[]).map_err(Miss::Input)?;
        let kept = now.kept_in(self.checkout).ok_or(Miss::NoAnswer)?;
        if let Some(answer) = kept.answer(store, &self.key) {
            kept.improve(store, &self.key, &stored);
            return Some(answer).filter(Answer::may_be_said).ok_or(Miss::Terminal);
        }
        let miss = || earlier.difference(&now).map_or(Miss::NoAnswer, Miss::Input);
        let alike = earlier.alike(&now, cwd).and_then(|alike| alike.kept_in(self.checkout));
        let alike = alike.ok_or_else(miss)?;
        let answer = stored.answer(store, &self.key).filter(Answer::is_silent).ok_or_else(miss)?;
        let _ = alike.keep(store, &self.key, &answer);
        Ok(answer)
    }

    /// An answer as it is in this checkout.
    fn own(&self, mut answer: Answer) -> Option<Answer> {
        if let Some(checkout) = self.checkout {
            for product in answer.products.iter_mut().chain(&mut answer.rule) {
                product.path = checkout.own(&product.path)?;
            }
            if let Some(rule) = &mut answer.rule {
                rule.text = checkout.own_rule(&rule.text)?;
            }
            answer.said.iter_mut().for_each(|(_, text)| *text = checkout.own_said(text));
        }
        Some(answer)
    }

    /// Makes what a call has made, and gives what it said.
    fn served(&self, answer: Answer, cwd: &Path) -> Result<Said, Miss> {
        let answer = self.own(answer).ok_or(Miss::NoAnswer)?;
        // (what is to be written to may not be writable: then nothing else is made either)
        let (made, written): (Vec<&Product>, Vec<&Product>) =
            answer.products.iter().chain(&answer.rule).partition(|product| product.is_new);
        for product in written.into_iter().chain(made) {
            let lost = |_| Miss::Product(product.path.clone());
            put(product.is_new, &cwd.join(&product.path), &product.text).map_err(lost)?;
        }
        Ok(answer.said)
    }
}

/// What the store has of a call: its keys, and what the call depends on.
pub fn known(
    store: &Store,
    line: &NvccLine,
    nvcc: &Path,
    root: Option<&AskedRoot>,
) -> Vec<(Digest, Manifest)> {
    let checkout = root.and_then(|root| Checkout::of(root, &line.cwd));
    let known =
        |place: Place<'_>| Some((place.key, Manifest::read(store, &place.key)?.own_in(place.checkout)?));
    places_of(line, nvcc, checkout.as_ref()).into_iter().filter_map(known).collect()
}

/// Keeps what a call has made for all checkouts under a root, if the store can be written.
pub fn keep_shared(store: &Store, key: &Digest, manifest: &Manifest, answer: &Answer) {
    let _ = manifest.keep(store, key, answer);
}

/// Keeps what a call has made, if the store can be written.
pub fn keep(
    store: &Store,
    line: &NvccLine,
    nvcc: &Path,
    folder_counts: bool,
    manifest: &Manifest,
    answer: &Answer,
) {
    let key = keys(line, nvcc)[usize::from(folder_counts)];
    let _ = manifest.keep(store, &key, answer);
}

/// Variables by which messages differ, and those that count on a terminal alone.
const MESSAGES: [&str; 3] = ["GCC_COLORS", "GCC_EXTRA_DIAGNOSTIC_OUTPUT", "LANGUAGE"];
const ON_TERMINALS: [&str; 6] = ["TERM", "COLUMNS", "GCC_URLS", "TERM_URLS", "NOCOLOR", "NO_COLOR"];

/// What messages depend on beside what they say: the kind of terminal, and variables. Nothing if they don't
/// go to one, and none is set.
pub fn terminal() -> Vec<u8> {
    let is_terminal = io::stderr().is_terminal();
    let names = MESSAGES.iter().chain(ON_TERMINALS.iter().filter(|_| is_terminal));
    let values: Vec<Vec<u8>> =
        names.map(|name| own_variable(name).unwrap_or_default().as_bytes().to_vec()).collect();
    if is_terminal || values.iter().any(|value| !value.is_empty()) { values.join(&b'\n') } else { Vec::new() }
}

/// Puts a file in its place as a tool does: a compiler makes a new one, unless what is there is empty. The
/// others write to what is there.
pub fn put(is_new: bool, path: &Path, text: &[u8]) -> io::Result<()> {
    match fs::symlink_metadata(path) {
        Ok(status) if !status.is_file() => return Err(ErrorKind::AlreadyExists.into()),
        Ok(status) if is_new && status.len() > 0 => fs::remove_file(path)?,
        _ => {}
    }
    // What can't be opened stays, as with a tool.
    let file = File::create(path)?;
    write_all(&file, text).inspect_err(|_| drop(fs::remove_file(path)))
}

#[cfg(test)]
mod tests {
    use super::*;
    use crate::manifest::{Form, Seen, Vain};
    use crate::miss::{Change, Difference};
    use crate::test_folder::TestFolder;
    use std::fs;

    fn line(words: &str, cwd: &str) -> NvccLine {
        NvccLine {
            cwd: cwd.into(),
            nvcc: "nvcc".into(),
            words: words.split(' ').map(String::from).collect(),
            variables: Vec::new(),
        }
    }

    fn key_of(words: &str, folder: Option<&str>, nvcc: &str, variables: &[(&str, &str)]) -> Digest {
        let variables = variables.iter().map(|(name, value)| (name.into(), value.into()));
        key(&line(words, "/w").words, Path::new(nvcc), folder.unwrap_or_default().as_bytes(), variables)
    }

    #[test]
    fn words_variables_and_the_compiler_count() {
        let usual = key_of("-c k.cu", None, "/b/nvcc", &[("A", "1"), ("PATH", "/bin")]);
        let same = [
            ("PATH", "/bin"),
            ("TERM", "xterm"),
            ("A", "1"),
            ("ZIGRUNK_LOG", "x"),
            ("XDG_RUNTIME_DIR", "/run"),
        ];
        assert_eq!(key_of("-c k.cu", None, "/b/nvcc", &same), usual);
        let others = [
            key_of("-c k.cu -O2", None, "/b/nvcc", &[("A", "1"), ("PATH", "/bin")]),
            key_of("-c j.cu", None, "/b/nvcc", &[("A", "1"), ("PATH", "/bin")]),
            key_of("-c k.cu", Some("/w"), "/b/nvcc", &[("A", "1"), ("PATH", "/bin")]),
            key_of("-c k.cu", None, "/c/nvcc", &[("A", "1"), ("PATH", "/bin")]),
            key_of("-c k.cu", None, "/b/nvcc", &[("A", "2"), ("PATH", "/bin")]),
            key_of("-c k.cu", None, "/b/nvcc", &[("A", "1"), ("PATH", "/bin"), ("INCLUDES", "-I/x")]),
            key_of("-c k.cu", None, "/b/nvcc", &[("A", "1"), ("PATH", "/bin"), ("ZIGRUNK_ROOT", "/w")]),
        ];
        assert!(others.iter().all(|other| *other != usual));
    }

    #[test]
    fn a_profile_may_name_a_variable_that_is_free() {
        for text in
            ["INCLUDES += \"-I$(HOME)/inc\"", "$(CMAKE_PREFIX_PATH)", "$(ZIGRUNK_LOG)", "%:getenv(USER /inc)"]
        {
            assert!(names_free_variable(text.as_bytes()), "{text}");
        }
        let usual = "TOP = $(_HERE_)/..\nPATH += $(CICC_PATH):$(_HERE_):\nINCLUDES += \"-I$(TOP)/$(_TARGET_DIR_)/include\" $(_SPACE_)\n";
        assert!(!names_free_variable(usual.as_bytes()));
    }

    fn answer() -> Answer {
        let product = |path: &str, is_new: bool| Product { path: path.into(), is_new, text: path.into() };
        Answer {
            products: vec![product("k.o", true), product("k.ptx", false)],
            rule: Some(product("k.d", false)),
            said: vec![(true, b"warns".to_vec())],
            terminal: terminal(),
        }
    }

    #[test]
    fn answers_are_read_back() {
        let bytes = stored::to_bytes(&answer());
        assert_eq!(stored::of_bytes(&bytes), Some(answer()));
        for size in 0..bytes.len() {
            assert_eq!(stored::of_bytes::<Answer>(&bytes[..size]), None, "{size}");
        }
        assert!(answer().may_be_said() && !Answer { terminal: b"other".to_vec(), ..answer() }.may_be_said());
        assert!(Answer { terminal: b"other".to_vec(), said: Vec::new(), ..answer() }.may_be_said());
    }

    #[test]
    fn a_kept_call_is_served_while_all_is_as_it_was() {
        let room = TestFolder::new();
        let (store, line, nvcc) = (
            Store::new(room.join("store"), 1 << 20),
            line("-c k.cu", room.to_str().unwrap()),
            Path::new("/b/nvcc"),
        );
        let keep = |text: &str, folder_counts: bool| {
            fs::write(room.join("k.cu"), text).unwrap();
            let vain = Vain::now(Path::new(""), vec![b"a.h".to_vec()], &room).unwrap();
            let files = vec![Seen::now(Path::new("k.cu"), &room).unwrap()];
            let manifest = Manifest { files, vain: vec![vain], ..Manifest::default() };
            super::keep(
                &store,
                &line,
                nvcc,
                folder_counts,
                &manifest,
                &Answer { said: vec![(false, text.into())], ..answer() },
            );
        };
        let served = || {
            serve(&store, &line, nvcc, None).ok().map(|said| String::from_utf8(said[0].1.clone()).unwrap())
        };
        keep("one", false);
        assert_eq!(
            (served(), fs::read_to_string(room.join("k.d")).unwrap()),
            (Some("one".into()), "k.d".into())
        );
        fs::write(room.join("k.cu"), "two").unwrap();
        assert_eq!(served(), None);
        keep("two", true);
        assert_eq!(served().as_deref(), Some("two"), "by its folder");
        fs::write(room.join("k.cu"), "one").unwrap();
        assert_eq!(served().as_deref(), Some("one"), "as it was before");
        fs::remove_file(room.join("k.o")).unwrap();
        assert!(served().is_some() && room.join("k.o").exists());
        fs::write(room.join("a.h"), "").unwrap();
        assert_eq!(served(), None);
    }

    #[test]
    fn a_silent_call_is_served_while_its_source_has_the_same_layout() {
        let room = TestFolder::new();
        let (store, line, nvcc) = (
            Store::new(room.join("store"), 1 << 20),
            line("-c k.cu", room.to_str().unwrap()),
            Path::new("/b/nvcc"),
        );
        let put = |text: &str| fs::write(room.join("k.cu"), text).unwrap();
        let keep = |said: &[u8]| {
            put("int a;\n");
            let files = vec![Seen {
                form: Form::of_source(b"int a;\n"),
                ..Seen::now(Path::new("k.cu"), &room).unwrap()
            }];
            let manifest = Manifest { files, defines: Some(Vec::new()), ..Manifest::default() };
            super::keep(
                &store,
                &line,
                nvcc,
                false,
                &manifest,
                &Answer { said: vec![(true, said.to_vec())], ..answer() },
            );
        };
        let served = || serve(&store, &line, nvcc, None).is_ok();
        keep(b"");
        for (text, wanted) in
            [("// x\n\nint a;\n", true), ("int b;\n", false), ("int a; // y\n", true), ("int a;\n", true)]
        {
            put(text);
            assert_eq!(served(), wanted, "{text}");
        }
        assert_eq!(store.content().entries, 4, "a manifest, and an answer for each text that was served");
        store.clear().unwrap();
        keep(b"warns");
        assert!(served());
        put("// x\n\nint a;\n");
        assert!(!served(), "a message may name lines");
    }
    #[test]
    fn a_miss_has_a_reason() {
        let room = TestFolder::new();
        let (store, line, nvcc) = (
            Store::new(room.join("store"), 1 << 20),
            line("-c k.cu", room.to_str().unwrap()),
            Path::new("/b/nvcc"),
        );
        let put = |text: &str| fs::write(room.join("k.cu"), text).unwrap();
        let why = || miss(&store, &line, nvcc, None);
        assert_eq!(why(), Some(Miss::Unknown));
        refuse(&store, &line, nvcc, "it tells the time");
        assert_eq!(why(), Some(Miss::Refused("it tells the time".into())));
        put("one");
        let files = vec![Seen::now(Path::new("k.cu"), &room).unwrap()];
        let manifest = Manifest { files, ..Manifest::default() };
        super::keep(&store, &line, nvcc, true, &manifest, &answer());
        assert_eq!(why(), None);
        put("two");
        let changed = Difference { name: "k.cu".into(), change: Change::Content };
        assert_eq!(why(), Some(Miss::Input(changed)), "by the key with its folder");
        put("one");
        fs::create_dir_all(room.join("k.o/full")).unwrap();
        assert_eq!((why(), serve(&store, &line, nvcc, None)), (None, Err(Miss::Product("k.o".into()))));
        let terminal = Answer { terminal: b"other".to_vec(), ..answer() };
        super::keep(&store, &line, nvcc, true, &manifest, &terminal);
        assert_eq!(why(), Some(Miss::Terminal));
        store.clear().unwrap();
        store.write(&keys(&line, nvcc)[0], &stored::to_bytes(&manifest)).unwrap();
        assert_eq!(why(), Some(Miss::NoAnswer));
    }
}
