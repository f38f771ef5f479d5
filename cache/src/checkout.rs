//! A checkout of a project, for what the cache has of calls in any of its checkouts: in keys, manifests and
//! answers of a call under a root a mark stands for the checkout's folder.
use crate::marked::parts;
use crate::source::spliced;
use machine::bytes::{contains, find};
use machine::proved::{held, text};
use machine::rooted::{Rooting, names_of};
use machine::settings::AskedRoot;
use rattle_std::alloc::Global;
use rooted_commands::{Root, line_word, own_path, rooted_path};
use std::fs;
use std::os::unix::ffi::OsStrExt;
use std::path::{Path, PathBuf};
use texts::words::Words;

/// What stands for the folder. No file's path begins so.
const MARK: &str = "/\u{1}";
/// Where no file is.
const NOWHERE: &str = "/\u{1}\u{1}";

/// A checkout in which a call is made.
pub struct Checkout {
    root: Root,
    /// The same, of paths that are free of links.
    real: Root,
    names: Vec<String>,
    cwd: String,
    /// What stands for the folder in products.
    pub name: String,
    spoken: Rooting,
}

fn root_of(folders: &[String], cwd: &str) -> Option<Root> {
    let mut names = Words::new(Global);
    for folder in folders {
        names.push(text(folder).ok()?).ok()?;
    }
    Some(Root { folders: names, root: held(MARK).ok()?, cwd: held(cwd).ok()?, tmp: held(NOWHERE).ok()? })
}

/// Whether a name may go on with a byte.
fn is_in_name(byte: u8) -> bool {
    byte.is_ascii_alphanumeric() || matches!(byte, b'_' | b'.' | b'+' | b'-') || byte >= 128
}

/// Whether a text has the path of a folder, or of what is below it.
fn has_path(text: &[u8], folder: &[u8]) -> bool {
    let mut rest = text;
    while let Some(place) = find(rest, folder) {
        rest = &rest[place + folder.len()..];
        if !rest.first().is_some_and(|&byte| is_in_name(byte)) {
            return true;
        }
    }
    false
}

/// Whether a name may begin behind a text of a dependency file: a backslash takes a blank into a name.
fn ends_a_name(text: &[u8]) -> bool {
    text.ends_with(b"\n") || text.ends_with(b" ") && !text.ends_with(b"\\ ")
}

/// Whether a dependency file has a path as it is: make has its own meaning for other bytes.
fn is_plain(path: &str) -> bool {
    path.bytes().all(|byte| byte == b'/' || is_in_name(byte))
}

impl Checkout {
    /// The checkout of a call. `None` if the call isn't made in it.
    pub fn of(asked: &AskedRoot, cwd: &str) -> Option<Checkout> {
        let names = names_of(&asked.folder);
        let real = names.get(1).unwrap_or(&asked.folder).clone();
        let checkout = Checkout {
            root: root_of(&names, cwd)?,
            real: root_of(&[real], cwd)?,
            names,
            cwd: cwd.to_owned(),
            name: asked.name.clone(),
            spoken: Rooting::of(asked, cwd, NOWHERE).ok()?,
        };
        checkout.path(Path::new(cwd)).filter(|cwd| cwd.starts_with(MARK)).map(|_| checkout)
    }

    /// The folder as the user names it.
    fn folder(&self) -> &str {
        &self.names[0]
    }

    /// The call's folder as in any checkout, and where that really is.
    pub fn places(&self) -> Option<[PathBuf; 2]> {
        let real = fs::canonicalize(&self.cwd).ok()?;
        Some([self.path(Path::new(&self.cwd))?, self.path(&real)?])
    }

    /// Whether a text may name the folder, or what is below it.
    pub fn is_named_in(&self, text: &[u8]) -> bool {
        let text = spliced(text);
        contains(&text, b"??/") || self.names.iter().any(|name| has_path(&text, name.as_bytes()))
    }

    /// A word of nvcc's line as in any checkout. `None` if the folder is elsewhere in it, where it may reach
    /// a product, or by another name than the user's: a dependency file has that.
    pub fn word(&self, word: &str) -> Option<String> {
        let rooted = line_word(Global, &self.root, word).ok()?.as_str().to_owned();
        let is_plain =
            !contains(word.as_bytes(), MARK.as_bytes()) && rooted.replacen(MARK, self.folder(), 1) == word;
        (is_plain && !self.is_named_in(rooted.replacen(MARK, "", 1).as_bytes())).then_some(rooted)
    }

    /// A text that is no word, if it may be the same in any checkout.
    pub fn value<'a>(&self, value: &'a [u8]) -> Option<&'a [u8]> {
        Some(value).filter(|value| !contains(value, MARK.as_bytes()) && !self.is_named_in(value))
    }

    /// A list of folders as in any checkout.
    pub fn list(&self, list: &str) -> Option<String> {
        let words: Option<Vec<String>> = list.split(':').map(|word| self.word(word)).collect();
        Some(words?.join(":"))
    }

    /// A path as in any checkout. One that is relative is seen from the call's folder.
    pub fn path(&self, path: &Path) -> Option<PathBuf> {
        if path.is_relative() {
            return Some(path.to_owned());
        }
        let text = path.to_str().filter(|path| !path.contains('\u{1}'))?;
        Some(rooted_path(Global, &self.root, text).ok()?.as_str().into())
    }

    fn own_by(&self, root: &Root, path: &Path) -> Option<PathBuf> {
        let text = path.to_str()?;
        if path.is_relative() || text.starts_with(MARK) {
            return Some(own_path(Global, root, text).ok()?.as_str().into());
        }
        // (what is below this folder has another name here)
        self.path(path).filter(|rooted| rooted == path)
    }

    /// The path that it is here. `None` if a path that stayed elsewhere is below the folder here.
    pub fn own(&self, path: &Path) -> Option<PathBuf> {
        self.own_by(&self.root, path)
    }

    /// The same of one that is free of links.
    pub fn own_real(&self, path: &Path) -> Option<PathBuf> {
        self.own_by(&self.real, path)
    }

    /// A dependency file's text as in any checkout. `None` if it names the folder in another way than the
    /// user.
    pub fn rule(&self, rule: &[u8]) -> Option<Vec<u8>> {
        let is_plain = self.names.iter().all(|name| is_plain(name)) && !contains(rule, MARK.as_bytes());
        let parts = parts(rule, format!("{}/", self.folder()).as_bytes());
        let is_begin = |place: usize| place == 0 && parts[0].is_empty();
        let begin_names = (0..parts.len() - 1).all(|place| is_begin(place) || ends_a_name(parts[place]));
        let text = parts.join(format!("{MARK}/").as_bytes());
        let is_other = self.names.iter().any(|name| has_path(&text, name.as_bytes()));
        (is_plain && begin_names && !is_other).then_some(text)
    }

    /// The text as it is here.
    pub fn own_rule(&self, rule: &[u8]) -> Option<Vec<u8>> {
        let parts = parts(rule, MARK.as_bytes());
        (parts.len() == 1 || is_plain(self.folder())).then(|| parts.join(self.folder().as_bytes()))
    }

    /// What tools said, with the folder's own name.
    pub fn own_said(&self, said: &[u8]) -> Vec<u8> {
        self.spoken.own(said)
    }

    /// The path that a rooted word of a line has, if it is in the checkout.
    pub fn path_in(word: &str) -> Option<&Path> {
        word.find(MARK).map(|place| Path::new(&word[place..]))
    }

    /// Whether a path as in any checkout is in the checkout.
    pub fn is_inside(path: &Path) -> bool {
        path.as_os_str().as_bytes().starts_with(MARK.as_bytes())
    }
}

#[cfg(test)]
mod tests {
    use super::*;

    fn checkout(folder: &str, cwd: &str) -> Checkout {
        let asked = AskedRoot { folder: folder.into(), name: "/src".into() };
        Checkout::of(&asked, cwd).unwrap()
    }

    #[test]
    fn words_have_a_mark_in_the_folders_place() {
        let own = checkout("/w/one", "/w/one/build");
        let cases = [
            ("/w/one/k.cu", Some("/\u{1}/k.cu")),
            ("-I/w/one/inc", Some("/\u{1}/inc")),
            ("-isystem=/w/one", Some("/\u{1}")),
            ("../k.cu", Some("../k.cu")),
            ("/w/one2/k.cu", Some("/w/one2/k.cu")),
            ("-I/usr/w/ones", Some("-I/usr/w/ones")),
            ("-DTOP=/w/one", None),
            ("-Xcompiler=-I/w/one/inc,-O2", None),
            ("/usr/../w/one/k.cu", None),
            ("/\u{1}/k.cu", None),
        ];
        for (word, wanted) in cases {
            let wanted = wanted.map(|wanted| match word.split_once('/') {
                Some((front, _)) if wanted.starts_with("/\u{1}") => format!("{front}{wanted}"),
                _ => wanted.to_owned(),
            });
            assert_eq!(own.word(word), wanted, "{word}");
        }
        assert_eq!(own.list("/usr/bin:/w/one/bin::x").as_deref(), Some("/usr/bin:/\u{1}/bin::x"));
        assert!(own.value(b"/w/two").is_some() && own.value(b"a,/w/one").is_none());
    }

    #[test]
    fn a_path_is_found_in_each_checkout() {
        let (one, two) = (checkout("/w/one", "/w/one/build"), checkout("/x/two/..", "/x/two/../build"));
        let there = |path: &str| two.own(&one.path(Path::new(path)).unwrap());
        let own = |path: &str| Some(PathBuf::from(path));
        assert_eq!(there("/w/one/inc/a.h"), own("/x/two/../inc/a.h"));
        assert_eq!(there("/w/one/inc/../../b.h"), own("/x/two/../inc/../../b.h"));
        assert_eq!((there("/w/one"), there("../a.h")), (own("/x/two/.."), own("../a.h")));
        assert_eq!((there("/usr/a.h"), there("/w/two/a.h")), (own("/usr/a.h"), own("/w/two/a.h")));
        assert_eq!(there("/x/two/../a.h"), None, "it has another name there");
        assert_eq!(one.path(Path::new("/w/\u{1}/a.h")), None);
    }

    #[test]
    fn a_call_elsewhere_is_in_no_checkout() {
        let asked = AskedRoot { folder: "/w/one".into(), name: "/src".into() };
        let is_in = |cwd: &str| Checkout::of(&asked, cwd).is_some();
        assert_eq!(["/w/one", "/w/one/build", "/w/one2", "/build"].map(is_in), [true, true, false, false]);
    }

    #[test]
    fn a_text_may_name_the_folder() {
        let own = checkout("/w/one", "/w/one");
        for text in
            ["#include \"/w/one/a.h\"", "/w/one", "x/w/one/a", "-I/w/o\\\nne/a", "a ??/", "/w/one2 /w/one\n"]
        {
            assert!(own.is_named_in(text.as_bytes()), "{text}");
        }
        for text in ["", "/w/one2", "/w/one.h", "w/one/a.h", "/w/on e"] {
            assert!(!own.is_named_in(text.as_bytes()), "{text}");
        }
    }

    #[test]
    fn a_dependency_file_has_the_folders_own_name() {
        let (one, two) = (checkout("/w/one", "/w/one"), checkout("/x/two", "/x/two"));
        let text = "k.o : /w/one/k.cu \\\n    /w/one/a\\ b/c.h \\\n    /usr/a.h\n\n/w/one/x.h:\n";
        let there = two.own_rule(&one.rule(text.as_bytes()).unwrap()).unwrap();
        assert_eq!(String::from_utf8(there).unwrap(), text.replace("/w/one", "/x/two"));
        for text in ["k.o : a/w/one/k.cu", "k.o : a\\ /w/one/k.cu", "k.o : /w/one", "k.o : /\u{1}/k.cu"] {
            assert!(one.rule(text.as_bytes()).is_none(), "{text}");
        }
        let (blank, kept) = (checkout("/x/a b", "/x/a b"), one.rule(b"k.o : /w/one/k.cu\n").unwrap());
        assert!(blank.rule(b"k.o : k.cu\n").is_none() && blank.own_rule(&kept).is_none());
        assert!(blank.own_rule(b"k.o : k.cu\n").is_some());
    }
}
