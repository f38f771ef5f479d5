//! Which nvcc a call means.
use crate::programs::{find, is_program};
use std::env;
use std::ffi::{OsStr, OsString};
use std::fmt;
use std::fs::{self, Metadata};
use std::os::unix::ffi::{OsStrExt, OsStringExt};
use std::os::unix::fs::MetadataExt;
use std::path::{Path, PathBuf};

/// This program's own file, by which it knows itself under other names.
struct Own {
    file: Option<Metadata>,
    inside: OsString,
}

impl Own {
    /// Whether a path is this program.
    fn is(&self, path: &Path) -> bool {
        let Ok(other) = fs::metadata(path) else { return false };
        self.file.as_ref().is_some_and(|own| (own.dev(), own.ino()) == (other.dev(), other.ino()))
    }

    /// Whether a program is this one, or an nvcc that called it. What the driver calls finds in
    /// `ZIGRUNK_INSIDE` each nvcc that it came through, so a wrapper that ends here again doesn't run in
    /// circles.
    fn includes(&self, path: &Path) -> bool {
        let mark = [b":", path.as_os_str().as_bytes(), b":"].concat();
        self.is(path) || self.inside.as_bytes().windows(mark.len()).any(|part| part == mark)
    }

    /// The first nvcc on `PATH` behind this program's own place there, or else the first one before it.
    fn next_nvcc(&self, path: &OsStr, folder: &Path) -> Option<PathBuf> {
        let (mut before, mut behind) = (None, None);
        for part in env::split_paths(path) {
            let found = folder.join(part).join("nvcc");
            if self.is(&found) {
                before = before.or(behind.take());
            } else if is_program(&found) && !self.includes(&found) {
                behind = behind.or(Some(found));
            }
        }
        behind.or(before)
    }
}

/// The nvcc of a call.
#[derive(Clone, Debug)]
pub struct Compiler {
    /// Its name or path, as the call has it.
    pub name: OsString,
    /// Where it is, if it is anywhere.
    pub path: Option<PathBuf>,
    /// What `ZIGRUNK_INSIDE` is for the programs that this call runs.
    pub inside: OsString,
}

/// Whether a word is nvcc's name or path, as `nvcc`, `/opt/cuda/bin/nvcc` or `nvcc-13.0`.
#[must_use]
pub fn is_nvcc(word: &[u8]) -> bool {
    let is_of_version = |byte: &u8| byte.is_ascii_digit() || *byte == b'.';
    let end = word.iter().rposition(|byte| !is_of_version(byte)).map_or(0, |last| last + 1);
    let name = if end < word.len() { word[..end].strip_suffix(b"-") } else { Some(word) };
    !word.starts_with(b"-") && name.is_some_and(|name| name.ends_with(b"nvcc"))
}

/// The words of a call without the nvcc that they may begin with, and its name.
fn named<'a>(nvcc: &OsStr, words: &'a [OsString]) -> (OsString, &'a [OsString]) {
    match words {
        [first, rest @ ..]
            if is_nvcc(first.as_bytes()) || (!first.as_bytes().starts_with(b"-") && first == nvcc) =>
        {
            (first.clone(), rest)
        }
        _ => (nvcc.to_owned(), words),
    }
}

/// What decides which nvcc a call means beside its words.
#[derive(Clone, Copy, Debug)]
pub struct Caller<'a> {
    /// The name of nvcc if the words don't have one.
    pub nvcc: &'a OsStr,
    /// The value of `ZIGRUNK_INSIDE`: through which nvccs this program was called.
    pub inside: &'a OsStr,
    /// The name by which this program was started.
    pub own_name: &'a OsStr,
}

/// The nvcc that a call names is this program, and there is no other.
#[derive(Clone, Debug, PartialEq, Eq)]
pub struct NoOtherNvcc(OsString);

impl fmt::Display for NoOtherNvcc {
    fn fmt(&self, f: &mut fmt::Formatter<'_>) -> fmt::Result {
        write!(f, "{} is zigrunk-nvcc itself, and PATH has no other nvcc", self.0.to_string_lossy())
    }
}

impl std::error::Error for NoOtherNvcc {}

/// The nvcc of a call and the words for it.
///
/// # Errors
///
/// [`NoOtherNvcc`].
pub fn compiler<'a>(
    caller: &Caller<'_>,
    words: &'a [OsString],
) -> Result<(Compiler, &'a [OsString]), NoOtherNvcc> {
    let (mut name, words) = named(caller.nvcc, words);
    let path = env::var_os("PATH").unwrap_or_default();
    let own = Own { file: fs::metadata("/proc/self/exe").ok(), inside: caller.inside.to_owned() };
    let mut found = find(&name, &path, Path::new(""));
    let is_own = found.as_ref().is_some_and(|found| own.includes(found));
    if is_own || (caller.own_name == "nvcc" && name == "nvcc") {
        let next = own.next_nvcc(&path, Path::new(""));
        let Some(next) = next else { return Err(NoOtherNvcc(name)) };
        name = next.clone().into_os_string();
        found = Some(next);
    }
    let passed = found.as_ref().map(|path| path.as_os_str().as_bytes()).unwrap_or_default();
    let before: &[u8] = if caller.inside.is_empty() { b":" } else { caller.inside.as_bytes() };
    let inside = OsString::from_vec([before, passed, b":"].concat());
    Ok((Compiler { name, path: found, inside }, words))
}

#[cfg(test)]
mod tests {
    use super::*;
    use crate::test_folder::TestFolder;
    use std::os::unix::fs::PermissionsExt;

    #[test]
    fn a_first_word_may_be_the_compiler() {
        let cases = [
            ("/a/nvcc", "/a/nvcc"),
            ("cross-nvcc", "cross-nvcc"),
            ("nvcc-13.0", "nvcc-13.0"),
            ("/usr/bin/nvcc-12", "/usr/bin/nvcc-12"),
            ("nvcc13", "my-compiler"),
            ("nvcc-13.0.cu", "my-compiler"),
            ("13.0", "my-compiler"),
            ("my-compiler", "my-compiler"),
            ("-Invcc", "my-compiler"),
            ("k.cu", "my-compiler"),
        ];
        for (first, wanted) in cases {
            let words = [OsString::from(first), "-c".into()];
            let (name, rest) = named("my-compiler".as_ref(), &words);
            assert_eq!(
                (name.to_str(), rest.len()),
                (Some(wanted), if first == wanted { 1 } else { 2 }),
                "{first}"
            );
        }
    }

    /// A folder with folders `a` to `d`, each with an nvcc, and `own`, whose nvcc is this program. It goes
    /// with the test.
    struct Room(TestFolder);

    impl Room {
        fn new() -> Room {
            let room = Room(TestFolder::new());
            for folder in ["a", "b", "c", "own"] {
                fs::create_dir_all(room.0.join(folder)).unwrap();
                fs::write(room.nvcc(folder), "").unwrap();
                fs::set_permissions(room.nvcc(folder), PermissionsExt::from_mode(0o755)).unwrap();
            }
            room
        }

        fn nvcc(&self, folder: &str) -> PathBuf {
            self.0.join(folder).join("nvcc")
        }

        /// This program, called through the nvccs of these folders.
        fn own(&self, inside: &[&str]) -> Own {
            let parts: Vec<String> =
                inside.iter().map(|folder| format!("{}:", self.nvcc(folder).display())).collect();
            Own { file: fs::metadata(self.nvcc("own")).ok(), inside: format!(":{}", parts.concat()).into() }
        }
    }

    #[test]
    fn the_next_nvcc_is_behind_this_program_or_before_it() {
        let room = Room::new();
        let next = |path: &str, inside: &[&str]| {
            let found = room.own(inside).next_nvcc(OsStr::new(path), &room.0)?;
            Some(found.strip_prefix(&room.0).unwrap().to_str().unwrap().to_owned())
        };
        let cases: [(&str, &[&str], Option<&str>); 12] = [
            ("a:own:b:c", &[], Some("b/nvcc")),
            ("a:b:own", &[], Some("a/nvcc")),
            ("own:missing:a", &[], Some("a/nvcc")),
            ("a:own:b:own:c", &[], Some("c/nvcc")),
            ("a:own:b:own", &[], Some("a/nvcc")),
            ("b:a", &[], Some("b/nvcc")),
            ("own", &[], None),
            ("", &[], None),
            ("own:a:b", &["a"], Some("b/nvcc")),
            ("own:a:b", &["c", "a"], Some("b/nvcc")),
            ("own:a:b", &["b"], Some("a/nvcc")),
            ("own:a", &["a"], None),
        ];
        for (path, inside, wanted) in cases {
            assert_eq!(next(path, inside).as_deref(), wanted, "{path} {inside:?}");
        }
    }

    #[test]
    fn this_program_knows_itself_and_who_called_it() {
        let room = Room::new();
        fs::hard_link(room.nvcc("own"), room.0.join("link")).unwrap();
        let own = room.own(&["a"]);
        let is =
            ["own", "a", "b"].map(|folder| (own.is(&room.nvcc(folder)), own.includes(&room.nvcc(folder))));
        assert_eq!(is, [(true, true), (false, true), (false, false)]);
        assert!(own.is(&room.0.join("link")) && !own.is(&room.0.join("missing")));
        let unknown = Own { file: None, inside: OsString::new() };
        assert!(!unknown.is(&room.nvcc("own")) && !unknown.includes(&room.nvcc("a")));
    }

    #[test]
    fn programs_hear_through_which_nvccs_they_are_called() {
        let room = Room::new();
        let (words, path) = ([OsString::from("-c")], room.nvcc("a"));
        let of = |nvcc: &Path, inside: &str| {
            let caller =
                Caller { nvcc: nvcc.as_ref(), inside: inside.as_ref(), own_name: "zigrunk-nvcc".as_ref() };
            compiler(&caller, &words).map(|(found, rest)| (found, rest.len()))
        };
        let (found, rest) = of(&path, "").unwrap();
        assert_eq!((found.name.as_os_str(), found.path.as_ref(), rest), (path.as_os_str(), Some(&path), 1));
        assert_eq!(found.inside.to_str().unwrap(), format!(":{}:", path.display()));
        assert_eq!(of(&path, ":/x:").unwrap().0.inside.to_str().unwrap(), format!(":/x:{}:", path.display()));
        let missing = of(&room.0.join("missing"), "").unwrap().0;
        assert_eq!((missing.path, missing.inside.to_str()), (None, Some("::")));
    }

    #[test]
    fn a_call_that_names_this_program_means_another() {
        let exe = env::current_exe().unwrap();
        let own = Own { file: fs::metadata(&exe).ok(), inside: OsString::new() };
        let next = own.next_nvcc(&env::var_os("PATH").unwrap_or_default(), Path::new(""));
        for (nvcc, own_name) in [(exe.as_os_str(), "zigrunk-nvcc"), (OsStr::new("nvcc"), "nvcc")] {
            let caller = Caller { nvcc, inside: "".as_ref(), own_name: own_name.as_ref() };
            let found = compiler(&caller, &[]).map(|(found, _)| (found.name.clone(), found.path));
            assert_eq!(
                found,
                next.clone()
                    .ok_or(NoOtherNvcc(nvcc.to_owned()))
                    .map(|path| (path.clone().into(), Some(path)))
            );
        }
    }
}
