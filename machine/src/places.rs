//! The names of directories.
use crate::settings::own_variable;
use std::env;
use std::fs;
use std::os::unix::fs::MetadataExt;
use std::path::{Component, Path, PathBuf};

/// What tells a file from others.
fn place(path: &Path) -> Option<(u64, u64)> {
    fs::metadata(path).ok().map(|status| (status.dev(), status.ino()))
}

/// The working directory, by the name that a shell has for it.
pub fn working_directory() -> Option<PathBuf> {
    let named = own_variable("PWD")
        .map(PathBuf::from)
        .filter(|path| path.is_absolute() && is_plain(path) && place(path) == place(Path::new(".")));
    named.or_else(|| env::current_dir().ok())
}

/// Whether a path has no `.`, `..` and nothing empty between slashes.
fn is_plain(path: &Path) -> bool {
    path.to_str().is_some_and(canonical_names::is_plain)
}

/// A directory's path in the one form that plans take.
pub fn absolute(path: &Path, cwd: &Path) -> PathBuf {
    let mut plain = PathBuf::new();
    for part in cwd.join(path).components() {
        match part {
            Component::ParentDir => drop(plain.pop()),
            Component::CurDir => {}
            other => plain.push(other),
        }
    }
    if place(&plain) == place(path) { plain } else { fs::canonicalize(path).unwrap_or(plain) }
}

#[cfg(test)]
mod tests {
    use super::*;
    use crate::test_folder::TestFolder;
    use std::os::unix::fs::symlink;

    #[test]
    fn a_link_leads_where_the_disk_says() {
        let folder = TestFolder::new();
        for name in ["a/t", "other/below", "other/t"] {
            fs::create_dir_all(folder.join(name)).unwrap();
        }
        symlink(folder.join("other/below"), folder.join("a/link")).unwrap();
        let root = fs::canonicalize(folder.join(".")).unwrap();
        let cases = [
            ("a/link/../t", "other/t"),
            ("a/./t", "a/t"),
            ("a/link", "a/link"),
            ("a/../other", "other"),
            ("a/link/../../a/t", "a/t"),
        ];
        for (path, wanted) in cases {
            assert_eq!(absolute(&root.join(path), Path::new("/")), root.join(wanted), "{path}");
        }
    }

    #[test]
    fn a_directory_has_one_form() {
        let cases = [
            ("/usr", "/usr"),
            ("/usr/", "/usr"),
            ("//usr/./bin", "/usr/bin"),
            ("bin", "/usr/bin"),
            ("./../usr/bin", "/usr/bin"),
            ("/usr/bin/..", "/usr"),
            ("/missing/x/../y", "/missing/y"),
        ];
        for (path, wanted) in cases {
            assert_eq!(absolute(Path::new(path), Path::new("/usr")), PathBuf::from(wanted), "{path}");
        }
    }
}
