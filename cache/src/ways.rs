//! The folders and links on the ways to places.
use crate::stamps::{MARGIN, is_unchanged};
use std::collections::HashMap;
use std::ffi::OsString;
use std::fs;
use std::os::unix::fs::MetadataExt;
use std::path::Path;
use std::time::SystemTime;

/// The folders and links on the ways to places, seen from a working directory.
pub struct Ways<'a> {
    cwd: &'a Path,
    begun: SystemTime,
    /// Whether a folder was what it is at that moment.
    known: HashMap<OsString, bool>,
}

impl<'a> Ways<'a> {
    pub fn new(cwd: &'a Path, begun: SystemTime) -> Ways<'a> {
        Ways { cwd, begun, known: HashMap::new() }
    }

    /// Whether all folders and links on the way to a place were what they are at that moment. Of a folder
    /// that has got another name since then only the time of its last change of any kind tells; what is made
    /// or removed in it changes two.
    pub fn are_old(&mut self, folder: &Path) -> bool {
        if let Some(known) = self.known.get(folder.as_os_str()) {
            return *known;
        }
        // (this also ends a circle)
        self.known.insert(folder.as_os_str().to_owned(), true);
        let is_old = match fs::symlink_metadata(self.cwd.join(folder)) {
            Ok(status) if status.is_symlink() => {
                is_unchanged(&status, self.begun, MARGIN) && self.is_target_old(folder)
            }
            Ok(status) => {
                (status.mtime(), status.mtime_nsec()) == (status.ctime(), status.ctime_nsec())
                    || is_unchanged(&status, self.begun, MARGIN)
            }
            Err(_) => true,
        };
        let above = if folder.as_os_str().is_empty() { Some(self.cwd) } else { folder.parent() };
        let is_old = is_old && above.is_none_or(|above| self.are_old(above));
        self.known.insert(folder.as_os_str().to_owned(), is_old);
        is_old
    }

    fn is_target_old(&mut self, link: &Path) -> bool {
        let target = fs::read_link(self.cwd.join(link));
        target.is_ok_and(|target| self.are_old(&link.parent().unwrap_or(Path::new("")).join(target)))
    }
}

#[cfg(test)]
mod tests {
    use super::*;
    use crate::test_folder::TestFolder;
    use std::os::unix::fs::symlink;
    use std::thread;

    #[test]
    fn what_was_another_folder_makes_it_unsure() {
        let room = TestFolder::new();
        for folder in ["one", "two", "three/sub"] {
            fs::create_dir_all(room.join(folder)).unwrap();
        }
        symlink("one", room.join("link")).unwrap();
        symlink("link", room.join("links")).unwrap();
        thread::sleep(2 * MARGIN);
        let begun = SystemTime::now();
        let is_old = |name: &str| Ways::new(&room, begun).are_old(Path::new(name));
        let all = ["one", "two", "three/sub", "link", "links", "missing", ""];
        assert_eq!(all.map(is_old), [true; 7]);
        fs::write(room.join("two/b.h"), "").unwrap();
        assert!(is_old("two"), "what is made in a folder leaves it what it is");
        fs::remove_file(room.join("link")).unwrap();
        symlink("two", room.join("link")).unwrap();
        fs::rename(room.join("one"), room.join("kept")).unwrap();
        fs::rename(room.join("kept"), room.join("one")).unwrap();
        fs::rename(room.join("three"), room.join("four")).unwrap();
        let wanted = [false, true, true, false, false, true, true, false];
        assert_eq!([&all[..], &["four/sub"]].concat().into_iter().map(is_old).collect::<Vec<_>>(), wanted);
    }
}
