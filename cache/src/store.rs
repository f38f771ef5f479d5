//! A folder of entries, each in a file by its key. Many processes and machines may use one folder at once.
//!
//! A file gets its name once it is whole, so a writer that is killed leaves nothing that counts. Its contents
//! carry their digest, which is checked each time. Nothing here waits for a lock: whoever comes second writes
//! the same.
use crate::digest::{Digest, Hasher};
use machine::clock::nanoseconds;
use machine::streams::write_all;
use std::fs::{self, DirEntry, File, Metadata, OpenOptions};
use std::io::{self, Read};
use std::os::unix::fs::OpenOptionsExt;
use std::path::{Path, PathBuf};
use std::sync::atomic::{AtomicU64, Ordering};
use std::time::{Duration, SystemTime};

/// What a file of an entry begins with.
const HEAD: &[u8] = b"zigrunk cache entry 2\n";
/// How the name of a file begins that isn't whole.
const UNFINISHED: &str = ".new-";
/// When the file of an entry that is used gets a new time: not at each use, since that would be another
/// write.
const OLD: Duration = Duration::from_secs(60);
/// How long a file that isn't whole may be another process's.
const ABANDONED: Duration = Duration::from_secs(24 * 3600);
/// The file that says when the size of the whole was looked at. Until it is OLD, that isn't looked at again.
const LOOKED: &str = "looked";
/// How many folders the entries are in.
const FOLDERS: u64 = 256;
/// No entry is larger.
const LARGEST: u64 = 1 << 30;

/// How many files this process has begun.
static BEGUN: AtomicU64 = AtomicU64::new(0);

/// A folder of entries.
#[derive(Clone, Debug)]
pub struct Store {
    folder: PathBuf,
    /// How many bytes the entries may have.
    limit: u64,
}

/// What is in a store.
#[derive(Clone, Copy, PartialEq, Eq, Debug, Default)]
pub struct Content {
    pub entries: u64,
    pub bytes: u64,
}

/// How long ago a file was changed.
fn age(status: &Metadata) -> Duration {
    status.modified().ok().and_then(|time| time.elapsed().ok()).unwrap_or_default()
}

/// The files of a folder, of which some may be gone by now.
fn files(folder: &Path) -> impl Iterator<Item = (DirEntry, Metadata)> {
    let entries = fs::read_dir(folder).into_iter().flatten().flatten();
    entries.filter_map(|entry| entry.metadata().ok().filter(Metadata::is_file).map(|status| (entry, status)))
}

fn is_unfinished(entry: &DirEntry) -> bool {
    entry.file_name().to_str().is_some_and(|name| name.starts_with(UNFINISHED))
}

/// A file of an entry, with its bytes.
fn whole_file(path: &Path) -> Option<(File, Metadata, Vec<u8>)> {
    // (a named pipe, or a terminal, would wait or more: it isn't waited for, and no plain file)
    let mut file = OpenOptions::new().read(true).custom_flags(crate::system::UNBLOCKED).open(path).ok()?;
    let status = file.metadata().ok().filter(Metadata::is_file)?;
    let size = usize::try_from(status.len()).ok().filter(|_| status.len() <= LARGEST)?;
    let mut text = Vec::with_capacity(size + 1);
    file.read_to_end(&mut text).ok()?;
    Some((file, status, text))
}

/// What is in the file of an entry, by its bytes. `None` if these aren't as they were written.
fn content_of(mut text: Vec<u8>) -> Option<Vec<u8>> {
    let begin = HEAD.len() + 32;
    let fits = |content: &[u8]| text.starts_with(HEAD) && text[HEAD.len()..begin] == Digest::of(content).0;
    text.get(begin..).is_some_and(fits).then(|| text.split_off(begin))
}

impl Store {
    /// The store of a folder, which is made once something is written.
    pub fn new(folder: PathBuf, limit: u64) -> Store {
        Store { folder, limit }
    }

    /// Its folder.
    pub fn folder(&self) -> &Path {
        &self.folder
    }

    fn path_of(&self, key: &Digest) -> PathBuf {
        let name = key.to_string();
        self.folder.join(&name[..2]).join(&name[2..])
    }

    /// What the store has under a key. A file that isn't as it was written goes.
    pub fn read(&self, key: &Digest) -> Option<Vec<u8>> {
        let path = self.path_of(key);
        let (file, status, text) = whole_file(&path)?;
        let Some(content) = content_of(text) else {
            let _ = fs::remove_file(&path);
            return None;
        };
        if age(&status) > OLD {
            let _ = file.set_modified(SystemTime::now());
        }
        Some(content)
    }

    /// The files of entries that aren't as they were written, by their order.
    pub fn damaged(&self) -> Vec<PathBuf> {
        let entries = self
            .folders()
            .flat_map(|folder| files(&folder).filter(|(entry, _)| !is_unfinished(entry)).collect::<Vec<_>>());
        let paths = entries.map(|(entry, _)| entry.path());
        let mut damaged: Vec<PathBuf> = paths
            .filter(|path| whole_file(path).and_then(|(_, _, text)| content_of(text)).is_none())
            .collect();
        damaged.sort();
        damaged
    }

    /// Puts a text under a key.
    /// Errors: those of writing. Then the store has what it had, as for a text that is too large.
    pub fn write(&self, key: &Digest, content: &[u8]) -> io::Result<()> {
        if content.len() as u64 > LARGEST / 2 {
            return Ok(());
        }
        let path = self.path_of(key);
        let folder = path.parent().unwrap_or(&self.folder);
        fs::create_dir_all(folder)?;
        let (process, number) = (std::process::id(), BEGUN.fetch_add(1, Ordering::Relaxed));
        let unfinished = folder.join(format!("{UNFINISHED}{process}-{:x}-{number}", nanoseconds()));
        let file = OpenOptions::new().write(true).create_new(true).open(&unfinished)?;
        let written = write_all(&file, &[HEAD, &Digest::of(content).0, content].concat());
        drop(file);
        let written = written.and_then(|()| fs::rename(&unfinished, &path));
        if written.is_err() {
            let _ = fs::remove_file(&unfinished);
        }
        // So each folder is looked through once for some sixteen entries that it gets.
        if key.0[1] < 16 {
            self.tidy(folder);
        }
        written
    }

    /// Takes out of a folder what its writers have abandoned. If it has more than its share, the whole is
    /// looked at, unless that was done just now: another folder may have less, and one large entry may be
    /// more than a share.
    fn tidy(&self, folder: &Path) {
        let (unfinished, entries): (Vec<_>, Vec<_>) =
            files(folder).partition(|(entry, _)| is_unfinished(entry));
        for (entry, _) in unfinished.iter().filter(|(_, status)| age(status) > ABANDONED) {
            let _ = fs::remove_file(entry.path());
        }
        let size: u64 = entries.iter().map(|(_, status)| status.len()).sum();
        let looked = self.folder.join(LOOKED);
        let is_due = || fs::metadata(&looked).map_or(true, |status| age(&status) > OLD);
        if size > self.limit / FOLDERS && is_due() {
            let _ = fs::write(&looked, "");
            self.keep_limit();
        }
    }

    /// Removes the entries that were used least recently, if all together are larger than the limit.
    fn keep_limit(&self) {
        let mut entries: Vec<_> =
            self.folders().flat_map(|folder| files(&folder).collect::<Vec<_>>()).collect();
        let mut size: u64 = entries.iter().map(|(_, status)| status.len()).sum();
        if size <= self.limit {
            return;
        }
        entries.sort_by_key(|(_, status)| age(status));
        while let Some((entry, status)) = entries.pop().filter(|_| size > self.limit / 5 * 4) {
            if !is_unfinished(&entry) {
                let _ = fs::remove_file(entry.path());
            }
            size -= status.len();
        }
    }

    /// The folders of entries that there are.
    fn folders(&self) -> impl Iterator<Item = PathBuf> + '_ {
        (0..FOLDERS).map(|number| self.folder.join(format!("{number:02x}"))).filter(|folder| folder.is_dir())
    }

    /// Looks through all folders, so that the store keeps its limit.
    pub fn tidy_all(&self) {
        self.folders().for_each(|folder| self.tidy(&folder));
        self.keep_limit();
    }

    /// What the store has.
    pub fn content(&self) -> Content {
        let entries = self
            .folders()
            .flat_map(|folder| files(&folder).filter(|(entry, _)| !is_unfinished(entry)).collect::<Vec<_>>());
        entries.fold(Content::default(), |sum, (_, status)| Content {
            entries: sum.entries + 1,
            bytes: sum.bytes + status.len(),
        })
    }

    /// Removes all entries, and what isn't whole. What else is in the folder stays.
    /// Errors: the first of removing.
    pub fn clear(&self) -> io::Result<()> {
        for folder in self.folders() {
            for (entry, _) in files(&folder) {
                match fs::remove_file(entry.path()) {
                    Err(error) if error.kind() != io::ErrorKind::NotFound => return Err(error),
                    _ => {}
                }
            }
            let _ = fs::remove_dir(folder);
        }
        let _ = fs::remove_file(self.folder.join(LOOKED));
        Ok(())
    }
}

/// The digest of a file's contents, read in parts.
/// Errors: those of reading.
pub fn digest_of(file: &mut File) -> io::Result<Digest> {
    let (mut hasher, mut part) = (Hasher::default(), vec![0; 1 << 18]);
    loop {
        match file.read(&mut part)? {
            0 => return Ok(hasher.finish()),
            size => hasher.update(&part[..size]),
        }
    }
}

#[cfg(test)]
mod tests {
    use super::*;
    use crate::test_folder::TestFolder;
    use std::os::unix::fs::symlink;
    use std::thread;

    /// Keys of one folder, whose entries have it looked through or not.
    fn key(number: u8, tidies: bool) -> Digest {
        let mut key = [number; 32];
        (key[0], key[1]) = (7, if tidies { 0 } else { 16 });
        Digest(key)
    }

    fn set_age(path: &Path, seconds: u64) {
        File::options()
            .write(true)
            .open(path)
            .unwrap()
            .set_modified(SystemTime::now() - Duration::from_secs(seconds))
            .unwrap();
    }

    #[test]
    fn damaged_entries_are_named() {
        let (folder, keys) = (TestFolder::new(), [1, 2, 3].map(|number| Digest([number; 32])));
        let store = Store::new(folder.join("store"), 1 << 20);
        for key in &keys {
            store.write(key, b"text").unwrap();
        }
        assert!(store.damaged().is_empty());
        fs::write(store.path_of(&keys[1]), "other").unwrap();
        fs::write(store.path_of(&keys[2]), [HEAD, &Digest::of(b"text").0, b"texts"].concat()).unwrap();
        fs::write(store.path_of(&keys[0]).with_file_name(format!("{UNFINISHED}1")), "part").unwrap();
        assert_eq!(store.damaged(), [&keys[1], &keys[2]].map(|key| store.path_of(key)));
    }

    #[test]
    fn what_is_written_is_read() {
        let folder = TestFolder::new();
        let store = &Store::new(folder.join("store"), 1 << 20);
        assert_eq!(store.read(&key(1, false)), None);
        for text in [&b"one"[..], b"", b"another"] {
            store.write(&key(1, false), text).unwrap();
            assert_eq!(store.read(&key(1, false)).as_deref(), Some(text));
        }
        assert_eq!(store.content(), Content { entries: 1, bytes: 7 + 32 + HEAD.len() as u64 });
        store.clear().unwrap();
        assert_eq!((store.content(), fs::read_dir(store.folder()).unwrap().count()), (Content::default(), 0));
    }

    #[test]
    fn a_file_that_is_not_whole_goes() {
        let folder = TestFolder::new();
        let (store, key) = (Store::new(folder.join("store"), 1 << 20), key(1, false));
        store.write(&key, b"content").unwrap();
        let whole = fs::read(store.path_of(&key)).unwrap();
        for size in 0..whole.len() {
            fs::write(store.path_of(&key), &whole[..size]).unwrap();
            assert_eq!((store.read(&key), store.path_of(&key).exists()), (None, false), "{size}");
        }
        for place in 0..whole.len() {
            let mut changed = whole.clone();
            changed[place] ^= 1;
            fs::write(store.path_of(&key), changed).unwrap();
            assert_eq!((store.read(&key), store.path_of(&key).exists()), (None, false), "byte {place}");
        }
        fs::write(store.path_of(&key), whole).unwrap();
        assert!(store.read(&key).is_some());
    }

    #[test]
    fn only_plain_files_are_entries() {
        let folder = TestFolder::new();
        let (store, key) = (Store::new(folder.join("store"), 1 << 20), key(1, false));
        fs::create_dir_all(store.path_of(&key)).unwrap();
        assert_eq!(
            (store.read(&key), store.write(&key, b"x").is_err(), store.path_of(&key).is_dir()),
            (None, true, true)
        );
        fs::remove_dir(store.path_of(&key)).unwrap();
        symlink("/dev/zero", store.path_of(&key)).unwrap();
        assert_eq!(store.read(&key), None);
        assert_eq!(store.content(), Content::default());
        store.write(&key, b"x").unwrap();
        assert_eq!(store.read(&key).as_deref(), Some(&b"x"[..]));
    }

    #[test]
    fn the_least_recently_used_goes_first() {
        let folder = TestFolder::new();
        let store = &Store::new(folder.join("store"), 10_000);
        for (number, seconds) in [(1, 500), (2, 4000), (3, 300), (4, 3000)] {
            store.write(&key(number, false), &[0; 2400]).unwrap();
            set_age(&store.path_of(&key(number, false)), seconds);
        }
        let left = |count: u8| {
            (1..=count).filter(|&number| store.path_of(&key(number, false)).exists()).collect::<Vec<u8>>()
        };
        assert!(store.read(&key(2, false)).is_some(), "it is used now");
        store.write(&key(9, true), b"").unwrap();
        assert_eq!(left(4), [1, 2, 3, 4], "they have room");
        store.write(&key(5, false), &[0; 2400]).unwrap();
        assert_eq!(left(5), [1, 2, 3, 4, 5], "not each entry has the folder looked through");
        store.write(&key(9, true), b"").unwrap();
        assert_eq!(left(5), [1, 2, 3, 4, 5], "the whole was looked at just now");
        set_age(&store.folder().join(LOOKED), 100);
        store.write(&key(9, true), b"").unwrap();
        assert_eq!(left(5), [2, 3, 5]);
        store.tidy_all();
        assert_eq!(left(5), [2, 3, 5]);
        Store { limit: 0, ..store.clone() }.tidy_all();
        assert_eq!(store.content(), Content::default());
    }

    #[test]
    fn a_large_entry_stays_while_the_whole_has_room() {
        let folder = TestFolder::new();
        let store = &Store::new(folder.join("store"), 1 << 20);
        store.write(&key(1, true), &vec![1; 200_000]).unwrap();
        store.write(&key(2, true), &vec![2; 100_000]).unwrap();
        store.tidy_all();
        assert_eq!(store.content().entries, 2);
        set_age(&store.path_of(&key(1, true)), 100);
        Store { limit: 250_000, ..store.clone() }.tidy_all();
        assert_eq!((store.path_of(&key(1, true)).exists(), store.content().entries), (false, 1));
    }

    #[test]
    fn what_killed_writers_left_goes_later() {
        let folder = TestFolder::new();
        let store = &Store::new(folder.join("store"), 1 << 20);
        store.write(&key(1, false), b"x").unwrap();
        let of_entry = store.path_of(&key(1, false)).parent().unwrap().to_owned();
        let [old, new] = ["old", "new"].map(|name| of_entry.join(format!("{UNFINISHED}{name}")));
        for (path, seconds) in [(&old, 2 * 24 * 3600), (&new, 3600)] {
            fs::write(path, b"part").unwrap();
            set_age(path, seconds);
        }
        assert_eq!(store.content().entries, 1);
        store.write(&key(2, true), b"x").unwrap();
        assert_eq!((old.exists(), new.exists()), (false, true));
        store.clear().unwrap();
        assert!(!new.exists());
    }

    #[test]
    fn a_folder_that_cannot_be_written_is_an_error() {
        let store = Store::new("/proc/zigrunk".into(), 1 << 20);
        assert!(store.write(&key(1, true), b"x").is_err());
        assert_eq!((store.read(&key(1, true)), store.content()), (None, Content::default()));
    }

    #[test]
    fn many_write_at_once() {
        let folder = TestFolder::new();
        let store = &Store::new(folder.join("store"), 1 << 30);
        thread::scope(|scope| {
            for writer in 0..8_u8 {
                scope.spawn(move || {
                    for number in 0..40_u8 {
                        store.write(&key(number, number % 4 == 0), &vec![number; 20_000]).unwrap();
                        let other = number.wrapping_add(writer) % 40;
                        assert!(
                            store
                                .read(&key(other, other % 4 == 0))
                                .is_none_or(|text| text == vec![other; 20_000])
                        );
                    }
                });
            }
        });
        assert_eq!(store.content().entries, 40);
    }

    #[test]
    fn a_file_has_the_digest_of_its_text() {
        let folder = TestFolder::new();
        let path = folder.join("file");
        fs::write(&path, vec![3; 600_000]).unwrap();
        assert_eq!(digest_of(&mut File::open(path).unwrap()).unwrap(), Digest::of(&vec![3; 600_000]));
    }
}
