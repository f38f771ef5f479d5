//! How many commands the cache had, and how many it hadn't: each machine adds lines to a file of its own.
use machine::streams::{content_of, write_all};
use std::fs::{self, OpenOptions};
use std::path::{Path, PathBuf};

/// What the names of these files begin with.
const NAME: &str = "counts-";
/// A file that is longer becomes one line.
const LONGEST: u64 = 1 << 20;

/// Commands that the cache had, those that it was asked for and hadn't, and the same of calls as a whole.
#[derive(Clone, Copy, PartialEq, Eq, Debug, Default)]
pub struct Counts {
    /// Commands that the cache had.
    pub hits: u64,
    /// Commands that it hadn't.
    pub misses: u64,
    /// Calls that it had as a whole.
    pub calls: u64,
    /// Calls that it hadn't.
    pub others: u64,
}

impl Counts {
    fn plus(self, other: Counts) -> Counts {
        let Counts { hits, misses, calls, others } = self;
        Counts {
            hits: hits + other.hits,
            misses: misses + other.misses,
            calls: calls + other.calls,
            others: others + other.others,
        }
    }

    fn line(self) -> String {
        format!("{} {} {} {}\n", self.hits, self.misses, self.calls, self.others)
    }
}

/// The counts of a line; none if it has another form. Lines with fewer numbers are of earlier versions.
fn counts_in(line: &str) -> Counts {
    let numbers: Option<Vec<u64>> = line.split(' ').map(|number| number.parse().ok()).collect();
    match numbers.as_deref() {
        Some(&[hits, misses, ref calls @ ..]) if calls.len() <= 2 => {
            let of = |place: usize| calls.get(place).copied().unwrap_or_default();
            Counts { hits, misses, calls: of(0), others: of(1) }
        }
        _ => Counts::default(),
    }
}

fn file(folder: &Path) -> PathBuf {
    let host = fs::read_to_string("/proc/sys/kernel/hostname").unwrap_or_default();
    let plain: String = host
        .trim()
        .chars()
        .filter(|letter| letter.is_ascii_alphanumeric() || matches!(letter, '-' | '.'))
        .collect();
    folder.join(format!("{NAME}{plain}"))
}

fn sum_of(path: &Path) -> Counts {
    let text = content_of(path).unwrap_or_default();
    String::from_utf8_lossy(&text).lines().map(counts_in).fold(Counts::default(), Counts::plus)
}

/// Adds counts to those of a folder. If that can't be done, they are lost: nothing depends on them.
pub fn add(folder: &Path, counts: Counts) {
    if counts == Counts::default() {
        return;
    }
    let path = file(folder);
    let Ok(open) = OpenOptions::new().append(true).create(true).open(&path) else { return };
    let _ = write_all(&open, counts.line().as_bytes());
    if open.metadata().is_ok_and(|status| status.len() > LONGEST) {
        let _ = fs::write(&path, sum_of(&path).line());
    }
}

fn files(folder: &Path) -> impl Iterator<Item = PathBuf> {
    let entries = fs::read_dir(folder).into_iter().flatten().flatten();
    entries
        .filter(|entry| entry.file_name().to_str().is_some_and(|name| name.starts_with(NAME)))
        .map(|entry| entry.path())
}

/// The counts of all machines that use a folder.
pub fn of(folder: &Path) -> Counts {
    files(folder).map(|path| sum_of(&path)).fold(Counts::default(), Counts::plus)
}

/// Begins anew.
pub fn clear(folder: &Path) {
    files(folder).for_each(|path| drop(fs::remove_file(path)));
}

#[cfg(test)]
mod tests {
    use super::*;
    use crate::test_folder::TestFolder;

    #[test]
    fn counts_add_up() {
        let room = TestFolder::new();
        let folder = room.join("cache");
        let counts = |hits, misses| Counts { hits, misses, ..Counts::default() };
        add(&folder, counts(1, 2));
        assert_eq!(of(&folder), counts(0, 0), "no folder");
        fs::create_dir_all(&folder).unwrap();
        add(&folder, counts(0, 0));
        assert_eq!(fs::read_dir(&folder).unwrap().count(), 0);
        add(&folder, counts(1, 2));
        add(&folder, counts(30, 0));
        fs::write(folder.join("counts-other"), "5 7\nodd\n1 x\n1 2 3 4 5\n").unwrap();
        assert_eq!(of(&folder), counts(36, 9));
        add(&folder, Counts { calls: 4, ..counts(0, 0) });
        fs::write(folder.join("counts-earlier"), "0 0 1\n0 0 0 2\n").unwrap();
        assert_eq!(of(&folder), Counts { calls: 5, others: 2, ..counts(36, 9) });
        fs::write(file(&folder), "1 1\n".repeat(300_000)).unwrap();
        add(&folder, counts(1, 1));
        assert_eq!(
            (of(&folder), fs::metadata(file(&folder)).unwrap().len()),
            (Counts { calls: 1, others: 2, ..counts(300_006, 300_008) }, 18)
        );
        clear(&folder);
        assert_eq!(of(&folder), counts(0, 0));
    }
}
