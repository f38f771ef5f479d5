//! SHA-256 of files.
use cache::Stamp;
use machine::streams::replace_file;
use serde::{Deserialize, Serialize};
use sha2::{Digest, Sha256};
use std::collections::BTreeMap;
use std::fs::{self, File};
use std::io::{self, Read};
use std::path::{Path, PathBuf};

/// How many bytes are read at once, so that a large library isn't in memory as a whole.
const PART: usize = 1 << 20;
/// From this size on the sum of a file is kept, since a smaller one is read as soon as its record.
const LARGE: u64 = 1 << 20;
/// The file in a folder of statements that has the sums of large files, which are tools and libraries.
const KEPT: &str = ".sums";

/// The sum of a large file, while that is as it is.
#[derive(Clone, Debug, Serialize, Deserialize)]
struct Known {
    path: PathBuf,
    stamp: Stamp,
    sum: String,
}

/// The SHA-256 of files, each of which is read once, because the commands of a call read the same headers.
#[derive(Debug, Default)]
pub struct Sums {
    of_files: BTreeMap<PathBuf, Option<String>>,
    known: Vec<Known>,
    is_new: bool,
}

impl Sums {
    /// The same with what is known in a folder of statements of large files that are as they were.
    pub fn in_folder(folder: &Path) -> Sums {
        let known = fs::read(folder.join(KEPT)).ok().and_then(|text| serde_json::from_slice(&text).ok());
        Sums { known: known.unwrap_or_default(), ..Sums::default() }
    }

    /// Keeps what is known there.
    /// Errors: those of the disk.
    pub fn keep(&self, folder: &Path) -> io::Result<()> {
        if self.is_new { replace_file(&folder.join(KEPT), &serde_json::to_vec(&self.known)?) } else { Ok(()) }
    }

    /// The SHA-256 of a file in hexadecimal digits. `None` if it can't be read.
    pub fn of(&mut self, path: &Path) -> Option<String> {
        if let Some(sum) = self.of_files.get(path) {
            return sum.clone();
        }
        let sum = self.find(path);
        self.of_files.insert(path.to_owned(), sum.clone());
        sum
    }

    fn find(&mut self, path: &Path) -> Option<String> {
        let status = fs::metadata(path).ok().filter(|status| status.len() >= LARGE);
        let stamp = status.and_then(|status| Stamp::settled(path, &status));
        if let Some(known) = self.known.iter().find(|known| known.path == path && Some(known.stamp) == stamp)
        {
            return Some(known.sum.clone());
        }
        let sum = sum_of(path).ok()?;
        if let Some(stamp) = stamp.filter(|_| path.to_str().is_some()) {
            self.known.retain(|known| known.path != path);
            self.known.push(Known { path: path.to_owned(), stamp, sum: sum.clone() });
            self.is_new = true;
        }
        Some(sum)
    }
}

/// Bytes in hexadecimal digits.
fn digits(bytes: &[u8]) -> String {
    let halves = bytes.iter().flat_map(|byte| [byte >> 4, byte & 15]);
    halves.filter_map(|half| char::from_digit(half.into(), 16)).collect()
}

/// The SHA-256 of a text in hexadecimal digits.
pub fn sum_of_text(text: &[u8]) -> String {
    digits(&Sha256::new_with_prefix(text).finalize())
}

fn sum_of(path: &Path) -> io::Result<String> {
    let (mut file, mut sum, mut part) = (File::open(path)?, Sha256::new(), vec![0; PART]);
    loop {
        match file.read(&mut part)? {
            0 => return Ok(digits(&sum.finalize())),
            size => sum.update(&part[..size]),
        }
    }
}

#[cfg(test)]
mod tests {
    use super::*;
    use crate::test_folder::TestFolder;
    use std::thread::sleep;
    use std::time::Duration;

    const ABC: &str = "ba7816bf8f01cfea414140de5dae2223b00361a396177a9cb410ff61f20015ad";

    #[test]
    fn a_sum_is_that_of_the_whole_file() {
        let room = TestFolder::new();
        let long = vec![7; PART + 9];
        for (name, text) in [("abc", &b"abc"[..]), ("empty", b""), ("long", &long)] {
            fs::write(room.join(name), text).unwrap();
            assert_eq!(Sums::default().of(&room.join(name)), Some(sum_of_text(text)), "{name}");
        }
        assert_eq!(sum_of_text(b"abc"), ABC);
        assert_eq!((Sums::default().of(&room.join("missing")), Sums::default().of(&room)), (None, None));
    }

    #[test]
    fn the_sum_of_a_large_file_is_kept_while_that_is_as_it_is() {
        let room = TestFolder::new();
        let tool = room.join("tool");
        let sum = |text: &[u8]| {
            fs::write(&tool, text).unwrap();
            sleep(Duration::from_millis(2100));
            let mut sums = Sums::in_folder(&room);
            let sum = sums.of(&tool);
            sums.keep(&room).unwrap();
            (sum, sums.is_new)
        };
        let texts = [1, 2].map(|byte| vec![byte; PART]);
        assert_eq!(sum(&texts[0]), (Some(sum_of_text(&texts[0])), true));
        let mut again = Sums::in_folder(&room);
        assert_eq!((again.of(&tool), again.is_new), (Some(sum_of_text(&texts[0])), false));
        assert_eq!(sum(&texts[1]), (Some(sum_of_text(&texts[1])), true), "it changed");
    }
}
