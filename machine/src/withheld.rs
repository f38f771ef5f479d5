//! A file whose readers wait until its content is there.
use crate::streams::{content_of, write_all};
use crate::system::{self, Access};
use std::fs::File;
use std::io;
use std::os::fd::{AsFd, AsRawFd};
use std::path::Path;

/// How many seconds the kernel says it lets readers wait.
const PATIENCE: &str = "/proc/sys/fs/lease-break-time";
/// The fewest for which it's worth to begin early, since a reader that had to go on costs its command once
/// more.
const SHORTEST: u64 = 3;

/// A file that nobody can open. Who tries waits.
#[derive(Debug)]
pub struct Withheld {
    file: File,
}

/// Whether the kernel has readers wait long enough for what usually comes. (0 is for ever.)
fn is_patient() -> io::Result<bool> {
    let text = String::from_utf8(content_of(Path::new(PATIENCE))?).map_err(|_| io::ErrorKind::InvalidData)?;
    let seconds: u64 = text.trim().parse().map_err(|_| io::ErrorKind::InvalidData)?;
    Ok(seconds == 0 || seconds >= SHORTEST)
}

/// Whether what the kernel says of an open file has a lease that still keeps all readers from it. One whose
/// reader had to go on has become another.
fn is_kept(information: &[u8]) -> bool {
    let text = String::from_utf8_lossy(information);
    let mut locks = text.lines().filter_map(|line| line.strip_prefix("lock:"));
    locks.any(|lock| {
        matches!(
            lock.split_whitespace().skip(1).take(3).collect::<Vec<_>>()[..],
            ["LEASE", "BREAKING", _] | ["LEASE", "ACTIVE", "WRITE"]
        )
    })
}

impl Withheld {
    /// A new file of this path.
    /// An error if there is such a file, or its disk or the kernel can't have readers wait long enough.
    pub fn new(path: &Path) -> io::Result<Withheld> {
        if !is_patient()? {
            return Err(io::ErrorKind::Unsupported.into());
        }
        let file = system::open(path, Access::NEW)?;
        system::withhold(file.as_fd())?;
        Ok(Withheld { file })
    }

    /// Writes the content. Says whether nobody has opened the file before: not if the disk is full, or if the
    /// kernel had lost patience by then, whatever it promised when the readers began to wait.
    pub fn write(&mut self, content: &[u8]) -> bool {
        write_all(&self.file, content).is_ok() && self.is_kept()
    }

    /// Whether no reader had to go on until now, as far as the kernel says.
    fn is_kept(&self) -> bool {
        let path = format!("/proc/self/fdinfo/{}", self.file.as_raw_fd());
        content_of(Path::new(&path)).is_ok_and(|information| is_kept(&information))
    }

    /// Lets readers go on. Says whether that could be done.
    pub fn give(self) -> bool {
        system::give(self.file.as_fd()).is_ok()
    }
}

#[cfg(test)]
mod tests {
    use super::*;
    use crate::test_folder::TestFolder;
    use std::fs;
    use std::sync::mpsc;
    use std::thread;
    use std::time::Duration;

    #[test]
    fn readers_wait_for_the_content() {
        let folder = TestFolder::new();
        let path = folder.join("file");
        let mut withheld = Withheld::new(&path).unwrap();
        let (sender, read) = mpsc::channel();
        let other = path.clone();
        let reader = thread::spawn(move || sender.send(fs::read(other).unwrap()).unwrap());
        assert!(
            read.recv_timeout(Duration::from_millis(100)).is_err(),
            "it reads before the content is there"
        );
        assert!(withheld.write(b"content"));
        assert!(read.recv_timeout(Duration::from_millis(100)).is_err(), "it reads before it may");
        assert!(withheld.give());
        assert_eq!(read.recv().unwrap(), b"content");
        reader.join().unwrap();
    }

    /// The kernel's patience, which comes back whatever the test does.
    struct Patience(Vec<u8>);

    impl Patience {
        /// Has the kernel be this patient. `None` if this process may not say that.
        fn set(seconds: u64) -> Option<Patience> {
            let old = fs::read(PATIENCE).ok()?;
            fs::write(PATIENCE, seconds.to_string()).ok()?;
            Some(Patience(old))
        }
    }

    impl Drop for Patience {
        fn drop(&mut self) {
            let _ = fs::write(PATIENCE, &self.0);
        }
    }

    #[test]
    #[ignore = "it changes a setting of the whole machine, so nothing else may run: tests/patience.sh"]
    fn a_reader_that_had_to_go_on_is_heard_of() {
        let folder = TestFolder::new();
        let path = folder.join("file");
        let mut withheld = Withheld::new(&path).unwrap();
        let Some(_patience) = Patience::set(SHORTEST) else {
            eprintln!("skipped: only root may say how patient the kernel is");
            return;
        };
        assert_eq!(fs::read(&path).unwrap(), b"", "the kernel lets it go on");
        assert!(!withheld.write(b"content"));
        withheld.give();
    }

    #[test]
    fn the_kernels_words_of_a_lease_are_known() {
        let lock =
            |words: &str| format!("pos:\t0\nflags:\t02\nlock:\t1: {words} 8379 fe:00:11038035 0 EOF\n");
        let cases = [
            ("LEASE  ACTIVE    WRITE", true),
            ("LEASE  BREAKING  READ", true),
            ("LEASE  BREAKING  UNLCK", true),
            ("LEASE  ACTIVE    READ", false),
            ("FLOCK  ADVISORY  WRITE", false),
        ];
        for (words, wanted) in cases {
            assert_eq!(is_kept(lock(words).as_bytes()), wanted, "{words}");
        }
        assert!(!is_kept(b"pos:\t0\n"), "it has none");
    }

    #[test]
    fn a_file_that_is_there_stays() {
        let folder = TestFolder::new();
        let path = folder.join("file");
        fs::write(&path, "old").unwrap();
        assert!(Withheld::new(&path).is_err());
        assert_eq!(fs::read(&path).unwrap(), b"old");
    }

    #[test]
    fn a_full_disk_is_told() {
        let file = File::options().write(true).open("/dev/full").unwrap();
        let mut withheld = Withheld { file };
        assert!(!withheld.write(b"content"));
        assert!(!withheld.give(), "nobody waits for it");
    }
}
