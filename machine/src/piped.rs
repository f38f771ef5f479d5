//! A file that a process reads through a pipe, because its content comes after the process has begun.
//!
//! The file's name leads to the process's own end of the pipe. So nobody else can read it, and to open it
//! takes no time. The pipe has room for one part, so the writer knows what has been read: a process that ends
//! before it has all of the content read another file, or none.
use crate::streams::replace_file;
use crate::system::{self, MOST_TRIES, SMALL_PIPE};
use std::fs::{self, File};
use std::io::{self, ErrorKind, Write};
use std::mem;
use std::os::fd::{AsFd, AsRawFd, BorrowedFd, OwnedFd, RawFd};
use std::os::unix::fs::symlink;
use std::path::{Path, PathBuf};

/// A file that comes through a pipe.
#[derive(Debug)]
pub struct Piped {
    path: PathBuf,
    reader: OwnedFd,
    writer: File,
    content: Vec<u8>,
    /// How much of it the pipe has taken.
    written: usize,
    failures: usize,
}

impl Piped {
    /// A file of this path, for a process that has the pipe's end `reader`.
    /// An error if there is such a file, no pipe, or no name for its end.
    pub fn new(path: &Path) -> io::Result<Piped> {
        let (reader, writer) = system::small_pipe()?;
        let end = PathBuf::from(format!("/proc/self/fd/{}", reader.as_raw_fd()));
        fs::symlink_metadata(&end)?;
        symlink(&end, path)?;
        Ok(Piped {
            path: path.to_owned(),
            reader,
            writer: writer.into(),
            content: Vec::new(),
            written: 0,
            failures: 0,
        })
    }

    /// The end that the reading process gets. This process has it too, so a writer without another reader
    /// doesn't end by PIPE.
    pub fn reader(&self) -> RawFd {
        self.reader.as_raw_fd()
    }

    /// The end that takes the next part once the last one has been read.
    pub fn writer(&self) -> BorrowedFd<'_> {
        self.writer.as_fd()
    }

    /// Says what the reader is to get.
    pub fn fill(&mut self, content: Vec<u8>) {
        self.content = content;
    }

    /// Writes the next part if the last one has been read. Once all has been read, puts a plain file in the
    /// pipe's place, for a compiler that shows a line of it. Says whether that has come; the reader hears of
    /// the content's end when this is dropped.
    /// Errors: those of writing, and of a content without a byte, which nobody could be seen to read.
    pub fn go_on(&mut self) -> io::Result<bool> {
        if self.content.is_empty() {
            return Err(ErrorKind::InvalidData.into());
        }
        if system::unread(self.writer.as_fd())? > 0 {
            return Ok(false);
        }
        if self.written == self.content.len() {
            return replace_file(&self.path, &mem::take(&mut self.content)).map(|()| true);
        }
        self.write_part()?;
        Ok(false)
    }

    fn write_part(&mut self) -> io::Result<()> {
        let rest = &self.content[self.written..];
        match self.writer.write(&rest[..rest.len().min(SMALL_PIPE)]) {
            Ok(size) => self.written += size,
            Err(error)
                if self.failures < MOST_TRIES
                    && matches!(error.kind(), ErrorKind::Interrupted | ErrorKind::WouldBlock) =>
            {
                self.failures += 1;
            }
            Err(error) => return Err(error),
        }
        Ok(())
    }
}

#[cfg(test)]
mod tests {
    use super::*;
    use crate::test_folder::TestFolder;
    use std::io::Read;
    use std::thread::{self, sleep};
    use std::time::Duration;

    /// Hands a text over to a reader that opens the file by its name. Says what it read by the end that it
    /// had, and by the name then.
    fn handed_over(text: &[u8]) -> [Vec<u8>; 2] {
        let folder = TestFolder::new();
        let path = folder.join("file");
        let mut piped = Piped::new(&path).unwrap();
        let mut reader = File::open(&path).unwrap();
        let handed = thread::spawn(move || {
            let mut read = Vec::new();
            reader.read_to_end(&mut read).unwrap();
            read
        });
        sleep(Duration::from_millis(20));
        assert!(!handed.is_finished(), "it doesn't wait for the content");
        piped.fill(text.to_vec());
        while !piped.go_on().unwrap() {
            sleep(Duration::from_micros(100));
        }
        assert!(!handed.is_finished(), "it hears of the end before there is a plain file");
        drop(piped);
        [handed.join().unwrap(), fs::read(&path).unwrap()]
    }

    #[test]
    fn a_reader_gets_all_in_parts() {
        for size in [1, 4095, 4096, 4097, 300_000] {
            let text: Vec<u8> = (0..=250).cycle().take(size).collect();
            assert!(handed_over(&text).iter().all(|read| *read == text), "{size}");
        }
    }

    #[test]
    fn what_nobody_has_read_is_not_at_its_end() {
        let folder = TestFolder::new();
        let path = folder.join("file");
        let mut piped = Piped::new(&path).unwrap();
        assert!(Piped::new(&path).is_err(), "there is such a file");
        assert!(piped.go_on().is_err(), "it has no content");
        piped.fill(b"content".to_vec());
        assert!((0..5).all(|_| !piped.go_on().unwrap()));
        assert!(path.is_symlink());
        let mut part = [0; 4];
        File::open(&path).unwrap().read_exact(&mut part).unwrap();
        assert!((0..5).all(|_| !piped.go_on().unwrap()), "a part of it has been read");
        File::open(&path).unwrap().read_exact(&mut part[..3]).unwrap();
        assert!(piped.go_on().unwrap());
        assert_eq!((fs::read(&path).unwrap(), path.is_symlink()), (b"content".to_vec(), false));
    }

    #[test]
    fn only_who_has_the_pipe_can_read_it() {
        let folder = TestFolder::new();
        let path = folder.join("file");
        let piped = Piped::new(&path).unwrap();
        let other = std::process::Command::new("cat").arg(&path).output().unwrap();
        assert!(!other.status.success() && other.stdout.is_empty());
        drop(piped);
    }
}
