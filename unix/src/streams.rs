//! Reading and writing whole files and streams. A call that a signal interrupts again and again ends with an
//! error, and not never.
use crate::bounds::MOST_TRIES;
use crate::files::{Access, open};
use crate::waits::wait_to_write;
use rustix::io::Errno;
use rustix::stdio::{stderr, stdout};
use std::fs::{self, File};
use std::io::{self, ErrorKind, Read};
use std::os::fd::AsFd;
use std::os::unix::fs::FileExt;
use std::path::Path;

/// How much memory is taken at once because a file says that it has so many bytes. One with holes may say any
/// number, so what is beyond is taken as bytes come.
const MOST_EXPECTED: usize = 1 << 26;
/// How many milliseconds to wait for the reader of a stream that takes no more just now. With `MOST_TRIES` of
/// these a stream that nobody reads is given up after a quarter of an hour, since the call would else never
/// end.
const PATIENCE: i32 = 1000;

/// All that an open file holds, wherever it is read or written just now.
/// Errors: those of reading.
pub fn content(file: &File) -> io::Result<Vec<u8>> {
    // (one byte more than a plain file has, to see its end; other files say nothing of what they hold)
    let expected =
        file.metadata().ok().and_then(|status| usize::try_from(status.len()).ok()).unwrap_or_default();
    let (mut text, mut size, mut tries) = (vec![0; expected.clamp(1 << 12, MOST_EXPECTED) + 1], 0, 0);
    loop {
        match file.read_at(&mut text[size..], size as u64) {
            Ok(0) => break,
            Ok(more) => size += more,
            Err(error) if error.kind() == ErrorKind::Interrupted && tries < MOST_TRIES => tries += 1,
            Err(error) => return Err(error),
        }
        if size == text.len() {
            text.resize(4 * size, 0);
        }
    }
    text.truncate(size);
    Ok(text)
}

/// Reads on into a buffer, and gives how many bytes came.
/// Errors: those of reading.
pub fn read_on(file: &mut impl Read, buffer: &mut [u8]) -> io::Result<usize> {
    let mut tries = 0;
    loop {
        match file.read(buffer) {
            Err(error) if error.kind() == ErrorKind::Interrupted && tries < MOST_TRIES => tries += 1,
            read => return read,
        }
    }
}

/// All that the file of a path holds.
/// Errors: those of opening and reading.
pub fn content_of(path: &Path) -> io::Result<Vec<u8>> {
    content(&open(path, Access::READ)?)
}

/// Writes a whole text.
/// Errors: those of writing.
pub fn write_all(file: impl AsFd, text: &[u8]) -> io::Result<()> {
    let (file, mut rest, mut tries) = (file.as_fd(), text, 0);
    while !rest.is_empty() {
        match rustix::io::write(file, rest) {
            Ok(0) => return Err(ErrorKind::WriteZero.into()),
            Ok(size) => rest = &rest[size..],
            Err(error) if tries >= MOST_TRIES => return Err(error.into()),
            Err(Errno::INTR) => tries += 1,
            Err(Errno::WOULDBLOCK) => {
                wait_to_write(file, PATIENCE);
                tries += 1;
            }
            Err(error) => return Err(error.into()),
        }
    }
    Ok(())
}

/// Writes a whole text to the file of a path, in place of what is there.
/// Errors: those of opening and writing.
pub fn write_file(path: impl AsRef<Path>, text: impl AsRef<[u8]>) -> io::Result<()> {
    write_all(&open(path.as_ref(), Access::WRITE)?, text.as_ref())
}

/// Puts a file with this text in the place of whatever has its path, a link too, which isn't followed.
/// Errors: those of writing and renaming.
pub fn replace_file(path: &Path, text: &[u8]) -> io::Result<()> {
    let beside = path.with_extension("new");
    write_file(&beside, text)
        .and_then(|()| fs::rename(&beside, path))
        .inspect_err(|_| drop(fs::remove_file(&beside)))
}

/// Writes a text to a standard stream: 1 for output, 2 for messages.
/// Errors: those of writing.
pub fn say(stream: i32, text: &[u8]) -> io::Result<()> {
    write_all(if stream == 1 { stdout() } else { stderr() }, text)
}

/// Says a line to the user. If that can't be done, there is nobody to tell.
pub fn complain(line: &str) {
    let _ = say(2, format!("{line}\n").as_bytes());
}

#[cfg(test)]
mod tests {
    use super::*;
    use std::thread;

    #[test]
    fn a_file_is_read_whole() {
        for size in [0, 1, 4095, 4096, 4097, 100_000] {
            let file = crate::memory_file().unwrap();
            let text: Vec<u8> = (0..=250).cycle().take(size).collect();
            write_all(&file, &text).unwrap();
            assert_eq!(content(&file).unwrap(), text, "{size}");
        }
        assert!(content_of(Path::new("/")).is_err(), "a folder");
    }

    /// What gives its text once it was interrupted so often.
    struct Interrupted(usize);

    impl Read for Interrupted {
        fn read(&mut self, buffer: &mut [u8]) -> io::Result<usize> {
            if self.0 == 0 {
                return (&b"text"[..]).read(buffer);
            }
            self.0 -= 1;
            Err(ErrorKind::Interrupted.into())
        }
    }

    #[test]
    fn an_interrupted_read_is_tried_again_but_not_for_ever() {
        let read = |times| read_on(&mut Interrupted(times), &mut [0; 9]).map_err(|error| error.kind());
        assert_eq!([read(0), read(1), read(MOST_TRIES)], [Ok(4); 3]);
        assert_eq!([read(MOST_TRIES + 1), read(usize::MAX)], [Err(ErrorKind::Interrupted); 2]);
    }

    #[test]
    fn a_slow_reader_gets_all() {
        let (read, write) = crate::pipe().unwrap();
        let write = File::from(write);
        crate::set_unblocked(write.as_fd()).unwrap();
        let writer = thread::spawn(move || write_all(&write, &vec![7; 300_000]));
        let mut text = Vec::new();
        let mut read = File::from(read);
        read.read_to_end(&mut text).unwrap();
        assert!(writer.join().unwrap().is_ok());
        assert_eq!(text.len(), 300_000);
    }
}
