//! Programs that are started without input, and whose standard error is read.
//!
//! What grows with their words and environment reports a refused allocation. The standard library's `Command`
//! ends the process then.
use crate::pipes::pipe;
use crate::processes::{Status, exit, fork_to, null, status_at_end};
use crate::streams::read_on;
use libc::c_char;
use rustix::stdio::{dup2_stderr, dup2_stdin, dup2_stdout};
use std::fs::File;
use std::io::{self, ErrorKind};
use std::{iter, mem, ptr};

/// The status of a child that can't run its program, as a shell has it.
const NOT_RUN: i32 = 127;

unsafe extern "C" {
    /// The environment by which C's library looks a program up.
    static mut environ: *const *const c_char;
}

/// Texts as C takes them: each with a NUL behind it, and a list of pointers to them with a null behind them.
struct Texts {
    pointers: Vec<*const c_char>,
    _bytes: Vec<u8>,
}

impl Texts {
    /// Each of parts.
    fn of<'a, const N: usize>(texts: impl Iterator<Item = [&'a str; N]> + Clone) -> io::Result<Texts> {
        let size = |parts: [&str; N]| parts.iter().map(|part| part.len()).sum::<usize>() + 1;
        let (count, total) =
            texts.clone().fold((0, 0), |(count, total), parts| (count + 1, total + size(parts)));
        let (mut bytes, mut pointers) = (Vec::new(), Vec::new());
        bytes.try_reserve_exact(total)?;
        pointers.try_reserve_exact(count + 1)?;
        for parts in texts {
            for part in parts {
                bytes.extend_from_slice(part.as_bytes());
            }
            bytes.push(0);
        }
        let ended = || bytes.split_inclusive(|&byte| byte == 0);
        if ended().count() != count {
            return Err(ErrorKind::InvalidInput.into());
        }
        pointers.extend(ended().map(|text| text.as_ptr().cast()));
        pointers.push(ptr::null());
        Ok(Texts { pointers, _bytes: bytes })
    }
}

/// A program with all that it gets.
struct Program {
    is_path: bool,
    words: Texts,
    environment: Texts,
    folder: Texts,
}

impl Program {
    /// Becomes the program, with the signals of a new one. Gives the number of the error if that can't be
    /// done.
    ///
    /// # Safety
    ///
    /// This process is a copy that has one thread. (It allocates nothing.)
    unsafe fn replace(&self) -> i32 {
        // SAFETY: the caller ensures it, and the lists end with a null and last.
        unsafe {
            let mut none = mem::zeroed();
            libc::sigemptyset(&raw mut none);
            libc::sigprocmask(libc::SIG_SETMASK, &raw const none, ptr::null_mut());
            libc::signal(libc::SIGPIPE, libc::SIG_DFL);
            if libc::chdir(self.folder.pointers[0]) == 0 {
                let (program, words) = (self.words.pointers[0], self.words.pointers.as_ptr());
                environ = self.environment.pointers.as_ptr();
                // (as the standard library: the shell runs what is no program of the kernel's if PATH has it)
                if self.is_path {
                    libc::execv(program, words);
                } else {
                    libc::execvp(program, words);
                }
            }
        }
        io::Error::last_os_error().raw_os_error().unwrap_or(libc::EIO)
    }
}

/// All that a file gives from here on.
fn rest_of(file: &mut File) -> io::Result<Vec<u8>> {
    let (mut text, mut part) = (Vec::new(), [0; 1 << 13]);
    loop {
        let size = read_on(file, &mut part)?;
        let more = &part[..size];
        if more.is_empty() {
            return Ok(text);
        }
        text.try_reserve(more.len())?;
        text.extend_from_slice(more);
    }
}

/// A program that runs.
#[derive(Debug)]
pub struct Spawned {
    child: i32,
    errors: File,
}

impl Spawned {
    /// Starts a program in a folder: its path, or its name for `PATH` of its environment, and its words; and
    /// its environment, whose variables are of parts. It has nothing to read, and what it prints on standard
    /// output is dropped.
    /// Errors: `OutOfMemory`, `InvalidInput` for a NUL, those of `fork`, and why the program can't be run.
    pub fn start<'a>(
        words: impl Iterator<Item = &'a str> + Clone,
        environment: impl Iterator<Item = [&'a str; 3]> + Clone,
        folder: &'a str,
    ) -> io::Result<Spawned> {
        let program = Program {
            is_path: words.clone().next().is_some_and(|program| program.contains('/')),
            words: Texts::of(words.map(|word| [word]))?,
            environment: Texts::of(environment)?,
            folder: Texts::of(iter::once([folder]))?,
        };
        let ((errors, to_errors), (said, to_say), null) = (pipe()?, pipe()?, null()?);
        let child = fork_to(|| {
            let _ =
                dup2_stderr(&to_errors).and_then(|()| dup2_stdin(&null)).and_then(|()| dup2_stdout(&null));
            // SAFETY: this process is the copy.
            let error = unsafe { program.replace() };
            let _ = rustix::io::write(&to_say, &error.to_ne_bytes());
            exit(NOT_RUN);
        })?;
        drop((to_errors, to_say));
        let spawned = Spawned { child, errors: errors.into() };
        let mut error = [0; 4];
        // (the pipe ends without a number once the program runs)
        if read_on(&mut File::from(said), &mut error).is_ok_and(|size| size == error.len()) {
            spawned.ended()?;
            return Err(io::Error::from_raw_os_error(i32::from_ne_bytes(error)));
        }
        Ok(spawned)
    }

    /// Waits for its end. Says how it ended, and what it printed on standard error.
    /// Errors: `OutOfMemory`, and those of reading and waiting.
    pub fn ended(mut self) -> io::Result<(Status, Vec<u8>)> {
        let printed = rest_of(&mut self.errors);
        // (so that one that prints on doesn't wait for ever)
        drop(self.errors);
        let status = status_at_end(self.child)?;
        Ok((status, printed?))
    }
}

#[cfg(test)]
mod tests {
    use super::*;
    use crate::test_folder::TestFolder;
    use std::fs;
    use std::os::unix::fs::PermissionsExt;

    fn said(words: &[&str], environment: &[[&'static str; 3]], folder: &str) -> io::Result<(i32, String)> {
        let (status, errors) =
            Spawned::start(words.iter().copied(), environment.iter().copied(), folder)?.ended()?;
        Ok((status.code, String::from_utf8(errors).unwrap()))
    }

    #[test]
    fn a_program_has_its_words_environment_and_folder() {
        let script = "echo \"$0 $1 $A $B $PWD\" >&2; echo out; cat; exit 3";
        let environment = [["A", "=", "1 2"], ["B", "=", ""], ["PATH", "=", "/missing:/usr/bin:/bin"]];
        let wanted = "a b  c 1 2  /usr\n".to_owned();
        assert_eq!(said(&["sh", "-c", script, "a", "b  c"], &environment, "/usr").unwrap(), (3, wanted));
        assert_eq!(said(&["/bin/sh", "-c", "kill -9 $$"], &[], "/").unwrap(), (137, String::new()));
    }

    #[test]
    fn what_cannot_be_run_says_why() {
        let path = [["PATH", "=", "/missing"]];
        let kind = |words: &[&str], folder: &str| said(words, &path, folder).unwrap_err().kind();
        assert_eq!([kind(&["sh"], "/"), kind(&["/bin/sh"], "/missing")], [ErrorKind::NotFound; 2]);
        assert_eq!(kind(&["/bin/sh", "-c", "\0"], "/"), ErrorKind::InvalidInput);
        assert_eq!(kind(&["/usr"], "/"), ErrorKind::PermissionDenied);
    }

    #[test]
    fn the_shell_runs_a_script_without_a_first_line_by_its_name_alone() {
        let folder = TestFolder::new();
        let script = folder.join("odd");
        fs::write(&script, "echo said >&2\n").unwrap();
        fs::set_permissions(&script, fs::Permissions::from_mode(0o755)).unwrap();
        let [path, search] = [script.to_str().unwrap(), folder.to_str().unwrap()].map(String::from);
        let start = |word: &str| {
            Spawned::start([word].into_iter(), [["PATH", "=", search.as_str()]].into_iter(), "/")
        };
        assert_eq!(start("odd").unwrap().ended().unwrap().1, b"said\n");
        assert_eq!(start(&path).unwrap_err().raw_os_error(), Some(libc::ENOEXEC));
    }

    #[test]
    fn a_long_text_is_read_whole() {
        let (status, errors) =
            said(&["/bin/sh", "-c", "seq 100000 >&2"], &[["PATH", "=", "/usr/bin:/bin"]], "/").unwrap();
        assert_eq!((status, errors.lines().count(), errors.lines().last()), (0, 100_000, Some("100000")));
    }
}
