//! A command that runs here.
use crate::words::Command;
use std::fs;
use std::io;
use std::os::unix::process::{CommandExt, ExitStatusExt};
use std::process::{self, ExitStatus, Stdio};

/// What a shell adds to the number of a signal that ended a command.
const BY_SIGNAL: i32 = 128;

/// Where Linux has this machine's name.
const NAME: &str = "/proc/sys/kernel/hostname";

/// This machine's name; empty if nothing says it.
#[must_use]
pub fn machine() -> String {
    fs::read_to_string(NAME).unwrap_or_default().trim().to_owned()
}

/// Becomes the command. Comes back with an error only.
pub fn become_it(command: &Command) -> io::Error {
    process::Command::new(&command.program).args(&command.words).exec()
}

/// Runs an action's words, the program first, to their end, in the directory where its files are: as a server
/// would, so that it makes the same. Gives its status, and what it said to standard output and standard
/// error. An error if it can't be started.
pub fn run(words: &[String], root: &str) -> io::Result<(i32, Vec<u8>, Vec<u8>)> {
    let [program, words @ ..] = words else { return Err(io::ErrorKind::InvalidInput.into()) };
    let mut process = process::Command::new(program);
    process
        .args(words)
        .current_dir(root)
        .env("PWD", root)
        .stdin(Stdio::null())
        .stdout(Stdio::piped())
        .stderr(Stdio::piped());
    let said = process.output()?;
    Ok((code_of(said.status), said.stdout, said.stderr))
}

fn code_of(status: ExitStatus) -> i32 {
    status.code().or_else(|| status.signal().map(|signal| BY_SIGNAL + signal)).unwrap_or(BY_SIGNAL)
}

#[cfg(test)]
mod tests {
    use super::*;

    #[test]
    fn a_command_runs_to_its_end() {
        let of = |script: &str| run(&["/bin/sh", "-c", script].map(String::from), "/").unwrap();
        assert_eq!(of("echo a; echo b >&2; exit 3"), (3, b"a\n".to_vec(), b"b\n".to_vec()));
        assert_eq!(of("kill -9 $$").0, 137);
        assert_eq!(of("pwd; echo $PWD"), (0, b"/\n/\n".to_vec(), Vec::new()));
        assert!(run(&["/no/program".to_owned()], "/").is_err() && run(&[], "/").is_err());
    }
}
