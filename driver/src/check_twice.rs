//! Calls that are made twice, to find what isn't deterministic: the second time later, and with temporary
//! files elsewhere.
use call::environments::Environment;
use machine::streams::{complain, say};
use report::why::{Twice, twice};
use std::ffi::OsStr;
use std::fs::{self, DirBuilder};
use std::io;
use std::os::unix::ffi::OsStrExt;
use std::os::unix::fs::DirBuilderExt;
use std::os::unix::process::ExitStatusExt;
use std::path::{Path, PathBuf};
use std::process::{self, Command, ExitStatus};
use std::thread;
use std::time::Duration;

/// How long it waits between both, so that a clock that counts seconds says another one.
const PAUSE: Duration = Duration::from_millis(1100);
/// The folders for temporary files. Their lengths differ too, since a path that gets into a file may show
/// only by what it moves.
const TEMPORARY: [&str; 2] = ["t", "temporary"];

/// A new folder below that for temporary files, for this user alone.
fn room(environment: &Environment) -> io::Result<PathBuf> {
    let above = environment.get("TMPDIR").filter(|folder| !folder.is_empty()).unwrap_or("/tmp".as_ref());
    let room = fs::canonicalize(above)?.join(format!("zigrunk-twice-{}", process::id()));
    DirBuilder::new().mode(0o700).create(&room)?;
    Ok(room)
}

/// Runs words with records in a folder, and temporary files in another.
fn make(
    words: &[&OsStr],
    environment: &Environment,
    [temporary, records]: [&Path; 2],
) -> io::Result<ExitStatus> {
    fs::create_dir(temporary)?;
    let environment = environment
        .clone()
        .with("TMPDIR", temporary.as_os_str())
        .with("ZIGRUNK_RECORDS", records.as_os_str())
        .with("ZIGRUNK_CACHE", "no".as_ref());
    let pairs = environment.variables().filter_map(|variable| {
        let at = variable.iter().position(|&byte| byte == b'=')?;
        Some((OsStr::from_bytes(&variable[..at]), OsStr::from_bytes(&variable[at + 1..])))
    });
    Command::new(words[0]).args(&words[1..]).env_clear().envs(pairs).status()
}

/// Makes calls twice, and compares them. Says the status: that of calls that fail, else 0 if all is the same.
fn check(words: &[&OsStr], environment: &Environment, room: &Path) -> Result<i32, String> {
    let records = ["first", "second"].map(|name| room.join(name));
    for (number, (temporary, records)) in TEMPORARY.iter().zip(&records).enumerate() {
        if number > 0 {
            thread::sleep(PAUSE);
        }
        let made =
            make(words, environment, [&room.join(temporary), records]).map_err(|error| error.to_string())?;
        if !made.success() {
            return Ok(made.code().or(made.signal().map(|signal| 128 + signal)).unwrap_or(1));
        }
    }
    let Twice { text, is_same } = twice(&records[0], &records[1])?;
    say(1, text.as_bytes()).map_err(|error| format!("cannot write: {error}"))?;
    Ok(i32::from(!is_same))
}

/// Makes what these words, a program's path first, say twice, in an environment. Says the status: that of
/// calls that fail, else 1 if something isn't deterministic, or 2 if that can't be found out.
pub fn run(first: &str, words: &[&OsStr], environment: &Environment) -> i32 {
    let checked =
        room(environment).map_err(|error| format!("no temporary directory: {error}")).and_then(|room| {
            let checked = check(words, environment, &room);
            let _ = fs::remove_dir_all(&room);
            checked
        });
    checked.unwrap_or_else(|complaint| {
        complain(&format!("zigrunk {first} --check-twice: {complaint}"));
        2
    })
}
