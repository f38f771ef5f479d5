//! zigrunk check-node: writes what this machine has, or compares it with what another one has written.
use super::toolkit::{Toolkit, digests_of, topmost};
use super::{Node, Surroundings, findings};
use crate::system;
use lexopt::prelude::{Long, Short, Value};
use lexopt::{Error, Parser};
use machine::clock::nanoseconds;
use machine::excerpts::plain;
use machine::nearest::{unexpected, value};
use machine::places::{absolute, working_directory};
use machine::settings::{Settings, machine_name, own_variable};
use machine::streams::{complain, content_of, replace_file, say};
use std::collections::BTreeMap;
use std::ffi::OsString;
use std::fs;
use std::io;
use std::path::{Path, PathBuf};
use std::time::SystemTime;

const USAGE: &str = "usage: zigrunk check-node [--write] FILE [PATH]..";

const HELP: &str = "
Checks that a machine makes the same objects as the one that has written FILE, on a disk that both share: before a task of a scheduler.

FILE          compare this machine with what FILE says, and print a line for each thing that differs, with what to do
--write FILE [PATH]..    write what this machine has: nvcc, host compiler, their headers and variables, and these files and folders
--version     print the version
-h, --help    print this text

The status is 0 if nothing differs, 1 if something does, 2 for wrong usage or a bad setting. man zigrunk-batch has the rest.";

/// The variables that compilers and nvcc read.
const VARIABLES: [&str; 11] = [
    "NVCC_PREPEND_FLAGS",
    "NVCC_APPEND_FLAGS",
    "CPATH",
    "C_INCLUDE_PATH",
    "CPLUS_INCLUDE_PATH",
    "LIBRARY_PATH",
    "LD_LIBRARY_PATH",
    "LD_PRELOAD",
    "COMPILER_PATH",
    "GCC_EXEC_PREFIX",
    "SOURCE_DATE_EPOCH",
];

/// What the words ask for.
#[derive(Clone, PartialEq, Eq, Debug)]
enum Wanted {
    Help,
    Version,
    Write(PathBuf, Vec<PathBuf>),
    Check(PathBuf),
}

/// Parses the words.
/// Errors: what is wrong with them.
fn parse(words: &[OsString]) -> Result<Wanted, Error> {
    let mut words = Parser::from_args(words);
    let mut file = None;
    while let Some(word) = words.next()? {
        match word {
            Short('h') | Long("help") => return Ok(Wanted::Help),
            Long("version") => return Ok(Wanted::Version),
            Long("write") => {
                let file = value(&mut words, "--write needs a file")?;
                return Ok(Wanted::Write(file.into(), words.raw_args()?.map(PathBuf::from).collect()));
            }
            Value(second) if file.is_some() => {
                return Err(format!("one file at a time, not {} too", second.to_string_lossy()).into());
            }
            Value(first) => file = Some(first.into()),
            option => return Err(unexpected(&option, HELP)),
        }
    }
    file.map(Wanted::Check).ok_or_else(|| "a file is missing".into())
}

/// By how many seconds the clock is ahead of the time that a new file in a folder gets.
/// Errors: those of making the file.
fn ahead_of(folder: &Path) -> io::Result<f64> {
    let path = folder.join(format!(".zigrunk-node.{}.{}", nanoseconds(), std::process::id()));
    let before = SystemTime::now();
    fs::write(&path, "time")?;
    let time = fs::metadata(&path).and_then(|file| file.modified());
    fs::remove_file(&path)?;
    let time = time?;
    Ok(before
        .duration_since(time)
        .map_or_else(|behind| -behind.duration().as_secs_f64(), |ahead| ahead.as_secs_f64()))
}

/// The digests of paths, in digits.
fn contents_of(paths: &[PathBuf]) -> BTreeMap<String, Option<String>> {
    let digests = digests_of(paths);
    let shown = paths.iter().map(|path| path.to_string_lossy().into_owned());
    shown.zip(digests.into_iter().map(|digest| digest.map(|digest| digest.to_string()))).collect()
}

/// What this machine has, with the paths whose contents count.
fn node(settings: &Settings, paths: impl FnOnce(&Toolkit) -> Vec<PathBuf>, ahead: f64) -> Node {
    let toolkit = Toolkit::of(&settings.nvcc);
    let text = |path: Option<&PathBuf>| path.map(|path| path.to_string_lossy().into_owned());
    let nvcc = (settings.nvcc.to_string_lossy().into_owned(), text(toolkit.nvcc.as_ref()));
    let compiler = (toolkit.compiler.0.clone(), text(toolkit.compiler.1.as_ref()));
    let variables = VARIABLES
        .map(|name| (name.to_owned(), own_variable(name).map(|value| value.to_string_lossy().into_owned())));
    Node {
        version: env!("CARGO_PKG_VERSION").into(),
        programs: [nvcc, compiler].into_iter().filter(|(name, _)| !name.is_empty()).collect(),
        contents: contents_of(&paths(&toolkit)),
        variables: variables.into(),
        ahead,
    }
}

/// The folder of a file.
fn folder_of(file: &Path) -> PathBuf {
    let cwd = working_directory().unwrap_or_default();
    absolute(&cwd.join(file).join(".."), &cwd)
}

/// Writes what this machine has.
/// Errors: why it can't.
fn write(file: &Path, others: &[PathBuf], settings: &Settings) -> Result<(), String> {
    let cannot = |error: io::Error| format!("cannot write {}: {error}", file.display());
    let ahead = ahead_of(&folder_of(file)).map_err(cannot)?;
    let cwd = working_directory().unwrap_or_default();
    let missing = others.iter().find(|path| !path.exists());
    if let Some(path) = missing {
        return Err(format!("no {}", path.display()));
    }
    let others = others.iter().map(|path| absolute(&cwd.join(path), &cwd)).collect::<Vec<_>>();
    let node =
        node(settings, |toolkit| topmost(toolkit.paths.iter().cloned().chain(others).collect()), ahead);
    if node.programs.values().any(Option::is_none) || node.programs.len() < 2 {
        return Err(format!(
            "{} isn't on PATH, or its dry run names no host compiler",
            settings.nvcc.to_string_lossy()
        ));
    }
    let text = serde_json::to_string_pretty(&node).map_err(|error| error.to_string())?;
    replace_file(file, format!("{text}\n").as_bytes()).map_err(cannot)
}

/// What differs here from what a file says.
/// Errors: why the file can't be read.
fn check(file: &Path, settings: &Settings) -> Result<Vec<String>, String> {
    let shown = file.display();
    let text = content_of(file).map_err(|error| {
        format!("cannot read {shown} ({}): mount the disk that all machines share", plain(&error))
    })?;
    let wanted: Node = serde_json::from_slice(&text)
        .map_err(|error| format!("{shown} isn't of zigrunk check-node --write: {error}"))?;
    let share = folder_of(file);
    let (ahead, fault) = match ahead_of(&share) {
        Ok(ahead) => (ahead, None),
        Err(error) => (wanted.ahead, Some(error.to_string())),
    };
    let paths = wanted.contents.keys().map(PathBuf::from).collect();
    let mut here = node(settings, |_| paths, ahead);
    if here.programs.values().any(Option::is_none) {
        // Without nvcc nothing says where the host compiler would be.
        let others: Vec<_> =
            wanted.programs.iter().filter(|(name, _)| !here.programs.contains_key(*name)).collect();
        here.programs.extend(others.into_iter().map(|(name, path)| (name.clone(), path.clone())));
    }
    let temporary = &settings.temporary;
    let room = ahead_of(temporary).and_then(|_| system::room_in(temporary));
    let around = Surroundings {
        share: (share.to_string_lossy().into_owned(), fault),
        temporary: (temporary.to_string_lossy().into_owned(), room.unwrap_or(0)),
    };
    Ok(findings(&wanted, &here, &around))
}

/// Acts with the settings of the environment. Says the status.
fn act(wanted: &Wanted) -> i32 {
    let print = |text: String| i32::from(say(1, text.as_bytes()).is_err());
    let settings = match Settings::of_environment() {
        Ok(settings) => settings,
        Err(complaint) => {
            complain(&format!("zigrunk check-node: {complaint}"));
            return 2;
        }
    };
    let found = match wanted {
        Wanted::Help => return print(format!("{USAGE}\n{HELP}\n")),
        Wanted::Version => return print(format!("zigrunk check-node {}\n", env!("CARGO_PKG_VERSION"))),
        Wanted::Write(file, others) => write(file, others, &settings).map(|()| Vec::new()),
        Wanted::Check(file) => check(file, &settings),
    };
    let lines = found.unwrap_or_else(|complaint| vec![complaint]);
    for line in &lines {
        complain(&format!("zigrunk check-node: {}: {line}", machine_name()));
    }
    i32::from(!lines.is_empty())
}

/// Writes or compares, as the words say. Says the exit status: 0 if nothing differs, 1 if something does, 2
/// for wrong usage or a bad setting.
pub fn run(words: &[OsString]) -> i32 {
    match parse(words) {
        Ok(wanted) => act(&wanted),
        Err(complaint) => {
            complain(&format!("zigrunk check-node: {complaint}\n{USAGE}"));
            2
        }
    }
}

#[cfg(test)]
mod tests {
    use super::*;
    use crate::test_folder::TestFolder;

    #[test]
    fn words_are_read() {
        let words = |line: &str| line.split_whitespace().map(OsString::from).collect::<Vec<_>>();
        let read = |line: &str| parse(&words(line)).map_err(|error| error.to_string());
        for (line, wanted) in [
            ("--help x", Ok(Wanted::Help)),
            ("--version", Ok(Wanted::Version)),
            ("file", Ok(Wanted::Check("file".into()))),
            ("--write file", Ok(Wanted::Write("file".into(), Vec::new()))),
            ("--write file a b", Ok(Wanted::Write("file".into(), vec!["a".into(), "b".into()]))),
            ("", Err("a file is missing".into())),
            ("--write", Err("--write needs a file".into())),
            ("-x file", Err("unexpected option -x".into())),
            ("--wrote file", Err("unexpected option --wrote; did you mean --write?".into())),
            ("one two", Err("one file at a time, not two too".into())),
        ] {
            assert_eq!(read(line), wanted, "{line}");
        }
    }

    #[test]
    fn the_clock_is_compared_with_a_new_file() {
        let folder = TestFolder::new();
        assert!(ahead_of(&folder).unwrap().abs() < 1.0);
        assert!(ahead_of(Path::new("/missing")).is_err() && fs::read_dir(&*folder).unwrap().count() == 0);
    }
}
