//! Runs the commands of a statement once more under strace, and says which files they open that aren't in it.
use crate::audit::Finding;
use crate::resource::Resource;
use crate::statement::{Command, Statement};
use machine::folder::OWN;
use std::collections::{BTreeMap, BTreeSet};
use std::ffi::OsString;
use std::fs;
use std::os::unix::ffi::OsStringExt;
use std::path::{Path, PathBuf};
use std::process::{self, Stdio};

const STRACE: &str = "strace";

/// Files and folders that commands read though no statement has them, and why.
const BESIDE: [(&str, &str); 11] = [
    ("/dev", "devices"),
    ("/proc", "what the kernel makes up"),
    ("/sys", "the same"),
    ("/etc/ld.so.cache", "where libraries are; the statement has these themselves"),
    ("/etc/ld.so.preload", "the same"),
    ("/etc/localtime", "how a time is shown"),
    ("/usr/share/zoneinfo", "the same"),
    ("/etc/locale.alias", "the language of messages"),
    ("/usr/lib/locale", "the same"),
    ("/usr/share/locale", "the same"),
    ("/usr/lib/x86_64-linux-gnu/gconv", "the encoding of messages"),
];

/// What a call's commands read beside what a statement of it has. Their files go to a folder, which is there.
pub fn findings(statement: &Statement, room: &Path) -> Vec<Finding> {
    match opened(statement, room) {
        Ok(opened) => {
            let known = known(statement);
            let beside = opened.into_iter().filter(|path| !known.contains(path) && !is_left_out(path, room));
            beside.map(|path| Finding::Beside(path.display().to_string())).collect()
        }
        Err(why) => vec![Finding::NotTraced(why)],
    }
}

fn is_left_out(path: &Path, room: &Path) -> bool {
    path.starts_with(room) || BESIDE.iter().any(|(place, _)| path.starts_with(place)) || !path.is_file()
}

/// Where the files of a statement really are.
fn known(statement: &Statement) -> BTreeSet<PathBuf> {
    let definition = &statement.predicate.build_definition;
    let tools = definition.internal_parameters.commands.iter().map(|command| &command.tool);
    let files = definition.resolved_dependencies.iter().chain(tools).filter_map(Resource::path);
    files.filter_map(|path| fs::canonicalize(path).ok()).collect()
}

/// The files that the commands of a call open for reading.
/// Errors: why they can't be traced.
fn opened(statement: &Statement, room: &Path) -> Result<BTreeSet<PathBuf>, String> {
    let ran = &statement.predicate.build_definition.internal_parameters;
    let tmp = room.join("tmp");
    fs::create_dir_all(tmp.join(OWN)).map_err(|error| format!("{}: {error}", tmp.display()))?;
    let mut opened = BTreeSet::new();
    for (number, command) in ran.commands.iter().enumerate() {
        let moves = moves_of(command, &ran.temporary, &tmp, &room.join(number.to_string()));
        let list = room.join(format!("{number}.strace"));
        run(&moved(command, &moves)?, &moves, &tmp, &list)?;
        let text = fs::read(&list).map_err(|error| format!("{}: {error}", list.display()))?;
        opened.extend(files_opened(&text));
    }
    Ok(opened)
}

/// Where a command's files go in place of where they went: each text, and what stands for it.
struct Moves {
    tmp: (String, String),
    products: BTreeMap<PathBuf, String>,
}

fn moves_of(command: &Command, temporary: &str, tmp: &Path, products: &Path) -> Moves {
    let to =
        |path: &PathBuf| products.join(path.file_name().unwrap_or_default()).to_string_lossy().into_owned();
    let paths = command.products.iter().map(PathBuf::from);
    Moves {
        tmp: (temporary.to_owned(), tmp.to_string_lossy().into_owned()),
        products: paths.map(|path| (path.clone(), to(&path))).collect(),
    }
}

impl Moves {
    fn text(&self, text: &str) -> String {
        if self.tmp.0.is_empty() { text.to_owned() } else { text.replace(&self.tmp.0, &self.tmp.1) }
    }

    /// A word of a command that runs in a folder. The product that it names is noted.
    fn word(&self, word: &str, folder: &Path, named: &mut BTreeSet<PathBuf>) -> String {
        let (before, path) = word.rfind('=').map_or(("", word), |at| word.split_at(at + 1));
        for (before, path) in [("", word), (before, path)] {
            let whole = folder.join(path);
            if let Some(to) = self.products.get(&whole) {
                named.insert(whole);
                return format!("{before}{to}");
            }
        }
        self.text(word)
    }
}

/// A command whose files go elsewhere.
/// Errors: that no word names a product, which it would write over.
fn moved(command: &Command, moves: &Moves) -> Result<Command, String> {
    let (folder, mut named) = (Path::new(&command.folder), BTreeSet::new());
    let words = command.words.iter().map(|word| moves.word(word, folder, &mut named)).collect();
    let environment = command.environment.iter();
    let environment =
        environment.map(|(name, value)| (name.clone(), value.as_ref().map(|value| moves.text(value))));
    if let Some(product) = moves.products.keys().find(|product| !named.contains(*product)) {
        return Err(format!(
            "no word of {} names {}",
            command.words.first().map_or("", |word| word),
            product.display()
        ));
    }
    Ok(Command {
        words,
        folder: moves.text(&command.folder),
        environment: environment.collect(),
        ..command.clone()
    })
}

/// Runs a command under strace, which writes its list to a file.
/// Errors: why it can't be run, or how it failed.
fn run(command: &Command, moves: &Moves, tmp: &Path, list: &Path) -> Result<(), String> {
    for folder in moves.products.values().filter_map(|to| Path::new(to).parent()) {
        fs::create_dir_all(folder).map_err(|error| format!("{}: {error}", folder.display()))?;
    }
    let mut strace = process::Command::new(STRACE);
    strace
        .args(["-f", "-qq", "-y", "-e", "trace=open,openat", "-e", "signal=none", "-o"])
        .arg(list)
        .arg("--");
    strace.args(&command.words).current_dir(&command.folder).env("TMPDIR", tmp);
    for (name, value) in &command.environment {
        match value {
            Some(value) => strace.env(name, value),
            None => strace.env_remove(name),
        };
    }
    let status = strace.stdin(Stdio::null()).stdout(Stdio::null()).stderr(Stdio::null()).status();
    let status = status.map_err(|error| format!("{STRACE}: {error}"))?;
    let name = command.words.first().map_or("", String::as_str);
    if status.success() { Ok(()) } else { Err(format!("{name} under {STRACE}: {status}")) }
}

/// The files that processes have opened for reading, by strace's list: where they really are.
pub fn files_opened(list: &[u8]) -> BTreeSet<PathBuf> {
    let mut begun: BTreeMap<&[u8], &[u8]> = BTreeMap::new();
    let mut opened = BTreeSet::new();
    for line in list.split(|&byte| byte == b'\n') {
        let Some(at) = line.iter().position(|&byte| byte == b' ') else { continue };
        let (process, said) = (&line[..at], line[at..].trim_ascii_start());
        if said.ends_with(b"<unfinished ...>") {
            begun.insert(process, said);
            continue;
        }
        let begins = if said.starts_with(b"<...") { begun.remove(process).unwrap_or_default() } else { said };
        let writes = [&b"O_WRONLY"[..], b"O_DIRECTORY", b"O_PATH", b"O_TRUNC"];
        if !writes.iter().any(|flag| begins.windows(flag.len()).any(|part| part == *flag)) {
            opened.extend(result_of(said));
        }
    }
    opened
}

/// The path behind the number of an open file, at the end of a line: `= 3</a/b>`.
fn result_of(said: &[u8]) -> Option<PathBuf> {
    let end = said.strip_suffix(b">").or_else(|| said.strip_suffix(b">(deleted)"))?;
    let is_number =
        |at: usize| end[at..].starts_with(b"= ") && end.get(at + 2).is_some_and(u8::is_ascii_digit);
    let begin = (0..end.len()).find(|&at| is_number(at) && end[..at].trim_ascii_end().ends_with(b")"))?;
    let path = end[begin..].splitn(2, |&byte| byte == b'<').nth(1)?;
    Some(PathBuf::from(OsString::from_vec(without_escapes(path)?)))
}

/// A path without strace's escapes: a backslash and up to three octal digits, or a letter.
fn without_escapes(path: &[u8]) -> Option<Vec<u8>> {
    let (mut plain, mut rest) = (Vec::new(), path);
    while let [first, after @ ..] = rest {
        rest = after;
        if *first != b'\\' {
            plain.push(*first);
            continue;
        }
        let digits = rest.iter().take(3).take_while(|digit| (b'0'..=b'7').contains(digit)).count();
        let letter = [(b'n', b'\n'), (b't', b'\t'), (b'r', b'\r'), (b'v', 11), (b'f', 12)];
        let other =
            |byte: u8| letter.iter().find(|(name, _)| *name == byte).map_or(byte, |(_, meaning)| *meaning);
        let number = rest[..digits].iter().fold(0_u32, |number, digit| number * 8 + u32::from(digit - b'0'));
        plain.push(if digits > 0 { u8::try_from(number).ok()? } else { other(*rest.first()?) });
        rest = &rest[digits.max(1)..];
    }
    Some(plain)
}

#[cfg(test)]
mod tests {
    use super::*;

    #[test]
    fn opened_files_are_read_from_a_list() {
        let list = b"7 openat(AT_FDCWD</w>, \"a.h\", O_RDONLY) = 3</w/a.h>
7 openat(AT_FDCWD</w>, \"b.h\", O_RDONLY|O_CLOEXEC <unfinished ...>
8 openat(AT_FDCWD</w>, \"k.o\", O_WRONLY|O_CREAT|O_TRUNC, 0666 <unfinished ...>
7 <... openat resumed>)             = 4</w/b.h>
8 <... openat resumed>)             = 3</w/k.o>
8 openat(AT_FDCWD</w>, \"no\", O_RDONLY) = -1 ENOENT (No such file or directory)
8 openat(AT_FDCWD</w>, \".\", O_RDONLY|O_DIRECTORY) = 5</w>
9 open(\"c\\\"\\303\\251 = 1<x\", O_RDWR) = 12</w/c\\\"\\303\\251 = 1<x>
9 +++ exited with 0 +++
";
        let paths: Vec<PathBuf> = files_opened(list).into_iter().collect();
        assert_eq!(paths, ["/w/a.h", "/w/b.h", "/w/c\"é = 1<x"].map(PathBuf::from));
    }

    #[test]
    fn a_command_writes_elsewhere() {
        let command = |words: &str, products: &[&str]| Command {
            words: words.split(' ').map(String::from).collect(),
            folder: "/w".into(),
            environment: BTreeMap::from([("TMPDIR".into(), Some("/t/c/own".into())), ("A".into(), None)]),
            products: products.iter().map(|&product| product.to_owned()).collect(),
            ..Command::default()
        };
        let moved = |words: &str, products: &[&str]| {
            let command = command(words, products);
            moved(&command, &moves_of(&command, "/t/c", Path::new("/r/tmp"), Path::new("/r/0")))
        };
        let found = moved("gcc -c /t/c/k.ii -o k.o", &["/w/k.o"]).unwrap();
        assert_eq!(found.words.join(" "), "gcc -c /r/tmp/k.ii -o /r/0/k.o");
        assert_eq!(found.environment["TMPDIR"].as_deref(), Some("/r/tmp/own"));
        let found = moved("fatbinary --create=k.fatbin --image=/t/c/x", &["/w/k.fatbin"]).unwrap();
        assert_eq!(found.words.join(" "), "fatbinary --create=/r/0/k.fatbin --image=/r/tmp/x");
        let error = moved("nvcc -c k.cu", &["/w/k.o"]).unwrap_err();
        assert_eq!(error, "no word of nvcc names /w/k.o");
    }
}
