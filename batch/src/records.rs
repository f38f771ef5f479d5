//! Records of `--incremental`: what a call was, what it read and what it made. A call is up to date if all of
//! that is as it was.
use super::asked::{BatchCall, words_of};
use super::products::Product;
use call::programs;
use machine::rooted::as_written;
use machine::settings::{Settings, own_variable};
use serde_json::json;
use std::collections::BTreeSet;
use std::ffi::OsStr;
use std::fs::{self, Metadata};
use std::io;
use std::os::unix::fs::MetadataExt;
use std::path::{Path, PathBuf};
use std::time::SystemTime;

/// The name of the folder that holds records.
pub const FOLDER: &str = ".zigrunk-batch";

/// What the preprocessors of a call read.
#[derive(Clone, PartialEq, Eq, Debug)]
pub enum Reads {
    /// None said it.
    Unknown,
    Files(BTreeSet<String>),
}

impl Reads {
    /// What the preprocessed files in a call's directory say.
    pub fn of_folder(tmp: &Path) -> Reads {
        let entries = fs::read_dir(tmp).into_iter().flatten().flatten().map(|entry| entry.path());
        let texts = entries.filter(|path| path.extension() == Some(OsStr::new("ii")));
        let read: Option<Vec<BTreeSet<String>>> =
            texts.map(|path| headers(&fs::read(as_written(&path)).ok()?)).collect();
        match read {
            Some(read) if !read.is_empty() => Reads::Files(read.into_iter().flatten().collect()),
            _ => Reads::Unknown,
        }
    }
}

/// The headers that a preprocessed text has entered. `None` if no line of it says where it is from.
fn headers(text: &[u8]) -> Option<BTreeSet<String>> {
    let lines = text
        .split(|&byte| byte == b'\n')
        .filter(|line| line.starts_with(b"# "))
        .filter_map(|line| std::str::from_utf8(line).ok());
    let mut markers = lines.filter_map(marker).peekable();
    markers.peek()?;
    Some(markers.filter(|(file, enters)| *enters && !file.starts_with('<')).map(|(file, _)| file).collect())
}

/// The file that a line `# NUMBER "FILE" FLAG..` names, and whether it is entered there.
fn marker(line: &str) -> Option<(String, bool)> {
    let (number, rest) = line.strip_prefix("# ")?.split_once(" \"")?;
    let (file, flags) = rest.rsplit_once('"')?;
    let mut characters = file.chars();
    let unescaped = std::iter::from_fn(|| {
        characters.next().and_then(|one| if one == '\\' { characters.next() } else { Some(one) })
    });
    number
        .bytes()
        .all(|byte| byte.is_ascii_digit())
        .then(|| (unescaped.collect(), flags.split(' ').any(|flag| flag == "1")))
}

/// What the target of a dependency file's first rule needs.
fn rule(text: &str) -> BTreeSet<String> {
    let joined = text.replace("\\\n", " ");
    let line = joined.lines().next().unwrap_or_default();
    let needs = line.split_once(':').map_or("", |(_, needs)| needs).replace("\\ ", "\u{1}");
    needs
        .split_whitespace()
        .map(|file| file.replace('\u{1}', " ").replace("\\#", "#").replace("$$", "$"))
        .collect()
}

/// The folder of records.
pub struct Records(PathBuf);

/// A call as its record has it.
pub struct Described {
    record: PathBuf,
    folder: PathBuf,
    /// The lines that say what the call is.
    head: String,
    products: Vec<Product>,
    /// The files that its words name.
    named: BTreeSet<String>,
    /// The dependency file that it writes.
    pub rule: Option<String>,
}

/// The line of a file's state.
fn state(folder: &Path, file: &str) -> Option<String> {
    let of = |status: Metadata| {
        format!("@ {} {}.{:09} {}\n", status.size(), status.mtime(), status.mtime_nsec(), json!(file))
    };
    fs::metadata(folder.join(file)).ok().map(of)
}

/// The file of such a line.
fn file_of(line: &str) -> Option<String> {
    let name = line.strip_prefix("@ ")?.splitn(3, ' ').nth(2)?;
    serde_json::from_str(name).ok()
}

/// The dependency file that words ask for.
fn rule_of(words: &[String], product: &str) -> Option<String> {
    let asks = [
        "-MD",
        "-MMD",
        "--generate-dependencies-with-compile",
        "--generate-nonsystem-dependencies-with-compile",
    ];
    let named = words
        .windows(2)
        .rev()
        .find(|pair| pair[0] == "-MF" || pair[0] == "--dependency-output")
        .map(|pair| pair[1].clone());
    let joined = words.iter().rev().find_map(|word| {
        word.strip_prefix("-MF=").or_else(|| word.strip_prefix("--dependency-output=")).map(String::from)
    });
    let stem = product.rsplit_once('.').map_or(product, |(stem, _)| stem);
    words
        .iter()
        .any(|word| asks.contains(&word.as_str()))
        .then(|| joined.or(named).unwrap_or_else(|| format!("{stem}.d")))
}

impl Records {
    /// The records in this folder, which is made if it isn't there.
    /// An error if it can't be made.
    pub fn open(folder: PathBuf) -> io::Result<Records> {
        fs::create_dir_all(&folder).map(|()| Records(folder))
    }

    /// The records in this folder, if it is there.
    pub fn at(folder: PathBuf) -> Records {
        Records(folder)
    }

    /// The folder.
    pub fn path(&self) -> &Path {
        &self.0
    }

    /// A call as its record has it. `None` if it has none: it makes no product, or nobody knows what it
    /// reads.
    pub fn describe(&self, call: &BatchCall, products: &[Product], settings: &Settings) -> Option<Described> {
        let words = words_of(&call.asked)?;
        let first = products.first()?.path.to_str()?;
        let folder = PathBuf::from(&call.folder);
        let name = words
            .first()
            .filter(|word| !word.starts_with('-'))
            .cloned()
            .unwrap_or_else(|| settings.nvcc.to_string_lossy().into_owned());
        let program = programs::find(OsStr::new(&name), &own_variable("PATH").unwrap_or_default(), &folder)?
            .to_str()?
            .to_owned();
        let words = if words.first() == Some(&name) { &words[1..] } else { &words[..] };
        let rule = rule_of(words, first);
        let parts = words.iter().flat_map(|word| {
            [
                word.as_str(),
                word.split_once('=').map_or("", |(_, value)| value),
                word.strip_prefix('@').unwrap_or_default(),
            ]
        });
        let is_read = |file: &&str| {
            !file.is_empty()
                && folder.join(file).is_file()
                && Some(*file) != rule.as_deref()
                && !products
                    .iter()
                    .any(|product| fs::canonicalize(folder.join(file)).is_ok_and(|path| path == product.path))
        };
        let named = parts.filter(is_read).map(String::from).chain([program.clone()]).collect();
        let lines =
            [&call.folder, &program].into_iter().chain(words).map(|word| format!("= {}\n", json!(word)));
        let record = self.0.join(format!("{:016x}", digest(first.as_bytes())));
        Some(Described {
            record,
            folder: folder.clone(),
            head: lines.collect(),
            products: products.to_vec(),
            named,
            rule,
        })
    }
}

/// A number for a text, as FNV-1a has it.
pub fn digest(text: &[u8]) -> u64 {
    text.iter()
        .fold(0xcbf2_9ce4_8422_2325, |sum, &byte| (sum ^ u64::from(byte)).wrapping_mul(0x0100_0000_01b3))
}

impl Described {
    /// The files of the call's record, if the record is there and all is as it says.
    fn current(&self) -> Option<Vec<String>> {
        let text = fs::read_to_string(&self.record).ok()?;
        let states = text.strip_prefix(&self.head).filter(|states| states.starts_with('@'))?;
        let unchanged = |line: &str| {
            file_of(line).filter(|file| {
                state(&self.folder, file).is_some_and(|now| now.trim_end_matches('\n') == line)
            })
        };
        states.lines().map(unchanged).collect()
    }

    /// Whether the call and all its files are as they were when it was made last.
    pub fn is_current(&self) -> bool {
        self.current().is_some()
    }

    /// Notes a call that was made, unless nobody says what it read, or one of its files is newer than its
    /// begin: what it read may be older. Nothing reads a file within a clock's tick of the begin, since nvcc
    /// takes longer to start. Says whether it has noted it.
    pub fn record(&self, reads: &Reads, begun: SystemTime) -> bool {
        let headers = match (reads, &self.rule) {
            (Reads::Files(files), _) => files.clone(),
            (Reads::Unknown, Some(file)) => {
                fs::read_to_string(self.folder.join(file)).map(|text| rule(&text)).unwrap_or_default()
            }
            (Reads::Unknown, None) => return false,
        };
        if headers.is_empty() && matches!(reads, Reads::Unknown) {
            return false;
        }
        let files: BTreeSet<&String> = self.named.iter().chain(&headers).collect();
        let is_old = |file: &&String| {
            fs::metadata(self.folder.join(file))
                .and_then(|status| status.modified())
                .is_ok_and(|time| time <= begun)
        };
        let products =
            self.products.iter().filter_map(|product| state(Path::new("/"), product.path.to_str()?));
        let is_whole = files.iter().all(is_old);
        if is_whole {
            let states: String =
                products.chain(files.iter().filter_map(|file| state(&self.folder, file))).collect();
            let beside = self.record.with_extension(std::process::id().to_string());
            // No error, since without its record a call is only made again.
            return fs::write(&beside, format!("{}{states}", self.head))
                .and_then(|()| fs::rename(&beside, &self.record))
                .is_ok();
        }
        false
    }

    /// Writes the dependency file for a target, if the call asks for one. `Some` if the call is up to date
    /// and the file is written.
    pub fn write_rule(&self, file: Option<&str>, target: &str) -> Option<()> {
        let products: Vec<&str> = self.products.iter().filter_map(|product| product.path.to_str()).collect();
        let files = self.current()?.into_iter().filter(|file| !products.contains(&file.as_str()));
        let escaped = files
            .map(|file| format!(" \\\n {}", file.replace(' ', "\\ ").replace('#', "\\#").replace('$', "$$")));
        let Some(file) = file else { return Some(()) };
        fs::write(self.folder.join(file), format!("{target}:{}\n", escaped.collect::<String>())).ok()
    }
}

/// The words without those that ask for a dependency file, which a build adds to those of its
/// `compile_commands.json`.
pub fn without_rule(words: &[String]) -> Vec<String> {
    let mut before = "";
    let mut kept = Vec::new();
    for word in words {
        let is_value = matches!(before, "-MT" | "-MF");
        before = if is_value { "" } else { word };
        if !is_value && !matches!(word.as_str(), "-MD" | "-MT" | "-MF") {
            kept.push(word.clone());
        }
    }
    kept
}

#[cfg(test)]
mod tests {
    use super::*;
    use crate::test_folder::TestFolder;
    use std::time::Duration;

    fn set(files: &[&str]) -> BTreeSet<String> {
        files.iter().map(|file| (*file).to_owned()).collect()
    }

    #[test]
    fn preprocessed_texts_say_what_they_have_entered() {
        let text = b"# 0 \"k.cu\"\n# 0 \"<built-in>\"\n# 1 \"a.h\" 1\n# 2 \"k.cu\" 2\nint x;\n# 1 \"in c/q\\\"\\\\h\" 1 3 4\n# 1 \"<command line>\" 1\n#pragma x\n";
        assert_eq!(headers(text), Some(set(&["a.h", "in c/q\"\\h"])));
        assert_eq!(headers(b"int x;\n# pragma\n# x \"a\" 1\n"), None);
        assert_eq!(headers(b"# 1 \"k.cu\"\n"), Some(set(&[])));
    }

    #[test]
    fn rules_say_what_their_first_target_needs() {
        assert_eq!(rule("sub/k.o : k.c a\\ b.h \\\n  c\\#$$.h\na.h:\n"), set(&["k.c", "a b.h", "c#$.h"]));
        assert_eq!(rule(""), set(&[]));
    }

    #[test]
    fn words_ask_for_rules() {
        for (line, wanted) in [
            ("-MD -MF o.d", Some("o.d")),
            ("-MMD -MF=o.d", Some("o.d")),
            ("-MD", Some("/d/k.d")),
            ("-MF o.d", None),
            ("--generate-dependencies-with-compile --dependency-output x", Some("x")),
            ("--generate-nonsystem-dependencies-with-compile --dependency-output=x", Some("x")),
            ("-MD -MF first -MF last", Some("last")),
            ("-MD -MF=first -MF=last", Some("last")),
            ("-MD --dependency-output x -MF=o.d", Some("o.d")),
        ] {
            let words: Vec<String> = line.split(' ').map(String::from).collect();
            assert_eq!(rule_of(&words, "/d/k.o").as_deref(), wanted, "{line}");
        }
        assert_eq!(rule_of(&["-MD".into()], "/d/k").as_deref(), Some("/d/k.d"));
        let words = ["-MD", "-MT", "a.o", "-MF", "a.d", "-c", "a.cu"].map(String::from);
        assert_eq!(without_rule(&words), ["-c", "a.cu"]);
    }

    #[test]
    fn a_call_is_current_while_all_that_it_has_read_stays() {
        let folder = TestFolder::new();
        let (record, head, named) = (folder.join("record"), "= call\n".to_owned(), set(&["k.cu"]));
        let call =
            Described { record, folder: folder.to_owned(), head, products: Vec::new(), named, rule: None };
        let reads = Reads::Files(set(&["a.h"]));
        for name in ["k.cu", "a.h"] {
            fs::write(folder.join(name), "old").unwrap();
        }
        call.record(&Reads::Unknown, SystemTime::now() + Duration::from_secs(9));
        call.record(&reads, SystemTime::UNIX_EPOCH);
        assert!(!call.is_current(), "nobody says what it read, and then the files are newer than its begin");
        for name in ["k.cu", "a.h"] {
            call.record(&reads, SystemTime::now() + Duration::from_secs(9));
            assert!(call.is_current());
            fs::write(folder.join(name), "other").unwrap();
            assert!(!call.is_current(), "{name} has changed");
        }
    }

    #[test]
    fn states_name_their_files() {
        let folder = TestFolder::new();
        for name in ["a b", "q\"\\h", "n\nl\u{e4}"] {
            fs::write(folder.join(name), "x").unwrap();
            let line = state(&folder, name).unwrap();
            assert_eq!(
                (line.lines().count(), file_of(line.trim_end_matches('\n')).as_deref()),
                (1, Some(name))
            );
        }
        assert_eq!(
            (state(&folder, "missing/x"), file_of("= x"), file_of("@ 1"), file_of("@ 1 2 x")),
            (None, None, None, None)
        );
    }
}
