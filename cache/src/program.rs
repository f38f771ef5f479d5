//! `zigrunk cache`: shows and clears the cache.
use crate::calls;
use crate::counts;
use crate::digest::Digest;
use crate::manifest::Manifest;
use crate::observer;
use crate::place::{self, shown};
use crate::store::Store;
use call::{NvccLine, programs};
use machine::excerpts::plain;
use machine::nearest::{question, shown as excerpt};
use machine::places::working_directory;
use machine::settings::{Settings, bytes_of, own_variable};
use machine::streams::{complain, say};
use std::ffi::OsString;
use std::path::Path;

const USAGE: &str =
    "usage: zigrunk cache stats|show KEY|show NVCC WORD..|verify|clear|limit [SIZE]|observe FILE COMMAND..";

const HELP: &str = "
stats         show what the cache has, and how often it was of use
show KEY      list what is kept under a key, or with NVCC WORD.. what that call depends on
verify        look at all entries, and name those that are damaged
clear         throw all away
limit [SIZE]  throw away what was of use longest ago, down to a size such as 5G, or the usual one
observe FILE COMMAND..    run a command, and write to FILE what its processes opened and sought in vain
-h, --help    print this text

ZIGRUNK_CACHE names its folder. man zigrunk-cache has the rest.
";

/// The words that it knows.
pub const WORDS: [&str; 6] = ["stats", "show", "verify", "clear", "limit", "observe"];

fn tell(text: &str) -> i32 {
    i32::from(say(1, text.as_bytes()).is_err())
}

fn wrong(complaint: &str) -> i32 {
    complain(&format!("zigrunk cache: {complaint}"));
    1
}

fn misuse(complaint: &str) -> i32 {
    complain(&format!("zigrunk cache: {complaint}\n{USAGE}"));
    2
}

fn stats(store: &Store, limit: u64) -> i32 {
    let (content, counts) = (store.content(), counts::of(store.folder()));
    let share = (counts.hits * 100).checked_div(counts.hits + counts.misses);
    let share = share.map(|share| format!(" ({share} %)")).unwrap_or_default();
    tell(&format!(
        "folder: {}\nentries: {}\nsize: {}\nlimit: {}\nhits: {}{share}\nmisses: {}\nwhole calls: {}\nother calls: {}\n",
        store.folder().display(),
        content.entries,
        shown(content.bytes),
        shown(limit),
        counts.hits,
        counts.misses,
        counts.calls,
        counts.others,
    ))
}

fn clear(store: &Store) -> i32 {
    counts::clear(store.folder());
    store.clear().map_or_else(
        |error| wrong(&format!("cannot clear {}: {}", store.folder().display(), plain(&error))),
        |()| 0,
    )
}

/// Names each entry that isn't as it was written.
fn verify(store: &Store) -> i32 {
    let damaged = store.damaged();
    for path in &damaged {
        complain(&format!("zigrunk cache: {} is damaged", path.display()));
    }
    let said = tell(&format!("{} entries, {} damaged\n", store.content().entries, damaged.len()));
    if damaged.is_empty() { said } else { 1 }
}

/// A call here, by nvcc's name and its words.
pub fn line_of(settings: &Settings, nvcc: &str, words: &[&str]) -> NvccLine {
    let is_own = nvcc.ends_with("zigrunk-nvcc");
    NvccLine {
        cwd: working_directory().unwrap_or_default().to_string_lossy().into_owned(),
        nvcc: if is_own { settings.nvcc.to_string_lossy().into_owned() } else { nvcc.into() },
        words: words.iter().map(ToString::to_string).collect(),
        variables: Vec::new(),
    }
}

/// What a call depends on, by its words, or what is kept under a key.
fn show(store: &Store, settings: &Settings, words: &[&str]) -> i32 {
    let known = if let Ok(key) = words[0].parse::<Digest>() {
        Manifest::read(store, &key).map(|manifest| (key, manifest)).into_iter().collect()
    } else {
        let line = line_of(settings, words[0], &words[1..]);
        let path = own_variable("PATH").unwrap_or_default();
        let nvcc = programs::find(line.nvcc.as_ref(), &path, Path::new(&line.cwd));
        nvcc.map(|nvcc| calls::known(store, &line, &nvcc, settings.root.as_ref())).unwrap_or_default()
    };
    let said = |(key, manifest): &(Digest, Manifest)| {
        [format!("key {key}\n").into_bytes(), manifest.lines()].concat()
    };
    let text: Vec<u8> = known.iter().flat_map(said).collect();
    if text.is_empty() { wrong("the cache has nothing for that") } else { i32::from(say(1, &text).is_err()) }
}

/// Keeps a limit now: the usual one, or another.
fn limit(store: &Store, usual: u64, size: Option<&str>) -> i32 {
    let Some(limit) = size.map_or(Some(usual), bytes_of) else {
        let size = excerpt(size.unwrap_or_default().as_ref());
        return misuse(&format!("{size} is no size: it has digits, and K, M, G or T, such as 5G"));
    };
    Store::new(store.folder().to_owned(), limit).tidy_all();
    0
}

/// Acts by the words behind the program's name. Says its status.
pub fn run(words: &[OsString]) -> i32 {
    let words: Vec<&str> = words.iter().map(|word| word.to_str().unwrap_or_default()).collect();
    if let ["-h" | "--help"] = words[..] {
        return tell(&format!("{USAGE}\n{HELP}"));
    }
    if let ["observe", rest @ ..] = &words[..] {
        let [file, command @ ..] = rest else { return misuse("observe needs a file and a command") };
        return if command.is_empty() {
            misuse("observe needs a command behind the file")
        } else {
            observer::run(file, command)
        };
    }
    let settings = match Settings::of_environment() {
        Ok(settings) => settings,
        Err(complaint) => {
            wrong(&complaint);
            return 2;
        }
    };
    let usual = place::limit(&settings);
    let Some(store) = place::asked_or_users(&settings, &working_directory().unwrap_or_default()) else {
        return wrong("there is no folder: set ZIGRUNK_CACHE");
    };
    match words[..] {
        ["stats"] => stats(&store, usual),
        ["clear"] => clear(&store),
        ["verify"] => verify(&store),
        ["show", ref words @ ..] if !words.is_empty() => show(&store, &settings, words),
        ["show"] => misuse("show needs a key, or nvcc with its words"),
        ["limit"] => limit(&store, usual, None),
        ["limit", size] => limit(&store, usual, Some(size)),
        [] => misuse("a word is missing"),
        ["limit", _, word, ..] | ["stats" | "clear" | "verify", word, ..] => {
            misuse(&format!("unexpected word {}", excerpt(word.as_ref())))
        }
        [word, ..] => misuse(&format!("unknown word {}{}", excerpt(word.as_ref()), question(word, WORDS))),
    }
}

#[cfg(test)]
mod tests {
    use super::*;
    use crate::forked::{close, in_own_process};
    use crate::test_folder::TestFolder;
    use std::fs::{self, File};

    #[test]
    fn the_help_has_each_word() {
        for word in WORDS {
            assert!(HELP.contains(&format!("\n{word} ")), "{word}");
        }
    }

    #[test]
    fn a_size_that_is_none_is_said() {
        in_own_process(|| {
            let folder = TestFolder::new();
            let path = folder.join("said");
            // The next file gets the number of standard error.
            close(2);
            let _errors = File::create(&path).unwrap();
            assert_eq!(limit(&Store::new("/missing".into(), 1), 1, Some("9x")), 2);
            let said = fs::read_to_string(&path).unwrap();
            assert_eq!(
                said,
                format!(
                    "zigrunk cache: 9x is no size: it has digits, and K, M, G or T, such as 5G\n{USAGE}\n"
                )
            );
        });
    }
}
