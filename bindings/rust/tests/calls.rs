//! Calls of each function: answers, errors, and input of all sizes.

use std::ffi::OsStr;
use std::path::Path;

use zigrunk::{
    CommandTool, Disk, Error, ErrorKind, KeyCall, Lookup, Programs, Variable, candidates, command_key, lookups, quote, split,
};

fn words_of(text: &str) -> Vec<String> {
    split(text).unwrap().iter().map(String::from).collect()
}

#[test]
fn versions() {
    assert_eq!(zigrunk::VERSION, env!("CARGO_PKG_VERSION"));
}

#[test]
fn words_are_split() {
    assert_eq!(words_of("g++ -D 'a b' c\\ d \"e'f\" ''"), ["g++", "-D", "a b", "c d", "e'f", ""]);
    assert!(split("").unwrap().is_empty());
    let error = split("a 'b").unwrap_err();
    assert_eq!((error.kind(), error.to_string().as_str()), (ErrorKind::OpenQuote, "open quote or backslash at the end"));
    assert_eq!(words_of(&"w ".repeat(10_000)), vec!["w"; 10_000]);
}

#[test]
fn quoted_words_are_split_into_themselves() {
    let long = "w".repeat(9000);
    let lists: [&[&str]; 6] =
        [&[], &[""], &["a b", "it's", "-DX=\"1\"", "é", "a\0b", "\n"], &[&long, &long], &["'"; 500], &["x"; 500]];
    for words in lists {
        assert_eq!(words_of(&quote(words).unwrap()), words);
    }
    assert_eq!(quote(vec![String::from("a b")]).unwrap(), "'a b'");
}

#[test]
fn a_list_of_texts() {
    let words = split("a 'b c' d").unwrap();
    assert_eq!((words.len(), &words[1], words.get(2), words.get(3)), (3, "b c", Some("d"), None));
    assert_eq!(words.iter().rev().collect::<Vec<_>>(), ["d", "b c", "a"]);
    assert_eq!(words.iter().len(), 3);
    assert_eq!(format!("{words:?} {:?}", words.iter()), r#"["a", "b c", "d"] ["a", "b c", "d"]"#);
    let mut count = 0;
    for word in &words {
        count += word.len();
    }
    assert_eq!(count, 5);
    assert_eq!(words, split("a 'b c' d").unwrap());
}

/// A text of an OS that is these bytes.
fn any_text(bytes: &[u8]) -> &OsStr {
    std::os::unix::ffi::OsStrExt::from_bytes(bytes)
}

#[test]
fn keys() {
    let (word, root) = (any_text(b"\xff/t/a"), Path::new("/t"));
    let variables = [Variable::new("PWD", "/t"), Variable::new("HOME", "/")];
    let call = KeyCall { tool: CommandTool::Cicc, words: &[OsStr::new("cicc"), word], variables: &variables, roots: &[root] };
    assert_eq!(command_key(&call).unwrap(), b"cicc\x000\xff\0A/a\x000PWD\x001\0A\x002");
    let none: KeyCall<'_, &str> = KeyCall { tool: CommandTool::Host, words: &[], variables: &[], roots: &[] };
    assert_eq!(command_key(&none).unwrap(), b"");
    let long = "w".repeat(100_000);
    assert_eq!(command_key(&KeyCall { words: &[&*long], ..none }).unwrap().len(), long.len() + 2);
    let error = command_key(&KeyCall { words: &["a\0b"], ..none }).unwrap_err();
    assert_eq!((error.kind(), error.to_string().as_str()), (ErrorKind::BadLine, "a text contains NUL"));
    assert_eq!(command_key(&KeyCall { roots: &[root; 27], ..none }).unwrap_err().kind(), ErrorKind::BadNumber);
}

#[test]
fn kinds_of_errors() {
    let texts = ErrorKind::ALL.map(|kind| (kind.status(), kind.text()));
    assert!(texts.iter().map(|it| it.0).eq(1..=15) && texts.iter().all(|it| !it.1.is_empty()));
    assert_eq!((texts[5].1, texts[11].1), ("a program is not found", "the texts are not the dry runs of the call"));
}

#[test]
fn an_error_is_one_of_the_standard_library() {
    let error: Box<dyn std::error::Error + Send + Sync> = Box::new(split("'").unwrap_err());
    assert_eq!(error.to_string(), "open quote or backslash at the end");
    assert_eq!(error.downcast_ref::<Error>().map(Error::status), Some(4));
}

#[test]
fn programs_are_looked_up() {
    let run = b"#$ PATH=/b:c\n#$ cicc k.cpp1.ii\n";
    let asked = lookups(run, run, "/w".as_ref(), None).unwrap();
    assert_eq!(asked, [Lookup { program: "cicc".into(), path: "/b:c".into() }]);
    assert_eq!(candidates(&asked[0], "/w".as_ref()).unwrap().iter().collect::<Vec<_>>(), ["/b/cicc", "/w/c/cicc"]);
    let disk = Disk::default();
    assert_eq!(disk.find("cicc", "/b:c", "/w").unwrap(), None);
    assert_eq!(disk.find("sh", "/nowhere:/bin", "/w").unwrap().as_deref(), Some("/bin/sh"));
    // a folder, a file that isn't executable, and a name that no file has
    for program in ["/etc", "/etc/passwd", "/bin/sh\0"] {
        assert_eq!(disk.find(program, "", "/").unwrap(), None);
    }
}

#[test]
fn many_folders_of_a_path() {
    let path = vec!["/some/folder"; 5000].join(":");
    assert_eq!(candidates(&Lookup { program: "x".into(), path }, "/w".as_ref()).unwrap().len(), 5000);
}
