//! The calls of a `compile_commands.json`.
use rattle_std::alloc::Global;
use serde::Deserialize;
use serde_bytes::ByteBuf;

/// An entry of one.
#[derive(Clone, PartialEq, Eq, Debug)]
pub struct DatabaseEntry {
    pub file: Vec<u8>,
    /// Where the call is made, as the entry has it.
    pub directory: Vec<u8>,
    /// A program and its words.
    pub words: Vec<Vec<u8>>,
}

/// Whether a text is a database, and not a list of calls: whether it begins with `[`.
pub fn is_database(text: &[u8]) -> bool {
    text.iter().find(|byte| !byte.is_ascii_whitespace()) == Some(&b'[')
}

/// Whether a text is a JSON object, which is neither.
pub fn is_object(text: &[u8]) -> bool {
    let mut rest = text.iter().filter(|byte| !byte.is_ascii_whitespace());
    rest.next() == Some(&b'{') && matches!(rest.next(), Some(b'"' | b'}'))
}

/// An entry as it is written. Its texts needn't be UTF-8.
#[derive(Deserialize)]
#[serde(expecting = "an entry")]
struct Written {
    file: Option<ByteBuf>,
    directory: Option<ByteBuf>,
    command: Option<ByteBuf>,
    arguments: Option<Vec<ByteBuf>>,
}

/// The entries of a database.
/// Errors: why the text isn't one.
pub fn entries(text: &[u8]) -> Result<Vec<DatabaseEntry>, String> {
    let entries: Vec<Written> = serde_json::from_slice(text).map_err(|error| error.to_string())?;
    entries
        .into_iter()
        .enumerate()
        .map(|(at, one)| entry(one).map_err(|reason| format!("entry {}: {reason}", at + 1)))
        .collect()
}

fn entry(written: Written) -> Result<DatabaseEntry, &'static str> {
    let words = match (written.arguments, written.command) {
        (Some(arguments), _) => arguments.into_iter().map(ByteBuf::into_vec).collect(),
        (None, Some(command)) => split(&command).ok_or("its command has a quote without an end")?,
        (None, None) => return Err("it has no command"),
    };
    if words.is_empty() {
        return Err("its command is empty");
    }
    let file = written.file.ok_or("it has no file")?.into_vec();
    let directory = written.directory.ok_or("it has no directory")?.into_vec();
    Ok(DatabaseEntry { file, directory, words })
}

/// The words of a command, in which only quotes, backslashes and comments count. Each byte is a character of
/// its own here, so a command needn't be UTF-8.
fn split(command: &[u8]) -> Option<Vec<Vec<u8>>> {
    let text: String = command.iter().copied().map(char::from).collect();
    let split = texts::shell::split(Global, &text).ok()??;
    let bytes = |word: &str| word.chars().map(|character| u8::try_from(character).ok()).collect();
    split.as_slice().iter().map(|word| bytes(word.as_str())).collect()
}

#[cfg(test)]
mod tests {
    use super::*;

    fn words_of(text: &str) -> Vec<String> {
        let entries = entries(text.as_bytes()).unwrap();
        entries[0].words.iter().map(|word| String::from_utf8_lossy(word).into_owned()).collect()
    }

    #[test]
    fn entries_have_words() {
        let cases: [(&str, &[&str]); 5] = [
            (
                r#""command": "nvcc -c \"a b.cu\" '-DQ=*;x' -DA=\\\"q\\\" -o a.o""#,
                &["nvcc", "-c", "a b.cu", "-DQ=*;x", "-DA=\"q\"", "-o", "a.o"],
            ),
            (
                r#""arguments": ["nvcc", "-DT=two\nlines", "$X", ""], "command": "x""#,
                &["nvcc", "-DT=two\nlines", "$X", ""],
            ),
            (
                r#""command": "if A=b *.cu a#b $HOME `x` \"$Y\" a;b\n c""#,
                &["if", "A=b", "*.cu", "a#b", "$HOME", "`x`", "$Y", "a;b", "c"],
            ),
            (r#""command": "a \"b\\c\\\"\" 'd\\'""#, &["a", "b\\c\"", "d\\"]),
            (r#""command": "!x ~ {a} (b)""#, &["!x", "~", "{a}", "(b)"]),
        ];
        for (members, wanted) in cases {
            assert_eq!(
                words_of(&format!(r#"[{{"directory": "/d", "file": "f.cu", {members}}}]"#)),
                wanted,
                "{members}"
            );
        }
        let found = entries(b"[{\"directory\": \"d\", \"file\": \"a\xff\", \"command\": \"nvcc -DA=\xff\"}]")
            .unwrap();
        assert_eq!(
            (found[0].file.as_slice(), found[0].words[1].as_slice(), found[0].directory.as_slice()),
            (&b"a\xff"[..], &b"-DA=\xff"[..], &b"d"[..])
        );
    }

    #[test]
    fn other_texts_are_refused() {
        let cases = [
            ("[", "EOF while parsing a list at line 1 column 1"),
            ("{}", "invalid type: map, expected a sequence at line 1 column 0"),
            ("[1]", "invalid type: integer `1`, expected an entry at line 1 column 2"),
            ("[{}]", "entry 1: it has no command"),
            (
                r#"[{"directory": "/", "file": "x", "command": "nvcc '"}]"#,
                "entry 1: its command has a quote without an end",
            ),
            (
                r#"[{"directory": "/", "file": "x", "arguments": [1]}]"#,
                "invalid type: integer `1`, expected byte array at line 1 column 48",
            ),
            (r#"[{"directory": "/", "file": "x", "arguments": []}]"#, "entry 1: its command is empty"),
            (
                r#"[{"directory": "/", "file": "x", "command": "a"}, {"file": "x", "command": "a"}]"#,
                "entry 2: it has no directory",
            ),
            (r#"[{"directory": "/", "command": "a"}]"#, "entry 1: it has no file"),
        ];
        for (text, wanted) in cases {
            assert_eq!(entries(text.as_bytes()), Err(wanted.into()), "{text}");
        }
    }

    #[test]
    fn kinds_of_lists_are_told_apart() {
        assert!(is_database(b"\t\r\n [") && !is_database(b"nvcc [") && !is_database(b"{"));
        assert!(
            is_object(b" { \"file\": 1}") && is_object(b"{}") && !is_object(b"{ nvcc; }") && !is_object(b"[")
        );
    }
}
