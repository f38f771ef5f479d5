//! Words that our programs don't know, and the names that they are meant to be.
use crate::excerpts::excerpt;
use lexopt::{Arg, Error, Parser};
use std::ffi::{OsStr, OsString};
use std::os::unix::ffi::OsStrExt;

/// How much of a word a message shows, since the reason comes behind it, and would be out of sight.
const MOST_SHOWN: usize = 100;

/// The nearest of these names, unless even that one is another word.
pub fn nearest<'a>(word: &str, names: impl IntoIterator<Item = &'a str>) -> Option<&'a str> {
    let near = names
        .into_iter()
        .map(|name| (strsim::osa_distance(word, name), name))
        .min_by_key(|(distance, _)| *distance)?;
    let most = if word.chars().count() < 4 { 1 } else { 2 };
    (near.0 <= most).then_some(near.1)
}

/// A question that names the nearest of these names, or nothing.
pub fn question<'a>(word: &str, names: impl IntoIterator<Item = &'a str>) -> String {
    nearest(word, names).map(|name| format!("; did you mean {name}?")).unwrap_or_default()
}

/// A word as a message shows it: one that is empty, as a shell has it.
pub fn shown(word: &OsStr) -> String {
    if word.is_empty() { "''".into() } else { excerpt(word.as_bytes(), MOST_SHOWN) }
}

/// The options that a help has where its lines begin, as in `-h, --help`. Completion reads them there too.
pub fn options(help: &str) -> impl Iterator<Item = &str> {
    let of_line =
        |line| str::split(line, [' ', ',']).take_while(|word| word.is_empty() || word.starts_with('-'));
    help.lines().flat_map(of_line).filter(|word| !word.is_empty())
}

/// Why an option or a word isn't taken, with the nearest of the options in a help.
pub fn unexpected(arg: &Arg<'_>, help: &str) -> Error {
    match arg {
        Arg::Short(letter) => format!("unexpected option -{letter}"),
        Arg::Long(name) => {
            let option = format!("--{name}");
            format!("unexpected option {}{}", shown(option.as_ref()), question(&option, options(help)))
        }
        Arg::Value(word) => format!("unexpected word {}", shown(word)),
    }
    .into()
}

/// The value of the option that was read last.
/// An error if there is none: what it needs.
pub fn value(words: &mut Parser, needs: &str) -> Result<OsString, Error> {
    words.value().map_err(|_| needs.into())
}

#[cfg(test)]
mod tests {
    use super::*;

    #[test]
    fn a_name_is_near_if_few_characters_differ() {
        let names = ["json", "ninja", "shell", "compdb", "text"];
        let cases = [
            ("jsn", Some("json")),
            ("nijna", Some("ninja")),
            ("Shell", Some("shell")),
            ("compdbs", Some("compdb")),
            ("test", Some("text")),
            ("yaml", None),
            ("", None),
            ("x", None),
        ];
        for (word, wanted) in cases {
            assert_eq!(nearest(word, names), wanted, "{word}");
        }
        assert_eq!(nearest("a", []), None);
        let help = "FILE -x\n\n--part N of many\n-h, --progress  how far\n";
        assert_eq!(options(help).collect::<Vec<_>>(), ["--part", "-h", "--progress"]);
        let said = |arg| unexpected(&arg, help).to_string();
        assert_eq!(said(Arg::Long("prat")), "unexpected option --prat; did you mean --part?");
        assert_eq!(
            [Arg::Short('x'), Arg::Value("a\nb".into())].map(said),
            ["unexpected option -x", "unexpected word a\\nb"]
        );
        assert_eq!(shown("".as_ref()), "''");
        assert_eq!(
            (question("jsn", names).as_str(), question("yaml", names).as_str()),
            ("; did you mean json?", "")
        );
    }
}
