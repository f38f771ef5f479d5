//! The options of `zigrunk nvcc` and `zigrunk batch` that stand right behind these words, before nvcc's words
//! or those of the batch.
use crate::check_twice;
use call::environments::Environment;
use machine::host::become_program;
use machine::streams::complain;
use std::env;
use std::ffi::{OsStr, OsString};
use std::os::unix::ffi::OsStrExt;

/// The variable of which `--root` is another form.
const ROOT: &str = "ZIGRUNK_ROOT";

/// What is asked for.
#[derive(Clone, PartialEq, Eq, Debug, Default)]
struct Asked<'a> {
    root: Option<OsString>,
    checks_twice: bool,
    /// The words behind the options.
    words: &'a [OsString],
}

/// Parses the options.
/// Errors: what is wrong with them.
fn asked(words: &[OsString]) -> Result<Asked<'_>, String> {
    let mut asked = Asked { words, ..Asked::default() };
    while let [word, rest @ ..] = asked.words {
        if word == "--check-twice" {
            (asked.checks_twice, asked.words) = (true, rest);
        } else if word == "--root" {
            let [root, rest @ ..] = rest else { return Err("--root needs a folder".into()) };
            (asked.root, asked.words) = (Some(root.clone()), rest);
        } else if let Some(root) = word.as_bytes().strip_prefix(b"--root=") {
            (asked.root, asked.words) = (Some(OsStr::from_bytes(root).into()), rest);
        } else {
            break;
        }
    }
    Ok(asked)
}

/// Acts by options behind a first word, if there are any. Says the status. `None` if there are none.
pub fn run(first: &str, words: &[OsString]) -> Option<i32> {
    let asked = match asked(words) {
        Ok(asked) => asked,
        Err(complaint) => {
            complain(&format!("zigrunk {first}: {complaint}"));
            return Some(2);
        }
    };
    if asked.words.len() == words.len() {
        return None;
    }
    let own = Environment::own();
    let environment = asked.root.as_ref().map_or(own.clone(), |root| own.with(ROOT, root));
    let Ok(program) = env::current_exe() else {
        complain(&format!("zigrunk {first}: cannot find this program"));
        return Some(1);
    };
    let own = [program.as_os_str(), first.as_ref()];
    let words: Vec<&OsStr> = own.into_iter().chain(asked.words.iter().map(OsString::as_os_str)).collect();
    if asked.checks_twice {
        return Some(check_twice::run(first, &words, &environment));
    }
    let error = become_program(&words, &environment);
    complain(&format!("zigrunk {first}: cannot run {}: {error}", program.display()));
    Some(1)
}

#[cfg(test)]
mod tests {
    use super::*;

    #[test]
    fn options_stand_before_the_words() {
        let words = |line: &str| line.split_whitespace().map(OsString::from).collect::<Vec<_>>();
        let cases = [
            ("-c k.cu", None, false, "-c k.cu"),
            ("--root /w -c k.cu", Some("/w"), false, "-c k.cu"),
            ("--root=/w=/s --check-twice nvcc --root x", Some("/w=/s"), true, "nvcc --root x"),
            ("--check-twice", None, true, ""),
            ("--root= -c", Some(""), false, "-c"),
            ("--rooted -c", None, false, "--rooted -c"),
        ];
        for (line, root, checks_twice, rest) in cases {
            let (line, rest) = (words(line), words(rest));
            let wanted = Asked { root: root.map(OsString::from), checks_twice, words: &rest };
            assert_eq!(asked(&line), Ok(wanted), "{line:?}");
        }
        assert_eq!(asked(&words("--root")), Err("--root needs a folder".into()));
    }

    #[test]
    fn without_options_words_are_left() {
        assert_eq!(run("nvcc", &["-c".into(), "--root".into()]), None);
        assert_eq!(run("nvcc", &["--root".into()]), Some(2));
    }
}
