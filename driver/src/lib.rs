//! The program `zigrunk`: its first word says what it does, and so does its name, as in the link
//! `zigrunk-nvcc`.
#![forbid(unsafe_code)]

mod audit_program;
mod call;
mod check_twice;
mod first_words;
mod own_options;
mod plan_program;
mod stored_plan;

pub use unix::open_standard_streams;

use unix as system;

use first_words::FirstWord;
use std::ffi::{OsStr, OsString};
use std::path::Path;

/// What a program of this name does, if its name says that: `zigrunk-nvcc`, and any other name that ends in
/// nvcc, compiles.
fn by_name(name: &OsStr) -> Option<FirstWord> {
    let name = name.to_str()?;
    let word = name.strip_prefix("zigrunk-").and_then(FirstWord::named);
    word.or_else(|| name.ends_with("nvcc").then_some(FirstWord::Nvcc))
}

/// Acts by a process's words, its own name first. Says its status.
#[must_use]
pub fn run_words(words: &[OsString]) -> i32 {
    let [own, rest @ ..] = words else { return 2 };
    let name = Path::new(own).file_name().unwrap_or_default();
    match by_name(name) {
        Some(word) => word.run(name, rest),
        None => first_words::run(rest),
    }
}

#[cfg(test)]
mod tests {
    use super::*;

    #[test]
    fn a_name_may_say_what_to_do() {
        let cases = [
            ("zigrunk-nvcc", Some(FirstWord::Nvcc)),
            ("nvcc", Some(FirstWord::Nvcc)),
            ("cross-nvcc", Some(FirstWord::Nvcc)),
            ("zigrunk-plan", Some(FirstWord::Plan)),
            ("zigrunk-driver", None),
            ("zigrunk", None),
            ("plan", None),
        ];
        for (name, wanted) in cases {
            assert_eq!(by_name(name.as_ref()), wanted, "{name}");
        }
    }

    #[test]
    fn words_are_run() {
        let run = |words: &[&str]| run_words(&words.iter().map(OsString::from).collect::<Vec<_>>());
        for words in [&[][..], &["zigrunk"], &["zigrunk", "odd"], &["zigrunk", "plan"], &["zigrunk-plan"]] {
            assert_eq!(run(words), 2, "{words:?}");
        }
        for words in [
            &["/b/zigrunk-plan", "--help"][..],
            &["zigrunk", "plan", "--help"],
            &["zigrunk", "help"],
            &["zigrunk", "--version"],
        ] {
            assert_eq!(run(words), 0, "{words:?}");
        }
    }
}
