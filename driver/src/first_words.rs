//! The first words of the program, and its help.
use crate::{audit_program, call, own_options, plan_program};
use machine::nearest::{question, shown};
use machine::streams::{complain, say, set_called};
use std::ffi::{OsStr, OsString};

/// What the program does.
#[derive(Clone, Copy, PartialEq, Eq, Debug)]
pub enum FirstWord {
    Nvcc,
    Plan,
    Batch,
    Report,
    Why,
    Cache,
    Audit,
    CheckNode,
    Help,
}

const USAGE: &str = "usage: zigrunk nvcc|plan|batch|report|why|cache|audit|check-node|help WORD..";

/// What `zigrunk help nvcc` prints: nvcc's words are all nvcc's own, `--help` too.
const NVCC_HELP: &str = "usage: zigrunk nvcc [--root FOLDER] [--check-twice] [NVCC] WORD..
       zigrunk-nvcc [NVCC] WORD..

Does what nvcc does with these words. If they compile one source, its commands run in parallel.
NVCC is nvcc's name or path, if it isn't the nvcc on the path.

--root FOLDER             name files below FOLDER as in any other checkout
--check-twice             make the call twice, and say what isn't deterministic

ZIGRUNK_CACHE=yes         look each command up in the cache
ZIGRUNK_LAUNCHER=sccache  look each command up with sccache
ZIGRUNK_JOBS=N            run N commands at once
ZIGRUNK_LOG=FILE          add a line to FILE, for zigrunk report
ZIGRUNK_EXPLAIN=1         say why nvcc itself makes a call

man zigrunk-nvcc has the rest.
";

impl FirstWord {
    /// All of them, in the order in which the help and completion show them.
    pub const ALL: [FirstWord; 9] = [
        FirstWord::Nvcc,
        FirstWord::Plan,
        FirstWord::Batch,
        FirstWord::Report,
        FirstWord::Why,
        FirstWord::Cache,
        FirstWord::Audit,
        FirstWord::CheckNode,
        FirstWord::Help,
    ];

    /// The word.
    pub const fn name(self) -> &'static str {
        match self {
            FirstWord::Nvcc => "nvcc",
            FirstWord::Plan => "plan",
            FirstWord::Batch => "batch",
            FirstWord::Report => "report",
            FirstWord::Why => "why",
            FirstWord::Cache => "cache",
            FirstWord::Audit => "audit",
            FirstWord::CheckNode => "check-node",
            FirstWord::Help => "help",
        }
    }

    /// What it is good for.
    const fn about(self) -> &'static str {
        match self {
            FirstWord::Nvcc => "compile as nvcc does, with the commands in parallel and cached",
            FirstWord::Plan => "print the commands of a call: for Ninja, a shell or a program",
            FirstWord::Batch => "make many calls of nvcc in one process",
            FirstWord::Report => "summarise what ZIGRUNK_LOG has noted of calls",
            FirstWord::Why => "say why two builds differ",
            FirstWord::CheckNode => "compare a machine with the one that hands out calls",
            FirstWord::Cache => "show, clear or shrink the cache of commands",
            FirstWord::Audit => "check that what products were made from is as it was",
            FirstWord::Help => "print this text, or the help of one of these words",
        }
    }

    /// The first word of a text.
    pub fn named(name: &str) -> Option<FirstWord> {
        FirstWord::ALL.into_iter().find(|word| word.name() == name)
    }

    /// The program as messages have it, given the name by which it was started. A name that isn't ours, of a
    /// link, would pass for nvcc.
    fn program(self, name: &OsStr) -> &'static str {
        match self {
            FirstWord::Nvcc if name == "zigrunk" => "zigrunk nvcc",
            FirstWord::Nvcc => "zigrunk-nvcc",
            FirstWord::Plan => "zigrunk plan",
            FirstWord::Batch => "zigrunk batch",
            FirstWord::Report => "zigrunk report",
            FirstWord::Why => "zigrunk why",
            FirstWord::Cache => "zigrunk cache",
            FirstWord::Audit => "zigrunk audit",
            FirstWord::CheckNode => "zigrunk check-node",
            FirstWord::Help => "zigrunk",
        }
    }

    /// Acts by the words behind it, given the program's name. Says the status.
    pub fn run(self, name: &OsStr, words: &[OsString]) -> i32 {
        set_called(self.program(name));
        match self {
            FirstWord::Nvcc => call::make(name, words),
            FirstWord::Plan => plan_program::run(words),
            FirstWord::Batch => batch::main(words),
            FirstWord::Report => report::run(words),
            FirstWord::Why => report::why::run(words),
            FirstWord::Cache => cache::program::run(words),
            FirstWord::Audit => audit_program::run(words),
            FirstWord::CheckNode => batch::node::program::run(words),
            FirstWord::Help => help_of(words),
        }
    }
}

/// The page of all first words. It fits a screen of 24 lines.
fn help() -> String {
    let words: Vec<String> =
        FirstWord::ALL.iter().map(|word| format!("  {:<11} {}\n", word.name(), word.about())).collect();
    format!(
        "{USAGE}

Splits calls of nvcc into their commands.

{}
  zigrunk nvcc -c kernel.cu -o kernel.o
  zigrunk plan ninja nvcc -c kernel.cu -o kernel.o | ninja -f /dev/stdin

The link zigrunk-nvcc, for build systems, is zigrunk nvcc.
zigrunk help WORD says more of a word, and man zigrunk-WORD has all.
zigrunk --version prints the version.
",
        words.concat()
    )
}

fn print(text: &str) -> i32 {
    i32::from(say(1, text.as_bytes()).is_err())
}

fn misuse(reason: &str) -> i32 {
    complain(&format!("zigrunk: {reason}\n{USAGE}"));
    2
}

/// What a word is meant to be that isn't one of the first: one that is nearly alike, a word behind `cache`,
/// or one for nvcc.
fn meant(word: &str) -> String {
    let near = question(word, FirstWord::ALL.map(FirstWord::name).into_iter().chain(["--version", "--help"]));
    if !near.is_empty() {
        near
    } else if cache::program::WORDS.contains(&word) {
        format!("; did you mean zigrunk cache {word}?")
    } else if word.starts_with('-') {
        "; words for nvcc stand behind zigrunk nvcc".into()
    } else {
        String::new()
    }
}

fn unknown(word: &OsStr) -> i32 {
    misuse(&format!("unknown word {}{}", shown(word), meant(&word.to_string_lossy())))
}

/// Prints the help of a word, or of all.
fn help_of(words: &[OsString]) -> i32 {
    let [word, ..] = words else { return print(&help()) };
    match word.to_str().and_then(FirstWord::named) {
        Some(FirstWord::Help) => print(&help()),
        Some(FirstWord::Nvcc) => print(NVCC_HELP),
        Some(word) => word.run("zigrunk".as_ref(), &["--help".into()]),
        None => unknown(word),
    }
}

/// Acts by the program's words. Says the status.
pub fn run(words: &[OsString]) -> i32 {
    let [word, rest @ ..] = words else { return misuse("a word is missing") };
    match word.to_str() {
        Some("-h" | "--help") => print(&help()),
        Some("--version") => print(&format!("zigrunk {}\n", env!("CARGO_PKG_VERSION"))),
        name => match name.and_then(FirstWord::named) {
            Some(first @ (FirstWord::Nvcc | FirstWord::Batch)) => {
                own_options::run(first.name(), rest).unwrap_or_else(|| first.run("zigrunk".as_ref(), rest))
            }
            Some(first) => first.run("zigrunk".as_ref(), rest),
            None => unknown(word),
        },
    }
}

#[cfg(test)]
mod tests {
    use super::*;

    #[test]
    fn each_word_has_a_name_of_its_own() {
        for word in FirstWord::ALL {
            assert_eq!(FirstWord::named(word.name()), Some(word));
            assert!(USAGE.contains(word.name()));
        }
        assert_eq!(FirstWord::named("Plan"), None);
    }

    #[test]
    fn unknown_words_may_be_meant_otherwise() {
        for (word, wanted) in [
            ("plam", "; did you mean plan?"),
            ("--verson", "; did you mean --version?"),
            ("stats", "; did you mean zigrunk cache stats?"),
            ("-c", "; words for nvcc stand behind zigrunk nvcc"),
            ("compile", ""),
        ] {
            assert_eq!(meant(word), wanted, "{word}");
        }
    }

    #[test]
    fn the_help_fits_a_screen() {
        let help = help();
        assert!(help.lines().count() <= 24 && help.lines().all(|line| line.len() <= 80), "{help}");
    }

    #[test]
    fn each_word_has_a_help() {
        for word in FirstWord::ALL {
            assert_eq!(help_of(&[word.name().into()]), 0, "{word:?}");
        }
        assert_eq!((help_of(&["odd".into()]), run(&[])), (2, 2));
    }
}
