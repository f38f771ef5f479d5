//! Marks of calls that have ended, beside the records: on which machines a call failed, or that it succeeded
//! though nobody knows what it read. By them and the records anyone who sees the folder knows which calls of
//! a list are missing, and why.
use super::asked::{Asked, BatchCall, words_of};
use super::calls::products_of;
use super::records::{Records, digest};
use machine::settings::{Settings, machine_name};
use machine::streams::{content_of, replace_file};
use std::fs;
use std::path::PathBuf;

/// How a call ended on a machine.
#[derive(Clone, PartialEq, Eq, Debug)]
pub struct Mark {
    pub status: i32,
    pub machine: String,
}

/// Why a call of a list is missing.
#[derive(Clone, PartialEq, Eq, Debug)]
pub enum Missing {
    /// Nobody has made it, as far as marks, records and products say.
    Unmade,
    /// It failed each time.
    Failed(Vec<Mark>),
    /// This product isn't there.
    Without(PathBuf),
    /// This product is there, but no record says that it is of these words and of the files as they are.
    Outdated(PathBuf),
}

impl Missing {
    /// The exit status of the call, or 1 if nobody has made it.
    pub fn status(&self) -> i32 {
        if let Missing::Failed(marks) = self { marks.last().map_or(1, |mark| mark.status) } else { 1 }
    }

    /// The reason in words.
    pub fn reason(&self) -> String {
        match self {
            Missing::Unmade => "not made".into(),
            Missing::Without(product) => format!("no {}", product.display()),
            Missing::Outdated(product) => format!("{} isn't up to date", product.display()),
            Missing::Failed(marks) => {
                let mut machines: Vec<&str> = marks.iter().map(|mark| mark.machine.as_str()).collect();
                machines.sort_unstable();
                machines.dedup();
                format!("exit status {} on {}", self.status(), machines.join(" and "))
            }
        }
    }
}

/// The marks that a text has: a status and a machine on each line.
fn marks_of(text: &str) -> Vec<Mark> {
    let mark = |line: &str| {
        let (status, machine) = line.split_once(' ')?;
        Some(Mark { status: status.parse().ok()?, machine: machine.to_owned() })
    };
    text.lines().filter_map(mark).collect()
}

impl Records {
    /// The file with the marks of a call.
    fn marks_file(&self, call: &BatchCall) -> PathBuf {
        let words = match &call.asked {
            Asked::Shell(line) => vec![line.clone()],
            Asked::Program(words) => words.clone(),
            asked => words_of(asked).unwrap_or_default(),
        };
        self.path().join(format!(
            "{:016x}.ended",
            digest([call.folder.as_str(), &words.join("\0")].join("\0").as_bytes())
        ))
    }

    /// How a call has ended, the latest end last.
    fn marks(&self, call: &BatchCall) -> Vec<Mark> {
        content_of(&self.marks_file(call))
            .map(|text| marks_of(&String::from_utf8_lossy(&text)))
            .unwrap_or_default()
    }

    /// Notes that a call has ended on this machine.
    pub fn mark(&self, call: &BatchCall, status: i32) {
        let before = if status == 0 { Vec::new() } else { self.marks(call) };
        let failed = before.into_iter().filter(|mark| mark.status != 0);
        let all = failed.chain([Mark { status, machine: machine_name() }]);
        let lines: Vec<String> = all.map(|mark| format!("{} {}\n", mark.status, mark.machine)).collect();
        // No error, since without its mark a call is only made again.
        let _ = replace_file(&self.marks_file(call), lines.concat().as_bytes());
    }

    /// Removes the marks of a call, which its record has made useless.
    pub fn remove_marks(&self, call: &BatchCall) {
        let _ = fs::remove_file(self.marks_file(call));
    }

    /// Why a call is missing, if it is.
    pub fn missing(&self, call: &BatchCall, settings: &Settings) -> Option<Missing> {
        let products = products_of(call);
        if self.describe(call, &products, settings).is_some_and(|described| described.is_current()) {
            return None;
        }
        let absent = products.iter().find(|product| !product.is_there());
        let marks = self.marks(call);
        match (marks.last(), absent, products.first()) {
            (Some(last), _, _) if last.status != 0 => Some(Missing::Failed(marks)),
            (_, Some(product), _) => Some(Missing::Without(product.path.clone())),
            (Some(_), None, _) => None,
            (None, None, Some(product)) => Some(Missing::Outdated(product.path.clone())),
            (None, None, None) => Some(Missing::Unmade),
        }
    }
}

#[cfg(test)]
mod tests {
    use super::*;
    use crate::test_folder::TestFolder;

    fn call(folder: &TestFolder, asked: Asked) -> BatchCall {
        BatchCall { number: 1, name: "call".into(), folder: folder.to_string_lossy().into_owned(), asked }
    }

    #[test]
    fn marks_are_lines() {
        let mark = |status, machine: &str| Mark { status, machine: machine.into() };
        assert_eq!(marks_of("2 a\n137 b c\nodd\nx d\n0 e"), [mark(2, "a"), mark(137, "b c"), mark(0, "e")]);
        let failed = Missing::Failed(vec![mark(2, "b"), mark(2, "a"), mark(3, "b")]);
        assert_eq!((failed.status(), failed.reason().as_str()), (3, "exit status 3 on a and b"));
        assert_eq!((Missing::Unmade.status(), Missing::Unmade.reason().as_str()), (1, "not made"));
        assert_eq!(Missing::Without("/k.o".into()).reason(), "no /k.o");
        assert_eq!(Missing::Outdated("/k.o".into()).reason(), "/k.o isn't up to date");
    }

    #[test]
    fn a_call_is_missing_until_its_mark_says_that_it_succeeded() {
        let folder = TestFolder::new();
        let (records, settings) = (Records::open(folder.join("records")).unwrap(), Settings::default());
        let shell = call(&folder, Asked::Shell("a; b".into()));
        let program = call(&folder, Asked::Program(vec!["a;".into(), "b".into()]));
        assert_eq!(records.missing(&shell, &settings), Some(Missing::Unmade));
        for _ in 0..2 {
            records.mark(&shell, 3);
        }
        let marks = vec![Mark { status: 3, machine: machine_name() }; 2];
        assert_eq!(records.missing(&shell, &settings), Some(Missing::Failed(marks)));
        assert_eq!(records.missing(&program, &settings), Some(Missing::Unmade), "another call");
        records.mark(&shell, 0);
        assert_eq!(records.missing(&shell, &settings), None);
        records.mark(&shell, 4);
        let marks = vec![Mark { status: 4, machine: machine_name() }];
        assert_eq!(records.missing(&shell, &settings), Some(Missing::Failed(marks)), "the latest end counts");
        records.remove_marks(&shell);
        assert_eq!(records.missing(&shell, &settings), Some(Missing::Unmade));
    }

    #[test]
    fn a_call_is_missing_without_its_product() {
        let folder = TestFolder::new();
        let (records, settings) = (Records::open(folder.join("records")).unwrap(), Settings::default());
        let compiler =
            call(&folder, Asked::Compiler(["g++", "-c", "a.cc", "-o", "a.o"].map(String::from).into()));
        let product = fs::canonicalize(&*folder).unwrap().join("a.o");
        let mut reasons = Vec::new();
        let mut look = || reasons.push(records.missing(&compiler, &settings).map(|missing| missing.reason()));
        look();
        fs::write(&product, "object").unwrap();
        look();
        records.mark(&compiler, 0);
        look();
        fs::remove_file(&product).unwrap();
        look();
        let shown = product.display();
        assert_eq!(
            reasons,
            [
                Some(format!("no {shown}")),
                Some(format!("{shown} isn't up to date")),
                None,
                Some(format!("no {shown}"))
            ]
        );
    }
}
