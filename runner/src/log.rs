//! The log of calls, which zigrunk report reads.
use crate::caches::{self, Counts};
use crate::remote::Note;
use crate::system::{self, Access};
use call::Reason;
use machine::clock::now;
use machine::excerpts::plain;
use machine::streams::{called, complain, content_of, write_all};
use machine::task::{Done, Task};
use serde::Serialize;
use serde_json::json;
use std::borrow::Cow;
use std::ffi::OsStr;
use std::path::Path;

/// A call that has ended.
pub struct LoggedCall<'a> {
    /// When it began, in seconds.
    pub begun: f64,
    /// Its exit status.
    pub status: i32,
    /// Why nvcc made it, if it did.
    pub reason: Option<&'a Reason>,
    /// What a user can do about it.
    pub hint: Option<&'static str>,
    /// Its commands.
    pub commands: &'a [LoggedCommand],
    /// What the cache had counted when the call began and when it ended, if it counts for all its callers.
    pub counted: Option<[Counts; 2]>,
    /// Where its record is.
    pub record: Option<&'a Path>,
    /// nvcc and its words.
    pub words: &'a [&'a OsStr],
}

/// A command that ran.
#[derive(Clone, PartialEq, Debug, Serialize)]
pub struct LoggedCommand {
    kind: String,
    /// When it asked for a slot.
    asked: f64,
    begin: f64,
    end: f64,
    status: i32,
    /// Whether the cache had what it makes, if the cache says so.
    #[serde(skip_serializing_if = "Option::is_none")]
    hit: Option<bool>,
    #[serde(skip_serializing_if = "Option::is_none")]
    remote: Option<Note>,
    /// Which of the call's commands that ran it needed, by their numbers.
    needs: Vec<usize>,
    #[serde(flatten)]
    early: Option<Early>,
}

/// What a command has that began early.
#[derive(Clone, PartialEq, Debug, Serialize)]
struct Early {
    /// Which commands it needed before it went on.
    head: Vec<usize>,
    went_on: f64,
}

/// The line of a call.
#[derive(Serialize)]
struct Line<'a> {
    begin: f64,
    end: f64,
    status: i32,
    #[serde(skip_serializing_if = "Option::is_none")]
    reason: Option<String>,
    /// There only if it is false.
    #[serde(skip_serializing_if = "Option::is_none")]
    compiles: Option<bool>,
    #[serde(skip_serializing_if = "Option::is_none")]
    counted: Option<[u64; 4]>,
    #[serde(skip_serializing_if = "Option::is_none")]
    record: Option<Cow<'a, str>>,
    commands: &'a [LoggedCommand],
    words: Vec<Cow<'a, str>>,
}

/// Seconds, to a tenth of a millisecond.
fn short(seconds: f64) -> f64 {
    (seconds * 1e4).round() / 1e4
}

/// The commands of a call that ran.
pub fn commands(tasks: &[Task], done: &[Done]) -> Vec<LoggedCommand> {
    let ran = |needs: &[usize]| -> Vec<usize> {
        let place = |task: usize| done[..task].iter().filter(|done| done.ended.is_some()).count();
        needs.iter().filter(|&&need| done[need].ended.is_some()).map(|&need| place(need)).collect()
    };
    let command = |(task, one): (&Task, &Done)| {
        let ended = one.ended.as_ref()?;
        let early = task.head_start.as_ref().zip(one.went_on);
        let remote = Note::of(task);
        let told = || task.statistics.as_deref().and_then(caches::had);
        Some(LoggedCommand {
            kind: task.kind.clone(),
            asked: short(one.asked),
            begin: short(ended.times.0),
            end: short(ended.times.1),
            status: ended.status.code,
            hit: one.hit.or_else(told).or_else(|| remote.as_ref()?.is_hit()),
            remote,
            needs: ran(&task.needs),
            early: early.map(|(start, at)| Early { head: ran(&start.needs), went_on: short(at) }),
        })
    };
    tasks.iter().zip(done).filter_map(command).collect()
}

/// Adds a call to a log, and the hint if the log hasn't it yet, in one write. Says so if it can't.
pub fn append(file: &Path, call: &LoggedCall<'_>) {
    let line = Line {
        begin: short(call.begun),
        end: short(now()),
        status: call.status,
        reason: call.reason.map(ToString::to_string),
        compiles: call.reason.and_then(|reason| (!reason.compiles()).then_some(false)),
        counted: call.counted.map(|[from, to]| [from.hits, from.misses, to.hits, to.misses]),
        record: call.record.map(Path::to_string_lossy),
        commands: call.commands,
        words: call.words.iter().map(|word| word.to_string_lossy()).collect(),
    };
    let mut text = serde_json::to_string(&line).unwrap_or_default() + "\n";
    if let Some(hint) = call.hint {
        let line = format!("{}\n", json!({ "hint": hint }));
        let has = |log: Vec<u8>| log.windows(line.len()).any(|part| part == line.as_bytes());
        if !content_of(file).is_ok_and(has) {
            text += &line;
        }
    }
    let written = system::open(file, Access::APPEND).and_then(|log| write_all(&log, text.as_bytes()));
    if let Err(error) = written {
        complain(&format!("{}: cannot write {}: {}", called(), file.display(), plain(&error)));
    }
}

#[cfg(test)]
mod tests {
    use super::*;
    use crate::system::Status;
    use crate::test_folder::TestFolder;
    use call::LineReason;
    use machine::head_start::HeadStart;
    use machine::jobs::Ended;
    use std::fs;
    use std::os::unix::ffi::OsStrExt;

    fn done(code: i32, asked: f64, times: (f64, f64)) -> Done {
        let status = Status { code, signal: None, dumped: false };
        Done {
            asked,
            ended: Some(Ended { status, out: Vec::new(), errors: Vec::new(), times }),
            ..Done::default()
        }
    }

    #[test]
    fn commands_that_ran_are_logged() {
        let folder = TestFolder::new();
        let hit = folder.join("hit");
        fs::write(&hit, "hit cicc\n").unwrap();
        let task = |kind: &str, needs: &[usize]| Task {
            kind: kind.into(),
            needs: needs.to_vec(),
            ..Task::default()
        };
        let start = HeadStart { needs: vec![0, 1], ..HeadStart::default() };
        let tasks = [
            task("gcc -E", &[]),
            task("nvcc -M", &[0]),
            Task {
                statistics: hit.to_str().map(String::from),
                head_start: Some(start),
                ..task("cicc \"", &[0, 1])
            },
            Task { statistics: Some("/missing".into()), ..task("gcc -c", &[0, 1, 2]) },
            task("left", &[3]),
        ];
        let by_driver = Done { by_driver: true, ..Done::default() };
        let done = [
            done(0, 1.0, (2.0, 3.5)),
            by_driver,
            Done { went_on: Some(3.5), ..done(7, 3.0, (3.25, 4.000_06)) },
            done(0, 4.0, (4.0, 5.0)),
            Done::default(),
        ];
        let lines =
            commands(&tasks, &done).iter().map(|one| serde_json::to_string(one).unwrap()).collect::<Vec<_>>();
        assert_eq!(
            lines,
            [
                r#"{"kind":"gcc -E","asked":1.0,"begin":2.0,"end":3.5,"status":0,"needs":[]}"#,
                r#"{"kind":"cicc \"","asked":3.0,"begin":3.25,"end":4.0001,"status":7,"hit":true,"needs":[0],"head":[0],"went_on":3.5}"#,
                r#"{"kind":"gcc -c","asked":4.0,"begin":4.0,"end":5.0,"status":0,"needs":[0,1]}"#,
            ]
        );
    }

    #[test]
    fn a_log_gets_a_line_for_each_call_and_a_hint_once() {
        let folder = TestFolder::new();
        let file = folder.join("log");
        let words = ["nvcc".as_ref(), OsStr::from_bytes(b"a \xff")];
        let reason = Reason::Machine("it \"links\"".into());
        let counted = Some([Counts { hits: 1, misses: 2 }, Counts { hits: 3, misses: 4 }]);
        let command = Task { kind: "a".into(), ..Task::default() };
        let commands = commands(&[command], &[done(0, 1.0, (1.0, 1.0))]);
        let split = LoggedCall {
            begun: 5.0,
            status: 3,
            reason: None,
            hint: None,
            commands: &commands,
            counted,
            record: None,
            words: &words,
        };
        let whole = LoggedCall {
            reason: Some(&reason),
            hint: Reason::NoTemporaryDirectory.hint(),
            commands: &[],
            counted: None,
            ..split
        };
        append(&file, &split);
        append(&file, &whole);
        append(&file, &whole);
        let text = fs::read_to_string(&file).unwrap();
        let lines: Vec<&str> = text.lines().collect();
        let end_of = |line: &str| line.split_once(",\"status\"").unwrap().1.to_owned();
        assert!(lines.len() == 4 && text.ends_with("}\n"), "{text}");
        assert!(lines[0].starts_with("{\"begin\":5.0,\"end\":"));
        assert_eq!(
            end_of(lines[0]),
            ":3,\"counted\":[1,2,3,4],\"commands\":[{\"kind\":\"a\",\"asked\":1.0,\"begin\":1.0,\"end\":1.0,\"status\":0,\"needs\":[]}],\"words\":[\"nvcc\",\"a \u{fffd}\"]}"
        );
        assert_eq!(
            end_of(lines[1]),
            ":3,\"reason\":\"it \\\"links\\\"\",\"commands\":[],\"words\":[\"nvcc\",\"a \u{fffd}\"]}"
        );
        assert_eq!(lines[2], r#"{"hint":"make room for temporary files, or set TMPDIR"}"#);
        assert_eq!(end_of(lines[3]), end_of(lines[1]));
        let reason = Reason::Line(LineReason::Links);
        append(&folder.join("links"), &LoggedCall { reason: Some(&reason), ..split });
        let line = fs::read_to_string(folder.join("links")).unwrap();
        assert!(line.contains(r#":3,"reason":"it links","compiles":false,"counted""#), "{line}");
        append(&folder.join("records"), &LoggedCall { record: Some("/r/k.o-1.json".as_ref()), ..split });
        let line = fs::read_to_string(folder.join("records")).unwrap();
        assert!(line.contains(r#"],"record":"/r/k.o-1.json","commands""#), "{line}");
        append(&file, &LoggedCall { hint: Some("name it"), ..split });
        assert_eq!(fs::read_to_string(&file).unwrap().matches("{\"hint\"").count(), 2, "another hint");
    }
}
