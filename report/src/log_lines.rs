//! The lines of a log of calls.
use serde::Deserialize;

/// A line of a log.
#[derive(Clone, PartialEq, Debug, Deserialize)]
#[serde(untagged)]
pub enum Entry {
    Call(Call),
    /// What a user can do, so that fewer calls go to nvcc.
    Hint {
        hint: String,
    },
}

/// A call. Times are in seconds, from the same moment on.
#[derive(Clone, PartialEq, Debug, Deserialize)]
pub struct Call {
    pub begin: f64,
    pub end: f64,
    pub status: i64,
    /// Why nvcc made it, if it did.
    pub reason: Option<String>,
    /// Whether it compiles something, which can be split.
    #[serde(default = "truth")]
    pub compiles: bool,
    pub commands: Vec<Command>,
    /// The hits and misses that the cache had counted, for all its callers, before and after, if the log says
    /// so.
    pub counted: Option<[f64; 4]>,
    /// nvcc and its words.
    pub words: Vec<String>,
}

/// A command of a call that was split.
#[derive(Clone, PartialEq, Debug, Deserialize)]
pub struct Command {
    /// Its program, what it does, and for which target, as `gcc -E __CUDA_ARCH__=800`.
    pub kind: String,
    /// When it could have started but for slots.
    pub asked: f64,
    pub begin: f64,
    pub end: f64,
    pub status: i64,
    /// Whether the cache had it, if the log says so.
    pub hit: Option<bool>,
    /// The earlier commands of the call that it waited for, by their numbers, if the log says so.
    pub needs: Option<Vec<usize>>,
    /// What became of it by a server, if it went by one.
    pub remote: Option<Remote>,
}

/// What became of a command by a server of the Remote Execution API.
#[derive(Clone, PartialEq, Eq, Debug, Deserialize)]
pub struct Remote {
    /// `found`, `ran`, `kept`, `home` or `own`.
    pub way: String,
    /// The server, or `-`.
    pub server: String,
    /// The machine where the command ran, earlier if it was found; `-` if nobody says so.
    #[serde(default = "dash")]
    pub machine: String,
    /// How many bytes of contents went to the server, and came from there.
    pub sent: u64,
    pub received: u64,
}

impl Call {
    /// The file that it compiles: the last of its words with a source's suffix.
    pub fn source(&self) -> &str {
        let suffixes = ["cu", "c", "cc", "cpp", "cxx", "ptx", "ii", "gpu"];
        let is_source = |word: &&String| {
            word.rsplit_once('.').is_some_and(|(_, suffix)| suffixes.contains(&suffix))
                && !word.starts_with('-')
        };
        self.words.iter().rev().find(is_source).map_or("no source", String::as_str)
    }

    /// How long it took.
    pub fn seconds(&self) -> f64 {
        (self.end - self.begin).max(0.0)
    }
}

impl Command {
    /// How long it ran.
    pub fn seconds(&self) -> f64 {
        (self.end - self.begin).max(0.0)
    }

    /// How long it ran after a moment: all of its time, unless it began early.
    pub fn seconds_after(&self, moment: f64) -> f64 {
        (self.end - self.begin.max(moment)).max(0.0)
    }

    /// How long it waited for a slot.
    pub fn waited(&self) -> f64 {
        (self.begin - self.asked).max(0.0)
    }
}

fn truth() -> bool {
    true
}

fn dash() -> String {
    "-".to_owned()
}

/// The entry that a line is, if it is one. Bytes that aren't UTF-8 become U+FFFD.
pub fn entry(line: &[u8]) -> Option<Entry> {
    serde_json::from_str(&String::from_utf8_lossy(line)).ok()
}

#[cfg(test)]
mod tests {
    use super::*;

    const WHOLE: &str = r#"{"begin":10.0,"end":14.5,"status":2,"reason":"it links","commands":[{"kind":"gcc -E","asked":10.0,"begin":10.5,"end":11.5,"status":0},{"kind":"cicc compute_80","asked":11,"begin":12,"end":14,"status":1,"hit":true,"needs":[0]}],"counted":[1,2,3,4],"words":["nvcc","a\u0022b"]}"#;

    #[test]
    fn entries_are_read() {
        let Some(Entry::Call(call)) = entry(WHOLE.as_bytes()) else { panic!("no call") };
        assert_eq!(
            (call.begin, call.seconds(), call.status, call.reason.as_deref()),
            (10.0, 4.5, 2, Some("it links"))
        );
        assert_eq!(
            (call.words, call.counted),
            (vec!["nvcc".to_owned(), "a\"b".into()], Some([1.0, 2.0, 3.0, 4.0]))
        );
        let [first, second] = call.commands.as_slice() else { panic!("two commands") };
        assert_eq!(
            (first.kind.as_str(), first.waited(), first.seconds(), first.hit, first.needs.clone()),
            ("gcc -E", 0.5, 1.0, None, None)
        );
        assert_eq!((second.status, second.hit, second.needs.clone()), (1, Some(true), Some(vec![0])));
        assert_eq!(entry(br#"{"hint":"do this"}"#), Some(Entry::Hint { hint: "do this".into() }));
        assert_eq!(entry(b"{\"hint\":\"\xff\"}"), Some(Entry::Hint { hint: "\u{fffd}".into() }));
    }

    #[test]
    fn bad_lines_are_no_entries() {
        for size in 0..WHOLE.len() {
            assert_eq!(entry(&WHOLE.as_bytes()[..size]), None, "{size} bytes");
        }
        for part in ["\"begin\":10.0,", "\"status\":2,", "\"kind\":\"gcc -E\",", "\"asked\":10.0,"] {
            assert_eq!(entry(WHOLE.replacen(part, "", 1).as_bytes()), None, "without {part}");
        }
        for (old, new) in
            [("10.0", "\"10.0\""), ("\"it links\"", "1"), ("[\"nvcc\"", "[1"), ("\"gcc -E\"", "null")]
        {
            assert_eq!(entry(WHOLE.replacen(old, new, 1).as_bytes()), None, "{new} in place of {old}");
        }
        assert_eq!(entry(br#"{"hint":1}"#), None);
    }

    #[test]
    fn a_clock_that_goes_back_takes_no_time() {
        let line = WHOLE.replacen("\"end\":14.5", "\"end\":9", 1);
        assert!(matches!(entry(line.as_bytes()), Some(Entry::Call(call)) if call.seconds() == 0.0));
    }
}
