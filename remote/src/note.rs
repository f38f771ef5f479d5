//! What became of a command, for whoever started this program.
use std::fmt::{self, Display, Formatter};

/// How a command came to its end.
#[derive(Clone, Copy, PartialEq, Eq, Debug)]
pub enum Way {
    /// The server had what it makes.
    Found,
    /// The server ran it.
    Ran,
    /// It ran here, and the server has what it made.
    Kept,
    /// It ran here, since no server was of help.
    Home,
    /// It ran here, since it is no action.
    Own,
}

/// What became of a command: one line.
#[derive(Clone, PartialEq, Eq, Debug)]
pub struct Note {
    pub way: Way,
    /// The server, or empty.
    pub server: String,
    /// The machine where the command ran, or had run; empty if nobody says so.
    pub machine: String,
    /// How many bytes of contents went there and came from there.
    pub sent: u64,
    pub received: u64,
    /// Why no server was of help, or why it is no action; or empty.
    pub reason: String,
}

/// A name as one word.
fn word(name: &str) -> String {
    if name.is_empty() { "-".to_owned() } else { name.replace(char::is_whitespace, "_") }
}

impl Display for Note {
    fn fmt(&self, to: &mut Formatter<'_>) -> fmt::Result {
        let way = match self.way {
            Way::Found => "found",
            Way::Ran => "ran",
            Way::Kept => "kept",
            Way::Home => "home",
            Way::Own => "own",
        };
        let [server, machine] = [&self.server, &self.machine].map(|name| word(name));
        let reason = self.reason.replace('\n', " ");
        writeln!(to, "{way} {server} {machine} {} {} {reason}", self.sent, self.received)
    }
}

#[cfg(test)]
mod tests {
    use super::*;

    #[test]
    fn a_note_is_one_line() {
        let note = Note {
            way: Way::Home,
            server: String::new(),
            machine: "a\nworker".into(),
            sent: 0,
            received: 7,
            reason: "a\nb".into(),
        };
        assert_eq!(note.to_string(), "home - a_worker 0 7 a b\n");
    }
}
