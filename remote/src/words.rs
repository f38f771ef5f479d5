//! The words of this program: a command, and the files that it touches.

/// A command with its record.
#[derive(Clone, PartialEq, Eq, Debug, Default)]
pub struct Command {
    /// The program's path, and the words behind it.
    pub program: String,
    pub words: Vec<String>,
    /// The path of the directory where it runs.
    pub cwd: String,
    /// The directory whose path doesn't count, in which the files of its record are.
    pub root: String,
    /// The digest of all that its tool consists of.
    pub tool: String,
    /// The paths of the files that it reads, writes, and may write.
    pub reads: Vec<String>,
    pub writes: Vec<String>,
    pub may_write: Vec<String>,
    /// The file that gets a line on what became of it, if one does.
    pub note: Option<String>,
}

pub const USAGE: &str = "usage: zigrunk-remote --cwd DIR --root DIR --tool DIGEST [--read FILE].. [--write FILE].. [--may-write FILE].. [--note FILE] \
                         -- PROGRAM [WORD]..\n       zigrunk-remote --check\n";

/// What the words ask for.
#[derive(Clone, PartialEq, Eq, Debug)]
pub enum Asked {
    /// A command to run.
    Command(Box<Command>),
    /// What each server can do.
    Check,
    Help,
}

impl Command {
    /// Takes an option's value. Says whether there is such an option.
    fn take(&mut self, option: &str, value: &str) -> bool {
        let value = value.to_owned();
        match option {
            "--cwd" => self.cwd = value,
            "--root" => self.root = value,
            "--tool" => self.tool = value,
            "--note" => self.note = Some(value),
            "--read" => self.reads.push(value),
            "--write" => self.writes.push(value),
            "--may-write" => self.may_write.push(value),
            _ => return false,
        }
        true
    }
}

/// Reads the words behind the program's own.
/// Errors: what is wrong with them.
pub fn read(words: &[String]) -> Result<Asked, String> {
    match words {
        [word] if word == "--check" => return Ok(Asked::Check),
        [word] if word == "--help" => return Ok(Asked::Help),
        _ => {}
    }
    let mut command = Command::default();
    let mut rest = words;
    loop {
        match rest {
            [end, program, words @ ..] if end == "--" => {
                command.program.clone_from(program);
                command.words = words.to_vec();
                break;
            }
            [option, value, others @ ..] if option != "--" && command.take(option, value) => rest = others,
            [word, ..] => return Err(format!("{word}: not understood")),
            [] => return Err("expected -- and a program".into()),
        }
    }
    let lacking = [("--cwd", &command.cwd), ("--root", &command.root), ("--tool", &command.tool)]
        .into_iter()
        .find(|(_, value)| value.is_empty());
    match lacking {
        Some((option, _)) => Err(format!("{option} is missing")),
        None => Ok(Asked::Command(Box::new(command))),
    }
}

#[cfg(test)]
mod tests {
    use super::*;

    fn read_line(line: &str) -> Result<Asked, String> {
        read(&line.split_whitespace().map(String::from).collect::<Vec<_>>())
    }

    #[test]
    fn words_say_what_a_command_touches() {
        let line = "--cwd /w --root /t --tool d --read /t/a --read /t/b --write /t/c --may-write /t/d --note /n -- /n/cicc --read x";
        let texts = |line: &str| line.split(' ').map(String::from).collect::<Vec<_>>();
        let wanted = Command {
            program: "/n/cicc".into(),
            words: texts("--read x"),
            cwd: "/w".into(),
            root: "/t".into(),
            tool: "d".into(),
            reads: texts("/t/a /t/b"),
            writes: texts("/t/c"),
            may_write: texts("/t/d"),
            note: Some("/n".into()),
        };
        assert_eq!(read_line(line), Ok(Asked::Command(Box::new(wanted))));
        assert_eq!((read_line("--check"), read_line("--help")), (Ok(Asked::Check), Ok(Asked::Help)));
    }

    #[test]
    fn other_words_are_refused() {
        let cases = [
            ("", "expected -- and a program"),
            ("--cwd /w --root /t --tool d --", "--: not understood"),
            ("--cwd /w --root /t --tool d cicc", "cicc: not understood"),
            ("--cwd /w --root /t -- cicc", "--tool is missing"),
            ("--root /t --tool d -- cicc", "--cwd is missing"),
            ("--cwd", "--cwd: not understood"),
        ];
        for (line, wanted) in cases {
            assert_eq!(read_line(line), Err(wanted.to_owned()), "{line}");
        }
    }
}
