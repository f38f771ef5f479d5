//! Commands by servers of the Remote Execution API, through the program `zigrunk-remote`, which decides what
//! goes to them.
use cache::digest::{Digest, Hasher};
use cache::processor::instructions;
use cache::tool::{Kind, Run, Tools};
use machine::folder::OWN;
use machine::jobs::Job;
use machine::planned::PlannedCommand;
use machine::settings::own_variables;
use machine::streams::{called, complain, content_of};
use machine::task::Task;
use serde::Serialize;
use std::env;
use std::ffi::OsString;
use std::path::{Path, PathBuf};

/// The program's name; it's beside this one.
const PROGRAM: &str = "zigrunk-remote";

/// What became of a command, as its note says.
#[derive(Clone, PartialEq, Eq, Debug, Serialize)]
pub struct Note {
    /// `found`, `ran`, `kept`, `home`, or `own` if no server can have it.
    pub way: String,
    /// The server, or `-`.
    pub server: String,
    /// The machine where the command ran, earlier if the server had what it makes; `-` if nobody says so.
    pub machine: String,
    /// How many bytes of contents went there.
    pub sent: u64,
    /// How many came from there.
    pub received: u64,
    /// Why no server was of help, or empty.
    pub reason: String,
}

impl Note {
    /// A note by its line.
    fn read(line: &str) -> Option<Note> {
        let mut words = line.trim_end_matches('\n').splitn(6, ' ');
        let mut word = || words.next().map(String::from);
        let (way, server, machine, sent, received) = (word()?, word()?, word()?, word()?, word()?);
        Some(Note {
            way,
            server,
            machine,
            sent: sent.parse().ok()?,
            received: received.parse().ok()?,
            reason: word()?,
        })
    }

    /// That of a task, if it went by this program.
    pub fn of(task: &Task) -> Option<Note> {
        let text = content_of(Path::new(task.note.as_ref()?)).ok()?;
        Note::read(std::str::from_utf8(&text).ok()?)
    }

    /// Whether a server had what the command makes, if one was asked.
    pub fn is_hit(&self) -> Option<bool> {
        matches!(self.way.as_str(), "found" | "ran" | "kept").then(|| self.way == "found")
    }
}

/// The program beside this one.
fn program() -> Option<PathBuf> {
    Some(env::current_exe().ok()?.with_file_name(PROGRAM)).filter(|program| program.is_file())
}

/// The digest of a tool and of the processor's instructions of which its products may depend: machines that
/// differ in these make different actions.
fn with_processor(tool: &Digest, instructions: &str) -> Digest {
    let mut all = Hasher::default();
    all.update(&tool.0);
    all.add(instructions.as_bytes());
    all.finish()
}

/// The digest of the tool that a job runs on such a processor, if it is one of nvcc's.
fn tool_of(job: &Job, tools: &mut Tools) -> Option<String> {
    let kind = Kind::of_nvccs(Path::new(job.words.first()?).file_name()?.to_str()?)?;
    let is_given = |name: &OsString| job.variables.iter().any(|(other, _)| name == other.as_str());
    let given = job.variables.iter().filter_map(|(name, value)| Some((name.into(), value.as_ref()?.into())));
    let environment: Vec<(OsString, OsString)> =
        own_variables().filter(|(name, _)| !is_given(name)).chain(given).collect();
    let tool = tools.identity(&Run::of(kind, job, &environment)?)?;
    Some(with_processor(&tool, &instructions()).to_string())
}

/// A job as the program runs it.
fn wrapped(job: &Job, command: &PlannedCommand, program: &Path, tmp: &str, tool: &str, note: &str) -> Job {
    let options = [("--cwd", job.folder.as_str()), ("--root", tmp), ("--tool", tool), ("--note", note)];
    let reads = command.reads.iter().map(|file| ("--read", file.as_str()));
    let writes = command.writes.iter().map(|file| ("--write", file.as_str()));
    let may_write = command.may_write.iter().map(|file| ("--may-write", file.as_str()));
    let options = options
        .into_iter()
        .chain(reads)
        .chain(writes)
        .chain(may_write)
        .flat_map(|(name, value)| [name, value]);
    let own = [program.to_string_lossy().into_owned()]
        .into_iter()
        .chain(options.map(String::from))
        .chain(["--".to_owned()]);
    Job { words: own.chain(job.words.iter().cloned()).collect(), ..job.clone() }
}

/// Has the program run those of a call's tasks whose files are known. If it isn't there, a message says so,
/// or these tasks fail if they need it.
pub fn send(tasks: &mut [Task], commands: &[PlannedCommand], tmp: &str, needs_remote: bool) {
    let Some(program) = program().or_else(|| needs_remote.then(|| PROGRAM.into())) else {
        let program = called();
        complain(&format!(
            "{program}: this build has no remote execution, so it ignores ZIGRUNK_REMOTE. make rust REMOTE=yes builds zigrunk-remote"
        ));
        return;
    };
    let mut tools = Tools::of_user();
    for (number, task) in tasks.iter_mut().enumerate() {
        let Some(command) = task.command.map(|number| &commands[number]).filter(|command| command.complete)
        else {
            continue;
        };
        let Some(tool) = tool_of(&task.job, &mut tools) else { continue };
        let note = format!("{tmp}/{OWN}/remote.{number}");
        task.job = wrapped(&task.job, command, &program, tmp, &tool, &note);
        task.note = Some(note);
    }
}

/// Says why no server was of help, if so: once for a call.
pub fn complain_of(tasks: &[Task]) {
    let mut notes = tasks.iter().filter_map(Note::of);
    let troubled = notes.find(|note| note.way == "home" && !note.reason.is_empty());
    if let Some(Note { reason, .. }) = troubled {
        complain(&format!("{}: a command ran here: {reason}", called()));
    }
}

#[cfg(test)]
mod tests {
    use super::*;
    use crate::test_folder::TestFolder;
    use std::collections::HashSet;
    use std::fs;

    #[test]
    fn a_note_says_what_became_of_a_command() {
        let note = |way: &str, server: &str, reason: &str| Note {
            way: way.into(),
            server: server.into(),
            machine: "n1".into(),
            sent: 1,
            received: 2,
            reason: reason.into(),
        };
        let cases = [
            ("found grpc://a:1 n1 1 2 \n", Some(note("found", "grpc://a:1", "")), Some(true)),
            ("home - n1 1 2 a b\n", Some(note("home", "-", "a b")), None),
            ("kept grpc://a:1 n1 1 2 \n", Some(note("kept", "grpc://a:1", "")), Some(false)),
            ("found grpc://a:1 n1 1\n", None, None),
            ("found grpc://a:1 n1 x 2 \n", None, None),
            ("", None, None),
        ];
        for (line, wanted, is_hit) in cases {
            let read = Note::read(line);
            assert_eq!((read.as_ref().and_then(Note::is_hit), read), (is_hit, wanted), "{line}");
        }
    }

    #[test]
    fn a_task_has_the_note_that_its_command_left() {
        let room = TestFolder::new();
        let path = room.join("note").to_string_lossy().into_owned();
        let task = Task { note: Some(path.clone()), ..Task::default() };
        assert_eq!((Note::of(&Task::default()), Note::of(&task)), (None, None));
        let line = "found grpc://a:1 n1 1 2 \n";
        fs::write(&path, line).unwrap();
        assert_eq!(Note::of(&task), Note::read(line));
    }

    #[test]
    fn processors_that_compute_otherwise_make_other_actions() {
        let (one, other) = (Digest::of(b"one"), Digest::of(b"other"));
        let all = [(&one, "avx2 fma"), (&one, "avx2"), (&one, ""), (&other, "avx2 fma")];
        let digests: HashSet<String> =
            all.iter().map(|(tool, has)| with_processor(tool, has).to_string()).collect();
        assert_eq!(digests.len(), all.len());
    }

    #[test]
    fn a_job_goes_by_the_program_with_its_files() {
        let texts = |line: &str| line.split_whitespace().map(String::from).collect::<Vec<_>>();
        let job = Job { words: texts("/n/ptxas k.ptx"), folder: "/w".into(), ..Job::default() };
        let (reads, writes, may_write) = (texts("/t/k.ptx"), texts("/t/k.cubin"), texts("/t/k.log"));
        let command = PlannedCommand { reads, writes, may_write, ..PlannedCommand::default() };
        let job = wrapped(&job, &command, Path::new("/b/zigrunk-remote"), "/t", "d", "/t/n");
        let wanted = "/b/zigrunk-remote --cwd /w --root /t --tool d --note /t/n --read /t/k.ptx --write /t/k.cubin --may-write /t/k.log -- /n/ptxas k.ptx";
        assert_eq!((job.words, job.folder.as_str()), (texts(wanted), "/w"));
    }
}
