//! The program: a command by the first server that is of help, or here.
use crate::action::{Action, Unfit, action_of};
use crate::connection::Connection;
use crate::failure::Failure;
use crate::home;
use crate::known::{Known, Shared};
use crate::note::{Note, Way};
use crate::outputs::{Made, result_of};
use crate::remote::{self, Answer, in_order};
use crate::settings::Settings;
use crate::words::Command;
use std::env;
use std::fs;
use std::io::{self, Write};
use std::mem::{self, ManuallyDrop};
use tokio::runtime::{self, Runtime};

/// The status of words that aren't understood, and of a command that isn't run.
pub const UNDERSTOOD_NOTHING: i32 = 2;
pub const NOT_RUN: i32 = 125;

fn complain(text: &str) {
    // (nobody is left to hear of a standard error that takes nothing)
    let _ = writeln!(io::stderr(), "zigrunk-remote: {text}");
}

fn settings() -> Result<Settings, String> {
    Settings::of(&|name| env::var_os(name))
}

fn runtime() -> io::Result<Runtime> {
    runtime::Builder::new_current_thread().enable_all().build()
}

/// A command, and where it may go.
struct Job {
    command: Command,
    settings: Settings,
    action: Action,
    shared: Shared,
}

impl Job {
    /// Asks the servers, one after the other, until one is of help.
    /// Errors: why the last one wasn't.
    async fn asked(&self) -> Result<(Answer, Connection), String> {
        let mut reason = "no server was reached a moment ago".to_owned();
        for server in in_order(&self.settings.servers, &self.action) {
            let known = match self.shared.of(&server.name) {
                Some(Known::Unreached) => continue,
                Some(Known::Can(abilities)) => Some(abilities),
                None => None,
            };
            match remote::ask(server, &self.settings, &self.action, known).await {
                Ok((answer, connection)) => {
                    if known.is_none() {
                        self.shared.tell(&server.name, Known::Can(connection.abilities));
                    }
                    return Ok((answer, connection));
                }
                Err(failure) => {
                    if matches!(failure, Failure::Unreachable(_)) {
                        self.shared.tell(&server.name, Known::Unreached);
                    }
                    reason = format!("{}: {failure}", server.name);
                }
            }
        }
        Err(reason)
    }

    /// Runs the command here, and has the server keep what it makes. One that fails runs again as it is, for
    /// its own messages.
    async fn run_and_keep(&self, connection: &mut Connection) -> i32 {
        let (words, root) = (self.action.words.clone(), self.command.root.clone());
        let ran = tokio::task::spawn_blocking(move || home::run(&words, &root)).await;
        let Ok(Ok((0, out, errors))) = ran else {
            write_note(&self.command, &note(Way::Home, Some(connection), String::new()));
            return become_it(&self.command);
        };
        let made = Made { out, errors, ..Made::default() };
        let (way, reason) = self.kept(connection, &made).await;
        write_note(&self.command, &note(way, Some(connection), reason));
        if made.say().is_err() { NOT_RUN } else { 0 }
    }

    /// Has the server keep what the command has made, if it takes that. Says whether it does, or why not.
    async fn kept(&self, connection: &mut Connection, made: &Made) -> (Way, String) {
        if !connection.abilities.takes_results {
            return (Way::Home, String::new());
        }
        let (result, contents) = match result_of(&self.action, &self.command.root, &made.out, &made.errors) {
            Ok(Some(result)) => result,
            Ok(None) => return (Way::Own, "what it made shows the call's directory".into()),
            Err(failure) => return (Way::Home, failure.to_string()),
        };
        match connection.keep(&self.action, result, &contents).await {
            Ok(()) => (Way::Kept, String::new()),
            Err(failure) => (Way::Home, format!("{}: {failure}", connection.name)),
        }
    }

    /// Has the command run here, unless the user wants none of that.
    fn become_it(&self, reason: &str) -> i32 {
        write_note(&self.command, &note(Way::Home, None, reason.to_owned()));
        if !self.settings.falls_back {
            complain(reason);
            return NOT_RUN;
        }
        become_it(&self.command)
    }

    /// Takes what a server gave. A command that failed there runs here again, for its own messages; whatever
    /// made it fail may be the worker's.
    fn take(&self, made: &Made, way: Way, connection: &Connection) -> i32 {
        if made.status != 0 && self.settings.falls_back {
            return self
                .become_it(&format!("{}: it failed there with status {}", connection.name, made.status));
        }
        if let Err(failure) = made.put() {
            return self.become_it(&failure.to_string());
        }
        let there = note_of(way, made.machine.clone(), Some(connection), String::new());
        write_note(&self.command, &there);
        if made.say().is_err() { NOT_RUN } else { made.status }
    }

    /// Gives the command's status, with the connection, if there is one: as long as nobody drops it, nothing
    /// more goes over it.
    async fn run(self) -> (i32, Option<Connection>) {
        match self.asked().await {
            Ok((Answer::Made(made, way), connection)) => {
                (self.take(&made, way, &connection), Some(connection))
            }
            Ok((Answer::Missed, mut connection)) => {
                (self.run_and_keep(&mut connection).await, Some(connection))
            }
            Err(reason) => (self.become_it(&reason), None),
        }
    }
}

/// The note of a command that ran on this machine.
fn note(way: Way, connection: Option<&Connection>, reason: String) -> Note {
    note_of(way, home::machine(), connection, reason)
}

fn note_of(way: Way, machine: String, connection: Option<&Connection>, reason: String) -> Note {
    let (server, sent, received) =
        connection.map_or((String::new(), 0, 0), |it| (it.name.clone(), it.sent, it.received));
    Note { way, server, machine, sent, received, reason }
}

/// Notes what became of a command. Without a file for that, a reason goes to standard error.
fn write_note(command: &Command, note: &Note) {
    match &command.note {
        Some(file) => {
            // (a note that is missing says that nothing is known)
            let _ = fs::write(file, note.to_string());
        }
        None if !note.reason.is_empty() => complain(&note.reason),
        None => {}
    }
}

fn become_it(command: &Command) -> i32 {
    complain(&format!("{}: {}", command.program, home::become_it(command)));
    NOT_RUN
}

/// A command by a server, or here. Gives its status.
#[must_use]
pub fn run(command: Command, environment: &[(Vec<u8>, Vec<u8>)]) -> i32 {
    let settings = match settings() {
        Ok(settings) => settings,
        Err(error) => {
            complain(&error);
            return UNDERSTOOD_NOTHING;
        }
    };
    let action = match action_of(&command, environment, &settings.platform) {
        Ok(action) => action,
        Err(unfit) => {
            let reason = match unfit {
                Unfit::Command(why) => why.to_owned(),
                Unfit::Input(path, error) => format!("{path}: {error}"),
                Unfit::Memory => "out of memory".to_owned(),
            };
            write_note(&command, &note(Way::Own, None, reason));
            return become_it(&command);
        }
    };
    let shared = Shared::beside(command.note.as_deref());
    let job = Job { command, settings, action, shared };
    match runtime() {
        Ok(runtime) => run_on(&ManuallyDrop::new(runtime), job),
        Err(error) => job.become_it(&error.to_string()),
    }
}

/// Runs a job to its end. As a task of its own: tokio wakes the one that it blocks on by calls of the kernel.
/// Neither the runtime nor the connection is closed: the process ends, and they with it.
fn run_on(runtime: &Runtime, job: Job) -> i32 {
    let ran = runtime.block_on(runtime.spawn(job.run()));
    ran.map_or(NOT_RUN, |(status, connection)| {
        mem::forget(connection);
        status
    })
}

/// Says what each server can do. Gives 1 if one is of no help.
#[must_use]
pub fn check() -> i32 {
    let (settings, runtime) = match (settings(), runtime()) {
        (Ok(settings), Ok(runtime)) => (settings, runtime),
        (Err(error), _) => {
            complain(&error);
            return UNDERSTOOD_NOTHING;
        }
        (_, Err(error)) => {
            complain(&error.to_string());
            return NOT_RUN;
        }
    };
    let mut status = 0;
    for server in &settings.servers {
        match runtime.block_on(Connection::open(server, &settings, None)) {
            Ok(connection) => {
                let has = |ability: bool, name: &'static str| if ability { name } else { "" };
                let abilities = connection.abilities;
                println!(
                    "{}: contents, results{}{}{}",
                    server.name,
                    has(abilities.takes_results, ", takes results"),
                    has(abilities.executes, ", runs actions"),
                    has(abilities.has_zstd, ", zstd")
                );
            }
            Err(failure) => {
                complain(&format!("{}: {failure}", server.name));
                status = 1;
            }
        }
    }
    status
}
