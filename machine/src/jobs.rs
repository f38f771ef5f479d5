//! What the driver asks of the machine. Tests have a machine of their own.
use crate::piped::Piped;
use crate::system::Status;
use call::programs;
use std::ffi::OsStr;
use std::io;
use std::os::fd::RawFd;
use std::path::{Path, PathBuf};

/// The files that a job touches, by their paths.
#[derive(Clone, PartialEq, Eq, Debug, Default)]
pub struct Record {
    /// Those that it reads.
    pub reads: Vec<String>,
    /// Those that it writes, and those that it may write.
    pub writes: Vec<String>,
}

/// A process to start.
#[derive(Clone, PartialEq, Eq, Debug, Default)]
pub struct Job {
    /// The program, by its name or path, and its words.
    pub words: Vec<String>,
    /// The folder where it runs; empty for the call's own.
    pub folder: String,
    /// What its environment has in place of the call's own: values, or nothing if it lacks a variable.
    pub variables: Vec<(String, Option<String>)>,
    /// Whether it runs beside another process in the same slot.
    pub shares_slot: bool,
    /// An open file of this process that it has too, by the same number.
    pub inherits: Option<RawFd>,
    /// All files that it touches, if its words name them.
    pub record: Option<Record>,
}

impl Job {
    /// The path by which its program is run, if the `PATH` of the call's own environment is this. `None` if
    /// there is no such program.
    pub fn program(&self, path: &OsStr) -> Option<PathBuf> {
        let given =
            self.variables.iter().find(|(name, _)| name == "PATH").and_then(|(_, value)| value.as_ref());
        programs::find(
            OsStr::new(self.words.first()?),
            given.map_or(path, OsStr::new),
            Path::new(&self.folder),
        )
    }
}

/// What a process was, once it has ended.
#[derive(Clone, PartialEq, Debug)]
pub struct Ended {
    /// How it ended.
    pub status: Status,
    /// What it printed to standard output.
    pub out: Vec<u8>,
    /// What it printed to standard error.
    pub errors: Vec<u8>,
    /// When it began and ended, in seconds.
    pub times: (f64, f64),
}

impl Ended {
    /// Whether it succeeded and said nothing.
    pub fn is_silent_success(&self) -> bool {
        self.status.succeeded() && self.out.is_empty() && self.errors.is_empty()
    }
}

/// What comes next.
#[derive(Debug)]
pub enum Event {
    /// A job may start.
    Slot,
    /// The job of this number has ended.
    Ended(usize, Ended),
    /// The job that is listened to has printed more: all of its output and of its messages up to now.
    Printed(usize, [Vec<u8>; 2]),
    /// A signal ends the call.
    Signal(i32),
    /// The machine can't go on, and why.
    Lost(String),
}

/// A machine that runs jobs.
pub trait Machine {
    /// Says whether the call has a job to start, so that it waits for a slot or not.
    fn want(&mut self, wants: bool);

    /// Gives back a slot that it only holds for a job to come, if none is wanted: this process works before
    /// it waits for what comes next.
    fn release(&mut self);

    /// Says whether what follows is part of planning the call.
    fn plans(&mut self, plans: bool);

    /// Says which job is listened to while it runs, if one is.
    fn listen(&mut self, job: Option<usize>);

    /// What it does for jobs that begin before all is there that they read, if it lets jobs begin so.
    fn early(&mut self) -> Option<&mut dyn Early>;

    /// Waits for what comes next. Without a job that runs or is wanted, that is a signal.
    fn next(&mut self) -> Event;

    /// Starts a job in the slot that has just come, or in one that another has. Its end has this number.
    /// An error if there is no process or no file for it. The slot stays.
    fn start(&mut self, number: usize, job: &Job) -> io::Result<()>;

    /// Ends all jobs, by a signal and then by KILL, and waits for them.
    fn end_all(&mut self, signal: i32);

    /// The time in seconds.
    fn now(&self) -> f64;
}

/// A machine on which jobs begin before all is there that they read.
pub trait Early {
    /// Whether a job may start that isn't next: a slot is free for it, and one more for another call, so that
    /// none waits for a job that waits itself. No process of the call's own that starts later has its files.
    fn has_spare_slot(&mut self) -> bool;

    /// Fills the pipe that a job reads, while it waits for what comes next. A job whose pipe can't be filled
    /// ends before it could read less.
    fn fill(&mut self, number: usize, piped: Piped);

    /// Whether a job that has ended hasn't read such a pipe to its end.
    fn has_left(&mut self, number: usize) -> bool;

    /// Ends a job, which does nothing more from now on. Its end comes as an event.
    fn end(&mut self, number: usize);
}
