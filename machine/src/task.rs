//! What is started for a call.
use crate::folder::OWN;
use crate::head_start::HeadStart;
use crate::jobs::{Ended, Job};
use crate::streams::{content_of, write_file};
use early_starts::assembler_text;
use rattle_std::alloc::Global;
use std::path::PathBuf;

/// A command of a plan, or what writes the dependency file.
#[derive(Clone, Debug, Default)]
pub struct Task {
    /// The process that does it.
    pub job: Job,
    /// The number of its command in the plan, unless it makes the dependency file.
    pub command: Option<usize>,
    /// The same without the cache, for one that goes through it.
    pub without_launcher: Option<Job>,
    /// The earlier tasks that have to end before it starts.
    pub needs: Vec<usize>,
    /// Whether the driver may do it itself, without a process.
    pub is_rule: bool,
    /// Whether it only preprocesses.
    pub preprocesses: bool,
    /// What it is, for the log: a program, what it does, and for which target.
    pub kind: String,
    /// How long it usually takes, in any unit: the longer what waits for a command, the earlier it starts.
    pub weight: usize,
    /// Where the cache says whether it had what the command makes, if it was asked to.
    pub statistics: Option<String>,
    /// The file that says what servers did for it, if it goes by them.
    pub note: Option<String>,
    /// A file that is written right before it starts.
    pub include: Option<Include>,
    /// How it may begin before all that it needs has ended.
    pub head_start: Option<HeadStart>,
}

impl Task {
    /// The name of its program.
    pub fn tool(&self) -> &str {
        self.kind.split(' ').next().unwrap_or_default()
    }
}

/// What became of a task.
#[derive(Clone, Debug, Default)]
pub struct Done {
    /// When it could have started but for slots, in seconds.
    pub asked: f64,
    /// How it ended. `None` if it never began, or if the driver did it itself.
    pub ended: Option<Ended>,
    /// When it could go on, all that it needs having ended, if it had begun before, in seconds.
    pub went_on: Option<f64>,
    /// Whether the driver did it itself.
    pub by_driver: bool,
    /// Whether the driver's cache had what it makes, if that was asked for it.
    pub hit: Option<bool>,
}

impl Done {
    /// Whether it ran and failed.
    pub fn failed(&self) -> bool {
        self.ended.as_ref().is_some_and(|ended| !ended.status.succeeded())
    }

    /// Whether it came to its end, in whatever way.
    pub fn has_ended(&self) -> bool {
        self.by_driver || self.ended.is_some()
    }
}

/// The file that an assembler's command includes, to be written from fatbinary's right before it starts.
#[derive(Clone, PartialEq, Eq, Debug, Default)]
pub struct Include {
    /// What fatbinary writes.
    pub from: PathBuf,
    /// The assembler's file.
    pub to: PathBuf,
    /// Whether the fatbin is linked with others.
    pub is_linked: bool,
}

impl Include {
    /// Writes the file.
    /// Errors: why nvcc makes the call.
    pub fn write(&self) -> Result<(), String> {
        let text = content_of(&self.from).map_err(|_| "fatbinary's file is missing")?;
        let text = assembler_text(Global, self.is_linked, &text).map_err(|_| "out of memory")?;
        let text = text.ok_or("fatbinary's file has another form")?;
        write_file(&self.to, text.as_slice()).map_err(|_| "no room for temporary files".into())
    }
}

/// The file that a call's assembler includes, if its host compile begins early.
pub fn included(tmp: &str) -> String {
    format!("{tmp}/{OWN}/fatbin.s")
}

/// What to do with a task.
#[derive(Debug)]
pub enum Step {
    /// Start its own process.
    Own,
    /// Start another process, and hear how it ends.
    Instead(Job),
    /// Nothing more: this is its end.
    Ended(Ended),
}
