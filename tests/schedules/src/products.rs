//! Runs with files: commands overlap as a schedule lets them, and files and outputs have to be those of the plan's own order.

use crate::model::{Graph, Lot};
use crate::walks::schedule_of;
use schedules::{AfterFailure, Outcome, PlanStatus, Schedule};

/// A command: the files that it reads and writes, and how often commands like it fail: one in so many.
#[derive(Debug)]
struct Command {
    reads: Vec<usize>,
    writes: Vec<usize>,
    fails_in: u64,
}

fn mixed(a: u64, b: u64) -> u64 {
    (a ^ b.rotate_left(23)).wrapping_mul(0x9e37_79b9_7f4a_7c15).rotate_left(31)
}

impl Command {
    /// The first part: it reads.
    fn read(&self, files: &[u64]) -> u64 {
        self.reads.iter().fold(7, |all, &file| mixed(all, files[file]))
    }

    /// The second part: it writes what depends on what it read. Whether it succeeds depends on that too.
    fn write(&self, number: usize, read: u64, files: &mut [u64]) -> bool {
        for (place, &file) in self.writes.iter().enumerate() {
            files[file] = mixed(mixed(read, number as u64), place as u64);
        }
        mixed(read, 3) % self.fails_in != 0
    }
}

fn share(one: &[usize], other: &[usize]) -> bool {
    one.iter().any(|it| other.contains(it))
}

fn must_follow(earlier: &Command, later: &Command) -> bool {
    share(&earlier.writes, &later.reads) || share(&earlier.reads, &later.writes) || share(&earlier.writes, &later.writes)
}

fn drawn_files(lot: &mut Lot, most: usize, files: usize) -> Vec<usize> {
    (0..lot.below(most + 1)).map(|_| lot.below(files)).collect()
}

fn drawn_commands(lot: &mut Lot, files: usize) -> Vec<Command> {
    let fails_in = [3, 12, 1 << 40][lot.below(3)];
    let command = |lot: &mut Lot| Command { reads: drawn_files(lot, 3, files), writes: drawn_files(lot, 2, files), fails_in };
    (0..=lot.below(12)).map(|_| command(lot)).collect()
}

/// A run in which commands overlap.
struct Run<'a> {
    commands: &'a [Command],
    schedule: Schedule,
    files: Vec<u64>,
    /// What each command read, once it has.
    reads: Vec<Option<u64>>,
    running: Vec<usize>,
    ended: Vec<usize>,
    /// The commands whose outputs were told, each with what it read.
    told: Vec<(usize, Option<u64>)>,
    status: PlanStatus,
}

impl Run<'_> {
    /// A command starts, or one that runs does its next part. One that has done both ends.
    fn step(&mut self, lot: &mut Lot) -> Result<(), String> {
        let started = if lot.below(2) == 0 { self.schedule.start_next() } else { None };
        if started.is_some() || self.running.is_empty() {
            self.running.extend(started);
            return Ok(());
        }
        let place = lot.below(self.running.len());
        let command = self.running[place];
        let Some(read) = self.reads[command] else {
            self.reads[command] = Some(self.commands[command].read(&self.files));
            return Ok(());
        };
        let success = self.commands[command].write(command, read, &mut self.files);
        self.running.remove(place);
        self.ended.push(command);
        let outcome = if success { Outcome::Success } else { Outcome::Failure };
        self.schedule.ended(command, outcome).map_err(|it| format!("{it:?}"))
    }

    fn tell(&mut self) {
        let first = self.told.len();
        if !matches!(self.status, PlanStatus::Failed) {
            let told = self.schedule.told(first, self.commands.len());
            self.told.extend((first..told.end).map(|it| (it, self.reads[it])));
            self.status = told.status;
        }
    }

    /// What the commands that ran do otherwise one after the other, if anything.
    fn difference_in_files(&mut self) -> Option<String> {
        self.ended.sort_unstable();
        let mut files: Vec<u64> = (0..self.files.len() as u64).collect();
        for &command in &self.ended {
            let read = self.commands[command].read(&files);
            self.commands[command].write(command, read, &mut files);
            if self.reads[command] != Some(read) {
                return Some(format!("{command} read something else"));
            }
        }
        (files != self.files).then(|| format!("the files are {:?}, not {files:?}", self.files))
    }

    /// What the plan's own order tells otherwise, if anything. If nothing starts after a failure, less may be told.
    fn difference_in_telling(&self, whole: bool) -> Option<String> {
        let mut files: Vec<u64> = (0..self.files.len() as u64).collect();
        let (mut in_order, mut failed) = (Vec::new(), false);
        for (number, command) in self.commands.iter().enumerate() {
            if !failed {
                let read = command.read(&files);
                in_order.push((number, Some(read)));
                failed = !command.write(number, read, &mut files);
            }
        }
        let same = self.told == in_order && matches!(self.status, PlanStatus::Failed) == failed;
        let alike = same || !whole && in_order.starts_with(&self.told);
        (!alike).then(|| format!("told {:?}, not {in_order:?}", self.told))
    }
}

/// Runs commands as a schedule lets them, and compares what they leave and tell with the plan's own order.
pub fn compare(lot: &mut Lot, after_failure: AfterFailure) -> Result<(), String> {
    let files = 2 + lot.below(9);
    let commands = drawn_commands(lot, files);
    let count = commands.len();
    let needs_of = |later: usize| (0..later).filter(|&it| must_follow(&commands[it], &commands[later])).collect();
    let graph = Graph {
        needs: (0..count).map(needs_of).collect(),
        priorities: (0..count).map(|_| lot.below(5)).collect(),
        slots: 1 + lot.below(4),
        after_failure,
    };
    let mut run = Run {
        commands: &commands,
        schedule: schedule_of(&graph),
        files: (0..files as u64).collect(),
        reads: vec![None; count],
        running: Vec::new(),
        ended: Vec::new(),
        told: Vec::new(),
        status: PlanStatus::Unfinished,
    };
    while !run.schedule.over() {
        run.step(lot)?;
        run.tell();
    }
    let whole = !matches!(after_failure, AfterFailure::StartNothing);
    match run.difference_in_files().or_else(|| run.difference_in_telling(whole)) {
        Some(problem) => Err(format!("{graph:?} {commands:?}: {problem}")),
        None => Ok(()),
    }
}
