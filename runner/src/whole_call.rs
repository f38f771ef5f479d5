//! Tests of whole calls on a machine that starts no process.
use crate::nvcc_jobs::{Jobs, Stopped as NoDryRuns};
use crate::run::{self, NoRule, Stopped};
use crate::system::{Status, TERM};
use crate::tasks::{self, Surroundings};
use crate::test_folder::TestFolder;
use call::{Call, Disk, DryRuns, NvccLine, Planning, Reason};
use machine::jobs::{Early, Ended, Event, Job, Machine};
use machine::planned::{PlannedCommand, Wishes, commands_of};
use machine::settings::Settings;
use machine::task::Done;
use std::collections::VecDeque;
use std::fs;
use std::io;
use std::os::unix::fs::PermissionsExt;

/// A recorded dry run for one target, whose files are in `/t/`.
const RECORDED: &str = include_str!("one_target.txt");

/// A machine whose nvcc says recorded dry runs. Its other jobs end in the order in which they start.
#[derive(Default)]
struct Fake {
    cuda: String,
    wants: bool,
    running: VecDeque<(usize, Job)>,
    started: Vec<Job>,
    /// A program that fails, with its status.
    fails: Option<(&'static str, i32)>,
    /// After so many jobs there is no process any more.
    most: Option<usize>,
    signal_after: Option<usize>,
    ended_by: Option<i32>,
}

fn base(path: &str) -> &str {
    path.rsplit('/').next().unwrap_or_default()
}

impl Fake {
    /// What nvcc says for these words.
    fn dry_run(&self, words: &[String]) -> String {
        let next =
            |option: &str| words.iter().position(|word| word == option).map(|at| words[at + 1].clone());
        let kept = next("--keep-dir").map(|folder| format!("{folder}/")).unwrap_or_default();
        RECORDED
            .replace("/opt/cuda", &self.cuda)
            .replace("/w/kernel.cu", "k.cu")
            .replace("kernel.o", "k.o")
            .replace("/t/", &kept)
    }

    fn ended(&self, job: &Job) -> Ended {
        let is_dry = job.words.iter().any(|word| word == "--dryrun");
        let errors =
            if is_dry { self.dry_run(&job.words) } else { format!("{} says\n", base(&job.words[0])) };
        let code = self
            .fails
            .filter(|(name, _)| !is_dry && base(&job.words[0]) == *name)
            .map_or(0, |(_, code)| code);
        Ended {
            status: Status { code, signal: None, dumped: false },
            out: Vec::new(),
            errors: errors.into_bytes(),
            times: (1.0, 2.0),
        }
    }
}

impl Machine for Fake {
    fn want(&mut self, wants: bool) {
        self.wants = wants;
    }

    fn release(&mut self) {}

    fn plans(&mut self, _: bool) {}

    fn listen(&mut self, _: Option<usize>) {}

    fn early(&mut self) -> Option<&mut dyn Early> {
        None
    }

    fn next(&mut self) -> Event {
        if self.signal_after.is_some_and(|count| self.started.len() >= count) {
            return Event::Signal(TERM);
        }
        if self.wants {
            return Event::Slot;
        }
        let (number, job) = self.running.pop_front().expect("something runs");
        Event::Ended(number, self.ended(&job))
    }

    fn start(&mut self, number: usize, job: &Job) -> io::Result<()> {
        if self.most.is_some_and(|most| self.started.len() >= most) {
            return Err(io::ErrorKind::WouldBlock.into());
        }
        self.started.push(job.clone());
        self.running.push_back((number, job.clone()));
        Ok(())
    }

    fn end_all(&mut self, signal: i32) {
        self.ended_by = Some(signal);
        self.running.clear();
    }

    fn now(&self) -> f64 {
        1.0
    }
}

/// A folder with a toolkit of empty programs, which goes with the test.
struct Room(TestFolder);

impl Room {
    fn new() -> Room {
        let path = TestFolder::new();
        for program in ["bin/nvcc", "bin/gcc", "bin/cudafe++", "bin/ptxas", "bin/fatbinary", "nvvm/bin/cicc"]
        {
            let program = path.join(program);
            fs::create_dir_all(program.parent().unwrap()).unwrap();
            fs::write(&program, "").unwrap();
            fs::set_permissions(&program, PermissionsExt::from_mode(0o755)).unwrap();
        }
        Room(path)
    }

    fn path(&self) -> String {
        self.0.to_str().unwrap().to_owned()
    }

    fn machine(&self) -> Fake {
        Fake { cuda: self.path(), ..Fake::default() }
    }

    fn read(&self) -> Call {
        let words = ["-c", "k.cu", "-o", "k.o", "-arch=sm_75"].map(String::from).to_vec();
        fs::write(self.0.join("k.cu"), "").unwrap();
        let line = NvccLine {
            cwd: self.path(),
            nvcc: format!("{}/bin/nvcc", self.path()),
            words,
            variables: Vec::new(),
        };
        Call::read(line, self.tmp()).unwrap()
    }

    fn tmp(&self) -> String {
        format!("{}/tmp", self.path())
    }

    fn dry_runs(&self, machine: &mut Fake) -> Result<DryRuns, NoDryRuns> {
        self.read().make_dry_runs(&mut Jobs::new(machine, || Ok(())))
    }

    fn plan(&self, dry_runs: &DryRuns) -> Vec<PlannedCommand> {
        let planning =
            Planning { variables: &[], keeps_names: false, programs: &Disk::default(), limit: None };
        commands_of(&self.read().plan_made(dry_runs, &planning).unwrap(), Wishes::default()).unwrap().0
    }

    /// Makes the whole call.
    fn call(&self, machine: &mut Fake) -> Result<Vec<Done>, Stopped> {
        let dry_runs = self.dry_runs(machine).unwrap();
        machine.started.clear();
        let (settings, tmp) = (Settings::default(), self.tmp());
        let tasks = tasks::tasks_of(
            &self.plan(&dry_runs),
            None,
            &Surroundings { settings: &settings, tmp: &tmp, scratch: None },
        );
        run::run(machine, &mut NoRule, &tasks, 4)
    }
}

fn programs(machine: &Fake) -> String {
    machine.started.iter().map(|job| base(&job.words[0])).collect::<Vec<_>>().join(" ")
}

#[test]
fn a_call_runs_the_commands_of_its_plan() {
    let room = Room::new();
    let mut machine = room.machine();
    let done = room.call(&mut machine).unwrap();
    assert!(done.len() == 7 && done.iter().all(|done| done.has_ended() && !done.failed()));
    assert_eq!(programs(&machine), "gcc cudafe++ gcc cicc ptxas fatbinary gcc");
    let variable = |job: &Job, name: &str| {
        job.variables.iter().find(|(other, _)| other == name).and_then(|(_, value)| value.clone())
    };
    for job in &machine.started {
        assert_eq!(variable(job, "TMPDIR"), Some(format!("{}/zigrunk.tmp", room.tmp())));
        assert_eq!(variable(job, "PWD"), Some(job.folder.clone()));
    }
    assert_eq!(
        machine.started.last().map(|job| (job.folder.clone(), job.words.contains(&"k.o".into()))),
        Some((room.path(), true))
    );
}

#[test]
fn two_dry_runs_are_made_in_one_slot() {
    let room = Room::new();
    let mut machine = room.machine();
    let dry_runs = room.dry_runs(&mut machine).unwrap();
    assert_eq!(machine.started.iter().map(|job| job.shares_slot).collect::<Vec<_>>(), [false, true]);
    assert!(dry_runs.messages().unwrap().is_empty() && dry_runs.first() != dry_runs.second());
}

#[test]
fn the_first_command_that_fails_ends_the_call() {
    let room = Room::new();
    let mut machine = Fake { fails: Some(("cicc", 7)), ..room.machine() };
    let done = room.call(&mut machine).unwrap();
    assert_eq!(programs(&machine), "gcc cudafe++ gcc cicc");
    assert_eq!(
        done.iter().filter_map(|done| done.ended.as_ref()).map(|ended| ended.status.code).collect::<Vec<_>>(),
        [0, 0, 0, 7]
    );
}

#[test]
fn without_processes_nvcc_has_to_make_the_call() {
    let room = Room::new();
    let mut machine = Fake { most: Some(1), ..room.machine() };
    assert_eq!(room.dry_runs(&mut machine), Err(Reason::NoDryRunProcess.into()));
    assert_eq!(machine.ended_by, Some(TERM));
}

#[test]
fn a_signal_ends_dry_runs_and_commands() {
    let room = Room::new();
    let mut machine = Fake { signal_after: Some(2), ..room.machine() };
    assert_eq!(room.dry_runs(&mut machine), Err(NoDryRuns::Signal(TERM)));
    let mut machine = room.machine();
    let dry_runs = room.dry_runs(&mut machine).unwrap();
    machine.signal_after = Some(4);
    let (settings, tmp) = (Settings::default(), room.tmp());
    let tasks = tasks::tasks_of(
        &room.plan(&dry_runs),
        None,
        &Surroundings { settings: &settings, tmp: &tmp, scratch: None },
    );
    assert_eq!(
        (run::run(&mut machine, &mut NoRule, &tasks, 4).err(), machine.ended_by),
        (Some(Stopped::Signal(TERM)), Some(TERM))
    );
}
