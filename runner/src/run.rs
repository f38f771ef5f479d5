//! Runs the commands of a plan on a machine.
use machine::bytes::contains;
use machine::excerpts::plain;
use machine::head_start::{HeadStart, Wait};
use machine::jobs::{Early, Ended, Event, Job, Machine};
use machine::piped::Piped;
use machine::task::{Done, Include, Step, Task};
use machine::withheld::Withheld;
use rattle_std::alloc::{AllocError, Global};
use rattle_std::vec::Vec as List;
use schedules::{AfterFailure, BadGraph, Outcome, Refused, Schedule, chain_weights};
use std::io;
use std::mem;
use std::os::fd::RawFd;

/// Why the tasks of a plan didn't come to their end.
#[derive(Clone, PartialEq, Eq, Debug)]
pub enum Stopped {
    /// A signal ended the call.
    Signal(i32),
    /// A process couldn't be started.
    NoProcess(String),
}

impl From<Refused> for Stopped {
    fn from(_: Refused) -> Stopped {
        Stopped::NoProcess("the schedule refuses a command".into())
    }
}

/// What the caller of a run does for its tasks.
pub trait Watch {
    /// Does a task without a process, if that is possible.
    fn make_rule(&mut self) -> bool;
    /// Hears that a task has succeeded, before one that needs it starts.
    /// Errors: why what it has written is of no use.
    fn wrote(&mut self, task: usize) -> Result<(), String>;
    /// Hears that the cache refuses commands of a tool: they run without it.
    fn refused(&mut self, tool: &str);
    /// Whether the cache has refused commands of a tool.
    fn refuses(&self, tool: &str) -> bool;
    /// The task whose texts it wants while that runs, if it wants those of one.
    fn front(&self) -> Option<usize>;
    /// Hears what this task has printed up to now.
    fn hear(&mut self, number: usize, texts: [&[u8]; 2]);
    /// Hears what has become of the tasks by now.
    fn tell(&mut self, done: &[Done]);
    /// Whether it has work for while nothing can start before something ends, given what has become of the
    /// tasks by now.
    fn has_work(&self, done: &[Done]) -> bool;
    /// Does that work.
    fn work(&mut self);
    /// Whether a task may begin before all that it needs has ended.
    fn may_begin_early(&mut self, task: usize) -> bool;
    /// Hears that all that a task needs has ended after it has begun. Says whether it wants to be asked when
    /// the task's process ends.
    fn caught_up(&mut self, task: usize) -> bool;
    /// The job in the place of one that is about to start for a task, if what that does is to be observed.
    fn observing(&mut self, task: usize, job: &Job) -> Option<Job>;
    /// Says what to do with a task that may start.
    fn first_step(&mut self, task: usize) -> Step;
    /// Says what to do with a task whose process, which wasn't its own, has ended.
    fn next_step(&mut self, task: usize, ended: Ended) -> Step;
}

/// Does nothing for the tasks but run them: no dependency file, no cache, and nobody who hears of them.
pub struct NoRule;

impl Watch for NoRule {
    fn make_rule(&mut self) -> bool {
        false
    }

    fn wrote(&mut self, _: usize) -> Result<(), String> {
        Ok(())
    }

    fn refused(&mut self, _: &str) {}

    fn refuses(&self, _: &str) -> bool {
        false
    }

    fn front(&self) -> Option<usize> {
        None
    }

    fn hear(&mut self, _: usize, _: [&[u8]; 2]) {}

    fn tell(&mut self, _: &[Done]) {}

    fn has_work(&self, _: &[Done]) -> bool {
        false
    }

    fn work(&mut self) {}

    fn may_begin_early(&mut self, _: usize) -> bool {
        true
    }

    fn caught_up(&mut self, _: usize) -> bool {
        false
    }

    fn observing(&mut self, _: usize, _: &Job) -> Option<Job> {
        None
    }

    fn first_step(&mut self, _: usize) -> Step {
        Step::Own
    }

    fn next_step(&mut self, _: usize, ended: Ended) -> Step {
        Step::Ended(ended)
    }
}

/// The words with which a cache says that it doesn't know a compiler.
const REFUSAL: &[u8] = b"Compiler not supported";

/// Whether a command has ended since its cache doesn't know the compiler.
fn is_refusal(ended: &Ended) -> bool {
    !ended.status.succeeded() && contains(&ended.errors, REFUSAL)
}

/// What a task reads late.
enum Late {
    Withheld(Withheld),
    Piped(Piped),
}

impl Late {
    /// The file of a task that begins early.
    fn of(start: &HeadStart) -> io::Result<Late> {
        match start.wait {
            Wait::Opening => Withheld::new(&start.withheld).map(Late::Withheld),
            Wait::Reading => Piped::new(&start.withheld).map(Late::Piped),
        }
    }

    /// What the task's process has to have open.
    fn inherited(&self) -> Option<RawFd> {
        match self {
            Late::Withheld(_) => None,
            Late::Piped(piped) => Some(piped.reader()),
        }
    }
}

/// How a process has read its late file.
#[derive(Clone, Copy, PartialEq, Eq)]
enum Read {
    /// As a whole, or it has none.
    Whole,
    /// Through a pipe, maybe not to its end.
    Piped,
    /// Maybe before all was there.
    TooEarly,
}

/// Where a task stands. A job in place of its own is the watch's: that is asked what to do next when it ends.
enum State {
    Waiting {
        /// Whether it is known what to do with it.
        is_asked_for: bool,
        /// Whether it may not begin early.
        is_held: bool,
        instead: Option<Job>,
    },
    /// It has begun before all that it needs has ended, and may have ended, too.
    Early {
        late: Late,
        ended: Option<Ended>,
    },
    Running {
        /// Whether it goes through the cache.
        is_launched: bool,
        instead: Option<Job>,
        read: Read,
    },
    /// It runs once more: without the cache, by another job, or since it may have begun too early.
    Again {
        instead: Option<Job>,
    },
    Ended,
}

impl State {
    fn new() -> State {
        State::Waiting { is_asked_for: false, is_held: false, instead: None }
    }

    fn has_begun(&self) -> bool {
        !matches!(self, State::Waiting { .. })
    }

    /// The job in place of its own.
    fn instead(&self) -> Option<&Job> {
        match self {
            State::Waiting { instead, .. } | State::Running { instead, .. } | State::Again { instead } => {
                instead.as_ref()
            }
            State::Early { .. } | State::Ended => None,
        }
    }

    /// Whether what its process says is the task's, as far as that is known while it runs.
    fn is_own(&self) -> bool {
        let is_whole =
            !matches!(self, State::Early { .. } | State::Running { read: Read::Piped | Read::TooEarly, .. });
        is_whole && self.instead().is_none()
    }

    fn hold(&mut self) {
        if let State::Waiting { is_held, .. } = self {
            *is_held = true;
        }
    }
}

/// A plan while it runs.
struct Run<'a, M, W> {
    machine: &'a mut M,
    watch: &'a mut W,
    tasks: &'a [Task],
    schedule: Schedule,
    at_once: usize,
    done: Vec<Done>,
    states: Vec<State>,
    /// The tasks that run once more. The last one is the next.
    again: Vec<usize>,
}

/// The schedule of tasks, of which so many may run at once. What begins the heaviest chain starts first,
/// because the call can't end before that chain.
fn schedule_of(tasks: &[Task], at_once: usize) -> Result<Schedule, BadGraph> {
    let mut needs = List::with_capacity(Global, tasks.len())?;
    for task in tasks {
        needs.push(List::from_slice(Global, &task.needs)?).map_err(AllocError::from)?;
    }
    let weights: Vec<usize> = tasks.iter().map(|task| task.weight).collect();
    let priorities = chain_weights(Global, needs.as_slice(), &weights)?;
    Schedule::new(Global, needs, priorities, at_once, AfterFailure::StartEarlier)
}

/// Runs tasks, so many at once, until all have ended or one has failed and all before it have ended. Says
/// what became of each.
/// An error if a signal comes, or no process can be started though none runs. Then no task runs any more.
pub fn run<M: Machine, W: Watch>(
    machine: &mut M,
    watch: &mut W,
    tasks: &[Task],
    at_once: usize,
) -> Result<Vec<Done>, Stopped> {
    let at_once = at_once.max(1);
    let schedule = schedule_of(tasks, at_once)
        .map_err(|_| Stopped::NoProcess("the commands have no schedule".into()))?;
    let done = vec![Done::default(); tasks.len()];
    let states = tasks.iter().map(|_| State::new()).collect();
    let mut run = Run { machine, watch, tasks, schedule, at_once, done, states, again: Vec::new() };
    let ended = run.run_all();
    if let Err(stopped) = &ended {
        run.machine.end_all(if let Stopped::Signal(number) = stopped {
            *number
        } else {
            crate::system::TERM
        });
    }
    ended.map(|()| run.done)
}

impl<'a, M: Machine, W: Watch> Run<'a, M, W> {
    fn run_all(&mut self) -> Result<(), Stopped> {
        let mut is_held_back = false;
        loop {
            while self.make_rules()? || self.take_up()? || self.serve()? {}
            self.watch.tell(&self.done);
            if self.schedule.over() {
                self.machine.want(false);
                self.end_early();
                return Ok(());
            }
            let next =
                self.again.last().copied().or_else(|| self.schedule.next().filter(|_| self.has_room()));
            while next.is_none() && self.begin_early() {}
            self.note_asked(next);
            self.machine.want(next.is_some() && !is_held_back);
            let front = self.watch.front().filter(|&front| self.states[front].is_own());
            self.machine.listen(front);
            if next.is_none() && self.watch.has_work(&self.done) {
                self.machine.release();
                self.watch.work();
            }
            match self.machine.next() {
                Event::Slot => is_held_back = self.start(next)?,
                Event::Ended(number, ended) => {
                    is_held_back = false;
                    self.ended(number, ended)?;
                }
                Event::Printed(number, [out, errors]) => self.watch.hear(number, [&out, &errors]),
                Event::Signal(number) => return Err(Stopped::Signal(number)),
                Event::Lost(reason) => return Err(Stopped::NoProcess(reason)),
            }
        }
    }

    /// Does what needs no process, if that is next. Says whether it was.
    fn make_rules(&mut self) -> Result<bool, Stopped> {
        let next = self.schedule.next().filter(|&next| self.tasks[next].is_rule);
        let Some(next) = next.filter(|_| self.watch.make_rule()) else { return Ok(false) };
        self.schedule.started(next)?;
        self.schedule.ended(next, Outcome::Success)?;
        (self.done[next].by_driver, self.states[next]) = (true, State::Ended);
        Ok(true)
    }

    /// Asks what to do with the next task. Says whether it has come to its end, without a process.
    fn serve(&mut self) -> Result<bool, Stopped> {
        let next = self.schedule.next().filter(|&next| !self.tasks[next].is_rule);
        let Some(next) =
            next.filter(|&next| matches!(self.states[next], State::Waiting { is_asked_for: false, .. }))
        else {
            return Ok(false);
        };
        let step = self.watch.first_step(next);
        let State::Waiting { is_asked_for, instead, .. } = &mut self.states[next] else { return Ok(false) };
        *is_asked_for = true;
        match step {
            Step::Own => {}
            Step::Instead(job) => *instead = Some(job),
            Step::Ended(ended) => {
                self.note_asked(Some(next));
                self.schedule.started(next)?;
                self.end(next, ended)?;
                return Ok(true);
            }
        }
        Ok(false)
    }

    /// Whether the call may have one more process.
    fn has_room(&self) -> bool {
        let early =
            self.states.iter().filter(|state| matches!(state, State::Early { ended: None, .. })).count();
        self.schedule.running() + early < self.at_once
    }

    /// The task that may begin beside those that it needs later, all of which run.
    fn next_early(&self) -> Option<(usize, &'a HeadStart)> {
        let may_begin = |(number, task): (usize, &'a Task)| -> Option<(usize, &'a HeadStart)> {
            let start = task.head_start.as_ref()?;
            let is_free = matches!(self.states[number], State::Waiting { is_held: false, .. });
            let may_begin = start.needs.iter().all(|&need| self.done[need].has_ended());
            let mut others = task.needs.iter().filter(|&&need| !self.done[need].has_ended()).peekable();
            let is_beside = others.peek().is_some() && others.all(|&need| self.states[need].has_begun());
            (is_free && may_begin && is_beside).then_some((number, start))
        };
        let has_failed = self.done.iter().any(Done::failed);
        self.tasks.iter().enumerate().filter(|_| !has_failed).find_map(may_begin)
    }

    /// Starts a task beside one that it needs, if a slot is to spare, since it may hold that slot and wait.
    /// Says whether it runs, or another may.
    fn begin_early(&mut self) -> bool {
        let next = self.next_early().filter(|_| self.has_room());
        let Some((number, start)) = next.filter(|_| self.machine.early().is_some_and(Early::has_spare_slot))
        else {
            return false;
        };
        if !self.watch.may_begin_early(number) {
            self.states[number].hold();
            return true;
        }
        self.note_asked(Some(number));
        let Ok(late) = Late::of(start) else {
            // What can't be had now can't be had later either, and others may not need it.
            self.states[number].hold();
            return true;
        };
        let job = self.watch.observing(number, &start.job).unwrap_or_else(|| start.job.clone());
        let runs = self.machine.start(number, &Job { inherits: late.inherited(), ..job }).is_ok();
        if runs {
            self.states[number] = State::Early { late, ended: None };
        }
        runs
    }

    /// Takes a task up that has begun early, if all that it needs has ended. Says whether one has. It has a
    /// slot and waits, so it goes on before any other starts: that may need its slot. One that may have read
    /// too early runs once more, and ends before it could read what isn't there.
    fn take_up(&mut self) -> Result<bool, Stopped> {
        let is_early = |number: &usize| matches!(self.states[*number], State::Early { .. });
        let may_start =
            |number: &usize| self.tasks[*number].needs.iter().all(|&need| self.done[need].has_ended());
        let ready: Vec<usize> = (0..self.tasks.len()).filter(is_early).filter(may_start).collect();
        let Some(number) = ready.into_iter().find(|&number| self.schedule.started(number).is_ok()) else {
            return Ok(false);
        };
        let State::Early { late, ended } = mem::replace(&mut self.states[number], State::Ended) else {
            return Ok(false);
        };
        self.done[number].went_on = Some(self.machine.now());
        let content = self.tasks[number].head_start.as_ref().and_then(|start| start.content().ok());
        let read = match late {
            Late::Withheld(withheld) => self.give(number, withheld, content),
            Late::Piped(piped) => self.fill(number, piped, content),
        };
        let asks = self.watch.caught_up(number) && read != Read::TooEarly;
        let instead = asks.then(|| self.tasks[number].job.clone());
        self.states[number] = State::Running { is_launched: false, instead, read };
        ended.map_or(Ok(()), |ended| self.ended(number, ended))?;
        Ok(true)
    }

    fn early(&mut self, act: impl FnOnce(&mut dyn Early)) {
        if let Some(machine) = self.machine.early() {
            act(machine);
        }
    }

    /// Whether the process of a task hasn't read its pipe to the end.
    fn has_left(&mut self, number: usize) -> bool {
        self.machine.early().is_none_or(|machine| machine.has_left(number))
    }

    /// Lets the process of a task go on that waits for a file with this content, if there is any.
    fn give(&mut self, number: usize, mut withheld: Withheld, content: Option<Vec<u8>>) -> Read {
        let is_written = content.is_some_and(|content| withheld.write(&content));
        if !is_written {
            self.early(|machine| machine.end(number));
        }
        if withheld.give() && is_written { Read::Whole } else { Read::TooEarly }
    }

    /// Has the process of a task read this content, if there is any.
    fn fill(&mut self, number: usize, mut piped: Piped, content: Option<Vec<u8>>) -> Read {
        piped.fill(content.unwrap_or_default());
        self.early(|machine| machine.fill(number, piped));
        Read::Piped
    }

    /// Ends what has begun early and isn't to run, since an earlier command failed.
    fn end_early(&mut self) {
        if self.states.iter().any(|state| matches!(state, State::Early { .. })) {
            self.machine.end_all(crate::system::TERM);
        }
    }

    fn note_asked(&mut self, next: Option<usize>) {
        if let Some(done) = next.map(|next| &mut self.done[next]).filter(|done| done.asked == 0.0) {
            done.asked = self.machine.now();
        }
    }

    /// Starts a task. Says whether none can be started until another ends.
    fn start(&mut self, next: Option<usize>) -> Result<bool, Stopped> {
        let Some(next) = next else { return Ok(false) };
        let task = &self.tasks[next];
        task.include.as_ref().map_or(Ok(()), Include::write).map_err(Stopped::NoProcess)?;
        task.head_start.as_ref().map_or(Ok(()), HeadStart::write).map_err(Stopped::NoProcess)?;
        let bare = task.without_launcher.as_ref().filter(|_| self.watch.refuses(task.tool()));
        let job = self.states[next].instead().or(bare).unwrap_or(&task.job);
        let observing = self.watch.observing(next, job);
        match self.machine.start(next, observing.as_ref().unwrap_or(job)) {
            Ok(()) => {
                let is_launched = task.without_launcher.is_some() && bare.is_none();
                let instead = self.states[next].instead().cloned();
                self.states[next] = State::Running { is_launched, instead, read: Read::Whole };
                if self.again.pop().is_none() {
                    self.schedule.started(next)?;
                }
                Ok(false)
            }
            Err(_) if self.schedule.running() > self.again.len() => Ok(true),
            Err(error) => Err(Stopped::NoProcess(format!("no process for a command: {}", plain(&error)))),
        }
    }

    /// Notes the end of a task's process.
    fn ended(&mut self, number: usize, ended: Ended) -> Result<(), Stopped> {
        match mem::replace(&mut self.states[number], State::Ended) {
            State::Early { late, .. } => self.states[number] = State::Early { late, ended: Some(ended) },
            State::Running { read: Read::TooEarly, instead, .. } => self.read_too_early(number, instead),
            State::Running { read: Read::Piped, instead, .. } if self.has_left(number) => {
                self.read_too_early(number, instead);
            }
            State::Running { instead: Some(_), .. } => return self.next_step(number, ended),
            State::Running { is_launched: true, .. } if is_refusal(&ended) => {
                let tool = self.tasks[number].tool();
                if !self.watch.refuses(tool) {
                    self.watch.refused(tool);
                }
                self.run_again(number, None);
            }
            _ => return self.end(number, ended),
        }
        Ok(())
    }

    fn read_too_early(&mut self, number: usize, instead: Option<Job>) {
        self.done[number].went_on = None;
        self.run_again(number, instead);
    }

    fn run_again(&mut self, number: usize, instead: Option<Job>) {
        self.states[number] = State::Again { instead };
        self.again.push(number);
    }

    /// Goes on with a task whose process, which wasn't its own, has ended.
    fn next_step(&mut self, number: usize, ended: Ended) -> Result<(), Stopped> {
        match self.watch.next_step(number, ended) {
            Step::Own => self.run_again(number, None),
            Step::Instead(job) => self.run_again(number, Some(job)),
            Step::Ended(ended) => return self.end(number, ended),
        }
        Ok(())
    }

    fn end(&mut self, number: usize, ended: Ended) -> Result<(), Stopped> {
        (self.done[number].ended, self.states[number]) = (Some(ended), State::Ended);
        let outcome = if self.done[number].failed() { Outcome::Failure } else { Outcome::Success };
        if matches!(outcome, Outcome::Success) {
            self.watch.wrote(number).map_err(Stopped::NoProcess)?;
        }
        Ok(self.schedule.ended(number, outcome)?)
    }
}

#[cfg(test)]
mod tests {
    use super::*;
    use crate::system::{INT, Status, TERM, UNBLOCKED};
    use crate::test_folder::TestFolder;
    use std::collections::VecDeque;
    use std::fs::{self, File};
    use std::io::Read;
    use std::os::unix::fs::OpenOptionsExt;

    /// A machine whose jobs end in the order in which they start, or in the other. A job's words are its
    /// name, its status and what it says.
    #[allow(clippy::struct_excessive_bools, reason = "each is a switch of its own")]
    #[derive(Default)]
    struct Fake {
        wants: bool,
        running: VecDeque<(usize, Job)>,
        started: Vec<String>,
        /// How many jobs may run at once before no process can be started any more.
        most: Option<usize>,
        /// The signal that comes once so many jobs have started.
        signal: Option<(usize, i32)>,
        ended_by: Option<i32>,
        most_at_once: usize,
        /// Whether no other call waits for a slot.
        is_idle: bool,
        /// Whether the job that started last ends first.
        backwards: bool,
        /// With so many running jobs there is no slot for another, unless it begins early.
        slots: Option<usize>,
        /// A file that has to have a content before a job ends that has begun early.
        read_late: Option<std::path::PathBuf>,
        /// The jobs that were ended before somebody could open that file.
        ended: Vec<usize>,
        /// How many jobs ran when slots were given back.
        released: Vec<usize>,
        /// The pipes that jobs have, and whether one is read to its end before its job ends.
        pipes: Vec<(usize, Piped)>,
        reads_all: bool,
        read: Vec<u8>,
    }

    impl Fake {
        /// Reads what comes through the pipe of a job.
        fn read_pipe(&mut self, number: usize) {
            let Some(at) = self.pipes.iter().position(|(job, _)| *job == number).filter(|_| self.reads_all)
            else {
                return;
            };
            let (_, mut piped) = self.pipes.remove(at);
            let mut reader = File::open(format!("/proc/self/fd/{}", piped.reader())).unwrap();
            while !piped.go_on().unwrap() {
                let mut part = [0; 4096];
                let size = reader.read(&mut part).unwrap();
                self.read.extend(&part[..size]);
            }
        }
    }

    impl Early for Fake {
        fn has_spare_slot(&mut self) -> bool {
            self.is_idle
        }

        fn fill(&mut self, number: usize, piped: Piped) {
            self.pipes.push((number, piped));
        }

        fn has_left(&mut self, number: usize) -> bool {
            let left = self.pipes.len();
            self.pipes.retain(|(job, _)| *job != number);
            self.pipes.len() < left
        }

        fn end(&mut self, number: usize) {
            let open = self
                .read_late
                .take()
                .map(|file| File::options().read(true).custom_flags(UNBLOCKED).open(file));
            assert_eq!(
                open.unwrap().unwrap_err().kind(),
                io::ErrorKind::WouldBlock,
                "it can be read already"
            );
            self.ended.push(number);
        }
    }

    impl Machine for Fake {
        fn want(&mut self, wants: bool) {
            self.wants = wants;
        }

        fn plans(&mut self, _: bool) {}

        fn listen(&mut self, _: Option<usize>) {}

        fn early(&mut self) -> Option<&mut dyn Early> {
            Some(self)
        }

        fn release(&mut self) {
            assert!(!self.wants);
            self.released.push(self.running.len());
        }

        fn next(&mut self) -> Event {
            if let Some((_, number)) = self.signal.filter(|(count, _)| self.started.len() >= *count) {
                return Event::Signal(number);
            }
            if self.wants && self.slots.is_none_or(|slots| self.running.len() < slots) {
                return Event::Slot;
            }
            let ended = if self.backwards { self.running.pop_back() } else { self.running.pop_front() };
            let (number, job) = ended.expect("something runs");
            self.read_pipe(number);
            let file = self.read_late.as_ref().filter(|_| job.words[0] == "early");
            assert!(file.is_none_or(|file| fs::metadata(file).unwrap().len() > 0), "it waits for ever");
            let code = job.words[1].parse().unwrap();
            let errors = job.words.get(2).map(|text| text.clone().into_bytes()).unwrap_or_default();
            Event::Ended(
                number,
                Ended {
                    status: Status { code, signal: None, dumped: false },
                    out: Vec::new(),
                    errors,
                    times: (1.0, 2.0),
                },
            )
        }

        fn start(&mut self, number: usize, job: &Job) -> io::Result<()> {
            if self.most.is_some_and(|most| self.running.len() >= most) {
                return Err(io::ErrorKind::WouldBlock.into());
            }
            self.started.push(job.words[0].clone());
            self.running.push_back((number, job.clone()));
            self.most_at_once = self.most_at_once.max(self.running.len());
            Ok(())
        }

        fn end_all(&mut self, signal: i32) {
            self.ended_by = Some(signal);
            self.running.clear();
        }

        /// Goes on by one with each job that starts.
        fn now(&self) -> f64 {
            1.0 + f64::from(u32::try_from(self.started.len()).unwrap())
        }
    }

    /// Makes the rule or doesn't, and hears what the cache refuses. Says what to do with tasks: for each, the
    /// steps that are left.
    #[derive(Default)]
    struct Heard {
        makes_rule: bool,
        refused: Vec<String>,
        steps: Vec<Vec<Step>>,
        /// The task after whose end it has work, if it has some.
        work_after: Option<usize>,
        /// How often it has worked.
        worked: usize,
        /// The task that may not begin early.
        holds: Option<usize>,
        /// Whether it observes what is started, whose name gets a mark then.
        observes: bool,
        /// The tasks that have succeeded, and the one whose files are of no use.
        wrote: Vec<usize>,
        spoils: Option<usize>,
    }

    impl Heard {
        fn step(&mut self, task: usize, otherwise: Step) -> Step {
            let left = self.steps.get_mut(task).filter(|steps| !steps.is_empty());
            left.map_or(otherwise, |steps| steps.remove(0))
        }
    }

    impl Watch for Heard {
        fn make_rule(&mut self) -> bool {
            self.makes_rule
        }

        fn wrote(&mut self, task: usize) -> Result<(), String> {
            self.wrote.push(task);
            if self.spoils == Some(task) { Err(format!("{task} is of no use")) } else { Ok(()) }
        }

        fn refused(&mut self, tool: &str) {
            self.refused.push(tool.to_owned());
        }

        fn refuses(&self, tool: &str) -> bool {
            self.refused.iter().any(|other| other == tool)
        }

        fn has_work(&self, done: &[Done]) -> bool {
            self.work_after.is_some_and(|task| done[task].has_ended())
        }

        fn work(&mut self) {
            self.work_after = None;
            self.worked += 1;
        }

        fn front(&self) -> Option<usize> {
            None
        }

        fn hear(&mut self, _: usize, _: [&[u8]; 2]) {}

        fn tell(&mut self, _: &[Done]) {}

        fn caught_up(&mut self, _: usize) -> bool {
            false
        }

        fn observing(&mut self, _: usize, own: &Job) -> Option<Job> {
            self.observes.then(|| job(&format!("{}* {}", own.words[0], own.words[1..].join(" "))))
        }

        fn first_step(&mut self, task: usize) -> Step {
            self.step(task, Step::Own)
        }

        fn next_step(&mut self, task: usize, ended: Ended) -> Step {
            self.step(task, Step::Ended(ended))
        }

        fn may_begin_early(&mut self, task: usize) -> bool {
            self.holds != Some(task)
        }
    }

    fn job(words: &str) -> Job {
        Job { words: words.splitn(3, ' ').map(String::from).collect(), ..Job::default() }
    }

    fn task(words: &str, needs: &[usize]) -> Task {
        Task {
            job: job(words),
            needs: needs.to_vec(),
            kind: words.split(' ').next().unwrap().to_owned(),
            ..Task::default()
        }
    }

    /// What a machine starts of these tasks, and which of them have ended.
    fn run_all(machine: &mut Fake, tasks: &[Task], at_once: usize) -> (String, Vec<Option<i32>>) {
        let done = run(machine, &mut Heard::default(), tasks, at_once).unwrap();
        (
            machine.started.concat(),
            done.iter().map(|done| done.ended.as_ref().map(|ended| ended.status.code)).collect(),
        )
    }

    #[test]
    fn all_commands_run() {
        let tasks = [
            task("a 0", &[]),
            task("b 0", &[0]),
            task("c 0", &[0]),
            task("d 0", &[1, 2]),
            task("e 0", &[0, 1, 2, 3]),
        ];
        let mut machine = Fake::default();
        assert_eq!(run_all(&mut machine, &tasks, 9), ("abcde".into(), vec![Some(0); 5]));
        assert_eq!(machine.most_at_once, 2);
        let mut machine = Fake::default();
        assert_eq!(run_all(&mut machine, &tasks, 1), ("abcde".into(), vec![Some(0); 5]));
        assert_eq!(machine.most_at_once, 1);
    }

    #[test]
    fn it_is_noted_when_each_could_have_started() {
        let tasks = [task("a 0", &[]), task("b 0", &[]), task("c 0", &[0, 1])];
        let done = run(&mut Fake::default(), &mut Heard::default(), &tasks, 9).unwrap();
        assert_eq!(done.iter().map(|done| done.asked).collect::<Vec<_>>(), [1.0, 2.0, 3.0]);
    }

    #[test]
    fn the_heaviest_chain_starts_first() {
        let weighs = |weight, task: Task| Task { weight, ..task };
        let tasks = [
            weighs(1, task("a 0", &[])),
            weighs(1, task("b 0", &[])),
            weighs(3, task("c 0", &[0])),
            weighs(2, task("d 0", &[])),
        ];
        assert_eq!(run_all(&mut Fake::default(), &tasks, 1), ("acdb".into(), vec![Some(0); 4]));
        assert_eq!(run_all(&mut Fake::default(), &tasks, 2), ("adcb".into(), vec![Some(0); 4]));
    }

    #[test]
    fn after_a_failure_only_earlier_commands_start() {
        let tasks =
            [task("a 0", &[]), task("b 0", &[0]), task("c 7", &[]), task("d 0", &[]), task("e 0", &[1])];
        let mut machine = Fake::default();
        assert_eq!(
            run_all(&mut machine, &tasks, 2),
            ("acb".into(), vec![Some(0), Some(0), Some(7), None, None])
        );
    }

    #[test]
    fn what_a_task_wrote_is_heard_of_before_others_read_it() {
        let tasks = [task("a 0", &[]), task("b 7", &[0]), task("c 0", &[1])];
        let mut heard = Heard::default();
        run(&mut Fake::default(), &mut heard, &tasks, 9).unwrap();
        assert_eq!(heard.wrote, [0], "what failed has written nothing of use");
        let mut machine = Fake::default();
        let mut spoilt = Heard { spoils: Some(0), ..Heard::default() };
        let stopped = run(&mut machine, &mut spoilt, &tasks, 9).unwrap_err();
        assert_eq!(stopped, Stopped::NoProcess("0 is of no use".into()));
        assert_eq!(machine.started, ["a"]);
    }

    #[test]
    fn a_command_waits_if_no_process_can_be_started() {
        let tasks = [task("a 0", &[]), task("b 0", &[]), task("c 0", &[])];
        let mut machine = Fake { most: Some(1), ..Fake::default() };
        assert_eq!(run_all(&mut machine, &tasks, 9), ("abc".into(), vec![Some(0); 3]));
        let mut machine = Fake { most: Some(0), ..Fake::default() };
        let stopped = run(&mut machine, &mut Heard::default(), &tasks, 9).unwrap_err();
        assert!(
            matches!(stopped, Stopped::NoProcess(reason) if reason.starts_with("no process for a command: "))
        );
        assert_eq!(machine.ended_by, Some(TERM));
    }

    #[test]
    fn a_signal_ends_what_runs() {
        let mut machine = Fake { signal: Some((2, INT)), ..Fake::default() };
        let stopped = run(
            &mut machine,
            &mut Heard::default(),
            &[task("a 0", &[]), task("b 0", &[]), task("c 0", &[])],
            9,
        );
        assert_eq!(
            (stopped.err(), machine.ended_by, machine.running.len()),
            (Some(Stopped::Signal(INT)), Some(INT), 0)
        );
    }

    #[test]
    fn the_rule_needs_no_process() {
        let rule = Task { is_rule: true, ..task("rule 0", &[0]) };
        let tasks = [task("a 0", &[]), rule, task("b 0", &[1])];
        let mut machine = Fake::default();
        let done = run(&mut machine, &mut Heard { makes_rule: true, ..Heard::default() }, &tasks, 9).unwrap();
        assert_eq!(
            (machine.started.concat(), done[1].by_driver, done[1].has_ended()),
            ("ab".into(), true, true)
        );
        let mut machine = Fake::default();
        assert_eq!(run_all(&mut machine, &tasks, 9), ("aruleb".into(), vec![Some(0); 3]));
    }

    #[test]
    fn a_task_may_end_without_its_process() {
        let ended = |code| Ended {
            status: Status { code, signal: None, dumped: false },
            out: Vec::new(),
            errors: Vec::new(),
            times: (1.0, 1.0),
        };
        let tasks =
            [task("a 0", &[]), task("b 0", &[0]), task("c 0", &[1]), task("d 0", &[2]), task("e 0", &[3])];
        let steps = vec![
            vec![Step::Ended(ended(0))],
            vec![Step::Instead(job("question 1")), Step::Ended(ended(0))],
            vec![Step::Instead(job("question 0")), Step::Instead(job("other 3")), Step::Own],
            vec![Step::Instead(job("another 0"))],
        ];
        let (mut machine, mut heard) = (Fake::default(), Heard { steps, ..Heard::default() });
        let done = run(&mut machine, &mut heard, &tasks, 9).unwrap();
        assert_eq!(machine.started, ["question", "question", "other", "c", "another", "e"]);
        assert!(done.iter().all(|done| done.has_ended() && !done.failed()), "{done:?}");
        let steps = vec![vec![Step::Ended(ended(4))]];
        let (mut machine, mut heard) = (Fake::default(), Heard { steps, ..Heard::default() });
        let done = run(&mut machine, &mut heard, &tasks, 9).unwrap();
        assert_eq!(
            (machine.started.len(), done.iter().filter(|done| done.has_ended()).count(), done[0].failed()),
            (0, 1, true)
        );
    }

    #[test]
    fn work_is_done_while_commands_run() {
        let tasks = [task("a 0", &[]), task("b 0", &[]), task("c 0", &[0, 1])];
        let worked_by = |at_once: usize, work_after: usize| {
            let (mut machine, mut heard) =
                (Fake::default(), Heard { work_after: Some(work_after), ..Heard::default() });
            run(&mut machine, &mut heard, &tasks, at_once).unwrap();
            (heard.worked, machine.released)
        };
        assert_eq!(worked_by(2, 0), (1, vec![1]), "while the second one runs");
        assert_eq!(worked_by(2, 2), (0, vec![]), "nothing runs by then");
        assert_eq!(worked_by(1, 0), (1, vec![1]));
    }

    #[test]
    fn what_the_cache_refuses_runs_without_it() {
        let refused = |name: &str, status: &str| Task {
            without_launcher: Some(job(&format!("{name}-bare {status}"))),
            ..task(&format!("{name} 2 error: Compiler not supported: {name}"), &[])
        };
        let tasks = [
            refused("cicc", "0"),
            refused("cicc", "0"),
            Task { needs: vec![0, 1], ..refused("cicc", "5") },
            task("gcc 2 Compiler not supported", &[]),
        ];
        let mut machine = Fake::default();
        let mut heard = Heard::default();
        let done = run(&mut machine, &mut heard, &tasks, 2).unwrap();
        assert_eq!(heard.refused, ["cicc"]);
        assert_eq!(machine.started, ["cicc", "cicc", "cicc-bare", "cicc-bare", "gcc", "cicc-bare"]);
        assert_eq!(
            done.iter().map(Done::failed).collect::<Vec<_>>(),
            [false, false, true, true],
            "only what goes through the cache runs again"
        );
    }

    /// Two tasks, of which the second may begin beside the first, in a folder of a test. The status of the
    /// first and whether it writes its file are the test's.
    fn with_head_start(folder: &TestFolder, status: i32, writes: bool) -> [Task; 2] {
        let start = HeadStart {
            needs: Vec::new(),
            file: folder.join("id"),
            withheld: folder.join("withheld"),
            job: job("early 0"),
            wait: Wait::Opening,
        };
        if writes {
            fs::write(&start.file, "id").unwrap();
        }
        [task(&format!("first {status}"), &[]), Task { head_start: Some(start), ..task("second 0", &[0]) }]
    }

    /// What is in the file that the second of these tasks reads late.
    fn read_late_in(folder: &TestFolder) -> Option<String> {
        fs::read_to_string(folder.join("withheld")).ok()
    }

    #[test]
    fn a_task_begins_beside_one_that_it_needs() {
        let folder = TestFolder::new();
        let tasks = with_head_start(&folder, 0, true);
        let mut machine = Fake { is_idle: true, ..Fake::default() };
        assert_eq!(run_all(&mut machine, &tasks, 2), ("firstearly".into(), vec![Some(0); 2]));
        assert_eq!(read_late_in(&folder).unwrap(), "id");
    }

    #[test]
    fn no_task_begins_early_without_a_slot() {
        for (at_once, is_idle) in [(1, true), (2, false)] {
            let folder = TestFolder::new();
            let tasks = with_head_start(&folder, 0, true);
            let mut machine = Fake { is_idle, ..Fake::default() };
            assert_eq!(run_all(&mut machine, &tasks, at_once), ("firstsecond".into(), vec![Some(0); 2]));
            assert_eq!(read_late_in(&folder), None);
        }
    }

    #[test]
    fn a_task_that_read_too_early_runs_once_more() {
        let folder = TestFolder::new();
        let tasks = with_head_start(&folder, 0, false);
        let read_late = tasks[1].head_start.as_ref().map(|start| start.withheld.clone());
        let mut machine = Fake { is_idle: true, read_late, ..Fake::default() };
        assert_eq!(run_all(&mut machine, &tasks, 2), ("firstearlysecond".into(), vec![Some(0); 2]));
        assert_eq!(machine.ended, [1], "it ends before it reads what isn't there");
    }

    /// What a machine starts of two tasks of which the second gets its file through a pipe, and what it read
    /// by the pipe.
    fn with_pipe(folder: &TestFolder, machine: Fake) -> (String, String) {
        let mut tasks = with_head_start(folder, 0, true);
        tasks[1].head_start.as_mut().unwrap().wait = Wait::Reading;
        let mut machine = Fake { is_idle: true, ..machine };
        let (started, ends) =
            run_all(&mut machine, &[tasks[0].clone(), tasks[1].clone(), task("other 0", &[])], 3);
        assert_eq!(ends, vec![Some(0); 3]);
        (started, String::from_utf8(machine.read).unwrap())
    }

    #[test]
    fn a_task_reads_a_pipe_to_its_end_or_runs_once_more() {
        for (reads_all, backwards, wanted) in [
            (true, false, ("firstotherearly", "id")),
            (false, false, ("firstotherearlysecond", "")),
            // It ends before there is something to read.
            (true, true, ("firstotherearlysecond", "")),
        ] {
            let folder = TestFolder::new();
            let (started, read) = with_pipe(&folder, Fake { backwards, reads_all, ..Fake::default() });
            assert_eq!((started.as_str(), read.as_str()), wanted, "{reads_all} {backwards}");
            assert_eq!(read_late_in(&folder).unwrap(), "id", "a plain file has its name");
            assert!(!folder.join("withheld").is_symlink());
        }
    }

    #[test]
    fn a_task_that_cannot_have_its_file_bars_no_other() {
        for wait in [Wait::Opening, Wait::Reading] {
            let folder = TestFolder::new();
            let [first, mut second] = with_head_start(&folder, 0, true);
            second.head_start.as_mut().unwrap().wait = wait;
            let mut third = Task { job: job("third 0"), ..second.clone() };
            third.head_start.as_mut().unwrap().withheld = folder.join("another");
            fs::create_dir(folder.join("withheld")).unwrap();
            let mut machine = Fake { is_idle: true, reads_all: true, ..Fake::default() };
            let done = run(&mut machine, &mut Heard::default(), &[first, second, third], 2);
            assert_eq!(machine.started[..2], ["first", "early"], "{wait:?}");
            assert_eq!(
                done.is_ok(),
                wait == Wait::Opening,
                "a folder has the name of a file that is read by it"
            );
        }
    }

    #[test]
    fn what_is_observed_starts_another_way() {
        let folder = TestFolder::new();
        let [first, second] = with_head_start(&folder, 0, true);
        let steps = vec![vec![], vec![], vec![Step::Instead(job("instead 0"))]];
        let mut machine = Fake { is_idle: true, ..Fake::default() };
        run(
            &mut machine,
            &mut Heard { observes: true, steps, ..Heard::default() },
            &[first, second, task("third 0", &[1])],
            2,
        )
        .unwrap();
        assert_eq!(machine.started, ["first*", "early*", "instead*"]);
    }

    #[test]
    fn what_began_early_ends_if_nothing_comes_of_it() {
        let folder = TestFolder::new();
        let tasks = with_head_start(&folder, 3, true);
        let mut machine = Fake { is_idle: true, ..Fake::default() };
        assert_eq!(run_all(&mut machine, &tasks, 2), ("firstearly".into(), vec![Some(3), None]));
        assert_eq!((machine.ended_by, machine.running.len()), (Some(TERM), 0));
    }

    #[test]
    fn what_began_early_takes_a_place_of_the_call() {
        let folder = TestFolder::new();
        let tasks = with_head_start(&folder, 0, true);
        let [first, second] = tasks.clone();
        let all = [task("long 0", &[]), Task { needs: Vec::new(), ..first }, second, task("third 0", &[0])];
        let mut all = all;
        all[2].needs = vec![1];
        let mut machine = Fake { is_idle: true, ..Fake::default() };
        assert_eq!(run_all(&mut machine, &all, 3).1, vec![Some(0); 4]);
        assert_eq!((machine.started.concat(), machine.most_at_once), ("longfirstearlythird".into(), 3));
    }

    #[test]
    fn another_task_may_begin_early_if_one_may_not() {
        let folder = TestFolder::new();
        let tasks = with_head_start(&folder, 0, true);
        let [first, second] = tasks.clone();
        let third = Task { job: job("third 0"), ..second.clone() };
        let mut machine = Fake { is_idle: true, ..Fake::default() };
        let done =
            run(&mut machine, &mut Heard { holds: Some(1), ..Heard::default() }, &[first, second, third], 2)
                .unwrap();
        assert!(done.iter().all(|done| done.has_ended() && !done.failed()));
        assert_eq!(
            machine.started,
            ["first", "early", "second"],
            "the third begins before the second, beside the first"
        );
    }

    #[test]
    fn what_began_early_goes_on_before_a_heavier_task_has_a_slot() {
        let folder = TestFolder::new();
        let tasks = with_head_start(&folder, 0, true);
        let [first, second] = tasks.clone();
        let all = [first, second, Task { weight: 9, ..task("heavy 0", &[0]) }];
        let read_late = tasks[1].head_start.as_ref().map(|start| start.withheld.clone());
        let mut machine = Fake { is_idle: true, slots: Some(1), read_late, ..Fake::default() };
        assert_eq!(run_all(&mut machine, &all, 3), ("firstearlyheavy".into(), vec![Some(0); 3]));
        assert_eq!(read_late_in(&folder).unwrap(), "id");
    }

    #[test]
    fn an_early_end_counts_once_its_turn_comes() {
        let folder = TestFolder::new();
        let tasks = with_head_start(&folder, 0, true);
        let [first, second] = tasks.clone();
        let all = [first, second, task("other 0", &[])];
        // The other one starts first, so that what begins early ends before the first.
        let mut machine = Fake { is_idle: true, backwards: true, ..Fake::default() };
        assert_eq!(run_all(&mut machine, &all, 3), ("firstotherearly".into(), vec![Some(0); 3]));
        assert_eq!(read_late_in(&folder).unwrap(), "id");
    }
}
