//! The calls of a batch on one machine. The proved schedule says which call may begin next and which may be
//! told. A call begins only if no call before it has a job to start: so few calls are under way at once, and
//! the first commands run while later calls are planned.
use super::calls::Made;
use super::progress::{Count, Progress};
use super::turns::{Maker, Step, Wish};
use crate::system::TERM;
use machine::jobs::{Ended, Event, Job, Machine};
use machine::streams::complain;
use rattle_std::alloc::{AllocError, Global};
use rattle_std::vec::Vec as List;
use schedules::{AfterFailure, BadGraph, Outcome, PlanStatus, Schedule};
use std::collections::VecDeque;
use std::io::Write;

/// What makes calls, and what is told of them.
pub trait Calls {
    /// The name of a call for messages.
    fn name(&self, call: usize) -> String;
    /// Starts to make a call.
    /// An error if there is no thread for it.
    fn begin(&self, call: usize) -> std::io::Result<Maker<Made>>;
    /// Hears what became of a call, in the order of the list.
    fn told(&mut self, call: usize, made: &Made);
}

/// How many things may happen.
#[derive(Clone, Copy, PartialEq, Eq, Debug)]
pub struct Limits {
    /// How many jobs run at once.
    pub at_once: usize,
    /// How many calls are planned at once.
    pub planned_at_once: usize,
    /// After how many failed calls nothing starts any more, if after any.
    pub failures: Option<usize>,
}

/// How a batch has come out.
#[derive(Clone, Copy, PartialEq, Eq, Debug, Default)]
pub struct Outcomes {
    /// The status of the first call in the list that failed.
    pub status: i32,
    /// How many calls were not made.
    pub left: usize,
    /// The signal that ended the batch.
    pub signal: Option<i32>,
    /// Whether the machine couldn't go on.
    pub lost: bool,
}

/// A call under way.
struct Active {
    call: usize,
    maker: Maker<Made>,
    wish: Wish,
    running: usize,
}

/// A job that runs: of which call, under which number there, and whether it has a slot of its own.
struct Running {
    call: usize,
    number: usize,
    has_slot: bool,
}

/// A job for which there was no process, until another has ended. Its call waits to hear of it, and hears of
/// its jobs that end meanwhile later.
struct Held {
    call: usize,
    number: usize,
    job: Job,
    ends: Vec<Event>,
}

/// A batch while it runs.
pub struct Graph<'a, M, C, W> {
    machine: &'a mut M,
    calls: &'a mut C,
    progress: Progress<W>,
    limits: Limits,
    schedule: Schedule,
    active: Vec<Active>,
    running: Vec<Option<Running>>,
    held: VecDeque<Held>,
    /// A call for which there was no thread.
    unbegun: Option<usize>,
    /// Whether no process and no thread can be started until a process has ended.
    is_full: bool,
    made: Vec<Option<Made>>,
    /// The first call that hasn't been told.
    first: usize,
    count: Count,
    /// The call whose command started last.
    latest: usize,
    outcomes: Outcomes,
}

/// A schedule of so many calls, the first ones first.
fn schedule_of(count: usize, at_once: usize) -> Result<Schedule, BadGraph> {
    let mut needs = List::with_capacity(Global, count)?;
    let mut priorities = List::with_capacity(Global, count)?;
    for call in 0..count {
        needs.push(List::new(Global)).map_err(AllocError::from)?;
        priorities.push(count - call).map_err(AllocError::from)?;
    }
    Schedule::new(Global, needs, priorities, at_once, AfterFailure::GoOn)
}

impl<'a, M: Machine, C: Calls, W: Write> Graph<'a, M, C, W> {
    /// A batch of so many calls. `None` if there is no memory for it.
    pub fn new(
        machine: &'a mut M,
        calls: &'a mut C,
        count: usize,
        limits: Limits,
        progress: Progress<W>,
    ) -> Option<Graph<'a, M, C, W>> {
        let schedule = schedule_of(count, limits.at_once.max(1)).ok()?;
        let made = std::iter::repeat_with(|| None).take(count).collect();
        let count = Count { calls: count, ..Count::default() };
        Some(Graph {
            machine,
            calls,
            progress,
            limits,
            schedule,
            active: Vec::new(),
            running: Vec::new(),
            held: VecDeque::new(),
            unbegun: None,
            is_full: false,
            made,
            first: 0,
            count,
            latest: 0,
            outcomes: Outcomes::default(),
        })
    }

    /// Makes all calls. Says how they came out.
    pub fn run(mut self) -> Outcomes {
        while !self.is_over() {
            let wants = self.may_start();
            self.machine.want(wants);
            match self.machine.next() {
                Event::Slot => self.take_slot(),
                Event::Ended(number, ended) => self.take_end(number, ended),
                Event::Printed(..) => {}
                Event::Signal(number) => self.stop(number),
                Event::Lost(reason) => {
                    complain(&format!("zigrunk batch: {reason}"));
                    self.outcomes.lost = true;
                    self.stop(TERM);
                }
            }
            self.tell();
        }
        self.machine.want(false);
        self.end()
    }

    /// Whether nothing starts any more, since enough calls have failed.
    fn is_stopped(&self) -> bool {
        self.limits.failures.is_some_and(|most| self.count.failed >= most)
    }

    fn is_over(&mut self) -> bool {
        if self.is_stopped() && self.running.iter().all(Option::is_none) {
            self.cancel(TERM);
        }
        self.active.is_empty()
            && (self.is_stopped() || self.outcomes.signal.is_some() || self.schedule.over())
    }

    fn may_plan(&self) -> bool {
        let planned = self.active.iter().filter(|active| active.wish.plans && active.running > 0).count();
        planned < self.limits.planned_at_once
    }

    /// The first call that has a job to start.
    fn wanting(&self) -> Option<usize> {
        let may_plan = self.may_plan();
        self.active.iter().position(|active| active.wish.wants && (may_plan || !active.wish.plans))
    }

    fn may_start(&self) -> bool {
        let slots_used = self.running.iter().flatten().filter(|running| running.has_slot).count();
        let has_room = slots_used < self.limits.at_once && !self.is_full;
        has_room
            && !self.is_stopped()
            && (!self.held.is_empty()
                || self.wanting().is_some()
                || (self.may_plan() && (self.unbegun.is_some() || self.schedule.next().is_some())))
    }

    /// Uses a slot: for a job that waits for a process, for the first call that has one, or for the next
    /// call.
    fn take_slot(&mut self) {
        if let Some(Held { call, number, job, ends }) = self.held.pop_front() {
            if let Some(at) = self.place(call).filter(|&at| self.start(at, number, job)) {
                self.go_on(at);
            }
            for end in ends {
                self.tell_event(call, end);
            }
        } else if let Some(at) = self.wanting() {
            self.active[at].maker.tell(Event::Slot);
            self.go_on(at);
        } else if let Some(call) = self.unbegun.take().or_else(|| self.schedule.start_next()) {
            self.begin(call);
        }
    }

    /// Begins to make a call. If there is no thread for it, it waits until a job has ended.
    fn begin(&mut self, call: usize) {
        match self.calls.begin(call) {
            Ok(maker) => {
                self.active.push(Active { call, maker, wish: Wish::default(), running: 0 });
                self.go_on(self.active.len() - 1);
            }
            Err(_) if self.running.iter().any(Option::is_some) => {
                (self.unbegun, self.is_full) = (Some(call), true);
            }
            Err(error) => {
                let text = format!("zigrunk batch: no thread for a call: {error}\n");
                self.ended(
                    call,
                    Made { status: 1, said: vec![(true, text.into_bytes())], ..Made::default() },
                );
            }
        }
    }

    /// The place of a call under way. One whose thread panicked isn't, though jobs of it may run.
    fn place(&self, call: usize) -> Option<usize> {
        self.active.iter().position(|active| active.call == call)
    }

    /// Has a call go on until it waits or has ended.
    fn go_on(&mut self, at: usize) {
        loop {
            match self.active[at].maker.step() {
                Step::Start(number, job) => {
                    if !self.start(at, number, job) {
                        return;
                    }
                }
                Step::Wait(wish) => {
                    self.active[at].wish = wish;
                    return;
                }
                Step::End(made) => {
                    let call = self.active.remove(at).call;
                    self.ended(call, made.unwrap_or(Made { status: 1, ..Made::default() }));
                    return;
                }
            }
        }
    }

    /// Starts a job of a call, and says so to the call. If there is no process for it, the call waits until
    /// another job has ended.
    fn start(&mut self, at: usize, number: usize, job: Job) -> bool {
        let place = self.running.iter().position(Option::is_none).unwrap_or(self.running.len());
        let call = self.active[at].call;
        let is_stopped = self.outcomes.signal.is_some();
        match if is_stopped {
            Err(std::io::ErrorKind::Interrupted.into())
        } else {
            self.machine.start(place, &job)
        } {
            Ok(()) => {
                self.running.resize_with(self.running.len().max(place + 1), || None);
                self.running[place] = Some(Running { call, number, has_slot: !job.shares_slot });
                self.active[at].running += 1;
                self.latest = call;
                self.active[at].maker.tell_started(Ok(()));
            }
            Err(_) if self.running.iter().any(Option::is_some) => {
                self.held.push_back(Held { call, number, job, ends: Vec::new() });
                (self.active[at].wish, self.is_full) = (Wish::default(), true);
                return false;
            }
            Err(error) => self.active[at].maker.tell_started(Err(error)),
        }
        true
    }

    /// Tells a call of an event, and has it go on. If it waits to hear of a job, it hears of that first.
    fn tell_event(&mut self, call: usize, event: Event) {
        if let Some(held) = self.held.iter_mut().find(|held| held.call == call) {
            held.ends.push(event);
        } else if let Some(at) = self.place(call) {
            self.active[at].maker.tell(event);
            self.go_on(at);
        }
    }

    fn take_end(&mut self, place: usize, ended: Ended) {
        let Some(running) = self.running.get_mut(place).and_then(Option::take) else { return };
        self.is_full = false;
        let Some(at) = self.place(running.call) else { return };
        let active = &mut self.active[at];
        active.running -= 1;
        self.count.commands += usize::from(!active.wish.plans);
        self.tell_event(running.call, Event::Ended(running.number, ended));
        self.progress.update(&self.count, &self.calls.name(self.latest), false);
    }

    /// Notes what became of a call.
    fn ended(&mut self, call: usize, made: Made) {
        let failed = made.status != 0 && !made.cancelled;
        let outcome = if made.cancelled {
            Outcome::Cancelled
        } else if failed {
            Outcome::Failure
        } else {
            Outcome::Success
        };
        if self.schedule.ended(call, outcome).is_err() {
            complain("zigrunk batch: the schedule refuses the end of a call");
            self.outcomes.status = 1;
        }
        self.count.ended += usize::from(!made.cancelled);
        self.count.failed += usize::from(failed);
        self.made[call] = (!made.cancelled).then_some(made);
        self.progress.update(
            &self.count,
            &self.calls.name(call),
            failed || self.count.ended == self.count.calls,
        );
    }

    /// Tells of the calls whose turn it is in the list.
    fn tell(&mut self) {
        loop {
            let told = self.schedule.told(self.first, self.count.calls);
            for call in self.first..told.end {
                self.tell_one(call);
            }
            self.first = told.end;
            if !matches!(told.status, PlanStatus::Failed) {
                return;
            }
        }
    }

    fn tell_one(&mut self, call: usize) {
        let Some(made) = self.made[call].take() else {
            self.outcomes.left += 1;
            return;
        };
        if made.status != 0 || made.said.iter().any(|(_, text)| !text.is_empty()) {
            self.progress.clear();
        }
        self.calls.told(call, &made);
        if self.outcomes.status == 0 {
            self.outcomes.status = made.status;
        }
    }

    /// Ends all jobs and calls by a signal.
    fn stop(&mut self, signal: i32) {
        self.machine.end_all(signal);
        self.running.clear();
        self.outcomes.signal = Some(signal);
        self.cancel(signal);
    }

    /// Ends all calls under way, none of whose jobs run any more.
    fn cancel(&mut self, signal: i32) {
        if let Some(call) = self.unbegun.take() {
            self.ended(call, Made { cancelled: true, ..Made::default() });
        }
        while let Some(active) = self.active.last() {
            if self.held.iter().any(|held| held.call == active.call) {
                self.held.retain(|held| held.call != active.call);
                active.maker.tell_started(Err(std::io::ErrorKind::Interrupted.into()));
            } else {
                active.maker.tell(Event::Signal(signal));
            }
            self.go_on(self.active.len() - 1);
        }
    }

    /// Tells of the calls behind one that was not made.
    fn end(mut self) -> Outcomes {
        self.progress.clear();
        if self.outcomes.signal.is_none() {
            for call in self.first..self.count.calls {
                self.tell_one(call);
            }
        }
        self.outcomes
    }
}

#[cfg(test)]
mod tests {
    use super::*;
    use crate::progress::Form;
    use crate::system::{INT, Status};
    use machine::jobs::Early;
    use machine::task::{Done, Task};
    use runner::run::{self, NoRule};
    use std::cell::Cell;
    use std::io;

    /// A machine whose jobs end in the order in which they start. A job's words are its name and its status.
    #[derive(Default)]
    struct Fake {
        wants: bool,
        running: VecDeque<(usize, Job)>,
        log: Vec<String>,
        most_at_once: usize,
        /// How many jobs may run before there is no process for another.
        most: Option<usize>,
        /// The signal that comes once so many jobs have started.
        signal: Option<(usize, i32)>,
        /// Whether it can't go on once a job runs.
        is_lost: bool,
    }

    impl Machine for Fake {
        fn want(&mut self, wants: bool) {
            self.wants = wants;
        }

        fn release(&mut self) {}

        fn plans(&mut self, _: bool) {}

        fn listen(&mut self, _: Option<usize>) {}

        fn early(&mut self) -> Option<&mut dyn Early> {
            None
        }

        fn next(&mut self) -> Event {
            if let Some((_, number)) = self
                .signal
                .take_if(|(count, _)| self.log.iter().filter(|line| line.starts_with('+')).count() >= *count)
            {
                return Event::Signal(number);
            }
            if self.is_lost && !self.running.is_empty() {
                return Event::Lost("as the test wants".into());
            }
            if self.wants {
                return Event::Slot;
            }
            let (number, job) = self.running.pop_front().expect("something runs");
            self.log.push(format!("-{}", job.words[0]));
            Event::Ended(
                number,
                Ended {
                    status: Status { code: job.words[1].parse().unwrap(), signal: None, dumped: false },
                    out: job.words[0].clone().into_bytes(),
                    errors: Vec::new(),
                    times: (1.0, 2.0),
                },
            )
        }

        fn start(&mut self, number: usize, job: &Job) -> io::Result<()> {
            if self.most.is_some_and(|most| self.running.len() >= most) {
                return Err(io::ErrorKind::WouldBlock.into());
            }
            self.log.push(format!("+{}", job.words[0]));
            self.running.push_back((number, job.clone()));
            self.most_at_once = self.most_at_once.max(self.running.len());
            Ok(())
        }

        fn end_all(&mut self, signal: i32) {
            self.log.push(format!("signal {signal}"));
            self.running.clear();
        }

        fn now(&self) -> f64 {
            1.0
        }
    }

    /// Calls whose commands run one after the other, or side by side: names and statuses.
    #[derive(Default)]
    struct Chains {
        calls: Vec<Vec<(&'static str, i32)>>,
        side_by_side: bool,
        /// Whether each call is planned first, by a job `p`.
        are_planned: bool,
        /// The call whose thread panics once its first job runs.
        panics: Option<usize>,
        /// The call for which there is no thread, and how often.
        without_thread: Cell<(usize, usize)>,
        told: Vec<String>,
    }

    impl Calls for Chains {
        fn name(&self, call: usize) -> String {
            call.to_string()
        }

        fn begin(&self, call: usize) -> io::Result<Maker<Made>> {
            let (of, times) = self.without_thread.get();
            if of == call && times > 0 {
                self.without_thread.set((of, times - 1));
                return Err(io::ErrorKind::WouldBlock.into());
            }
            let (commands, side_by_side, is_planned, panics) =
                (self.calls[call].clone(), self.side_by_side, self.are_planned, self.panics == Some(call));
            Maker::begin(move |turns| {
                if panics {
                    let job = Job { words: vec!["x".into(), "0".into()], ..Job::default() };
                    turns.want(true);
                    assert!(
                        !matches!(turns.next(), Event::Slot) || turns.start(0, &job).is_err(),
                        "as the test wants"
                    );
                }
                if is_planned {
                    turns.plans(true);
                    let job = Job { words: vec!["p".into(), "0".into()], ..Job::default() };
                    drop(run::run(turns, &mut NoRule, &[Task { job, ..Task::default() }], 1));
                    turns.plans(false);
                }
                let task = |(at, (name, status)): (usize, &(&str, i32))| Task {
                    job: Job { words: vec![(*name).to_owned(), status.to_string()], ..Job::default() },
                    needs: (0..if side_by_side { 0 } else { at }).collect(),
                    ..Task::default()
                };
                let tasks: Vec<Task> = commands.iter().enumerate().map(task).collect();
                let Ok(done) = run::run(turns, &mut NoRule, &tasks, 9) else {
                    return Made { cancelled: true, ..Made::default() };
                };
                let status = done
                    .iter()
                    .filter_map(|done| done.ended.as_ref())
                    .map(|ended| ended.status.code)
                    .find(|&code| code != 0);
                let said = done.into_iter().filter_map(|done: Done| Some((false, done.ended?.out))).collect();
                Made { status: status.unwrap_or(0), said, ..Made::default() }
            })
        }

        fn told(&mut self, call: usize, made: &Made) {
            let said: Vec<u8> = made.said.iter().flat_map(|(_, text)| text.clone()).collect();
            self.told.push(format!("{call}:{}:{}", made.status, String::from_utf8(said).unwrap()));
        }
    }

    /// What comes of calls: what the machine did, what is told, and the outcomes.
    fn run_all(
        machine: &mut Fake,
        calls: &[&[(&'static str, i32)]],
        at_once: usize,
        failures: Option<usize>,
    ) -> (String, String, Outcomes) {
        let chains = Chains { calls: calls.iter().map(|call| call.to_vec()).collect(), ..Chains::default() };
        run_chains(machine, chains, at_once, failures)
    }

    fn run_chains(
        machine: &mut Fake,
        mut chains: Chains,
        at_once: usize,
        failures: Option<usize>,
    ) -> (String, String, Outcomes) {
        let count = chains.calls.len();
        let limits = Limits { at_once, planned_at_once: at_once, failures };
        let outcomes =
            Graph::new(machine, &mut chains, count, limits, Progress::new(Form::Silent, io::sink()))
                .unwrap()
                .run();
        (machine.log.join(" "), chains.told.join(" "), outcomes)
    }

    #[test]
    fn calls_run_side_by_side_and_are_told_in_order() {
        let mut machine = Fake::default();
        let (log, told, outcomes) =
            run_all(&mut machine, &[&[("a", 0), ("b", 0)], &[("c", 0)], &[("d", 0)]], 2, None);
        assert_eq!((log.as_str(), told.as_str()), ("+a +c -a +b -c +d -b -d", "0:0:ab 1:0:c 2:0:d"));
        assert_eq!((outcomes, machine.most_at_once), (Outcomes::default(), 2));
    }

    #[test]
    fn a_later_call_begins_only_if_earlier_ones_have_nothing_to_start() {
        let mut machine = Fake::default();
        let (log, _, _) =
            run_all(&mut machine, &[&[("a", 0), ("b", 0)], &[("c", 0), ("d", 0)], &[("e", 0)]], 1, None);
        assert_eq!(log, "+a -a +b -b +c -c +d -d +e -e");
    }

    #[test]
    fn a_call_that_fails_does_not_stop_the_others() {
        let calls: [&[(&str, i32)]; 3] = [&[("a", 7), ("b", 0)], &[("c", 0)], &[("d", 5)]];
        let (log, told, outcomes) = run_all(&mut Fake::default(), &calls, 1, None);
        assert_eq!((log.as_str(), told.as_str()), ("+a -a +c -c +d -d", "0:7:a 1:0:c 2:5:d"));
        assert_eq!(outcomes, Outcomes { status: 7, ..Outcomes::default() });
        let (log, told, outcomes) = run_all(&mut Fake::default(), &calls, 1, Some(1));
        assert_eq!(
            (log.as_str(), told.as_str(), outcomes),
            ("+a -a", "0:7:a", Outcomes { status: 7, left: 2, ..Outcomes::default() })
        );
    }

    #[test]
    fn what_runs_comes_to_its_end_before_the_batch_stops() {
        let calls: [&[(&str, i32)]; 4] = [&[("a", 0), ("x", 0)], &[("b", 6)], &[("c", 0)], &[("d", 0)]];
        let (log, told, outcomes) = run_all(&mut Fake::default(), &calls, 3, Some(1));
        assert_eq!(log, "+a +b +c -a +x -b -c -x");
        assert_eq!(
            (told.as_str(), outcomes),
            ("0:0:ax 1:6:b 2:0:c", Outcomes { status: 6, left: 1, ..Outcomes::default() })
        );
    }

    #[test]
    fn a_signal_ends_all_calls() {
        let mut machine = Fake { signal: Some((2, INT)), ..Fake::default() };
        let (log, told, outcomes) =
            run_all(&mut machine, &[&[("a", 0), ("b", 0)], &[("c", 0)], &[("d", 0)]], 2, None);
        assert_eq!((log.as_str(), told.as_str(), outcomes.signal), ("+a +c signal 2", "", Some(INT)));
    }

    #[test]
    fn a_job_without_a_process_waits_for_one() {
        let mut machine = Fake { most: Some(1), ..Fake::default() };
        let (log, told, _) =
            run_all(&mut machine, &[&[("a", 0), ("b", 0)], &[("c", 0)], &[("d", 0)]], 3, None);
        assert_eq!((machine.most_at_once, told.as_str()), (1, "0:0:ab 1:0:c 2:0:d"), "{log}");
    }

    #[test]
    fn a_call_that_waits_for_a_process_hears_later_of_jobs_that_end() {
        for most in 1..4 {
            let mut machine = Fake { most: Some(most), ..Fake::default() };
            let chains = Chains {
                calls: vec![vec![("a", 0), ("b", 0), ("c", 0)], vec![("d", 0), ("e", 0)]],
                side_by_side: true,
                ..Chains::default()
            };
            let (log, told, outcomes) = run_chains(&mut machine, chains, 9, None);
            assert_eq!(
                (told.as_str(), machine.most_at_once, outcomes),
                ("0:0:abc 1:0:de", most, Outcomes::default()),
                "{log}"
            );
        }
    }

    #[test]
    fn a_call_without_a_thread_waits_for_the_end_of_a_job() {
        let calls = || vec![vec![("a", 0)], vec![("b", 0), ("c", 0)], vec![("d", 0)]];
        let chains = Chains { calls: calls(), without_thread: Cell::new((2, 1)), ..Chains::default() };
        let (log, told, outcomes) = run_chains(&mut Fake::default(), chains, 2, None);
        assert_eq!((log.as_str(), told.as_str()), ("+a +b -a -b +c +d -c -d", "0:0:a 1:0:bc 2:0:d"));
        assert_eq!(outcomes, Outcomes::default());
        let chains = Chains { calls: calls(), without_thread: Cell::new((0, 1)), ..Chains::default() };
        let (_, told, outcomes) = run_chains(&mut Fake::default(), chains, 2, None);
        assert_eq!(
            (told.split('\n').next(), outcomes.status),
            (Some("0:1:zigrunk batch: no thread for a call: operation would block"), 1)
        );
    }

    #[test]
    fn a_terminals_line_goes_with_the_batch() {
        let (mut machine, mut said) = (Fake::default(), Vec::new());
        let mut chains = Chains { calls: vec![vec![("", 0)]], ..Chains::default() };
        let limits = Limits { at_once: 1, planned_at_once: 1, failures: None };
        let outcomes =
            Graph::new(&mut machine, &mut chains, 1, limits, Progress::new(Form::Terminal, &mut said))
                .unwrap()
                .run();
        let text = String::from_utf8(said).unwrap();
        assert!(
            outcomes == Outcomes::default() && text.contains("1 of 1 calls") && text.ends_with("\r\x1b[K"),
            "{text:?}"
        );
    }

    #[test]
    fn so_many_calls_are_planned_at_once() {
        let planned = |planned_at_once| {
            let (mut machine, mut said) = (Fake::default(), Vec::new());
            let mut chains = Chains {
                calls: vec![vec![("a", 0)], vec![("b", 0)], vec![("c", 0)]],
                are_planned: true,
                ..Chains::default()
            };
            let limits = Limits { at_once: 4, planned_at_once, failures: None };
            let outcomes =
                Graph::new(&mut machine, &mut chains, 3, limits, Progress::new(Form::Lines, &mut said))
                    .unwrap()
                    .run();
            let said = String::from_utf8(said).unwrap();
            // (it says how many a second, too, if it took a second)
            let is_last = |line: &str| {
                line.starts_with("zigrunk batch: 3 of 3 calls, 3 commands") && line.ends_with(": 2")
            };
            assert!(outcomes == Outcomes::default() && said.lines().last().is_some_and(is_last), "{said}");
            machine.log.join(" ")
        };
        assert_eq!(
            [1, 2].map(planned),
            ["+p -p +a +p -a -p +b +p -b -p +c -c", "+p +p -p +a +p -p +b -a -p +c -b -c"]
        );
    }

    #[test]
    fn a_call_whose_thread_panics_fails_alone() {
        let calls = || vec![vec![("a", 0)], vec![("b", 0)], vec![("c", 0)]];
        let chains = Chains { calls: calls(), panics: Some(1), ..Chains::default() };
        let (log, told, outcomes) = run_chains(&mut Fake::default(), chains, 2, None);
        assert_eq!(
            (log.as_str(), told.as_str(), outcomes.status),
            ("+a +x -a +c -x -c", "0:0:a 1:1: 2:0:c", 1)
        );
    }

    #[test]
    fn a_batch_ends_with_its_machine() {
        let mut machine = Fake { is_lost: true, ..Fake::default() };
        let (log, told, outcomes) = run_all(&mut machine, &[&[("a", 0)], &[("b", 0)]], 2, None);
        assert_eq!((log.as_str(), told.as_str()), ("+a signal 15", ""));
        assert_eq!(outcomes, Outcomes { signal: Some(TERM), lost: true, ..Outcomes::default() });
    }

    #[test]
    fn nothing_is_an_empty_batch() {
        assert_eq!(run_all(&mut Fake::default(), &[], 3, None).2, Outcomes::default());
    }
}
