//! Schedules: each call with right and wrong numbers, and random ones followed to their end beside a scheduler of the test's own.

mod stored;

use stored::Stored;
use zigrunk::schedule::{AfterFailure, BadGraph, CommandState, Outcome, PlanStatus, Refused, Schedule, ScheduledCommand, Told};
use zigrunk::{Command, CommandTool, FoundProgram, Lookup, PlanCall, lookups, plan};

const SETTINGS: [AfterFailure; 3] = [AfterFailure::StartNothing, AfterFailure::StartEarlier, AfterFailure::GoOn];

fn command(needs: &[usize], priority: usize) -> ScheduledCommand {
    ScheduledCommand { needs: needs.to_vec(), priority }
}

fn schedule(needs: &[&[usize]], slots: usize, after_failure: AfterFailure) -> Schedule {
    Schedule::new(needs.iter().map(|it| command(it, 0)), slots, after_failure).unwrap()
}

fn told(commands: std::ops::Range<usize>, status: PlanStatus) -> Told {
    Told { commands, status }
}

#[test]
fn events() {
    let mut it = schedule(&[&[], &[], &[0, 1]], 2, AfterFailure::StartEarlier);
    assert_eq!((it.len(), it.is_empty(), it.running(), it.is_over(), it.next()), (3, false, 0, false, Some(0)));
    assert_eq!(it.started(3), Err(Refused::NoSuchCommand));
    assert_eq!(it.started(2), Err(Refused::NeedsUnmet));
    assert_eq!(it.ended(usize::MAX, Outcome::Success), Err(Refused::NoSuchCommand));
    assert_eq!(it.ended(0, Outcome::Success), Err(Refused::NotRunning));
    it.started(1).unwrap();
    assert_eq!(it.started(1), Err(Refused::StartedBefore));
    assert!(it.start_ready().eq([0]));
    assert_eq!((it.running(), it.next(), it.start_next()), (2, None, None));
    it.ended(1, Outcome::Success).unwrap();
    assert_eq!(it.told(0..3), told(0..0, PlanStatus::Unfinished));
    it.ended(0, Outcome::Success).unwrap();
    assert_eq!((it.told(0..3), it.told(0..2)), (told(0..2, PlanStatus::Unfinished), told(0..2, PlanStatus::Succeeded)));
    assert_eq!(it.start_next(), Some(2));
    it.ended(2, Outcome::Failure).unwrap();
    assert_eq!((it.is_over(), it.next(), it.told(2..3)), (true, None, told(2..3, PlanStatus::Failed)));
    assert_eq!((it.state(0), it.state(2), it.state(3)), (Some(CommandState::Succeeded), Some(CommandState::Failed), None));
    assert_eq!(format!("{it:?}"), "[Succeeded, Succeeded, Failed]");
}

#[test]
fn what_a_failure_holds_back() {
    for (after_failure, outcome) in SETTINGS.into_iter().flat_map(|it| [(it, Outcome::Failure), (it, Outcome::Cancelled)]) {
        let mut it = schedule(&[&[], &[], &[]], 1, after_failure);
        it.started(1).unwrap();
        assert_eq!(it.started(0), Err(Refused::NoSlot));
        it.ended(1, outcome).unwrap();
        let is_stopped = after_failure == AfterFailure::StartNothing;
        assert_eq!((it.is_over(), it.next()), (is_stopped, (!is_stopped).then_some(0)));
        let expected = if after_failure == AfterFailure::GoOn { Ok(()) } else { Err(Refused::HeldBack) };
        assert_eq!(it.started(2), expected);
        assert_eq!(it.told(1..3).commands.end, if outcome == Outcome::Failure { 2 } else { 1 });
    }
}

#[test]
fn graphs() {
    let new = |needs: &[usize], slots| Schedule::new([command(&[], 1), command(needs, 2)], slots, AfterFailure::GoOn);
    assert_eq!(new(&[0], 0).unwrap_err(), BadGraph::NoSlot);
    for late in [1, 2, usize::MAX] {
        assert_eq!(new(&[0, late], 1).unwrap_err(), BadGraph::NeedsLater { command: 1 });
    }
    assert_eq!(new(&[], 1).unwrap().next(), Some(1));
    let mut empty = Schedule::new([], 1, AfterFailure::GoOn).unwrap();
    assert_eq!((empty.is_empty(), empty.is_over(), empty.start_next()), (true, true, None));
    assert_eq!(empty.told(0..0), told(0..0, PlanStatus::Succeeded));
}

/// A sequence of numbers that looks random and is always the same.
struct Lot(u64);

impl Lot {
    fn below(&mut self, limit: usize) -> usize {
        self.0 ^= self.0 << 13;
        self.0 ^= self.0 >> 7;
        self.0 ^= self.0 << 17;
        usize::try_from(self.0 % limit as u64).unwrap()
    }
}

/// The command that a scheduler of the test's own would start next.
fn expected_next(commands: &[ScheduledCommand], it: &Schedule, slots: usize, after_failure: AfterFailure) -> Option<usize> {
    let state = |command: usize| it.state(command).unwrap();
    let is_bad = |command: &usize| matches!(state(*command), CommandState::Failed | CommandState::Cancelled);
    let count = commands.len();
    let limit = match (after_failure, (0..count).find(is_bad)) {
        (AfterFailure::GoOn, _) | (_, None) => count,
        (AfterFailure::StartNothing, _) => 0,
        (AfterFailure::StartEarlier, Some(bad)) => bad,
    };
    let is_met = |command: &usize| commands[*command].needs.iter().all(|it| state(*it) == CommandState::Succeeded);
    let ready = (0..limit).filter(|it| state(*it) == CommandState::NotStarted).filter(is_met);
    let running = (0..count).filter(|it| state(*it) == CommandState::Running).count();
    assert_eq!(it.running(), running);
    if running < slots { ready.rev().max_by_key(|it| commands[*it].priority) } else { None }
}

#[test]
fn random_schedules() {
    let mut lot = Lot(0x9E37_79B9_7F4A_7C15);
    for _ in 0..2000 {
        let count = lot.below(12) + 1;
        let needs = |it: usize, lot: &mut Lot| if it == 0 { vec![] } else { (0..lot.below(4)).map(|_| lot.below(it)).collect() };
        let commands: Vec<_> =
            (0..count).map(|it| ScheduledCommand { needs: needs(it, &mut lot), priority: lot.below(3) }).collect();
        let (slots, after_failure) = (lot.below(3) + 1, SETTINGS[lot.below(3)]);
        let mut it = Schedule::new(commands.clone(), slots, after_failure).unwrap();
        let mut events = 0;
        while !it.is_over() {
            let next = expected_next(&commands, &it, slots, after_failure);
            assert_eq!(it.next(), next);
            let runs: Vec<_> = (0..count).filter(|command| it.state(*command) == Some(CommandState::Running)).collect();
            if next.is_some() && (runs.is_empty() || lot.below(2) == 0) {
                assert_eq!(it.start_next(), next);
            } else {
                let outcome = [Outcome::Failure, Outcome::Cancelled, Outcome::Success][lot.below(12).min(2)];
                it.ended(runs[lot.below(runs.len())], outcome).unwrap();
            }
            events += 1;
        }
        assert_eq!(expected_next(&commands, &it, slots, after_failure), None);
        assert!(events <= 2 * count);
    }
}

/// What the commands of the heaviest chain that begins with this one weigh, by a search through all chains.
fn heaviest(plan: &[Command<'_>], number: usize) -> usize {
    let own = match (plan[number].tool().unwrap(), plan[number].arguments().any(|it| it == "-E")) {
        (CommandTool::CudaFe, _) => 41,
        (CommandTool::Cicc, _) => 33,
        (CommandTool::Ptxas, _) => 2,
        (CommandTool::Host, preprocesses) => {
            if preprocesses {
                11
            } else {
                38
            }
        }
        _ => 1,
    };
    let behind = (number + 1..plan.len()).filter(|it| plan[*it].needs().contains(&number));
    own + behind.map(|it| heaviest(plan, it)).max().unwrap_or(0)
}

#[test]
fn plans_by_weight() {
    for Stored { name, dry1, dry2, flag, plan: printed } in stored::calls() {
        let found = |it: Lookup| FoundProgram { found: Some(format!("/b/{}", it.program)), lookup: it };
        let programs: Vec<_> = lookups(&dry1, &dry2, "/w".as_ref(), None).unwrap().into_iter().map(found).collect();
        let call = PlanCall { flag: &flag, ..PlanCall::new(&dry1, &dry2, &programs).at("/w", "/t") };
        let plan = plan(&call).unwrap();
        let commands: Vec<_> = plan.commands().collect();
        let weighed = |(number, it): (usize, &Command<'_>)| ScheduledCommand {
            needs: it.needs().to_vec(),
            priority: heaviest(&commands, number),
        };
        let weighed: Vec<_> = commands.iter().enumerate().map(weighed).collect();
        let mut it = Schedule::of_plans([&plan], 1, AfterFailure::GoOn).unwrap();
        let mut started = Vec::new();
        while let Some(number) = expected_next(&weighed, &it, 1, AfterFailure::GoOn) {
            assert_eq!(it.start_next(), Some(number), "{name}");
            it.ended(number, Outcome::Success).unwrap();
            started.push(number);
        }
        let lines = printed.lines().filter(|it| !it.starts_with("group") && !it.starts_with("dropped"));
        assert_eq!((it.is_over(), started.len()), (true, lines.count()), "{name}");
        assert!(name != "two_targets" || started == [0, 1, 2, 5, 3, 6, 4, 7, 8, 9], "{started:?}");
    }
}
