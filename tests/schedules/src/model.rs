//! The definition of a schedule, as its documentation has it: every question is answered by a look at all commands.

use schedules::{AfterFailure, CommandState, Outcome, PlanStatus, Refused, Schedule};
use std::mem::discriminant;

/// Sets a seed, and draws numbers by xorshift.
pub struct Lot(pub u64);

impl Lot {
    /// A number below a bound.
    pub fn below(&mut self, bound: usize) -> usize {
        self.0 ^= self.0 << 13;
        self.0 ^= self.0 >> 7;
        self.0 ^= self.0 << 17;
        usize::try_from(self.0 % bound as u64).expect("it is below a usize")
    }
}

#[derive(Clone, Debug)]
pub struct Graph {
    pub needs: Vec<Vec<usize>>,
    pub priorities: Vec<usize>,
    pub slots: usize,
    pub after_failure: AfterFailure,
}

/// What a caller notes.
#[derive(Clone, Copy, Debug)]
pub enum Event {
    Start(usize),
    End(usize, Outcome),
}

#[derive(Clone, Debug)]
pub struct Model<'a> {
    pub graph: &'a Graph,
    pub states: Vec<CommandState>,
}

fn is_bad(state: CommandState) -> bool {
    matches!(state, CommandState::Failed | CommandState::Cancelled)
}

/// Whether two values of an enum without fields are the same, or both are missing.
pub fn same<T>(a: Option<T>, b: Option<T>) -> bool {
    a.map(|it| discriminant(&it)) == b.map(|it| discriminant(&it))
}

impl<'a> Model<'a> {
    pub fn new(graph: &'a Graph) -> Model<'a> {
        Model { graph, states: vec![CommandState::NotStarted; graph.needs.len()] }
    }

    pub fn running(&self) -> usize {
        self.states.iter().filter(|it| matches!(it, CommandState::Running)).count()
    }

    fn is_held_back(&self, command: usize) -> bool {
        match self.graph.after_failure {
            AfterFailure::StartNothing => self.states.iter().any(|&it| is_bad(it)),
            AfterFailure::StartEarlier => self.states[..command].iter().any(|&it| is_bad(it)),
            AfterFailure::GoOn => false,
        }
    }

    fn is_met(&self, command: usize) -> bool {
        self.graph.needs[command].iter().all(|&need| matches!(self.states[need], CommandState::Succeeded))
    }

    fn start_refusal(&self, command: usize) -> Option<Refused> {
        if command >= self.states.len() {
            Some(Refused::NoSuchCommand)
        } else if !matches!(self.states[command], CommandState::NotStarted) {
            Some(Refused::StartedBefore)
        } else if !self.is_met(command) {
            Some(Refused::NeedsUnmet)
        } else if self.is_held_back(command) {
            Some(Refused::HeldBack)
        } else if self.running() >= self.graph.slots {
            Some(Refused::NoSlot)
        } else {
            None
        }
    }

    pub fn refusal(&self, event: Event) -> Option<Refused> {
        match event {
            Event::Start(command) => self.start_refusal(command),
            Event::End(command, _) if command >= self.states.len() => Some(Refused::NoSuchCommand),
            Event::End(command, _) if !matches!(self.states[command], CommandState::Running) => Some(Refused::NotRunning),
            Event::End(..) => None,
        }
    }

    pub fn may_start(&self) -> Vec<usize> {
        (0..self.states.len()).filter(|&it| self.start_refusal(it).is_none()).collect()
    }

    pub fn next(&self) -> Option<usize> {
        self.may_start().into_iter().rev().max_by_key(|&it| self.graph.priorities[it])
    }

    pub fn is_over(&self) -> bool {
        self.running() == 0 && self.next().is_none()
    }

    pub fn note(&mut self, event: Event) {
        let (command, state) = match event {
            Event::Start(command) => (command, CommandState::Running),
            Event::End(command, Outcome::Success) => (command, CommandState::Succeeded),
            Event::End(command, Outcome::Failure) => (command, CommandState::Failed),
            Event::End(command, Outcome::Cancelled) => (command, CommandState::Cancelled),
        };
        self.states[command] = state;
    }

    /// The end of what may be printed of the commands from `first` up to `end`, and the status.
    pub fn told(&self, first: usize, end: usize) -> (usize, PlanStatus) {
        for command in first..end.min(self.states.len()) {
            match self.states[command] {
                CommandState::Succeeded => {}
                CommandState::Failed => return (command + 1, PlanStatus::Failed),
                _ => return (command, PlanStatus::Unfinished),
            }
        }
        (first.max(end.min(self.states.len())), PlanStatus::Succeeded)
    }

    /// What the schedule says otherwise than the definition, if anything.
    pub fn difference(&self, schedule: &Schedule) -> Option<String> {
        let count = self.states.len();
        if schedule.next() != self.next() {
            return Some(format!("next is {:?}, not {:?}", schedule.next(), self.next()));
        }
        if (schedule.running(), schedule.over(), schedule.len()) != (self.running(), self.is_over(), count) {
            return Some(format!("{} run, over: {}", schedule.running(), schedule.over()));
        }
        for command in 0..count {
            if !same(schedule.state(command), Some(self.states[command])) {
                return Some(format!("{command} is {:?}", schedule.state(command)));
            }
        }
        for (first, end) in [(0, count), (0, count / 2), (count / 2, count), (count, count + 3), (count + 1, 0)] {
            let (told, (last, status)) = (schedule.told(first, end), self.told(first, end));
            if told.end != last || !same(Some(told.status), Some(status)) {
                return Some(format!("printed of {first} to {end}: {told:?}, not {last} {status:?}"));
            }
        }
        schedule.state(count).map(|state| format!("a command too many is {state:?}"))
    }
}
