//! Schedules: which command of a plan may start next, what a failure means, and which outputs may be printed.
//!
//! A [`Schedule`] starts no process. You say what happened, and it says what to do next.
use crate::error::{Error, ErrorKind};
use crate::memory::OutOfMemory;
use crate::plan::{Command, CommandTool, Plan};
use rattle_std::alloc::{AllocError, Global};
use rattle_std::vec::Vec as List;
use schedules::{CommandKind, chain_weights, usual_weight};
use std::fmt;
use std::iter::FusedIterator;
use std::ops::Range;

/// What may start after a command failed or was cancelled.
#[derive(Debug, Clone, Copy, PartialEq, Eq, Hash)]
pub enum AfterFailure {
    /// Nothing.
    StartNothing,
    /// Only commands before it. Then you print what the commands print one after the other, up to the first
    /// that fails.
    StartEarlier,
    /// Each command whose needs have all succeeded.
    GoOn,
}

impl AfterFailure {
    /// All of them, by their numbers in other languages.
    pub const ALL: [AfterFailure; 3] =
        [AfterFailure::StartNothing, AfterFailure::StartEarlier, AfterFailure::GoOn];
}

/// How a command ended.
#[derive(Debug, Clone, Copy, PartialEq, Eq, Hash)]
pub enum Outcome {
    /// It succeeded.
    Success,
    /// It failed.
    Failure,
    /// You ended it. It holds others back as a failure does, but its output isn't printed.
    Cancelled,
}

impl Outcome {
    /// All of them, by their numbers in other languages.
    pub const ALL: [Outcome; 3] = [Outcome::Success, Outcome::Failure, Outcome::Cancelled];
}

/// What has become of a command.
#[derive(Debug, Clone, Copy, PartialEq, Eq, Hash)]
pub enum CommandState {
    /// It hasn't started.
    NotStarted,
    /// It runs.
    Running,
    /// It succeeded.
    Succeeded,
    /// It failed.
    Failed,
    /// You ended it.
    Cancelled,
}

/// How a plan has come out so far.
#[derive(Debug, Clone, Copy, PartialEq, Eq, Hash)]
pub enum PlanStatus {
    /// Not all of it may be printed yet.
    Unfinished,
    /// Each command succeeded.
    Succeeded,
    /// The last command that may be printed failed, and nothing is printed after it.
    Failed,
}

/// Which outputs may be printed.
#[derive(Debug, Clone, PartialEq, Eq, Hash)]
pub struct Told {
    /// The commands whose outputs may be printed, in this order.
    pub commands: Range<usize>,
    /// How the plan has come out.
    pub status: PlanStatus,
}

/// Why an event makes no sense. The schedule is unchanged.
#[derive(Debug, Clone, Copy, PartialEq, Eq, Hash)]
pub enum Refused {
    /// No command has this number.
    NoSuchCommand,
    /// The command has started before.
    StartedBefore,
    /// Not all that the command needs have succeeded.
    NeedsUnmet,
    /// Another command failed or was cancelled, so this one may not start.
    HeldBack,
    /// As many commands run as may.
    NoSlot,
    /// The command doesn't run, so it can't have ended.
    NotRunning,
}

impl fmt::Display for Refused {
    fn fmt(&self, f: &mut fmt::Formatter<'_>) -> fmt::Result {
        f.write_str(match self {
            Refused::NoSuchCommand => "no command has this number",
            Refused::StartedBefore => "the command has started before",
            Refused::NeedsUnmet => "not all that the command needs have succeeded",
            Refused::HeldBack => "a failure holds the command back",
            Refused::NoSlot => "as many commands run as may",
            Refused::NotRunning => "the command doesn't run",
        })
    }
}

impl std::error::Error for Refused {}

/// Why there is no schedule of a graph.
#[derive(Debug, Clone, Copy, PartialEq, Eq, Hash)]
pub enum BadGraph {
    /// There are no slots, so no command could ever run.
    NoSlot,
    /// The command needs one that isn't earlier than itself.
    NeedsLater {
        /// The number of the command.
        command: usize,
    },
    /// An allocation failed.
    OutOfMemory,
}

impl fmt::Display for BadGraph {
    fn fmt(&self, f: &mut fmt::Formatter<'_>) -> fmt::Result {
        match self {
            BadGraph::NoSlot => f.write_str("there are no slots"),
            BadGraph::NeedsLater { command } => write!(f, "command {command} needs one that isn't earlier"),
            BadGraph::OutOfMemory => f.write_str("out of memory"),
        }
    }
}

impl std::error::Error for BadGraph {}

impl From<BadGraph> for Error {
    fn from(bad: BadGraph) -> Error {
        match bad {
            BadGraph::OutOfMemory => ErrorKind::OutOfMemory.into(),
            BadGraph::NoSlot | BadGraph::NeedsLater { .. } => ErrorKind::BadNumber.into(),
        }
    }
}

/// A command of a schedule.
#[derive(Debug, Clone, Default, PartialEq, Eq)]
pub struct ScheduledCommand {
    /// The numbers of the commands that have to succeed before it starts, all smaller than its own.
    pub needs: Vec<usize>,
    /// Of those that may start, the one with the greatest priority is next, and of equal ones the first.
    pub priority: usize,
}

impl From<OutOfMemory> for BadGraph {
    fn from(_: OutOfMemory) -> BadGraph {
        BadGraph::OutOfMemory
    }
}

impl From<AllocError> for BadGraph {
    fn from(_: AllocError) -> BadGraph {
        BadGraph::OutOfMemory
    }
}

impl From<schedules::BadGraph> for BadGraph {
    fn from(bad: schedules::BadGraph) -> BadGraph {
        match bad {
            schedules::BadGraph::NeedsLater { command } => BadGraph::NeedsLater { command },
            schedules::BadGraph::Memory => BadGraph::OutOfMemory,
            // (there are as many priorities as commands)
            schedules::BadGraph::NoSlot | schedules::BadGraph::Priorities => BadGraph::NoSlot,
        }
    }
}

impl From<schedules::Refused> for Refused {
    fn from(refused: schedules::Refused) -> Refused {
        match refused {
            schedules::Refused::NoSuchCommand => Refused::NoSuchCommand,
            schedules::Refused::StartedBefore => Refused::StartedBefore,
            schedules::Refused::NeedsUnmet => Refused::NeedsUnmet,
            schedules::Refused::HeldBack => Refused::HeldBack,
            schedules::Refused::NoSlot => Refused::NoSlot,
            schedules::Refused::NotRunning => Refused::NotRunning,
        }
    }
}

/// The kind of a command, by which its usual time goes.
fn kind_of(command: Command<'_>) -> CommandKind {
    match command.tool() {
        Some(CommandTool::CudaFe) => CommandKind::CudaFe,
        Some(CommandTool::Cicc) => CommandKind::Cicc,
        Some(CommandTool::Ptxas) => CommandKind::Ptxas,
        Some(CommandTool::Host) if command.preprocesses() => CommandKind::Preprocess,
        Some(CommandTool::Host) => CommandKind::HostCompile,
        _ => CommandKind::Other,
    }
}

/// Commands for a schedule: what each needs, and its priority.
struct Graph {
    needs: List<List<usize>>,
    priorities: List<usize>,
}

impl Graph {
    fn new() -> Graph {
        Graph { needs: List::new(Global), priorities: List::new(Global) }
    }

    fn push(&mut self, needs: impl ExactSizeIterator<Item = usize>, priority: usize) -> Result<(), BadGraph> {
        let mut row = List::with_capacity(Global, needs.len())?;
        for need in needs {
            row.push(need).map_err(AllocError::from)?;
        }
        self.needs.push(row).map_err(AllocError::from)?;
        Ok(self.priorities.push(priority).map_err(AllocError::from)?)
    }

    fn schedule(self, slots: usize, after_failure: AfterFailure) -> Result<Schedule, BadGraph> {
        let after_failure = match after_failure {
            AfterFailure::StartNothing => schedules::AfterFailure::StartNothing,
            AfterFailure::StartEarlier => schedules::AfterFailure::StartEarlier,
            AfterFailure::GoOn => schedules::AfterFailure::GoOn,
        };
        Ok(Schedule {
            inner: schedules::Schedule::new(Global, self.needs, self.priorities, slots, after_failure)?,
        })
    }
}

/// Which commands of a plan, or of several, may start next, and what has become of each. Commands are
/// numbered from 0.
pub struct Schedule {
    inner: schedules::Schedule,
}

impl Schedule {
    /// A schedule of commands of which none has started. At most `slots` run at once.
    ///
    /// # Errors
    ///
    /// [`BadGraph`].
    pub fn new(
        commands: impl IntoIterator<Item = ScheduledCommand>,
        slots: usize,
        after_failure: AfterFailure,
    ) -> Result<Self, BadGraph> {
        let mut graph = Graph::new();
        for command in commands {
            graph.push(command.needs.into_iter(), command.priority)?;
        }
        graph.schedule(slots, after_failure)
    }

    /// A schedule of the commands of plans, the numbers of each behind those of the plans before it. The
    /// plans have to touch different files. Of the commands that may start, the one is next for which others
    /// wait longest, by how long such commands usually take.
    ///
    /// # Errors
    ///
    /// [`BadGraph`].
    pub fn of_plans<'a>(
        plans: impl IntoIterator<Item = &'a Plan>,
        slots: usize,
        after_failure: AfterFailure,
    ) -> Result<Self, BadGraph> {
        let mut graph = Graph::new();
        for plan in plans {
            let first = graph.needs.len();
            for command in plan.commands() {
                graph
                    .push(command.needs().iter().map(|need| first + need), usual_weight(kind_of(command)))?;
            }
        }
        graph.priorities = chain_weights(Global, &graph.needs, &graph.priorities)?;
        graph.schedule(slots, after_failure)
    }

    /// How many commands there are.
    #[must_use]
    pub fn len(&self) -> usize {
        self.inner.len()
    }

    /// Whether there is no command.
    #[must_use]
    pub fn is_empty(&self) -> bool {
        self.len() == 0
    }

    /// How many commands run.
    #[must_use]
    pub fn running(&self) -> usize {
        self.inner.running()
    }

    /// Whether nothing runs and nothing may start.
    #[must_use]
    pub fn is_over(&self) -> bool {
        self.inner.over()
    }

    /// What has become of a command, if there is one with this number.
    #[must_use]
    pub fn state(&self, command: usize) -> Option<CommandState> {
        Some(match self.inner.state(command)? {
            schedules::CommandState::NotStarted => CommandState::NotStarted,
            schedules::CommandState::Running => CommandState::Running,
            schedules::CommandState::Succeeded => CommandState::Succeeded,
            schedules::CommandState::Failed => CommandState::Failed,
            schedules::CommandState::Cancelled => CommandState::Cancelled,
        })
    }

    /// The command that may start next: not started, all that it needs have succeeded, no failure holds it
    /// back, and fewer run than there are slots.
    #[must_use]
    pub fn next(&self) -> Option<usize> {
        self.inner.next()
    }

    /// Notes that a command has started.
    ///
    /// # Errors
    ///
    /// [`Refused`] if it may not start now.
    pub fn started(&mut self, command: usize) -> Result<(), Refused> {
        Ok(self.inner.started(command)?)
    }

    /// Notes that a command has ended.
    ///
    /// # Errors
    ///
    /// [`Refused`] if it doesn't run.
    pub fn ended(&mut self, command: usize, outcome: Outcome) -> Result<(), Refused> {
        let outcome = match outcome {
            Outcome::Success => schedules::Outcome::Success,
            Outcome::Failure => schedules::Outcome::Failure,
            Outcome::Cancelled => schedules::Outcome::Cancelled,
        };
        Ok(self.inner.ended(command, outcome)?)
    }

    /// The command that may start next, which is noted as started.
    pub fn start_next(&mut self) -> Option<usize> {
        let command = self.next()?;
        self.started(command).ok().map(|()| command)
    }

    /// All that may start now, one after the other, each noted as started when the iterator gives it.
    pub fn start_ready(&mut self) -> StartReady<'_> {
        StartReady { schedule: self }
    }

    /// Which outputs of the commands with these numbers, of one plan or of what hasn't been printed of it,
    /// may be printed now: those up to the first that hasn't succeeded, and its own if it failed.
    #[must_use]
    pub fn told(&self, commands: Range<usize>) -> Told {
        let told = self.inner.told(commands.start, commands.end);
        let status = match told.status {
            schedules::PlanStatus::Unfinished => PlanStatus::Unfinished,
            schedules::PlanStatus::Succeeded => PlanStatus::Succeeded,
            schedules::PlanStatus::Failed => PlanStatus::Failed,
        };
        Told { commands: commands.start..told.end, status }
    }
}

impl fmt::Debug for Schedule {
    fn fmt(&self, f: &mut fmt::Formatter<'_>) -> fmt::Result {
        f.debug_list().entries((0..self.len()).filter_map(|it| self.state(it))).finish()
    }
}

/// Starts all that may start: see [`Schedule::start_ready`].
#[derive(Debug)]
#[must_use = "it starts nothing unless you take what it gives"]
pub struct StartReady<'a> {
    schedule: &'a mut Schedule,
}

impl Iterator for StartReady<'_> {
    type Item = usize;

    fn next(&mut self) -> Option<usize> {
        self.schedule.start_next()
    }
}

impl FusedIterator for StartReady<'_> {}
