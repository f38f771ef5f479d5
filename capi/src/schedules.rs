//! Schedules of commands.
use crate::given::{ZIGRUNK_ALL, collected, elements, meant};
use crate::made::{Room, answer, freed, give, zigrunk_error, zigrunk_made};
use crate::plans::zigrunk_plan;
use call::schedule::{AfterFailure, Outcome, Refused, Schedule, ScheduledCommand};
use call::{Error, listed};

/// After a failure nothing starts.
pub const ZIGRUNK_START_NOTHING: u32 = 0;
/// Only commands before it: then you print what nvcc prints, up to the first failure.
pub const ZIGRUNK_START_EARLIER: u32 = 1;
/// Each command whose needs have all succeeded.
pub const ZIGRUNK_GO_ON: u32 = 2;

/// A command has succeeded.
pub const ZIGRUNK_SUCCEEDED: u32 = 0;
/// It has failed.
pub const ZIGRUNK_FAILED: u32 = 1;
/// You ended it: it holds others back as a failure does, but its output isn't printed.
pub const ZIGRUNK_CANCELLED: u32 = 2;

/// Not all of a plan may be printed yet.
pub const ZIGRUNK_UNFINISHED: u32 = 0;
/// Each command succeeded.
pub const ZIGRUNK_ALL_SUCCEEDED: u32 = 1;
/// The last command that may be printed failed, and nothing is printed after it.
pub const ZIGRUNK_ONE_FAILED: u32 = 2;

/// No command has this number.
pub const ZIGRUNK_NO_SUCH_COMMAND: i32 = 1;
/// The command doesn't run, so it can't have ended.
pub const ZIGRUNK_NOT_RUNNING: i32 = 2;
/// An outcome or an end has no meaning.
pub const ZIGRUNK_NO_OUTCOME: i32 = 3;

/// A command of a schedule that is of no plan.
#[repr(C)]
pub struct zigrunk_scheduled_command {
    /// The numbers of the commands that have to succeed before it starts, all smaller than its own.
    pub needs: *const usize,
    /// How many there are.
    pub needs_count: usize,
    /// Of those that may start, the one with the greatest priority is next, and of equal ones the first.
    pub priority: usize,
}

/// What to run: the commands of plans, the numbers of each behind those of the plans before it, or other
/// commands.
#[repr(C)]
pub struct zigrunk_schedule_call {
    /// Plans that touch different files.
    pub plans: *const *const zigrunk_plan,
    /// How many there are.
    pub plans_count: usize,
    /// If there is no plan: commands.
    pub commands: *const zigrunk_scheduled_command,
    /// How many there are.
    pub commands_count: usize,
    /// How many commands may run at once, at least 1.
    pub slots: usize,
    /// `ZIGRUNK_START_NOTHING` ..
    pub after_failure: u32,
}

/// How far a schedule is.
#[repr(C)]
pub struct zigrunk_progress {
    /// How many commands run.
    pub running: usize,
    /// The outputs of the commands from the first that you asked for up to this one, which isn't one of them,
    /// may be printed.
    pub told: usize,
    /// `ZIGRUNK_UNFINISHED` ..
    pub status: u32,
    /// 1 if nothing runs and nothing may start, else 0.
    pub is_over: u32,
}

/// Which command may start next, what a failure means, and which outputs may be printed. It starts no
/// process.
#[repr(C)]
pub struct zigrunk_schedule {
    made: zigrunk_made,
    schedule: Schedule,
}

/// # Safety
///
/// What a caller ensures.
unsafe fn begun(given: &zigrunk_schedule_call) -> Result<*mut zigrunk_schedule, Error> {
    let after_failure = meant(&AfterFailure::ALL, given.after_failure, |after| after as u32)?;
    // SAFETY: the caller ensures it.
    let (plans, commands) =
        unsafe { (elements(given.plans, given.plans_count), elements(given.commands, given.commands_count)) };
    let schedule = if plans.is_empty() {
        // SAFETY: the caller ensures it.
        let needs =
            |command: &zigrunk_scheduled_command| unsafe { elements(command.needs, command.needs_count) };
        let scheduled = |it| {
            Ok::<_, Error>(ScheduledCommand {
                needs: collected(needs(it).iter().copied())?,
                priority: it.priority,
            })
        };
        Schedule::new(listed(commands.iter().map(scheduled))?, given.slots, after_failure)?
    } else {
        // SAFETY: the caller ensures it.
        Schedule::of_plans(plans.iter().map(|plan| unsafe { &(**plan).plan }), given.slots, after_failure)?
    };
    give(zigrunk_schedule { made: freed::<zigrunk_schedule>(), schedule }, Room::default())
}

/// A schedule of commands of which none has started. `ZIGRUNK_BAD_NUMBER` if there are no slots, a command
/// needs one that isn't before it, or a number has no meaning.
#[no_mangle]
#[must_use]
pub unsafe extern "C" fn zigrunk_schedule_of(
    given: *const zigrunk_schedule_call,
    made: *mut *mut zigrunk_schedule,
    error: *mut *mut zigrunk_error,
) -> i32 {
    // SAFETY: the caller ensures it.
    unsafe { answer(made, error, || begun(&*given)) }
}

/// The command to start now, which the schedule notes as started, or `ZIGRUNK_ALL` if none may start: call it
/// until it says so.
#[no_mangle]
pub unsafe extern "C" fn zigrunk_schedule_start(schedule: *mut zigrunk_schedule) -> usize {
    // SAFETY: the caller ensures it.
    unsafe { &mut (*schedule).schedule }.start_next().unwrap_or(ZIGRUNK_ALL)
}

/// Notes how a command ended: `ZIGRUNK_SUCCEEDED` .. 0, or `ZIGRUNK_NO_SUCH_COMMAND` .., and the schedule is
/// unchanged.
#[no_mangle]
pub unsafe extern "C" fn zigrunk_schedule_ended(
    schedule: *mut zigrunk_schedule,
    command: usize,
    outcome: u32,
) -> i32 {
    let Ok(outcome) = meant(&Outcome::ALL, outcome, |outcome| outcome as u32) else {
        return ZIGRUNK_NO_OUTCOME;
    };
    // SAFETY: the caller ensures it.
    match unsafe { &mut (*schedule).schedule }.ended(command, outcome) {
        Ok(()) => 0,
        Err(Refused::NoSuchCommand) => ZIGRUNK_NO_SUCH_COMMAND,
        Err(_) => ZIGRUNK_NOT_RUNNING,
    }
}

/// How far a schedule is, and which outputs of the commands from `first` up to `end`, which isn't one of
/// them, may be printed: those of one plan, or of what hasn't been printed of it.
#[no_mangle]
pub unsafe extern "C" fn zigrunk_schedule_progress(
    schedule: *const zigrunk_schedule,
    first: usize,
    end: usize,
) -> zigrunk_progress {
    // SAFETY: the caller ensures it.
    let schedule = unsafe { &(*schedule).schedule };
    let told = schedule.told(first..end);
    zigrunk_progress {
        running: schedule.running(),
        told: told.commands.end,
        status: told.status as u32,
        is_over: schedule.is_over().into(),
    }
}
