//! Schedules: which command of a plan may start next, what a failure means, and which outputs may be printed.
//!
//! A [`Schedule`] starts no process. You say what happened, and it says what to do next.
//!
//! ```
//! use zigrunk::schedule::{AfterFailure, Outcome, PlanStatus, Schedule, ScheduledCommand};
//! // two commands side by side, and one that needs both
//! let needs = [vec![], vec![], vec![0, 1]];
//! let commands = needs.into_iter().map(|needs| ScheduledCommand { needs, priority: 0 });
//! let mut schedule = Schedule::new(commands, 4, AfterFailure::StartEarlier)?;
//! assert!(schedule.start_ready().eq([0, 1]));
//! schedule.ended(1, Outcome::Success)?;
//! schedule.ended(0, Outcome::Success)?;
//! assert_eq!(schedule.start_next(), Some(2));
//! schedule.ended(2, Outcome::Failure)?;
//! let told = schedule.told(0..3);
//! assert_eq!((schedule.is_over(), told.commands, told.status), (true, 0..3, PlanStatus::Failed));
//! # Ok::<(), Box<dyn std::error::Error>>(())
//! ```

pub use call::schedule::{
    AfterFailure, BadGraph, CommandState, Outcome, PlanStatus, Refused, Schedule, ScheduledCommand, StartReady, Told,
};
