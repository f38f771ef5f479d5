//! Walks through all states that events can lead a schedule to.
//!
//! What a schedule answers depends on the states of its commands alone. So two lists of events that lead to the same states are one place of a walk,
//! and each event at each place is one step. A schedule that took each step is compared with the definition, so also one for each way that a
//! place has into it, as far as the way's last step goes.

use crate::model::{Event, Graph, Model};
use crate::walks::{choices, schedule_of, tell};
use schedules::{Outcome, Schedule};
use std::collections::HashSet;
use std::ops::AddAssign;

/// What a walk came by.
#[derive(Clone, Copy, Default)]
pub struct Walked {
    pub states: usize,
    pub steps: usize,
    /// How many commands ran at once, at most.
    pub most: usize,
}

impl AddAssign for Walked {
    fn add_assign(&mut self, other: Walked) {
        self.states += other.states;
        self.steps += other.steps;
        self.most = self.most.max(other.most);
    }
}

/// A number for the states of all commands, of which there are at most 21.
fn code(model: &Model<'_>) -> u64 {
    model.states.iter().fold(0, |code, &state| code << 3 | state as u64)
}

/// The schedule after some events.
fn after(graph: &Graph, events: &[Event]) -> Result<Schedule, String> {
    let (mut schedule, mut model) = (schedule_of(graph), Model::new(graph));
    for &event in events {
        tell(&mut schedule, &mut model, event)?;
    }
    Ok(schedule)
}

/// Tells a schedule every event that makes no sense now. It has to refuse each, for the right reason, and stay as it is.
fn refuse_others(schedule: &mut Schedule, model: &mut Model<'_>, outcomes: &[Outcome]) -> Result<(), String> {
    for command in 0..=model.states.len() {
        for event in [Event::Start(command)].into_iter().chain(outcomes.iter().map(|&outcome| Event::End(command, outcome))) {
            if model.refusal(event).is_some() {
                tell(schedule, model, event)?;
            }
        }
    }
    model.difference(schedule).map_or(Ok(()), Err)
}

/// Walks through all states. At each, any command that may starts next, and any that runs ends in each of these ways.
pub fn all_states(graph: &Graph, outcomes: &[Outcome]) -> Result<Walked, String> {
    let mut walked = Walked::default();
    let mut seen = HashSet::from([0]);
    let mut ahead = vec![(Vec::new(), Model::new(graph))];
    while let Some((mut events, mut model)) = ahead.pop() {
        let failed = |events: &[Event], problem: String| format!("{graph:?} after {events:?}: {problem}");
        let mut schedule = after(graph, &events)?;
        refuse_others(&mut schedule, &mut model, outcomes).map_err(|it| failed(&events, it))?;
        walked += Walked { states: 1, steps: 0, most: model.running() };
        for event in choices(&model, true, outcomes) {
            let (mut schedule, mut model) = (after(graph, &events)?, model.clone());
            events.push(event);
            tell(&mut schedule, &mut model, event).map_err(|it| failed(&events, it))?;
            if let Some(problem) = model.difference(&schedule) {
                return Err(failed(&events, problem));
            }
            walked.steps += 1;
            if seen.insert(code(&model)) {
                ahead.push((events.clone(), model));
            }
            events.pop();
        }
    }
    Ok(walked)
}
