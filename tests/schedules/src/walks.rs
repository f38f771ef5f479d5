//! Walks through everything that can happen to a schedule, each compared with the definition.

use crate::model::{Event, Graph, Lot, Model, same};
use rattle_std::alloc::Global;
use rattle_std::vec::Vec as List;
use schedules::{AfterFailure, Outcome, Schedule};

fn list<T>(items: impl IntoIterator<Item = T>) -> List<T> {
    let mut list = List::new(Global);
    for item in items {
        list.push(item).ok().expect("there is memory");
    }
    list
}

pub fn schedule_of(graph: &Graph) -> Schedule {
    let needs = list(graph.needs.iter().map(|it| list(it.iter().copied())));
    Schedule::new(Global, needs, list(graph.priorities.iter().copied()), graph.slots, graph.after_failure)
        .ok()
        .expect("the graph is good")
}

/// Tells both the same. The schedule has to answer as the definition does, and an event that it refuses changes nothing.
pub fn tell(schedule: &mut Schedule, model: &mut Model<'_>, event: Event) -> Result<bool, String> {
    let wanted = model.refusal(event);
    let answer = match event {
        Event::Start(command) => schedule.started(command),
        Event::End(command, outcome) => schedule.ended(command, outcome),
    };
    if !same(answer.err(), wanted) {
        return Err(format!("{event:?}: {answer:?}, not {wanted:?}"));
    }
    if wanted.is_none() {
        model.note(event);
    }
    Ok(wanted.is_none())
}

/// What can happen next: the command that is next starts, or each that may, and each that runs may end.
pub fn choices(model: &Model<'_>, any_start: bool, outcomes: &[Outcome]) -> Vec<Event> {
    let starts = if any_start { model.may_start() } else { model.next().into_iter().collect() };
    let running = (0..model.states.len()).filter(|&it| matches!(model.states[it], schedules::CommandState::Running));
    let ends = running.flat_map(|it| outcomes.iter().map(move |&outcome| Event::End(it, outcome)));
    starts.into_iter().map(Event::Start).chain(ends).collect()
}

/// Walks every path from here on. Answers how many there are.
pub fn all_paths(graph: &Graph, any_start: bool, outcomes: &[Outcome]) -> Result<usize, String> {
    let mut path: Vec<(Event, Vec<Event>)> = Vec::new();
    let mut paths = 0;
    loop {
        let mut schedule = schedule_of(graph);
        let mut model = Model::new(graph);
        for (event, _) in &path {
            tell(&mut schedule, &mut model, *event)?;
        }
        loop {
            if let Some(problem) = model.difference(&schedule) {
                return Err(format!("{graph:?} after {:?}: {problem}", path.iter().map(|it| it.0).collect::<Vec<_>>()));
            }
            let mut rest = choices(&model, any_start, outcomes);
            let Some(event) = rest.pop() else { break };
            tell(&mut schedule, &mut model, event)?;
            path.push((event, rest));
        }
        if !model.is_over() || path.len() > 2 * graph.needs.len() {
            return Err(format!("{graph:?}: {} events, over: {}", path.len(), model.is_over()));
        }
        paths += 1;
        // The last choice that has another one left takes that.
        loop {
            let Some((_, mut rest)) = path.pop() else { return Ok(paths) };
            if let Some(event) = rest.pop() {
                path.push((event, rest));
                break;
            }
        }
    }
}

pub fn drawn_graph(lot: &mut Lot, count: usize, needs: usize, slots: usize, after_failure: AfterFailure) -> Graph {
    let needs = (0..count)
        .map(|number| (0..if number > 0 { lot.below(needs + 1) } else { 0 }).map(|_| lot.below(number)).collect())
        .collect();
    Graph { needs, priorities: (0..count).map(|_| lot.below(4)).collect(), slots, after_failure }
}

/// One long run, in which a third of the events makes no sense.
pub fn random_run(lot: &mut Lot, after_failure: AfterFailure) -> Result<(), String> {
    let (count, slots) = (1 + lot.below(40), 1 + lot.below(6));
    let graph = drawn_graph(lot, count, 3, slots, after_failure);
    let (mut schedule, mut model) = (schedule_of(&graph), Model::new(&graph));
    let mut accepted = 0;
    while !model.is_over() {
        let outcome =
            [Outcome::Success, Outcome::Success, Outcome::Success, Outcome::Success, Outcome::Failure, Outcome::Cancelled]
                [lot.below(6)];
        let event = match lot.below(6) {
            0 => Event::Start(lot.below(count + 2)),
            1 => Event::End(lot.below(count + 2), outcome),
            _ => {
                let likely = choices(&model, lot.below(2) == 0, &[outcome]);
                likely[lot.below(likely.len())]
            }
        };
        accepted += usize::from(tell(&mut schedule, &mut model, event).map_err(|it| format!("{graph:?}: {it}"))?);
        if let Some(problem) = model.difference(&schedule) {
            return Err(format!("{graph:?}: after {event:?}: {problem}"));
        }
    }
    if accepted > 2 * count { Err(format!("{graph:?}: {accepted} events")) } else { Ok(()) }
}
