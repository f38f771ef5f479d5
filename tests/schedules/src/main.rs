//! Compares schedules with their definition: `schedules-test SEED RUNS` walks all that can happen to small plans, and makes so many
//! random runs. With the word `all`, it walks every kind of plan of seven commands. `schedules-test cost COMMANDS` runs a plan of so many, to be
//! counted by a profiler; with 0 events if a word follows.

mod interleavings;
mod model;
mod orders;
mod products;
mod states;
mod walks;

use crate::model::{Graph, Lot};
use rattle_std::alloc::Global;
use rattle_std::vec::Vec as List;
use schedules::{AfterFailure, BadGraph, Outcome, Schedule};

/// Of how many kinds of orders of seven commands a run walks all states, unless it's to walk all.
const SEVENS: usize = 60;

const SETTINGS: [AfterFailure; 3] = [AfterFailure::StartNothing, AfterFailure::StartEarlier, AfterFailure::GoOn];

#[derive(Default)]
struct Counts {
    passed: usize,
    failed: usize,
}

impl Counts {
    fn count(&mut self, name: &str, result: Result<(), String>) {
        match result {
            Ok(()) => self.passed += 1,
            Err(problem) => {
                self.failed += 1;
                println!("{name}: {}", problem.chars().take(2000).collect::<String>());
            }
        }
    }
}

fn numbers(items: &[usize]) -> List<usize> {
    let mut list = List::new(Global);
    for &item in items {
        list.push(item).ok().expect("there is memory");
    }
    list
}

fn rows(items: &[&[usize]]) -> List<List<usize>> {
    let mut list = List::new(Global);
    for item in items {
        list.push(numbers(item)).ok().expect("there is memory");
    }
    list
}

/// Graphs that have no schedule, and plans in one graph.
fn graphs(counts: &mut Counts) {
    let made = |needs: &[&[usize]], priorities: &[usize], slots| {
        Schedule::new(Global, rows(needs), numbers(priorities), slots, AfterFailure::GoOn).err()
    };
    for (name, bad, wanted) in [
        ("no slot", made(&[&[], &[0]], &[1, 1], 0), Some(BadGraph::NoSlot)),
        ("a priority is missing", made(&[&[], &[0]], &[1], 1), Some(BadGraph::Priorities)),
        ("a command needs itself", made(&[&[], &[1]], &[1, 1], 1), Some(BadGraph::NeedsLater { command: 1 })),
        ("a command needs a later one", made(&[&[1], &[2]], &[1, 1], 1), Some(BadGraph::NeedsLater { command: 0 })),
        ("no commands", made(&[], &[], 1), None),
        ("the same need twice", made(&[&[], &[0, 0]], &[1, 1], 1), None),
    ] {
        counts.count(name, if format!("{bad:?}") == format!("{wanted:?}") { Ok(()) } else { Err(format!("{bad:?}, not {wanted:?}")) });
    }
    let (one, other) = (rows(&[&[], &[0]]), rows(&[&[], &[], &[0, 1]]));
    let joined = schedules::joined_needs(Global, &[one.as_slice(), other.as_slice()]).ok().expect("there is memory");
    let shown: Vec<Vec<usize>> = joined.as_slice().iter().map(|it| it.as_slice().to_vec()).collect();
    let wanted: Vec<Vec<usize>> = vec![vec![], vec![0], vec![], vec![], vec![2, 3]];
    counts.count("two plans in one graph", if shown == wanted { Ok(()) } else { Err(format!("{shown:?}")) });
}

/// The weight of the heaviest chain that begins with a command, by a search through all chains.
fn heaviest(needs: &[Vec<usize>], weights: &[usize], command: usize) -> usize {
    let behind = (command + 1..needs.len()).filter(|it| needs[*it].contains(&command)).map(|it| heaviest(needs, weights, it)).max();
    weights[command] + behind.unwrap_or(0)
}

/// The weights of chains, in all graphs of up to four commands and in drawn ones of up to ten.
fn chains(counts: &mut Counts, lot: &mut Lot) {
    let small = (0..=4).flat_map(orders::all_needs);
    let drawn: Vec<Vec<Vec<usize>>> = (0..1000)
        .map(|_| (0..lot.below(11)).map(|command| (0..command).filter(|_| lot.below(3) == 0).collect()).collect())
        .collect();
    for needs in small.chain(drawn) {
        let weights: Vec<usize> = needs.iter().map(|_| lot.below(50)).collect();
        let slices: Vec<&[usize]> = needs.iter().map(Vec::as_slice).collect();
        let chains = schedules::chain_weights(Global, rows(&slices).as_slice(), numbers(&weights).as_slice()).ok().expect("a good graph");
        let wanted: Vec<usize> = (0..needs.len()).map(|command| heaviest(&needs, &weights, command)).collect();
        let same = chains.as_slice() == wanted.as_slice();
        counts.count("chains", if same { Ok(()) } else { Err(format!("{needs:?} {weights:?}: {:?}, not {wanted:?}", chains.as_slice())) });
    }
}

/// Runs a plan of so many commands in chains of five, eight at once, or only makes its schedule.
fn cost(count: usize, runs: bool) {
    let graph = Graph {
        needs: (0..count).map(|it| if it % 5 == 0 { vec![] } else { vec![it - 1] }).collect(),
        priorities: (0..count).map(|it| 5 - it % 5).collect(),
        slots: 8,
        after_failure: AfterFailure::StartEarlier,
    };
    let mut schedule = walks::schedule_of(&graph);
    let mut running = std::collections::VecDeque::with_capacity(8);
    while runs && !schedule.over() {
        while let Some(command) = schedule.start_next() {
            running.push_back(command);
        }
        let ended = running.pop_front().expect("one runs");
        schedule.ended(ended, Outcome::Success).ok().expect("it ran");
    }
}

fn main() {
    let words: Vec<String> = std::env::args().skip(1).collect();
    if words.first().is_some_and(|it| it == "cost") {
        return cost(words[1].parse().expect("a number of commands"), words.len() == 2);
    }
    let number = |place: usize, otherwise: u64| words.get(place).map_or(otherwise, |it| it.parse().expect("a number"));
    let (seed, runs) = (number(0, 20_261_127), number(1, 100_000));
    let mut lot = Lot(seed.max(1));
    let mut counts = Counts::default();
    graphs(&mut counts);
    chains(&mut counts, &mut lot);
    let whole = words.get(2).is_some_and(|it| it == "all");
    interleavings::paths(&mut counts, &mut lot);
    interleavings::states(&mut counts, &mut lot, SEVENS, whole);
    for run in 0..runs {
        let setting = SETTINGS[lot.below(3)];
        counts.count(&format!("run {run} of seed {seed}"), walks::random_run(&mut lot, setting));
        counts.count(&format!("products of run {run} of seed {seed}"), products::compare(&mut lot, setting));
    }
    println!("{} passed, {} failed", counts.passed, counts.failed);
    std::process::exit(i32::from(counts.failed > 0));
}
