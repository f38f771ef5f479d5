//! Everything that can happen to small plans: which plans are walked.

use crate::model::{Graph, Lot};
use crate::orders::{self, Order};
use crate::states::{Walked, all_states};
use crate::walks::all_paths;
use crate::{Counts, SETTINGS};
use schedules::Outcome;
use std::sync::Mutex;
use std::sync::atomic::{AtomicUsize, Ordering};

const OUTCOMES: [Outcome; 3] = [Outcome::Success, Outcome::Failure, Outcome::Cancelled];

/// Cases on stored dry runs of each nvcc, with which tests/drivers.sh compares what the planner says.
const CASES: &str = include_str!("../../drivers/test_plans/data/nvcc_versions.txt");

/// What a thread walks: needs, with a number to draw from.
struct Task {
    needs: Vec<Vec<usize>>,
    seed: u64,
}

impl Task {
    fn new(needs: Vec<Vec<usize>>, lot: &mut Lot) -> Task {
        lot.below(1);
        Task { needs, seed: lot.0 }
    }

    /// Walks all states, with each setting and each number of slots up to one more than the most that ever run at once: more change nothing.
    fn walk(&self) -> Result<Walked, String> {
        let (mut lot, mut all) = (Lot(self.seed), Walked::default());
        for after_failure in SETTINGS {
            for slots in 1.. {
                let priorities = self.needs.iter().map(|_| lot.below(3)).collect();
                let graph = Graph { needs: self.needs.clone(), priorities, slots, after_failure };
                let walked = all_states(&graph, &OUTCOMES)?;
                all += walked;
                if walked.most < slots {
                    break;
                }
            }
        }
        Ok(all)
    }
}

/// Every path through all plans of up to four commands.
pub fn paths(counts: &mut Counts, lot: &mut Lot) {
    let mut paths = 0;
    for count in 0..=4 {
        for needs in orders::all_needs(count) {
            for after_failure in SETTINGS {
                for slots in 1..=2 {
                    let priorities = needs.iter().map(|_| lot.below(3)).collect();
                    let graph = Graph { needs: needs.clone(), priorities, slots, after_failure };
                    let walked = all_paths(&graph, count < 4, &OUTCOMES[..if count < 4 { 3 } else { 2 }]);
                    paths += walked.as_ref().map_or(0, |it| *it);
                    counts.count("all paths", walked.map(drop));
                }
            }
        }
    }
    println!("{paths} paths");
}

/// An order of each kind in a drawn numbering.
fn drawn_numberings(kinds: &[Order], lot: &mut Lot) -> Vec<Order> {
    let draw = |kind: &Order| {
        let mut numberings = orders::numberings(kind);
        numberings.swap_remove(lot.below(numberings.len()))
    };
    kinds.iter().map(draw).collect()
}

/// The orders to walk: of up to five commands all in all numberings, of six and seven one of each kind in a drawn numbering. Of seven these are
/// so many, drawn ones. If it's to be the whole, all of six in all numberings, and of seven all kinds.
fn chosen_orders(counts: &mut Counts, lot: &mut Lot, sevens: usize, whole: bool) -> Vec<Order> {
    let mut chosen = Vec::new();
    for (count, wanted) in orders::COUNTS.into_iter().enumerate() {
        let (all, mut kinds) = (orders::all_numbered(count), orders::kinds(count));
        let found = (all.len(), kinds.len());
        counts.count("partial orders", if found == wanted { Ok(()) } else { Err(format!("{found:?} of {count}, not {wanted:?}")) });
        if count <= if whole { 6 } else { 5 } {
            chosen.extend(all);
            continue;
        }
        while count == 7 && !whole && kinds.len() > sevens {
            kinds.swap_remove(lot.below(kinds.len()));
        }
        chosen.extend(drawn_numberings(&kinds, lot));
    }
    chosen
}

/// The needs of the plans of stored dry runs, of so many commands at most.
fn real_plans(most: usize) -> Vec<Vec<Vec<usize>>> {
    let numbers = |row: &str| row.split(' ').skip(1).map(|word| word.parse().expect("a number")).collect();
    let mut plans: Vec<Vec<Vec<usize>>> = CASES
        .lines()
        .filter_map(|line| line.strip_prefix("    needs"))
        .map(|rows| rows.split(" ; needs").map(numbers).collect())
        .filter(|plan: &Vec<_>| plan.len() <= most)
        .collect();
    plans.sort();
    plans.dedup();
    plans
}

/// All states of the chosen orders, each as what is right below, and with some of the rest drawn; then of the real plans.
pub fn states(counts: &mut Counts, lot: &mut Lot, sevens: usize, whole: bool) {
    let mut tasks = Vec::new();
    for order in chosen_orders(counts, lot, sevens, whole) {
        tasks.push(Task::new(orders::relation(&order, || 0), lot));
        let some = orders::relation(&order, || lot.below(1 << order.len()));
        tasks.push(Task::new(some, lot));
    }
    let real = real_plans(9);
    println!("{} orders, each with two relations, and {} real plans", tasks.len() / 2, real.len());
    tasks.extend(real.into_iter().map(|needs| Task::new(needs, lot)));
    let (next, found) = (AtomicUsize::new(0), Mutex::new((Walked::default(), counts)));
    let work = || {
        while let Some(task) = tasks.get(next.fetch_add(1, Ordering::Relaxed)) {
            let walked = task.walk();
            let mut found = found.lock().expect("no thread panicked");
            found.0 += walked.as_ref().copied().unwrap_or_default();
            found.1.count("all states", walked.map(drop));
        }
    };
    let threads = if whole { std::thread::available_parallelism().map_or(1, usize::from) } else { 1 };
    std::thread::scope(|scope| (0..threads).for_each(|_| drop(scope.spawn(work))));
    let walked = found.into_inner().expect("no thread panicked").0;
    println!("{} states, {} steps", walked.states, walked.steps);
}
