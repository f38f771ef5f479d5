//! Partial orders of commands: what needs what, directly or by others.

use std::collections::HashSet;

/// A partial order that agrees with its numbers: for each number the set of those below it, with a bit for each.
pub type Order = Vec<usize>;

/// How many partial orders of 0, 1, 2, .. numbers agree with these, and how many are left if those that differ only in their numbers count as
/// one.
pub const COUNTS: [(usize, usize); 8] = [(1, 1), (1, 1), (2, 2), (7, 5), (40, 16), (357, 63), (4824, 318), (96428, 2045)];

/// Whether a set has all that is below each number in it.
fn is_closed(order: &[usize], set: usize) -> bool {
    order.iter().enumerate().all(|(number, below)| set >> number & 1 == 0 || below & !set == 0)
}

/// All partial orders of so many numbers that agree with these. The last number is below none, so each is one of fewer numbers and a closed
/// set of these.
pub fn all_numbered(count: usize) -> Vec<Order> {
    (0..count).fold(vec![Vec::new()], |orders, number| {
        let longer = |order: Order| {
            let sets = (0..1 << number).filter(|&set| is_closed(&order, set)).collect::<Vec<usize>>();
            sets.into_iter().map(move |set| order.iter().copied().chain([set]).collect())
        };
        orders.into_iter().flat_map(longer).collect()
    })
}

/// All lists of the numbers of an order in which each is behind those below it, and begins with the given ones.
fn extend(order: &[usize], begun: &mut Vec<usize>, taken: usize, lists: &mut Vec<Vec<usize>>) {
    if begun.len() == order.len() {
        return lists.push(begun.clone());
    }
    for number in 0..order.len() {
        if taken >> number & 1 == 0 && order[number] & !taken == 0 {
            begun.push(number);
            extend(order, begun, taken | 1 << number, lists);
            begun.pop();
        }
    }
}

/// The order if its numbers are those of their places in a list.
fn renumbered(order: &[usize], list: &[usize]) -> Order {
    let below = |number: usize| list.iter().enumerate().filter(|(_, it)| order[number] >> **it & 1 == 1).map(|(place, _)| 1 << place).sum();
    list.iter().map(|&number| below(number)).collect()
}

/// All numberings of an order that agree with it. Two of them may give the same.
pub fn numberings(order: &[usize]) -> Vec<Order> {
    let mut lists = Vec::new();
    extend(order, &mut Vec::new(), 0, &mut lists);
    lists.iter().map(|list| renumbered(order, list)).collect()
}

/// One of each kind of partial orders of so many numbers. Those that differ only in their numbers are of one kind.
pub fn kinds(count: usize) -> Vec<Order> {
    let mut seen = HashSet::new();
    let mut kinds = Vec::new();
    for order in all_numbered(count) {
        if !seen.contains(&order) {
            seen.extend(numberings(&order));
            kinds.push(order);
        }
    }
    kinds
}

fn numbers_in(set: usize) -> Vec<usize> {
    (0..usize::BITS as usize).filter(|number| set >> number & 1 == 1).collect()
}

/// For each number those right below it, and of the others below it those in a set of its own.
pub fn relation(order: &[usize], mut others: impl FnMut() -> usize) -> Vec<Vec<usize>> {
    let indirect = |below: usize| numbers_in(below).into_iter().fold(0, |set, number| set | order[number]);
    order.iter().map(|&below| numbers_in(below & (!indirect(below) | others()))).collect()
}

/// What so many commands may need: each need is there or not.
pub fn all_needs(count: usize) -> Vec<Vec<Vec<usize>>> {
    let sets = |number: usize| (0..1 << number).map(numbers_in);
    (0..count).fold(vec![Vec::new()], |all, number| {
        all.into_iter().flat_map(|needs: Vec<Vec<usize>>| sets(number).map(move |set| [needs.clone(), vec![set]].concat())).collect()
    })
}
