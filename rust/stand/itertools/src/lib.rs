//! Sorting what an iterator gives.
#![forbid(unsafe_code)]
#![warn(missing_docs)]

use std::alloc::{AllocError, Global};
use std::vec::IntoIter;

/// What each iterator can do.
pub trait Itertools: Iterator + Sized {
    /// The items in order. Equal ones stay in the order that they came in.
    fn sorted(self, alloc: Global) -> Result<IntoIter<Self::Item>, AllocError>
    where
        Self::Item: Ord,
    {
        let mut items = self.collect_in(alloc)?;
        sort(alloc, &mut items)?;
        Ok(items.into_iter())
    }
}

impl<I: Iterator> Itertools for I {}

// A stable sort. Rust's own aborts if it can't allocate.
fn sort<T: Ord>(alloc: Global, items: &mut [T]) -> Result<(), AllocError> {
    if items.is_sorted() {
        return Ok(());
    }
    let mut order = Vec::with_capacity(alloc, items.len())?;
    for place in 0..items.len() {
        order.push_reserved(place);
    }
    order.sort_unstable_by(|one, two| items[*one].cmp(&items[*two]).then(one.cmp(two)));
    rearrange(items, &mut order);
    Ok(())
}

// Moves the item at `order[place]` to each `place`. An entry is its own place once that is done.
fn rearrange<T>(items: &mut [T], order: &mut [usize]) {
    for start in 0..order.len() {
        let mut place = start;
        while order[place] != start {
            let from = order[place];
            items.swap(place, from);
            order[place] = place;
            place = from;
        }
        order[place] = place;
    }
}
