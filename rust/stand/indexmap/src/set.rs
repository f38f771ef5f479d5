//! Sets.

use crate::map::{FREE, free_table, hash_of};
use std::alloc::{AllocError, AllocFailed, Global};
use std::hash::Hash;

/// A set in the order in which its values were first inserted, whose growth can fail.
///
/// A table of the values' places, by their hashes, finds them.
pub struct IndexSet<T> {
    values: Vec<T>,
    // As a map's: a power of two of slots, or none, with a free one.
    table: Vec<usize>,
}

impl<T> IndexSet<T> {
    /// An empty set. It doesn't allocate.
    pub const fn new(alloc: Global) -> IndexSet<T> {
        IndexSet {
            values: Vec::new(alloc),
            table: Vec::new(alloc),
        }
    }

    /// The values in order.
    pub fn as_slice(&self) -> &[T] {
        self.values.as_slice()
    }
}

impl<T: Hash + Eq> IndexSet<T> {
    /// Inserts a value, and says whether it is new. On an error the set is unchanged.
    pub fn insert(&mut self, value: T) -> Result<bool, AllocFailed<T>> {
        let (_, is_new) = self.insert_full(value)?;
        Ok(is_new)
    }

    /// As `insert`, with the index of the value.
    pub fn insert_full(&mut self, value: T) -> Result<(usize, bool), AllocFailed<T>> {
        if let Some(place) = self.place(&value) {
            return Ok((place, false));
        }
        if self.make_room().is_err() {
            return Err(AllocFailed { value });
        }
        let (place, slot) = (self.values.len(), self.slot(&value));
        self.table[slot] = place;
        self.values.push_reserved(value);
        Ok((place, true))
    }

    // The index of a value.
    fn place(&self, value: &T) -> Option<usize> {
        if self.table.is_empty() {
            return None;
        }
        let place = self.table[self.slot(value)];
        (place != FREE).then_some(place)
    }

    // The slot of a value, or the free one where it belongs. The table has a free slot.
    fn slot(&self, value: &T) -> usize {
        let mask = self.table.len() - 1;
        let mut slot = hash_of(value) as usize & mask;
        while self
            .values
            .get(self.table[slot])
            .is_some_and(|other| other != value)
        {
            slot = (slot + 1) & mask;
        }
        slot
    }

    // Makes room for one more value: in the vector, and in a table of which a quarter stays free.
    fn make_room(&mut self) -> Result<(), AllocError> {
        self.values.reserve(1)?;
        if let Some(table) = free_table(self.values.len(), self.table.len())? {
            self.table = table;
            for place in 0..self.values.len() {
                let slot = self.slot(&self.values[place]);
                self.table[slot] = place;
            }
        }
        Ok(())
    }
}
