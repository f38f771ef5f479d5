//! Maps.

use std::alloc::{AllocError, AllocFailed, Global};
use std::collections::FoldHasher;
use std::fmt;
use std::hash::{Hash, Hasher};
use std::mem::replace;
use std::slice;

use core::borrow::Borrow;

/// A map in the order in which its keys were first inserted, whose growth can fail.
///
/// The entries are a vector. A table of their places, by the hashes of their keys, finds them.
pub struct IndexMap<K, V> {
    entries: Vec<Entry<K, V>>,
    // A power of two of slots, or none. A key's slot is the first free one from its hash on, so there is always a free one.
    table: Vec<usize>,
}

struct Entry<K, V> {
    hash: u64,
    key: K,
    value: V,
}

/// The index of an entry, and the value that it had before.
type Inserted<V> = (usize, Option<V>);

// A slot with no entry.
pub(crate) const FREE: usize = usize::MAX;
const FIRST_SLOTS: usize = 8;

// A larger table of free slots, if one of so many slots has no room for one more than `count`, with a quarter free.
pub(crate) fn free_table(count: usize, slots: usize) -> Result<Option<Vec<usize>>, AllocError> {
    if (count + 1).saturating_mul(4) <= slots.saturating_mul(3) {
        return Ok(None);
    }
    let slots = slots.saturating_mul(2).max(FIRST_SLOTS);
    Ok(Some(Vec::from_elem(Global, FREE, slots)?))
}

pub(crate) fn hash_of<Q: Hash + ?Sized>(key: &Q) -> u64 {
    let mut hasher = FoldHasher::default();
    key.hash(&mut hasher);
    hasher.finish()
}

impl<K, V> IndexMap<K, V> {
    /// An empty map. It doesn't allocate.
    pub const fn new(alloc: Global) -> IndexMap<K, V> {
        IndexMap {
            entries: Vec::new(alloc),
            table: Vec::new(alloc),
        }
    }

    /// How many entries there are.
    pub fn len(&self) -> usize {
        self.entries.len()
    }

    /// Whether there are no entries.
    pub fn is_empty(&self) -> bool {
        self.entries.is_empty()
    }

    /// The entry at `index`.
    pub fn get_index(&self, index: usize) -> Option<(&K, &V)> {
        let entry = self.entries.get(index)?;
        Some((&entry.key, &entry.value))
    }

    /// The entries in order.
    pub fn iter(&self) -> Iter<'_, K, V> {
        Iter {
            entries: self.entries.iter(),
        }
    }

    // The first slot that is free or whose entry the test accepts, from that of a hash on. The table has a free slot.
    #[inline]
    fn slot(&self, hash: u64, is_wanted: impl Fn(&Entry<K, V>) -> bool) -> usize {
        let mask = self.table.len() - 1;
        let mut slot = hash as usize & mask;
        while self
            .entries
            .get(self.table[slot])
            .is_some_and(|entry| !is_wanted(entry))
        {
            slot = (slot + 1) & mask;
        }
        slot
    }

    // Makes room for one more entry: in the vector, and in a table of which a quarter stays free.
    fn make_room(&mut self) -> Result<(), AllocError> {
        self.entries.reserve(1)?;
        if let Some(table) = free_table(self.entries.len(), self.table.len())? {
            self.table = table;
            for place in 0..self.entries.len() {
                let slot = self.slot(self.entries[place].hash, |_| false);
                self.table[slot] = place;
            }
        }
        Ok(())
    }
}

impl<K: Hash + Eq, V> IndexMap<K, V> {
    /// Sets the value of `key`, and gives the one that it had. A key keeps its place; a new one is last. On an error the map is
    /// unchanged and gives both back.
    pub fn insert(&mut self, key: K, value: V) -> Result<Option<V>, AllocFailed<(K, V)>> {
        let (_, before) = self.insert_full(key, value)?;
        Ok(before)
    }

    /// As `insert`, with the index of the entry.
    pub fn insert_full(&mut self, key: K, value: V) -> Result<Inserted<V>, AllocFailed<(K, V)>> {
        let hash = hash_of(&key);
        if let Some(place) = self.place(hash, &key) {
            return Ok((place, Some(replace(&mut self.entries[place].value, value))));
        }
        if self.make_room().is_err() {
            return Err(AllocFailed {
                value: (key, value),
            });
        }
        let (place, slot) = (self.entries.len(), self.slot(hash, |_| false));
        self.table[slot] = place;
        self.entries.push_reserved(Entry { hash, key, value });
        Ok((place, None))
    }

    /// The index of the entry of `key`.
    pub fn get_index_of<Q: Hash + Eq + ?Sized>(&self, key: &Q) -> Option<usize>
    where
        K: Borrow<Q>,
    {
        self.place(hash_of(key), key)
    }

    /// The entry of `key` and its index.
    pub fn get_full<Q: Hash + Eq + ?Sized>(&self, key: &Q) -> Option<(usize, &K, &V)>
    where
        K: Borrow<Q>,
    {
        let place = self.get_index_of(key)?;
        let entry = &self.entries[place];
        Some((place, &entry.key, &entry.value))
    }

    /// The value of `key`.
    pub fn get<Q: Hash + Eq + ?Sized>(&self, key: &Q) -> Option<&V>
    where
        K: Borrow<Q>,
    {
        let place = self.get_index_of(key)?;
        Some(&self.entries[place].value)
    }

    /// The value of `key`, to be changed.
    pub fn get_mut<Q: Hash + Eq + ?Sized>(&mut self, key: &Q) -> Option<&mut V>
    where
        K: Borrow<Q>,
    {
        let place = self.get_index_of(key)?;
        Some(&mut self.entries[place].value)
    }

    /// Whether there is an entry of `key`.
    pub fn contains_key<Q: Hash + Eq + ?Sized>(&self, key: &Q) -> bool
    where
        K: Borrow<Q>,
    {
        self.get_index_of(key).is_some()
    }

    fn place<Q: Eq + ?Sized>(&self, hash: u64, key: &Q) -> Option<usize>
    where
        K: Borrow<Q>,
    {
        if self.table.is_empty() {
            return None;
        }
        let slot = self.slot(hash, |entry| {
            entry.hash == hash && entry.key.borrow() == key
        });
        Some(self.table[slot]).filter(|place| *place != FREE)
    }
}

impl<K: fmt::Debug, V: fmt::Debug> fmt::Debug for IndexMap<K, V> {
    fn fmt(&self, f: &mut fmt::Formatter<'_>) -> fmt::Result {
        f.debug_map().entries(self.iter()).finish()
    }
}

/// The entries of a map in order.
pub struct Iter<'a, K, V> {
    entries: slice::Iter<'a, Entry<K, V>>,
}

impl<'a, K, V> Iterator for Iter<'a, K, V> {
    type Item = (&'a K, &'a V);

    #[inline]
    fn next(&mut self) -> Option<(&'a K, &'a V)> {
        let entry = self.entries.next()?;
        Some((&entry.key, &entry.value))
    }
}

impl<'a, K, V> IntoIterator for &'a IndexMap<K, V> {
    type Item = (&'a K, &'a V);
    type IntoIter = Iter<'a, K, V>;

    fn into_iter(self) -> Iter<'a, K, V> {
        self.iter()
    }
}
