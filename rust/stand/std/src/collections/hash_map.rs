//! Maps without an order.

use super::FoldHasher;
use crate::alloc::{AllocError, AllocFailed, Global};
use core::borrow::Borrow;
use core::hash::{BuildHasherDefault, Hash};
pub use rust::collections::hash_map::Entry;

/// Rust's `HashMap`, whose growth can fail.
pub struct HashMap<K, V> {
    entries: rust::collections::HashMap<K, V, BuildHasherDefault<FoldHasher>>,
}

// The first room, so that small maps grow once.
const FIRST_ENTRIES: usize = 14;

impl<K: Eq + Hash, V> HashMap<K, V> {
    /// An empty map. It doesn't allocate.
    pub fn new(_alloc: Global) -> HashMap<K, V> {
        HashMap {
            entries: rust::collections::HashMap::default(),
        }
    }

    /// An empty map with room for `capacity` entries.
    pub fn with_capacity(alloc: Global, capacity: usize) -> Result<HashMap<K, V>, AllocError> {
        let mut map = HashMap::new(alloc);
        map.entries.try_reserve(capacity)?;
        Ok(map)
    }

    // Makes room for one more entry.
    #[inline]
    fn make_room(&mut self) -> Result<(), AllocError> {
        let least = if self.entries.capacity() == 0 {
            FIRST_ENTRIES
        } else {
            1
        };
        Ok(self.entries.try_reserve(least)?)
    }

    /// The place of `key`, with room for its value.
    #[inline]
    pub fn entry(&mut self, key: K) -> Result<Entry<'_, K, V>, AllocFailed<K>> {
        if self.make_room().is_err() {
            return Err(AllocFailed { value: key });
        }
        Ok(self.entries.entry(key))
    }

    /// Puts `value` at `key`, and gives back what was there.
    #[inline]
    pub fn insert(&mut self, key: K, value: V) -> Result<Option<V>, AllocFailed<(K, V)>> {
        if self.make_room().is_err() {
            return Err(AllocFailed {
                value: (key, value),
            });
        }
        Ok(self.entries.insert(key, value))
    }

    /// The value of `key`.
    #[inline]
    pub fn get<Q: Eq + Hash + ?Sized>(&self, key: &Q) -> Option<&V>
    where
        K: Borrow<Q>,
    {
        self.entries.get(key)
    }

    /// Whether the map has `key`.
    #[inline]
    pub fn contains_key<Q: Eq + Hash + ?Sized>(&self, key: &Q) -> bool
    where
        K: Borrow<Q>,
    {
        self.entries.contains_key(key)
    }
}
