//! Maps in the order of their keys.

use crate::alloc::{AllocFailed, Global};
use crate::vec;
use crate::vec::Vec;
use core::borrow::Borrow;
use core::fmt;
use core::mem::replace;

/// A map in the order of its keys, whose growth can fail: a vector of entries by rising keys.
///
/// To insert a key before others moves those, which suits the few entries that these maps have.
#[derive(PartialEq, Eq)]
pub struct BTreeMap<K, V> {
    entries: Vec<(K, V)>,
}

// The first room, which most maps never outgrow.
const FIRST_ENTRIES: usize = 12;

impl<K, V> BTreeMap<K, V> {
    /// An empty map. It doesn't allocate.
    pub const fn new(alloc: Global) -> BTreeMap<K, V> {
        BTreeMap {
            entries: Vec::new(alloc),
        }
    }

    /// How many entries there are.
    pub fn len(&self) -> usize {
        self.entries.len()
    }

    /// Whether there are no entries.
    pub fn is_empty(&self) -> bool {
        self.entries.is_empty()
    }

    /// The entries by rising keys.
    pub fn iter(&self) -> Iter<'_, K, V> {
        Iter {
            entries: self.entries.iter(),
        }
    }
}

impl<K: Ord, V> BTreeMap<K, V> {
    /// Sets the value of `key`, and gives the one that it had. On an error the map is unchanged.
    pub fn insert(&mut self, key: K, value: V) -> Result<Option<V>, AllocFailed<(K, V)>> {
        match self.place(&key) {
            Ok(place) => Ok(Some(replace(&mut self.entries[place].1, value))),
            Err(place) => {
                if self.entries.reserve_one(FIRST_ENTRIES).is_err() {
                    return Err(AllocFailed {
                        value: (key, value),
                    });
                }
                self.entries.insert(place, (key, value))?;
                Ok(None)
            }
        }
    }

    /// The value of `key`.
    pub fn get<Q: Ord + ?Sized>(&self, key: &Q) -> Option<&V>
    where
        K: Borrow<Q>,
    {
        let place = self.place(key).ok()?;
        Some(&self.entries[place].1)
    }

    /// The value of `key`, to be changed.
    pub fn get_mut<Q: Ord + ?Sized>(&mut self, key: &Q) -> Option<&mut V>
    where
        K: Borrow<Q>,
    {
        let place = self.place(key).ok()?;
        Some(&mut self.entries[place].1)
    }

    // Where the key is, or where it has to be inserted. Keys often come in order, so the end comes first.
    fn place<Q: Ord + ?Sized>(&self, key: &Q) -> Result<usize, usize>
    where
        K: Borrow<Q>,
    {
        match self.entries.last() {
            Some((last, _)) if last.borrow() < key => Err(self.entries.len()),
            _ => self
                .entries
                .binary_search_by(|(other, _)| other.borrow().cmp(key)),
        }
    }
}

impl<K, V> Default for BTreeMap<K, V> {
    fn default() -> BTreeMap<K, V> {
        BTreeMap::new(Global)
    }
}

impl<K: fmt::Debug, V: fmt::Debug> fmt::Debug for BTreeMap<K, V> {
    fn fmt(&self, f: &mut fmt::Formatter<'_>) -> fmt::Result {
        f.debug_map().entries(self).finish()
    }
}

/// The entries of a map by rising keys.
pub struct Iter<'a, K, V> {
    entries: core::slice::Iter<'a, (K, V)>,
}

impl<'a, K, V> Iterator for Iter<'a, K, V> {
    type Item = (&'a K, &'a V);

    #[inline]
    fn next(&mut self) -> Option<(&'a K, &'a V)> {
        let (key, value) = self.entries.next()?;
        Some((key, value))
    }
}

impl<'a, K, V> IntoIterator for &'a BTreeMap<K, V> {
    type Item = (&'a K, &'a V);
    type IntoIter = Iter<'a, K, V>;

    fn into_iter(self) -> Iter<'a, K, V> {
        self.iter()
    }
}

impl<K, V> IntoIterator for BTreeMap<K, V> {
    type Item = (K, V);
    type IntoIter = vec::IntoIter<(K, V)>;

    fn into_iter(self) -> vec::IntoIter<(K, V)> {
        self.entries.into_iter()
    }
}
