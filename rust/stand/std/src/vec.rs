//! Growable arrays.

use crate::alloc::{AllocError, AllocFailed, Global, allocated};
use crate::clone::TryClone;
use core::fmt;
use core::ops::{Deref, DerefMut};
pub use rust::vec::IntoIter;

/// Rust's `Vec` with methods that report a failed allocation, and none that abort on one.
#[derive(PartialEq, Eq, PartialOrd, Ord, Hash)]
pub struct Vec<T> {
    items: rust::vec::Vec<T>,
}

impl<T> Vec<T> {
    /// An empty vector. It doesn't allocate.
    #[inline]
    pub const fn new(_alloc: Global) -> Vec<T> {
        Vec {
            items: rust::vec::Vec::new(),
        }
    }

    /// An empty vector with room for `capacity` items.
    #[inline]
    pub fn with_capacity(_alloc: Global, capacity: usize) -> Result<Vec<T>, AllocError> {
        Ok(Vec {
            items: allocated(capacity)?,
        })
    }

    /// Copies of `items`.
    #[inline]
    pub fn from_slice(alloc: Global, items: &[T]) -> Result<Vec<T>, AllocError>
    where
        T: Copy,
    {
        let mut made = Vec::with_capacity(alloc, items.len())?;
        made.items.extend_from_slice(items);
        Ok(made)
    }

    /// `count` copies of `item`.
    pub fn from_elem(alloc: Global, item: T, count: usize) -> Result<Vec<T>, AllocError>
    where
        T: Copy,
    {
        let mut made = Vec::with_capacity(alloc, count)?;
        made.items.resize(count, item);
        Ok(made)
    }

    /// The items of `array`.
    pub fn from_array<const N: usize>(
        alloc: Global,
        array: [T; N],
    ) -> Result<Vec<T>, AllocFailed<[T; N]>> {
        let Ok(mut made) = Vec::with_capacity(alloc, N) else {
            return Err(AllocFailed { value: array });
        };
        made.items.extend(array);
        Ok(made)
    }

    /// Copies of `items`, which may own memory.
    #[inline]
    pub(crate) fn copy_of(items: &[T]) -> Result<Vec<T>, AllocError>
    where
        T: TryClone,
    {
        let mut made = Vec::with_capacity(Global, items.len())?;
        T::append_clones(&mut made.items, items)?;
        Ok(made)
    }

    /// The items of Rust's `Vec`.
    #[inline]
    pub(crate) fn from_rust(items: rust::vec::Vec<T>) -> Vec<T> {
        Vec { items }
    }

    /// The items as Rust's `Vec`.
    #[inline]
    pub(crate) fn into_rust(self) -> rust::vec::Vec<T> {
        self.items
    }

    /// How many items there is room for.
    pub fn capacity(&self) -> usize {
        self.items.capacity()
    }

    /// All items.
    #[inline]
    pub fn as_slice(&self) -> &[T] {
        &self.items
    }

    /// All items, to be changed in place.
    #[inline]
    pub fn as_mut_slice(&mut self) -> &mut [T] {
        &mut self.items
    }

    /// Makes room for one more item. The first room is for `first` items.
    #[inline]
    pub(crate) fn reserve_one(&mut self, first: usize) -> Result<(), AllocError> {
        if self.items.capacity() == 0 {
            self.items = allocated(first)?;
        }
        self.reserve(1)
    }

    /// Makes room for `additional` more items.
    #[inline]
    pub fn reserve(&mut self, additional: usize) -> Result<(), AllocError> {
        Ok(self.items.try_reserve(additional)?)
    }

    /// Puts `value` last. On an error the vector is unchanged and gives `value` back.
    #[inline]
    pub fn push(&mut self, value: T) -> Result<(), AllocFailed<T>> {
        // Rust's `push` asks this again, unless the compiler sees that it has been asked.
        if self.items.len() == self.items.capacity() {
            return self.grow_and_push(value);
        }
        self.items.push(value);
        Ok(())
    }

    #[cold]
    fn grow_and_push(&mut self, value: T) -> Result<(), AllocFailed<T>> {
        if self.items.try_reserve(1).is_err() {
            return Err(AllocFailed { value });
        }
        self.items.push(value);
        Ok(())
    }

    /// Puts `value` last, if `reserve` made room for it before.
    #[inline]
    pub fn push_reserved(&mut self, value: T) {
        self.items.push(value);
    }

    /// Puts `value` at `index`, and moves what stands there and behind it. On an error the vector is unchanged.
    pub fn insert(&mut self, index: usize, value: T) -> Result<(), AllocFailed<T>> {
        if self.items.try_reserve(1).is_err() {
            return Err(AllocFailed { value });
        }
        self.items.insert(index, value);
        Ok(())
    }

    /// Moves the items of `other` to the end. On an error both are unchanged.
    pub fn append(&mut self, other: &mut Vec<T>) -> Result<(), AllocError> {
        self.items.try_reserve(other.len())?;
        self.items.append(&mut other.items);
        Ok(())
    }

    /// Appends copies of `items`. On an error the vector is unchanged, but may have more room.
    #[inline]
    pub fn extend_from_slice(&mut self, items: &[T]) -> Result<(), AllocError>
    where
        T: TryClone,
    {
        let before = self.items.len();
        self.items.try_reserve(items.len())?;
        T::append_clones(&mut self.items, items).inspect_err(|_| self.items.truncate(before))
    }

    /// Makes it `count` items long: cuts it, or appends copies of `value`. On an error the vector is unchanged.
    pub fn resize(&mut self, count: usize, value: T) -> Result<(), AllocError>
    where
        T: Copy,
    {
        let more = count.saturating_sub(self.items.len());
        self.items.try_reserve(more)?;
        self.items.resize(count, value);
        Ok(())
    }

    /// Takes the last item.
    #[inline]
    pub fn pop(&mut self) -> Option<T> {
        self.items.pop()
    }

    /// Keeps the first `count` items.
    #[inline]
    pub fn truncate(&mut self, count: usize) {
        self.items.truncate(count);
    }

    /// Drops all items and keeps the room.
    #[inline]
    pub fn clear(&mut self) {
        self.items.clear();
    }

    /// Takes the item at `index`, and moves those behind it.
    pub fn remove(&mut self, index: usize) -> T {
        self.items.remove(index)
    }

    /// Keeps one of each run of equal items.
    pub fn dedup(&mut self)
    where
        T: PartialEq,
    {
        self.items.dedup();
    }
}

impl Vec<u8> {
    /// Makes room for at least `least` more bytes, and fills all room with zeros.
    pub(crate) fn resize_to_room(&mut self, least: usize) -> Result<(), AllocError> {
        self.items.try_reserve(least)?;
        self.items.resize(self.items.capacity(), 0);
        Ok(())
    }
}

impl<T> Default for Vec<T> {
    fn default() -> Vec<T> {
        Vec::new(Global)
    }
}

impl<T> Deref for Vec<T> {
    type Target = [T];

    #[inline]
    fn deref(&self) -> &[T] {
        &self.items
    }
}

impl<T> DerefMut for Vec<T> {
    #[inline]
    fn deref_mut(&mut self) -> &mut [T] {
        &mut self.items
    }
}

impl<T> AsRef<[T]> for Vec<T> {
    fn as_ref(&self) -> &[T] {
        self
    }
}

impl<T> IntoIterator for Vec<T> {
    type Item = T;
    type IntoIter = IntoIter<T>;

    #[inline]
    fn into_iter(self) -> IntoIter<T> {
        self.items.into_iter()
    }
}

impl<'a, T> IntoIterator for &'a Vec<T> {
    type Item = &'a T;
    type IntoIter = core::slice::Iter<'a, T>;

    #[inline]
    fn into_iter(self) -> core::slice::Iter<'a, T> {
        self.items.iter()
    }
}

impl<'a, T> IntoIterator for &'a mut Vec<T> {
    type Item = &'a mut T;
    type IntoIter = core::slice::IterMut<'a, T>;

    #[inline]
    fn into_iter(self) -> core::slice::IterMut<'a, T> {
        self.items.iter_mut()
    }
}

impl<T: fmt::Debug> fmt::Debug for Vec<T> {
    fn fmt(&self, f: &mut fmt::Formatter<'_>) -> fmt::Result {
        self.items.fmt(f)
    }
}

/// `Iterator::collect`, under another name, since Rust's can't be hidden.
pub trait Collect: Iterator + Sized {
    /// The items as a vector.
    fn collect_in(self, alloc: Global) -> Result<Vec<Self::Item>, AllocError> {
        let mut all = Vec::with_capacity(alloc, self.size_hint().0)?;
        for item in self {
            all.push(item)?;
        }
        Ok(all)
    }
}

impl<I: Iterator> Collect for I {}
