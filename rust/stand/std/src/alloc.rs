//! The allocator and its errors.

use core::alloc::Layout;
use core::fmt;
use rust::collections::TryReserveError;
use rust::vec::Vec;

/// Rust's global allocator.
#[derive(Clone, Copy, Debug)]
pub struct Global;

/// An allocation failed.
#[derive(Clone, Copy, Debug, Default, PartialEq, Eq)]
pub struct AllocError;

impl fmt::Display for AllocError {
    fn fmt(&self, f: &mut fmt::Formatter<'_>) -> fmt::Result {
        f.write_str("memory allocation failed")
    }
}

impl core::error::Error for AllocError {}

impl From<TryReserveError> for AllocError {
    fn from(_error: TryReserveError) -> AllocError {
        AllocError
    }
}

/// An allocation failed, so `value` wasn't stored.
pub struct AllocFailed<T> {
    /// What wasn't stored.
    pub value: T,
}

impl<T> From<AllocFailed<T>> for AllocError {
    fn from(_refused: AllocFailed<T>) -> AllocError {
        AllocError
    }
}

/// An empty vector with room for `capacity` items.
///
/// `try_reserve_exact` does the same, but takes a third of the instructions of a short text's copy to find out that it needn't move what a
/// new vector doesn't have.
#[inline]
pub(crate) fn allocated<T>(capacity: usize) -> Result<Vec<T>, AllocError> {
    let layout = Layout::array::<T>(capacity).map_err(|_| AllocError)?;
    if layout.size() == 0 {
        return Ok(Vec::new());
    }
    // SAFETY: the layout has a size.
    let block = unsafe { rust::alloc::alloc(layout) };
    if block.is_null() {
        return Err(AllocError);
    }
    // SAFETY: the global allocator gave the block, for so many items, and none of them is there yet.
    Ok(unsafe { Vec::from_raw_parts(block.cast(), 0, capacity) })
}
