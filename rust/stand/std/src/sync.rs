//! Values with several owners.

use crate::alloc::{AllocError, AllocFailed, Global, allocated};
use crate::clone::TryClone;
use core::fmt;
use core::marker::PhantomData;
use core::ops::Deref;
use core::ptr::NonNull;
use core::sync::atomic::{AtomicUsize, Ordering, fence};
use rust::boxed::Box;

// More owners than this can't be counted safely, so `try_clone` refuses.
const MOST_OWNERS: usize = isize::MAX as usize;

struct Counted<T> {
    owners: AtomicUsize,
    value: T,
}

// An array of one, since a vector with room for one item becomes that for free.
type Block<T> = [Counted<T>; 1];

/// Rust's `Arc` without weak owners, where making one can fail.
pub struct Arc<T> {
    block: NonNull<Block<T>>,
    owned: PhantomData<Block<T>>,
}

// SAFETY: owners in several threads share the value, and the last of them drops it: hence both bounds, as for Rust's `Arc`.
unsafe impl<T: Send + Sync> Send for Arc<T> {}

// SAFETY: as for `Send`, since an owner can be cloned through a reference.
unsafe impl<T: Send + Sync> Sync for Arc<T> {}

impl<T> Arc<T> {
    /// The only owner of `value`.
    pub fn new(_alloc: Global, value: T) -> Result<Arc<T>, AllocFailed<T>> {
        let Ok(mut counted) = allocated(1) else {
            return Err(AllocFailed { value });
        };
        counted.push(Counted {
            owners: AtomicUsize::new(1),
            value,
        });
        match Box::<Block<T>>::try_from(counted.into_boxed_slice()) {
            Ok(block) => Ok(Arc {
                block: NonNull::from(Box::leak(block)),
                owned: PhantomData,
            }),
            Err(_) => unreachable!("one was pushed"),
        }
    }

    /// Another owner of the same value. It fails only if there are too many.
    pub fn try_clone(this: &Arc<T>) -> Result<Arc<T>, AllocError> {
        let before = this.counted().owners.fetch_add(1, Ordering::Relaxed);
        let other = Arc {
            block: this.block,
            owned: PhantomData,
        };
        if before > MOST_OWNERS {
            Err(AllocError)
        } else {
            Ok(other)
        }
    }

    fn counted(&self) -> &Counted<T> {
        // SAFETY: the block lives as long as any owner, and nobody changes it while there are several.
        let [counted] = unsafe { self.block.as_ref() };
        counted
    }

    fn is_only_owner(&self) -> bool {
        self.counted().owners.load(Ordering::Acquire) == 1
    }

    // Gives up this owner, and takes the block if it was the last.
    fn release(&mut self) -> Option<Box<Block<T>>> {
        if self.counted().owners.fetch_sub(1, Ordering::Release) != 1 {
            return None;
        }
        fence(Ordering::Acquire);
        // SAFETY: `new` made the block from a box, and no other owner is left to use it.
        Some(unsafe { Box::from_raw(self.block.as_ptr()) })
    }
}

impl<T: TryClone> Arc<T> {
    /// The value if there is no other owner, or else a copy of it.
    pub fn unwrap_or_clone(this: Arc<T>) -> Result<T, AllocError> {
        if !this.is_only_owner() {
            return this.try_clone_value();
        }
        let mut this = core::mem::ManuallyDrop::new(this);
        match this.release() {
            Some(block) => {
                let [counted] = *block;
                Ok(counted.value)
            }
            None => unreachable!("this is the only owner"),
        }
    }

    /// The value, to be changed: first it copies the value if there are other owners, which keep theirs.
    pub fn make_mut(this: &mut Arc<T>) -> Result<&mut T, AllocError> {
        if !this.is_only_owner() {
            *this = Arc::new(Global, this.try_clone_value()?)?;
        }
        // SAFETY: this is the only owner, and it is borrowed for as long as the value is.
        let [counted] = unsafe { this.block.as_mut() };
        Ok(&mut counted.value)
    }

    fn try_clone_value(&self) -> Result<T, AllocError> {
        self.counted().value.try_clone()
    }
}

impl<T> Drop for Arc<T> {
    fn drop(&mut self) {
        drop(self.release());
    }
}

impl<T> Deref for Arc<T> {
    type Target = T;

    #[inline]
    fn deref(&self) -> &T {
        &self.counted().value
    }
}

impl<T: fmt::Debug> fmt::Debug for Arc<T> {
    fn fmt(&self, f: &mut fmt::Formatter<'_>) -> fmt::Result {
        (**self).fmt(f)
    }
}
