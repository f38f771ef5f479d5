//! Copies that can run out of memory.

use crate::alloc::AllocError;
use crate::string::String;
use crate::vec::Vec;
pub use core::clone::Clone;

/// A value that can be copied if there is memory for it.
pub trait TryClone: Sized {
    /// An equal value.
    fn try_clone(&self) -> Result<Self, AllocError>;

    /// Appends copies of `items`. The vector has room for them.
    #[doc(hidden)]
    fn append_clones(to: &mut rust::vec::Vec<Self>, items: &[Self]) -> Result<(), AllocError> {
        for item in items {
            to.push(item.try_clone()?);
        }
        Ok(())
    }
}

macro_rules! copied {
    ($($number:ty)+) => {$(
        impl TryClone for $number {
            #[inline]
            fn try_clone(&self) -> Result<$number, AllocError> {
                Ok(*self)
            }

            #[inline]
            fn append_clones(to: &mut rust::vec::Vec<$number>, items: &[$number]) -> Result<(), AllocError> {
                to.extend_from_slice(items);
                Ok(())
            }
        }
    )+};
}

copied!(u8 u32 u64 usize);

impl TryClone for String {
    fn try_clone(&self) -> Result<String, AllocError> {
        String::copy_of(self)
    }
}

impl<A: TryClone, B: TryClone> TryClone for (A, B) {
    fn try_clone(&self) -> Result<(A, B), AllocError> {
        Ok((self.0.try_clone()?, self.1.try_clone()?))
    }
}

impl<T: TryClone> TryClone for Vec<T> {
    fn try_clone(&self) -> Result<Vec<T>, AllocError> {
        Vec::copy_of(self)
    }
}
