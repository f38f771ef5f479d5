//! Sixteen bytes at once.

/// The names that code on vectors has in scope.
pub mod prelude {
    pub use super::{mask8x16, u8x16};
}

/// Sixteen bytes.
#[allow(non_camel_case_types)]
#[derive(Clone, Copy)]
pub struct u8x16([u8; 16]);

/// Sixteen truth values.
#[allow(non_camel_case_types)]
#[derive(Clone, Copy)]
pub struct mask8x16(u16);

impl u8x16 {
    /// The first sixteen bytes of `bytes`, which has to have so many.
    #[inline(always)]
    pub fn from_slice(bytes: &[u8]) -> u8x16 {
        let mut lanes = [0; 16];
        lanes.copy_from_slice(&bytes[..16]);
        u8x16(lanes)
    }

    /// Sixteen times `byte`.
    #[inline(always)]
    pub fn splat(byte: u8) -> u8x16 {
        u8x16([byte; 16])
    }

    /// Which bytes are the same in both.
    #[inline(always)]
    #[cfg(target_arch = "x86_64")]
    pub fn simd_eq(self, other: u8x16) -> mask8x16 {
        use core::arch::x86_64::{_mm_cmpeq_epi8, _mm_loadu_si128, _mm_movemask_epi8};
        // SAFETY: each x86-64 processor has SSE2, and each load reads an array of sixteen bytes.
        let equal = unsafe {
            let one = _mm_loadu_si128(self.0.as_ptr().cast());
            let two = _mm_loadu_si128(other.0.as_ptr().cast());
            _mm_movemask_epi8(_mm_cmpeq_epi8(one, two))
        };
        // The mask has sixteen bits.
        mask8x16(equal as u16)
    }

    /// Which bytes are the same in both.
    #[inline(always)]
    #[cfg(not(target_arch = "x86_64"))]
    pub fn simd_eq(self, other: u8x16) -> mask8x16 {
        let pairs = self.0.iter().zip(other.0);
        mask8x16(
            pairs
                .rev()
                .fold(0, |mask, (one, two)| mask << 1 | u16::from(*one == two)),
        )
    }
}

impl mask8x16 {
    /// The values as bits, the first one lowest.
    #[inline(always)]
    pub fn to_bitmask(self) -> u64 {
        u64::from(self.0)
    }
}

impl core::ops::BitOr for mask8x16 {
    type Output = mask8x16;

    #[inline(always)]
    fn bitor(self, other: mask8x16) -> mask8x16 {
        mask8x16(self.0 | other.0)
    }
}
