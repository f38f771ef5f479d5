//! The first place of a byte.
#![deny(unsafe_op_in_unsafe_fn)]
#![warn(missing_docs)]

/// Where `needle` is first in `haystack`.
#[inline]
pub fn memchr(needle: u8, haystack: &[u8]) -> Option<usize> {
    first(haystack, [needle])
}

/// Where one of three bytes is first in `haystack`.
#[inline]
pub fn memchr3(needle1: u8, needle2: u8, needle3: u8, haystack: &[u8]) -> Option<usize> {
    first(haystack, [needle1, needle2, needle3])
}

// Where one of `needles` is first: block by block, and then what is left byte by byte.
#[inline]
fn first<const N: usize>(haystack: &[u8], needles: [u8; N]) -> Option<usize> {
    let blocks = haystack.chunks_exact(BLOCK);
    let rest = blocks.remainder();
    for (number, block) in blocks.enumerate() {
        if let Some(place) = first_in_block(block, needles) {
            return Some(number * BLOCK + place);
        }
    }
    let place = rest.iter().position(|byte| needles.contains(byte))?;
    Some(haystack.len() - rest.len() + place)
}

#[cfg(target_arch = "x86_64")]
const BLOCK: usize = 16;

#[cfg(target_arch = "x86_64")]
#[inline]
fn first_in_block<const N: usize>(block: &[u8], needles: [u8; N]) -> Option<usize> {
    use core::arch::x86_64::{_mm_cmpeq_epi8, _mm_loadu_si128, _mm_movemask_epi8, _mm_set1_epi8};
    let block: &[u8; BLOCK] = block.try_into().ok()?;
    let mut mask = 0;
    for needle in needles {
        // SAFETY: each x86-64 processor has SSE2, and the block has the sixteen bytes that are loaded.
        mask |= unsafe {
            let equal = _mm_cmpeq_epi8(
                _mm_loadu_si128(block.as_ptr().cast()),
                _mm_set1_epi8(needle as i8),
            );
            _mm_movemask_epi8(equal)
        };
    }
    (mask != 0).then(|| mask.trailing_zeros() as usize)
}

#[cfg(not(target_arch = "x86_64"))]
const BLOCK: usize = 8;

// In a number of eight bytes, a byte that is zero is found by its borrow from the bit above it. The lowest one found is right,
// since nothing below it borrowed.
#[cfg(not(target_arch = "x86_64"))]
#[inline]
fn first_in_block<const N: usize>(block: &[u8], needles: [u8; N]) -> Option<usize> {
    const ONES: u64 = u64::from_ne_bytes([1; BLOCK]);
    let word = u64::from_le_bytes(block.try_into().ok()?);
    let mut found = 0;
    for needle in needles {
        let different = word ^ (ONES * u64::from(needle));
        found |= different.wrapping_sub(ONES) & !different & (ONES << 7);
    }
    (found != 0).then(|| found.trailing_zeros() as usize / 8)
}
