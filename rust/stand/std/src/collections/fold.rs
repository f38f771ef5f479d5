//! The hash of the maps.

use core::hash::Hasher;

// Odd, with as many ones as zeros and no pattern: the digits of pi.
const MULTIPLIER: u64 = 0x243f_6a88_85a3_08d3;

/// A hash of a few instructions for each eight bytes: it multiplies by a constant and folds the product.
///
/// It has no random key, like Rattle's. So whoever may choose the keys of a map can make it slow.
#[derive(Clone, Copy, Default)]
pub struct FoldHasher {
    state: u64,
}

impl FoldHasher {
    #[inline]
    fn add(&mut self, word: u64) {
        let product = u128::from(self.state ^ word) * u128::from(MULTIPLIER);
        // The low half and the high half of the product.
        self.state = (product as u64) ^ ((product >> 64) as u64);
    }
}

impl Hasher for FoldHasher {
    #[inline]
    fn write(&mut self, bytes: &[u8]) {
        let mut words = bytes.chunks_exact(8);
        for word in &mut words {
            self.add(u64::from_le_bytes(word.try_into().unwrap_or_default()));
        }
        let mut last = [0; 8];
        let rest = words.remainder();
        last[..rest.len()].copy_from_slice(rest);
        // The length tells texts apart that end in zeros.
        self.add(u64::from_le_bytes(last) ^ (bytes.len() as u64).rotate_right(8) ^ !MULTIPLIER);
    }

    #[inline]
    fn write_u8(&mut self, number: u8) {
        self.state ^= u64::from(number);
    }

    #[inline]
    fn write_u64(&mut self, number: u64) {
        self.add(number);
    }

    #[inline]
    fn write_usize(&mut self, number: usize) {
        self.add(number as u64);
    }

    #[inline]
    fn finish(&self) -> u64 {
        self.state
    }
}
