//! Numbers.

use std::fmt;

/// A number. Only those that aren't negative and have no fraction can be made.
#[derive(Clone, Copy, PartialEq, Eq)]
pub struct Number {
    value: u64,
}

impl fmt::Display for Number {
    fn fmt(&self, f: &mut fmt::Formatter<'_>) -> fmt::Result {
        self.value.fmt(f)
    }
}

impl fmt::Debug for Number {
    fn fmt(&self, f: &mut fmt::Formatter<'_>) -> fmt::Result {
        write!(f, "Number({})", self.value)
    }
}

impl From<u32> for Number {
    fn from(value: u32) -> Number {
        Number {
            value: u64::from(value),
        }
    }
}

impl From<u64> for Number {
    fn from(value: u64) -> Number {
        Number { value }
    }
}

impl From<usize> for Number {
    fn from(value: usize) -> Number {
        Number {
            value: value as u64,
        }
    }
}
