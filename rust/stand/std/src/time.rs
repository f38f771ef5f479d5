//! The clock.

use crate::io::Result;
pub use core::time::Duration;

/// A handle that may read the clock.
pub trait Clock {}

/// A moment of a clock that only rises.
#[derive(Clone, Copy, Debug, PartialEq, Eq, PartialOrd, Ord)]
pub struct Instant {
    instant: rust::time::Instant,
}

impl Instant {
    /// Now.
    pub fn now<R: Clock>(_rt: &R) -> Result<Instant> {
        Ok(Instant {
            instant: rust::time::Instant::now(),
        })
    }

    /// How long ago it was.
    pub fn elapsed<R: Clock>(&self, _rt: &R) -> Result<Duration> {
        Ok(self.instant.elapsed())
    }
}
