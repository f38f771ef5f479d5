//! The time of day.
use std::time::SystemTime;

/// The time in seconds.
pub fn now() -> f64 {
    SystemTime::now().duration_since(SystemTime::UNIX_EPOCH).map_or(0.0, |time| time.as_secs_f64())
}

/// The time in nanoseconds.
pub fn nanoseconds() -> u64 {
    let time = SystemTime::now().duration_since(SystemTime::UNIX_EPOCH).unwrap_or_default();
    time.as_secs() * 1_000_000_000 + u64::from(time.subsec_nanos())
}

#[cfg(test)]
mod tests {
    use super::*;

    #[test]
    fn nanoseconds_are_the_time() {
        #[allow(clippy::cast_precision_loss)]
        let seconds = nanoseconds() as f64 / 1e9;
        assert!((now() - seconds).abs() < 60.0, "{seconds}");
    }
}
