//! Moments as RFC 3339 has them.
use std::time::SystemTime;

const SECONDS_OF_DAY: u64 = 24 * 60 * 60;
/// The days of 400 years, after which the calendar is the same again.
const DAYS_OF_CYCLE: u64 = 146_097;
/// The days from the first of March of the year 0 to the first of January 1970.
const DAYS_BEFORE: u64 = 719_468;

/// A moment in UTC, such as `2026-12-01T09:30:00Z`. One before 1970 is 1970's first.
pub fn text_of(moment: SystemTime) -> String {
    let seconds = moment.duration_since(SystemTime::UNIX_EPOCH).unwrap_or_default().as_secs();
    let (year, month, day) = date_of(seconds / SECONDS_OF_DAY);
    let of_day = seconds % SECONDS_OF_DAY;
    format!("{year:04}-{month:02}-{day:02}T{:02}:{:02}:{:02}Z", of_day / 3600, of_day / 60 % 60, of_day % 60)
}

/// The date of a day, counted from 1970's first. A year begins in March here, so the odd day of a leap year
/// is its last.
fn date_of(days: u64) -> (u64, u64, u64) {
    let days = days + DAYS_BEFORE;
    let (cycle, of_cycle) = (days / DAYS_OF_CYCLE, days % DAYS_OF_CYCLE);
    let year = (of_cycle - of_cycle / 1460 + of_cycle / 36_524 - of_cycle / 146_096) / 365;
    let of_year = of_cycle - (365 * year + year / 4 - year / 100);
    // (five months from March on have 153 days)
    let month = (5 * of_year + 2) / 153;
    let day = of_year - (153 * month + 2) / 5 + 1;
    let is_after = u64::from(month >= 10);
    (cycle * 400 + year + is_after, if is_after == 1 { month - 9 } else { month + 3 }, day)
}

#[cfg(test)]
mod tests {
    use super::*;
    use std::time::Duration;

    #[test]
    fn moments_are_those_of_the_calendar() {
        for (seconds, wanted) in [
            (0, "1970-01-01T00:00:00Z"),
            (951_782_399, "2000-02-28T23:59:59Z"),
            (951_782_400, "2000-02-29T00:00:00Z"),
            (951_868_800, "2000-03-01T00:00:00Z"),
            (1_796_117_400, "2026-12-01T09:30:00Z"),
            (4_107_542_400, "2100-03-01T00:00:00Z"),
            (4_107_542_399, "2100-02-28T23:59:59Z"),
        ] {
            assert_eq!(text_of(SystemTime::UNIX_EPOCH + Duration::from_secs(seconds)), wanted);
        }
    }

    #[test]
    fn each_day_follows_the_one_before() {
        let mut before = date_of(0);
        for days in 1..200_000 {
            let (year, month, day) = date_of(days);
            let follows = match before {
                (of, in_month, at) if (of, in_month) == (year, month) => day == at + 1,
                (of, 12, 31) => (year, month, day) == (of + 1, 1, 1),
                (of, in_month, at) => (year, month, day) == (of, in_month + 1, 1) && (28..=31).contains(&at),
            };
            assert!(follows, "{before:?} {:?}", (year, month, day));
            before = (year, month, day);
        }
    }
}
