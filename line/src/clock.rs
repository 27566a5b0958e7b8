//! The date and the time, to say when something was made, in UTC: no time zone is known
//! here.

use std::time::{SystemTime, UNIX_EPOCH};

/// A time as `2026-11-16T11:24:43Z`; one before 1970 is told as its first second.
pub fn in_utc(time: SystemTime) -> String {
    let since = time.duration_since(UNIX_EPOCH).unwrap_or_default();
    let (days, second) = (since.as_secs() / 86_400, since.as_secs() % 86_400);
    let (year, month, day) = date(days);
    let (hour, minute, second) = (second / 3_600, second / 60 % 60, second % 60);
    format!("{year:04}-{month:02}-{day:02}T{hour:02}:{minute:02}:{second:02}Z")
}

/// The year, the month and the day so many days after 1970-01-01.
fn date(days: u64) -> (u64, u64, u64) {
    // Years that begin on the first of March have their leap day at the end, so that
    // months have lengths of one pattern: 153 days for five of them.
    let days = days + 719_468;
    let (era, day) = (days / 146_097, days % 146_097);
    let year = (day - day / 1_460 + day / 36_524 - day / 146_096) / 365;
    let day = day - (365 * year + year / 4 - year / 100);
    let month = (5 * day + 2) / 153;
    let first = (153 * month + 2) / 5;
    let (year, month_of_year) = (400 * era + year, (month + 2) % 12 + 1);
    (
        year + u64::from(month >= 10),
        month_of_year,
        day - first + 1,
    )
}

#[cfg(test)]
mod tests {
    use super::*;
    use std::time::Duration;

    fn said(second: u64) -> String {
        in_utc(UNIX_EPOCH + Duration::from_secs(second))
    }

    #[test]
    fn times_that_are_known() {
        assert_eq!(said(0), "1970-01-01T00:00:00Z");
        assert_eq!(said(951_782_399), "2000-02-28T23:59:59Z");
        assert_eq!(said(951_782_400), "2000-02-29T00:00:00Z");
        assert_eq!(said(1_000_000_000), "2001-09-09T01:46:40Z");
        assert_eq!(said(4_107_542_400), "2100-03-01T00:00:00Z");
        assert_eq!(said(1_794_828_283), "2026-11-16T11:24:43Z");
    }

    #[test]
    fn every_day_has_the_next_date() {
        let length = |year: u64, month| match (month, year % 4, year % 100, year % 400) {
            (2, _, _, 0) => 29,
            (2, _, 0, _) => 28,
            (2, 0, _, _) => 29,
            (2, ..) => 28,
            (4 | 6 | 9 | 11, ..) => 30,
            _ => 31,
        };
        let mut expected = (1970, 1, 1);
        for days in 0..200_000 {
            assert_eq!(date(days), expected, "day {days}");
            let (year, month, day) = expected;
            expected = match (month, day == length(year, month)) {
                (12, true) => (year + 1, 1, 1),
                (_, true) => (year, month + 1, 1),
                _ => (year, month, day + 1),
            };
        }
    }
}
