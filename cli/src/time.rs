//! The time at which something was found, in UTC and in one form, so that later ones are greater as texts too.

use std::time::{SystemTime, UNIX_EPOCH};

/// Now, as 2026-11-15T22:50:00Z.
pub fn now() -> String {
    let since = SystemTime::now().duration_since(UNIX_EPOCH);
    utc(since.map_or(0, |since| since.as_secs()))
}

/// Whether a word is a time of that form.
pub fn is_time(word: &str) -> bool {
    is_moment(word) && word.contains('T')
}

/// Whether a word is a day, as 2026-11-16, or a time of that form.
pub fn is_moment(word: &str) -> bool {
    let form = "0000-00-00T00:00:00Z";
    let digits = |letter: u8| {
        if letter.is_ascii_digit() {
            b'0'
        } else {
            letter
        }
    };
    let shape: Vec<u8> = word.bytes().map(digits).collect();
    let within = |place: usize, numbers: std::ops::RangeInclusive<&str>| {
        word.get(place..place + 2)
            .is_none_or(|number| numbers.contains(&number))
    };
    (shape == form.as_bytes() || shape == form[..10].as_bytes())
        && within(5, "01"..="12")
        && within(8, "01"..="31")
        && within(11, "00"..="23")
        && within(14, "00"..="59")
        && within(17, "00"..="60")
}

/// Seconds since 1970 as a date and a time of day, in the Gregorian calendar.
fn utc(seconds: u64) -> String {
    let (days, second) = (seconds / 86_400, seconds % 86_400);
    // Counted from 1 March of the year 0, so that the day that is not in every year is a year's last.
    let days = days + 719_468;
    let (era, day) = (days / 146_097, days % 146_097);
    let year = (day - day / 1_460 + day / 36_524 - day / 146_096) / 365;
    let day = day - (365 * year + year / 4 - year / 100);
    let month = (5 * day + 2) / 153;
    let day = day - (153 * month + 2) / 5 + 1;
    let (month, next) = if month < 10 {
        (month + 3, 0)
    } else {
        (month - 9, 1)
    };
    let year = era * 400 + year + next;
    let (hour, minute, second) = (second / 3_600, second / 60 % 60, second % 60);
    format!("{year:04}-{month:02}-{day:02}T{hour:02}:{minute:02}:{second:02}Z")
}

#[cfg(test)]
mod tests {
    use super::*;

    #[test]
    fn a_day_or_a_time_is_a_moment() {
        for word in ["2026-11-16", "2026-11-16T00:00:00Z", "1970-01-31T23:59:60Z"] {
            assert!(is_moment(word), "{word}");
        }
        for word in [
            "",
            "2026",
            "2026-11",
            "2026-1-16",
            "2026-13-01",
            "2026-00-01",
            "2026-11-00",
            "2026-11-32",
            "2026-11-16T",
            "2026-11-16T24:00:00Z",
            "2026-11-16T00:60:00Z",
            "2026-11-16 00:00:00Z",
            "2026-11-16T00:00:00",
            "16.11.2026",
            "yesterday",
            "20\u{e4}6-11-16",
        ] {
            assert!(!is_moment(word), "{word}");
        }
        assert!(is_time(&now()) && !is_time("2026-11-16") && !is_time(""));
    }

    #[test]
    fn days_are_those_of_the_calendar() {
        assert_eq!(utc(0), "1970-01-01T00:00:00Z");
        assert_eq!(utc(951_782_399), "2000-02-28T23:59:59Z");
        assert_eq!(utc(951_782_400), "2000-02-29T00:00:00Z");
        assert_eq!(utc(4_107_542_400), "2100-03-01T00:00:00Z");
        assert_eq!(utc(1_794_782_200), "2026-11-15T22:36:40Z");
    }
}
