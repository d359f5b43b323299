//! Moments as a log has them: UTC, in whole seconds, as 2026-11-17T21:50:00Z. A day has 86,400 of them, as in every count from 1970 on.
use std::time::{SystemTime, UNIX_EPOCH};

const DAY: u64 = 86_400;

/// The seconds since 1970.
pub fn now() -> u64 {
    SystemTime::now().duration_since(UNIX_EPOCH).map_or(0, |since| since.as_secs())
}

/// A moment in words.
pub fn words(seconds: u64) -> String {
    let ((year, month, day), rest) = (date(seconds / DAY), seconds % DAY);
    format!("{year:04}-{month:02}-{day:02}T{:02}:{:02}:{:02}Z", rest / 3600, rest / 60 % 60, rest % 60)
}

/// The moment that words tell: those that [`words`] writes, and no others.
pub fn read(text: &str) -> Option<u64> {
    let part = |from: usize, to: usize| {
        text.get(from..to).filter(|digits| digits.bytes().all(|digit| digit.is_ascii_digit()))?.parse::<u64>().ok()
    };
    let (year, month, day) = (part(0, 4)?, part(5, 7)?, part(8, 10)?);
    let (hours, minutes, seconds) = (part(11, 13)?, part(14, 16)?, part(17, 19)?);
    if year < 1970 || !(1..=12).contains(&month) || !(1..=31).contains(&day) {
        return None;
    }
    let moment = DAY * days(year, month, day) + 3600 * hours + 60 * minutes + seconds;
    Some(moment).filter(|moment| words(*moment) == text)
}

fn is_leap(year: u64) -> bool {
    year.is_multiple_of(4) && (!year.is_multiple_of(100) || year.is_multiple_of(400))
}

fn length(year: u64, month: u64) -> u64 {
    match month {
        2 if is_leap(year) => 29,
        2 => 28,
        4 | 6 | 9 | 11 => 30,
        _ => 31,
    }
}

/// The days from 1970 to a date.
fn days(year: u64, month: u64, day: u64) -> u64 {
    let leaps = |year: u64| year / 4 - year / 100 + year / 400;
    let years = 365 * (year - 1970) + leaps(year - 1) - leaps(1969);
    years + (1..month).map(|month| length(year, month)).sum::<u64>() + day - 1
}

/// The date so many days from 1970 on.
fn date(number: u64) -> (u64, u64, u64) {
    // At least as many years as it can be, then down to the one that it is in.
    let mut year = 1970 + number / 365;
    while days(year, 1, 1) > number {
        year -= 1;
    }
    let (mut month, mut rest) = (1, number - days(year, 1, 1));
    while rest >= length(year, month) {
        rest -= length(year, month);
        month += 1;
    }
    (year, month, rest + 1)
}

#[cfg(test)]
mod tests {
    use super::*;

    /// By `date -u -d @N`.
    #[test]
    fn moments() {
        for (seconds, text) in [
            (0, "1970-01-01T00:00:00Z"),
            (951_782_399, "2000-02-28T23:59:59Z"),
            (951_868_799, "2000-02-29T23:59:59Z"),
            (1_795_039_800, "2026-11-18T22:10:00Z"),
            (4_107_542_400, "2100-03-01T00:00:00Z"),
            (253_402_300_799, "9999-12-31T23:59:59Z"),
        ] {
            assert_eq!(words(seconds), text);
            assert_eq!(read(text), Some(seconds));
        }
        for day in 0..200_000 {
            assert_eq!(read(&words(DAY * day + 7)), Some(DAY * day + 7), "{day}");
        }
        for text in [
            "",
            "2026-11-17",
            "2026-02-29T00:00:00Z",
            "2026-11-17T24:00:00Z",
            "2026-13-01T00:00:00Z",
            "1969-01-01T00:00:00Z",
            "2026-11-17 21:50:00Z",
        ] {
            assert_eq!(read(text), None, "{text}");
        }
    }
}
