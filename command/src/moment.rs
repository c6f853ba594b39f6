//! Moments: UTC in the proleptic Gregorian calendar, to the hundredth of a second, without leap seconds.

use std::fmt;
use trail::Time;

/// Hundredths of a second since 1970-01-01T00:00:00.00.
#[derive(Clone, Copy, Debug, PartialEq, Eq, PartialOrd, Ord)]
pub struct Moment(i64);

/// The years that a trail or a recording may start in; a time may lead past the last one.
const START_YEARS: std::ops::RangeInclusive<i64> = 1970..=2099;

/// What a moment looks like in full, a 0 for each digit; a shorter one is completed from it.
const FORM: &[u8; 22] = b"0000-00-00T00:00:00.00";
/// The lengths of a day, and of that with minutes, seconds and hundredths.
const LENGTHS: [usize; 4] = [10, 16, 19, 22];

const SECOND: i64 = 100;
const MINUTE: i64 = 60 * SECOND;
const HOUR: i64 = 60 * MINUTE;
const DAY: i64 = 24 * HOUR;

impl Moment {
    /// Reads `2026-11-17`, `2026-11-17T19:20`, `2026-11-17T19:20:45` or `2026-11-17T19:20:45.12`, with `T` or a space.
    pub fn parse(text: &str) -> Option<Moment> {
        let text = text.as_bytes();
        if !LENGTHS.contains(&text.len()) {
            return None;
        }
        let mut whole = *FORM;
        whole[..text.len()].copy_from_slice(text);
        for (byte, form) in whole.iter().zip(FORM) {
            match form {
                b'0' if byte.is_ascii_digit() => {}
                b'T' if *byte == b' ' => {}
                _ if byte == form => {}
                _ => return None,
            }
        }
        let field = |from: usize, to: usize| {
            whole[from..to]
                .iter()
                .fold(0, |number, digit| 10 * number + i64::from(digit - b'0'))
        };
        let (year, month, day) = (field(0, 4), field(5, 7), field(8, 10));
        let (hour, minute, second) = (field(11, 13), field(14, 16), field(17, 19));
        let real = year >= *START_YEARS.start()
            && (1..=12).contains(&month)
            && (1..=month_length(year, month)).contains(&day)
            && hour < 24
            && minute < 60
            && second < 60;
        real.then(|| {
            let days = days_before_year(year) + days_before_month(year, month) + day - 1;
            let seconds = hour * HOUR + minute * MINUTE + second * SECOND;
            Moment(days * DAY + seconds + field(20, 22))
        })
    }

    /// A moment that a trail or a recording may start at, from its hundredths since 1970.
    pub fn start_from_hundredths(hundredths: i64) -> Option<Moment> {
        Some(Moment(hundredths)).filter(|moment| moment.may_start())
    }

    /// Whether a trail or a recording may start at this moment: in the years 1970 to 2099.
    pub fn may_start(self) -> bool {
        let end = days_before_year(START_YEARS.end() + 1) * DAY;
        (0..end).contains(&self.0)
    }

    /// Hundredths of a second since 1970-01-01T00:00:00.00.
    pub fn hundredths(self) -> i64 {
        self.0
    }

    pub fn plus(self, time: Time) -> Moment {
        Moment(self.0 + i64::from(time.0))
    }

    /// Hundredths from an earlier moment to this one; below 0 if that is the later one.
    pub fn since(self, earlier: Moment) -> i64 {
        self.0 - earlier.0
    }
}

impl fmt::Display for Moment {
    fn fmt(&self, f: &mut fmt::Formatter) -> fmt::Result {
        let (days, rest) = (self.0.div_euclid(DAY), self.0.rem_euclid(DAY));
        let (year, month, day) = date(days);
        write!(
            f,
            "{year:04}-{month:02}-{day:02}T{:02}:{:02}:{:02}.{:02}",
            rest / HOUR,
            rest % HOUR / MINUTE,
            rest % MINUTE / SECOND,
            rest % SECOND
        )
    }
}

/// Year, month and day that lie this many days, not below 0, after 1970-01-01.
fn date(days: i64) -> (i64, i64, i64) {
    let mut year = 1970 + days / 366;
    while days_before_year(year + 1) <= days {
        year += 1;
    }
    let mut month = 1;
    let mut day = days - days_before_year(year);
    while day >= month_length(year, month) {
        day -= month_length(year, month);
        month += 1;
    }
    (year, month, day + 1)
}

/// Days from 1970-01-01 to the first day of a year.
fn days_before_year(year: i64) -> i64 {
    let leap_days = |last_year: i64| last_year / 4 - last_year / 100 + last_year / 400;
    365 * (year - 1970) + leap_days(year - 1) - leap_days(1969)
}

/// Days from the first day of a year to the first day of one of its months.
fn days_before_month(year: i64, month: i64) -> i64 {
    (1..month).map(|before| month_length(year, before)).sum()
}

fn month_length(year: i64, month: i64) -> i64 {
    let leap = year % 4 == 0 && (year % 100 != 0 || year % 400 == 0);
    match month {
        2 if leap => 29,
        2 => 28,
        4 | 6 | 9 | 11 => 30,
        _ => 31,
    }
}

#[cfg(test)]
mod tests;
