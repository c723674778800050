//! Dates of the Gregorian calendar, which is also used before its introduction in 1582.

use std::ffi::OsStr;
use std::fmt;

use crate::trouble::Trouble;

/// A day, of the years 1 to 9999. Later dates are greater.
#[derive(Clone, Copy, Debug, PartialEq, Eq, PartialOrd, Ord)]
pub struct Date {
    year: u32,
    month: u32,
    day: u32,
}

impl Date {
    /// The date that a text gives as YYYY-MM-DD, exactly.
    pub fn parse(text: &str) -> Option<Date> {
        let bytes = text.as_bytes();
        let dashes = bytes.len() == 10 && bytes[4] == b'-' && bytes[7] == b'-';
        let number = |part: &str| {
            let digits = part.bytes().all(|byte| byte.is_ascii_digit());
            digits.then(|| part.parse::<u32>().ok()).flatten()
        };
        if !dashes || !text.is_ascii() {
            return None;
        }
        let (year, month, day) = (number(&text[..4])?, number(&text[5..7])?, number(&text[8..])?);
        let real =
            year > 0 && (1..=12).contains(&month) && (1..=month_length(year, month)).contains(&day);
        real.then_some(Date { year, month, day })
    }

    /// The date of an option's value.
    pub fn of(name: &str, value: &OsStr) -> Result<Date, Trouble> {
        value.to_str().and_then(Date::parse).ok_or_else(|| {
            let value = value.to_string_lossy();
            let what = "is a date of the calendar, written YYYY-MM-DD";
            Trouble::usage(format!("--{name} {what}, not '{value}'"))
        })
    }

    /// The day after.
    pub fn next(self) -> Date {
        let Date { year, month, day } = self;
        if day < month_length(year, month) {
            Date { day: day + 1, ..self }
        } else if month < 12 {
            Date { month: month + 1, day: 1, ..self }
        } else {
            Date { year: year + 1, month: 1, day: 1 }
        }
    }

    /// The days from 0001-01-01 to this date.
    pub fn number(self) -> u32 {
        let years = self.year - 1;
        let leap_days = years / 4 - years / 100 + years / 400;
        let months: u32 = (1..self.month).map(|month| month_length(self.year, month)).sum();
        365 * years + leap_days + months + self.day - 1
    }
}

impl fmt::Display for Date {
    fn fmt(&self, f: &mut fmt::Formatter<'_>) -> fmt::Result {
        write!(f, "{:04}-{:02}-{:02}", self.year, self.month, self.day)
    }
}

fn month_length(year: u32, month: u32) -> u32 {
    let by = |years| year.is_multiple_of(years);
    let leap = by(4) && (!by(100) || by(400));
    match month {
        2 if leap => 29,
        2 => 28,
        4 | 6 | 9 | 11 => 30,
        _ => 31,
    }
}

#[cfg(test)]
mod tests {
    use super::Date;

    fn date(text: &str) -> Date {
        Date::parse(text).unwrap()
    }

    #[test]
    fn dates_of_the_calendar_only() {
        for right in ["2024-02-29", "2000-02-29", "0001-01-01", "9999-12-31", "2026-04-30"] {
            assert_eq!(date(right).to_string(), right);
        }
        let wrong = ["2023-02-29", "1900-02-29", "2026-04-31", "2026-13-01", "2026-00-10"];
        let unlike =
            ["2026-01-00", "0000-01-01", "2026-1-01", "2026-01-1", "20260101", "", "+026-01-01"];
        for wrong in
            wrong.into_iter().chain(unlike).chain(["2026-01-01 ", "2026/01/01", "２026-01"])
        {
            assert_eq!(Date::parse(wrong), None, "{wrong}");
        }
    }

    #[test]
    fn the_day_after() {
        let pairs = [
            ("2026-12-31", "2027-01-01"),
            ("2024-02-28", "2024-02-29"),
            ("2024-02-29", "2024-03-01"),
            ("2023-02-28", "2023-03-01"),
            ("2026-04-30", "2026-05-01"),
        ];
        for (day, after) in pairs {
            assert_eq!(date(day).next(), date(after));
        }
    }

    #[test]
    fn numbers_count_days() {
        assert_eq!(date("0001-01-01").number(), 0);
        // Python's date.toordinal counts from 1.
        assert_eq!(date("2026-11-16").number(), 739_936 - 1);
        let mut day = date("1896-01-01");
        for _ in 0..4000 * 4 {
            assert_eq!(day.next().number(), day.number() + 1);
            assert!(day.next() > day);
            day = day.next();
        }
    }
}
