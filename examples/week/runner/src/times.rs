//! Minutes of the week, and the ways in which lists write times.

use crate::sheet::Cell;

pub const DAY: u16 = 24 * 60;
pub const WEEK: u16 = 7 * DAY;
pub const DAYS: [&str; 7] = ["Mon", "Tue", "Wed", "Thu", "Fri", "Sat", "Sun"];

/// What a time may look like, for errors and for the help.
pub const FORMS: &str =
    "a minute of the week, \"Thu 12:40\", \"2026-11-19 12:40\" or \"19.11.2026 12:40\"";

pub fn day(minute: u16) -> &'static str {
    DAYS[usize::from(minute / DAY) % 7]
}

/// "Thu 12:40" of a minute of the week.
pub fn clock(minute: u16) -> String {
    let (hours, minutes) = (minute % DAY / 60, minute % 60);
    format!("{} {hours:02}:{minutes:02}", day(minute))
}

/// A time as it was written.
#[derive(Clone, Copy, Debug, PartialEq, Eq)]
pub enum Time {
    /// Minutes since Monday, 00:00.
    OfWeek(i64),
    /// Minutes since 1970 began.
    OfDate(i64),
}

/// The day on which the week begins, in days since 1970, if dates are used.
#[derive(Clone, Copy, Debug, Default)]
pub struct Calendar {
    pub monday: Option<i64>,
}

impl Calendar {
    /// The week in which a time is, if that has a date.
    pub fn of(time: Time) -> Calendar {
        let monday = match time {
            Time::OfWeek(_) => None,
            // 1970 began on a Thursday
            Time::OfDate(minutes) => {
                let days = minutes.div_euclid(i64::from(DAY));
                Some(days - (days + 3).rem_euclid(7))
            }
        };
        Calendar { monday }
    }

    /// The minute of the week, below 0 for one before it.
    pub fn minute(&self, time: Time) -> Option<i64> {
        match (time, self.monday) {
            (Time::OfWeek(minute), _) => Some(minute),
            (Time::OfDate(minutes), Some(monday)) => Some(minutes - monday * i64::from(DAY)),
            (Time::OfDate(_), None) => None,
        }
    }

    /// The minute of the week that stands in a cell, from `low` to `high`.
    pub fn read(&self, cell: Cell, low: i64, high: i64) -> Result<i64, String> {
        let time = parse(cell.text()).ok_or_else(|| cell.wrong(FORMS))?;
        let minute = self.minute(time);
        let minute =
            minute.ok_or_else(|| cell.wrong("a date only where the visits have dates, too"))?;
        match (low..=high).contains(&minute) {
            true => Ok(minute),
            false => Err(cell.wrong(self.span(low, high))),
        }
    }

    fn span(&self, low: i64, high: i64) -> String {
        let week = match self.monday {
            Some(monday) => format!(", counted from Monday, {}", date(monday)),
            None => String::new(),
        };
        format!("a time from minute {low} to minute {high} of the week{week}")
    }
}

/// Reads a time in any of its forms; seconds are dropped.
pub fn parse(text: &str) -> Option<Time> {
    if let Ok(minute) = text.parse() {
        return Some(Time::OfWeek(minute));
    }
    let (first, rest) = match text.split_once(' ').or_else(|| text.split_once('T')) {
        Some((first, rest)) => (first, rest.trim()),
        None => (text, "00:00"),
    };
    let minutes = time_of_day(rest)?;
    let is_day = |name: &str| name.eq_ignore_ascii_case(first);
    if let Some(day) = DAYS.iter().position(|name| is_day(name)) {
        return Some(Time::OfWeek(day as i64 * i64::from(DAY) + minutes));
    }
    Some(Time::OfDate(days(first)? * i64::from(DAY) + minutes))
}

/// "12:40" or "12:40:59", in minutes.
fn time_of_day(text: &str) -> Option<i64> {
    let parts = numbers(text, ':')?;
    match parts[..] {
        [hours @ 0..=23, minutes @ 0..=59] => Some(60 * hours + minutes),
        [hours @ 0..=23, minutes @ 0..=59, 0..=59] => Some(60 * hours + minutes),
        _ => None,
    }
}

/// "2026-11-19" or "19.11.2026", in days since 1970.
fn days(text: &str) -> Option<i64> {
    let (year, month, day) = match text.contains('-') {
        true => {
            let parts = numbers(text, '-')?;
            (
                *parts.first()?,
                *parts.get(1)?,
                *parts.get(2).filter(|_| parts.len() == 3)?,
            )
        }
        false => {
            let parts = numbers(text, '.')?;
            (
                *parts.get(2).filter(|_| parts.len() == 3)?,
                *parts.get(1)?,
                *parts.first()?,
            )
        }
    };
    let days = civil(year, month, day);
    let is_day = (1970..=9999).contains(&year)
        && (1..=12).contains(&month)
        && parts_of(days) == (year, month, day);
    is_day.then_some(days)
}

fn numbers(text: &str, separator: char) -> Option<Vec<i64>> {
    let is_number =
        |part: &&str| !part.is_empty() && part.bytes().all(|byte| byte.is_ascii_digit());
    let parts: Vec<&str> = text.split(separator).collect();
    let numbers = parts
        .iter()
        .filter(|part| is_number(part))
        .map(|part| part.parse().ok());
    numbers
        .collect::<Option<Vec<i64>>>()
        .filter(|found| found.len() == parts.len())
}

/// Days since 1970 of a date. Years are counted from March on, so that a leap day is the last of its year.
fn civil(year: i64, month: i64, day: i64) -> i64 {
    let (year, month) = if month > 2 {
        (year, month - 3)
    } else {
        (year - 1, month + 9)
    };
    365 * year + year / 4 - year / 100 + year / 400 + (153 * month + 2) / 5 + day - 719_469
}

/// The date of so many days since 1970.
fn parts_of(days: i64) -> (i64, i64, i64) {
    let mut year = 1970 + days / 366;
    while civil(year + 1, 1, 1) <= days {
        year += 1;
    }
    let month = (1..=12)
        .rev()
        .find(|month| civil(year, *month, 1) <= days)
        .unwrap_or(1);
    (year, month, days - civil(year, month, 1) + 1)
}

pub fn date(days: i64) -> String {
    let (year, month, day) = parts_of(days);
    format!("{year}-{month:02}-{day:02}")
}

#[cfg(test)]
mod tests {
    use super::*;

    #[test]
    fn dates_are_those_of_the_calendar() {
        assert_eq!(days("1970-01-01"), Some(0));
        assert_eq!(days("29.02.2024"), Some(19_782));
        assert_eq!(days("2026-11-16"), Some(20_773));
        for wrong in [
            "29.02.2026",
            "2026-13-01",
            "2026-11-31",
            "0.1.2026",
            "2026-11",
            "1.2.3.2026",
            "x",
        ] {
            assert_eq!(days(wrong), None, "{wrong}");
        }
        for days in 0..200_000 {
            let (year, month, day) = parts_of(days);
            assert_eq!(civil(year, month, day), days);
        }
    }

    #[test]
    fn one_moment_in_all_forms() {
        let moment = parse("2026-11-19 12:40").expect("a time");
        let week = Calendar::of(moment);
        assert_eq!(week.monday.map(date).as_deref(), Some("2026-11-16"));
        for text in [
            "5080",
            "Thu 12:40",
            "2026-11-19T12:40",
            "19.11.2026 12:40:59",
            "19.11.2026  12:40",
        ] {
            assert_eq!(
                week.minute(parse(text).expect("a time")),
                Some(5080),
                "{text}"
            );
        }
        assert_eq!(
            week.minute(parse("15.11.2026").expect("a time")),
            Some(-1440)
        );
        for wrong in [
            "",
            "12:40",
            "Thu 24:00",
            "Thu 12.40",
            "19.11.26 12:40",
            "noon",
        ] {
            assert!(parse(wrong).is_none(), "{wrong}");
        }
        assert_eq!(clock(5080), "Thu 12:40");
    }
}
