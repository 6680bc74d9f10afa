//! Dates of the Gregorian calendar "as year-month-day in 10" (request A1), which request A2 reads
//! again.

use super::state::Day;

/// The date of a day.
pub fn text(day: Day) -> String {
    let (year, rest) = year(day);
    let (month, rest) = month(year, rest);
    let day = rest + 1;
    format!("{year:04}-{month:02}-{day:02}")
}

/// Whether the calendar has such a date.
pub fn has(year: i64, month: i64, day: i64) -> bool {
    (1..=12).contains(&month) && (1..=days_of_month(year, month)).contains(&day)
}

/// The day of a date from 1970 on: how many days of years, of months and of its month come before it.
pub fn day_of(year: i64, month: i64, day: i64) -> Day {
    let years: i64 = (1970..year).map(days_of_year).sum();
    let months: i64 = (1..month).map(|month| days_of_month(year, month)).sum();
    Day::new((years + months + day - 1) as u32)
}

/// The year of a day, counted from 1970-01-01, and how many days of the year come before it.
fn year(day: Day) -> (i64, i64) {
    let mut rest = day.since(Day::new(0));
    let mut year = 1970;
    while rest >= days_of_year(year) {
        rest -= days_of_year(year);
        year += 1;
    }
    (year, rest)
}

/// The month in which so many days of a year are over, and how many of them are the month's own.
fn month(year: i64, mut rest: i64) -> (i64, i64) {
    let mut month = 1;
    while rest >= days_of_month(year, month) {
        rest -= days_of_month(year, month);
        month += 1;
    }
    (month, rest)
}

/// The rule of the Gregorian calendar: each fourth year, of the full centuries each fourth.
fn is_leap(year: i64) -> bool {
    year % 4 == 0 && (year % 100 != 0 || year % 400 == 0)
}

fn days_of_year(year: i64) -> i64 {
    if is_leap(year) {
        366
    } else {
        365
    }
}

fn days_of_month(year: i64, month: i64) -> i64 {
    match month {
        4 | 6 | 9 | 11 => 30,
        2 if is_leap(year) => 29,
        2 => 28,
        _ => 31,
    }
}
