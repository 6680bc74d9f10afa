//! Rosters of contractors (request A2) to announcements and back, with the line and the field of what
//! is malformed.

use super::show::parts_of_records;
use crate::layout::{arguments, kind_of};
use crate::paper::csv;
use crate::paper::roster::{export, import, read_date, Malformed, Way};

const MOST_LINES: usize = 64;
const TOO_MANY: &str = "a roster has at most 64 lines";
/// Of a field that is named in a message no more characters are shown.
const MOST_SHOWN: usize = 40;
const FIELDS: [&str; 3] = ["login", "end date", "rights"];

/// The announcements of a roster, one behind the other, or where it is malformed and how.
pub fn read_roster(roster: &[u8], cycle: u32, day: u32) -> Result<Vec<u8>, String> {
    match import(roster, cycle, day) {
        Ok(announcements) => Ok(announcements.concat()),
        Err(malformed) => Err(format!("{}: {}", place(&malformed), what(&malformed))),
    }
}

fn place(malformed: &Malformed) -> String {
    let line = malformed.line;
    let Some(field) = malformed.field else {
        return format!("line {line}");
    };
    match FIELDS.get(field - 1) {
        Some(name) => format!("line {line}, field {field} ({name})"),
        None => format!("line {line}, field {field}"),
    }
}

fn what(malformed: &Malformed) -> String {
    let content = shown(&malformed.content);
    match malformed.way {
        Way::File(way) => of_file(way).to_string(),
        Way::Fields(1) => "one field, not login, end date and rights".to_string(),
        Way::Fields(count) => format!("{count} fields, not login, end date and rights"),
        Way::Lines => TOO_MANY.to_string(),
        Way::Cycle => "its cycle is 4294967295, the last one is 4294967294".to_string(),
        Way::LoginForm => format!("{content} is not 1 to 10 decimal digits"),
        Way::LoginRange => format!("{content} is not from 1 to 4294967295"),
        Way::DateForm => format!("{content} is not year-month-day, as 2026-12-31"),
        Way::NoDate => format!("{content} is not in the calendar"),
        Way::DateRange => format!("{content} is not from 1970-01-01 to 2099-12-31"),
        Way::RightsForm => format!("{content} is not four hexadecimal digits"),
        Way::NoRights => format!("{content} is no right"),
    }
}

fn of_file(way: csv::Way) -> &'static str {
    match way {
        csv::Way::BareCr => "a CR without LF: lines end in CR LF",
        csv::Way::BareLf => "a LF without CR: lines end in CR LF",
        csv::Way::QuoteWithin => "a quote in a field that does not begin with one",
        csv::Way::BehindQuote => "more of the field behind its closing quote",
        csv::Way::QuoteNotClosed => "its closing quote is missing",
        csv::Way::NotText => "a byte that is not a printable character of ASCII",
    }
}

fn shown(content: &[u8]) -> String {
    match content.len() {
        0 => "nothing".to_string(),
        size if size > MOST_SHOWN => format!("\"{}..\"", content[..MOST_SHOWN].escape_ascii()),
        _ => format!("\"{}\"", content.escape_ascii()),
    }
}

/// The lines of grant announcements, or the first record that has none.
pub fn write_roster(announcements: &[u8]) -> Result<Vec<u8>, String> {
    let mut roster = String::new();
    for (number, part) in (1..).zip(parts_of_records(announcements)) {
        let at = |what: String| format!("record {number}, at byte {}: {what}", part.at);
        let text = part.read.map_err(|found| at(found.why))?;
        if number > MOST_LINES {
            return Err(at(TOO_MANY.to_string()));
        }
        let line = export(part.bytes).ok_or_else(|| at(no_line(part.bytes, &text)))?;
        roster += &line;
    }
    Ok(roster.into_bytes())
}

/// Why a well-formed record has no line.
fn no_line(record: &[u8], text: &str) -> String {
    let first = text.lines().next().unwrap_or_default();
    match (kind_of(record), arguments(record).get(1)) {
        (8, Some(end)) => format!("end day {end} is after 2099-12-31 (47481)"),
        _ => format!("`{first}` is no grant"),
    }
}

/// A day as the words of a program have it: a count from 1970-01-01, or a date.
pub fn read_day(word: &str) -> Option<u32> {
    let is_count = !word.is_empty() && word.bytes().all(|byte| byte.is_ascii_digit());
    match is_count {
        true => word.parse().ok(),
        false => read_date(word.as_bytes()).ok().map(|day| day.number()),
    }
}
