//! Rosters made at random from the grammar, mostly well formed, and damaged.

use super::exports;
use super::random::Random;
use super::roster_fields::{line, written, wrong_line, Contents};
use super::starts_queries;
use super::values;
use crate::compare::call::{Records, Request};
use crate::layout::roster_lines;

pub use super::roster_edges::{dates, edges};
pub use super::roster_sweeps::{bases, cuts, damage, rooms};

/// A call that takes no image, with an output slice of this length.
pub fn request(records: Records, out: usize) -> Request {
    Request {
        image: Vec::new(),
        records,
        out,
    }
}

/// An import or an export.
pub fn any(rng: &mut Random) -> Request {
    let records = match rng.below(5) {
        0 => exports::any(rng),
        _ => import(rng),
    };
    let out = starts_queries::out_length(rng, records.size(&[]), 8);
    request(records, out)
}

fn import(rng: &mut Random) -> Records {
    let mut lines: Vec<Contents> = (0..count(rng)).map(|_| line(rng)).collect();
    let place = rng.below(lines.len());
    if rng.chance(25) && !lines.is_empty() {
        lines[place] = wrong_line(rng);
    }
    let quoted = rng.pick(&[0, 0, 30, 100]);
    let mut roster = Vec::new();
    for contents in &lines {
        let fields = contents
            .iter()
            .map(|content| written(content, rng.chance(quoted)));
        roster.extend(fields.collect::<Vec<_>>().join(&b","[..]));
        roster.extend(b"\r\n");
    }
    if rng.chance(30) {
        roster.truncate(roster.len().saturating_sub(2));
    }
    if rng.chance(35) {
        damaged(rng, &mut roster);
    }
    let cycle = cycle(rng, roster_lines(&roster));
    let day = values::any_day(rng);
    Records::Import { roster, cycle, day }
}

/// How many lines: few, or about 64.
fn count(rng: &mut Random) -> u32 {
    match rng.below(20) {
        0 => 0,
        1 => rng.within(62, 66),
        2 => rng.within(4, 61),
        _ => rng.within(1, 3),
    }
}

/// The cycle of the first line: any, or one that makes the cycles end about the last one.
fn cycle(rng: &mut Random, lines: usize) -> u32 {
    let last = rng.pick(&[u32::MAX, u32::MAX - 1, u32::MAX - 2]);
    match rng.below(4) {
        0 => last.wrapping_sub(lines as u32).wrapping_add(1),
        1 => rng.any32(),
        _ => values::any_cycle(rng),
    }
}

/// What is put into a roster or in the place of something: all that has a meaning in it, and text
/// that has none.
pub const PIECES: &[&[u8]] = &[
    b"\"",
    b"\"\"",
    b",",
    b"\r",
    b"\n",
    b"\r\n",
    b"\n\r",
    b" ",
    b"\t",
    b";",
    b"0",
    b"-",
    b"a",
    b"G",
    b"\0",
    b"\x7F",
    b"\xFF",
    b"\xEF\xBB\xBF",
    b"\x1A",
];

/// One or two pieces at a place that matters, or somewhere.
fn damaged(rng: &mut Random, roster: &mut Vec<u8>) {
    for _ in 0..rng.pick(&[1, 1, 1, 2]) {
        let at = place(rng, roster);
        let size = rng.below(3).min(roster.len() - at);
        let piece = rng.pick(PIECES);
        let new = if rng.chance(25) { &b""[..] } else { piece };
        roster.splice(at..at + size, new.iter().copied());
    }
}

/// Beside a quote, a comma or a line end, at an end, or anywhere.
fn place(rng: &mut Random, roster: &[u8]) -> usize {
    let marks = |at: &usize| matches!(roster[*at], b'"' | b',' | b'\r' | b'\n');
    let marks: Vec<usize> = (0..roster.len()).filter(marks).collect();
    match rng.below(6) {
        0 => rng.pick(&[0, roster.len()]),
        1..=3 if !marks.is_empty() => rng.pick(&marks) + rng.below(2),
        _ => rng.below(roster.len() + 1),
    }
}
