//! Announcements that a state admits more often than not, and their near misses.

use super::arguments;
use super::evictions;
use super::random::Random;
use super::records;
use crate::compare::fields::{Proposal, StateFields};
use crate::layout::{MINIMA_KIND, PROPOSALS};

/// Well formed and of the state's cycle.
pub fn well_formed(rng: &mut Random, state: &StateFields) -> Vec<u8> {
    let (kind, day, arguments) = content(rng, state);
    records::announcement(kind, state.cycle, day, arguments)
}

/// Well formed, of the state's cycle or one beside it.
pub fn any(rng: &mut Random, state: &StateFields) -> Vec<u8> {
    let (kind, day, arguments) = content(rng, state);
    records::announcement(kind, cycle(rng, state), day, arguments)
}

fn content(rng: &mut Random, state: &StateFields) -> (u16, u32, [u8; 12]) {
    if evictions::is_crowded(state) && rng.chance(20) {
        let (day, arguments) = evictions::grant(rng, state, &[]);
        return (8, day, arguments);
    }
    match rng.below(100) {
        _ if state.proposals.is_empty() => {}
        0..=24 => return due(rng, state),
        25..=34 => return lapsing(rng, state),
        _ => {}
    }
    let kind = rng.within(1, 9) as u16;
    let day = day(rng, state);
    (kind, day, arguments::arguments(rng, state, kind, day))
}

/// Of the state's cycle: a proposal, of minima above all, or the subject of a listed one. With it
/// the notices change and change again while proposals are listed.
pub fn about_proposals(rng: &mut Random, state: &StateFields) -> Vec<u8> {
    let is_used = rng.chance(60) && !state.proposals.is_empty();
    let (kind, day, arguments) = match is_used {
        true => soon(rng, state),
        false => {
            let (kind, subject) = match rng.chance(30) {
                true => (MINIMA_KIND, arguments::subject(rng, state, MINIMA_KIND)),
                false => arguments::any(rng, state),
            };
            (1, day(rng, state), records::propose(kind, subject))
        }
    };
    records::announcement(kind, state.cycle, day, arguments)
}

/// The subject of a listed proposal as soon as its notice is over, every other time the latest that is
/// ripe: it may be younger than the notice before the last change.
fn soon(rng: &mut Random, state: &StateFields) -> (u16, u32, [u8; 12]) {
    let any = state.proposals[rng.below(state.proposals.len())];
    let rows = state.proposals.iter();
    let ripe = rows.filter(|row| row.is_ripe(state.day, state.notices));
    let row = match ripe.max_by_key(|row| row.day) {
        Some(latest) if rng.chance(50) => *latest,
        _ => any,
    };
    let least = state.notices.of(row.kind);
    let age = rng.pick(&[least - 1, least, least, least, least + 1]);
    let day = row.day.saturating_add(age).max(state.day);
    used(rng, state, &row, day)
}

/// The subject of a listed proposal, around the days on which its notice ends and on which it lapses.
fn due(rng: &mut Random, state: &StateFields) -> (u16, u32, [u8; 12]) {
    let row = state.proposals[rng.below(state.proposals.len())];
    let least = state.notices.of(row.kind);
    let age = match rng.below(9) {
        0 => least - 1,
        1..=4 => least,
        5 => least + 1,
        6 | 7 => 60,
        _ => 61,
    };
    let day = on_age(rng, state, &row, age);
    used(rng, state, &row, day)
}

/// The subject of a listed proposal on a day; seldom with other arguments.
fn used(rng: &mut Random, state: &StateFields, row: &Proposal, day: u32) -> (u16, u32, [u8; 12]) {
    let mut arguments = row.arguments;
    if rng.chance(4) {
        arguments = arguments::subject(rng, state, row.kind);
    } else if row.kind == MINIMA_KIND && rng.chance(8) {
        arguments::keep_otherwise(rng, state.notices, &mut arguments);
    }
    (row.kind, day, records::arguments(&arguments))
}

/// Any action around the day on which a listed proposal lapses, mostly the oldest. A cancel is mostly
/// of that one; to a full table another proposal is likely.
fn lapsing(rng: &mut Random, state: &StateFields) -> (u16, u32, [u8; 12]) {
    let any = rng.below(state.proposals.len());
    let oldest = state.proposals.iter().min_by_key(|row| row.day);
    let row = match oldest {
        Some(oldest) if rng.chance(70) => *oldest,
        _ => state.proposals[any],
    };
    let age = rng.pick(&[60, 60, 61, 61, 62]);
    let day = on_age(rng, state, &row, age);
    let is_full = state.proposals.len() == PROPOSALS.most;
    let kind = match is_full && rng.chance(50) {
        true => 1,
        false => rng.within(1, 9) as u16,
    };
    let arguments = match kind {
        2 if rng.chance(80) => records::arguments(&row.cycle.to_le_bytes()),
        _ => arguments::arguments(rng, state, kind, day),
    };
    (kind, day, arguments)
}

/// The day on which a proposal is so many days old, or any where that has passed.
fn on_age(rng: &mut Random, state: &StateFields, row: &Proposal, age: u32) -> u32 {
    match row.day.saturating_add(age) {
        end if end >= state.day => end,
        _ => day(rng, state),
    }
}

fn cycle(rng: &mut Random, state: &StateFields) -> u32 {
    match rng.below(30) {
        0 => state.cycle.wrapping_sub(1),
        1 => state.cycle.wrapping_add(1),
        2 => rng.any32(),
        _ => state.cycle,
    }
}

fn day(rng: &mut Random, state: &StateFields) -> u32 {
    match rng.below(32) {
        0 => state.day.saturating_sub(1),
        1 => rng.any32(),
        2 => state.day.saturating_sub(rng.within(2, 400)),
        3 => state.day.saturating_add(rng.within(1, 400)),
        4..=16 => state.day.saturating_add(rng.within(1, 3)),
        17..=20 => state.day.saturating_add(7),
        _ => state.day,
    }
}
