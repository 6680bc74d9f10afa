//! Random values of the fields, with the ends of their ranges and what makes records meet each
//! other.

use super::random::Random;
use crate::compare::fields::{Notices, StateFields};
use crate::layout::{Field, LOGIN, MARGIN, NAMED_NOTICES, NOTICES, SILENCE, TRUSTEES};

pub fn any_life(rng: &mut Random) -> u32 {
    match rng.below(8) {
        0..=3 => 1,
        4 | 5 => rng.within(1, 5),
        6 => rng.pick(&[u32::MAX, u32::MAX - 1]),
        _ => rng.some32(),
    }
}

/// The highest margin of a quorum that `present` seats can reach.
pub fn most_margin(present: usize) -> u32 {
    ((present.max(1) - 1) / 2).min(MARGIN.high as usize) as u32
}

pub fn any_silence(rng: &mut Random) -> u16 {
    match rng.below(3) {
        0 => rng.end(&SILENCE) as u16,
        1 => rng.pick(&[2, 7, 30, SILENCE.high as u16 - 1]),
        _ => rng.of(&SILENCE) as u16,
    }
}

/// Those of document 01 and request A6 every fourth time, since a checkpoint of kind 16 has no others.
pub fn any_notices(rng: &mut Random) -> Notices {
    match rng.chance(25) {
        true => Notices::OF_OLD,
        false => Notices::new(any_notice(rng), any_notice(rng)),
    }
}

fn any_notice(rng: &mut Random) -> u32 {
    match rng.below(3) {
        0 => rng.end(&NOTICES[0]),
        _ => rng.of(&NOTICES[0]),
    }
}

/// A notice that a minima names: none, another one, the one in force or one beside it.
pub fn named_notice(rng: &mut Random, in_force: u32) -> u32 {
    let Field { low, high, .. } = NAMED_NOTICES[0];
    match rng.below(8) {
        0 | 1 => low,
        2 => in_force,
        3 => rng
            .pick(&[in_force.saturating_sub(1), in_force + 1])
            .min(high),
        _ => any_notice(rng),
    }
}

pub fn any_level(rng: &mut Random) -> u8 {
    match rng.below(3) {
        0 => rng.end(&TRUSTEES) as u8,
        1 => rng.pick(&[2, 3]),
        _ => rng.of(&TRUSTEES) as u8,
    }
}

pub fn any_day(rng: &mut Random) -> u32 {
    match rng.below(10) {
        0 => rng.pick(&[0, 1, 7]),
        1 => rng.pick(&[u32::MAX, u32::MAX - 1, u32::MAX - 7, u32::MAX - 40]),
        2 => rng.number() as u32,
        3..=5 => rng.within(0, 400),
        _ => rng.within(19_000, 21_000),
    }
}

pub fn any_cycle(rng: &mut Random) -> u32 {
    match rng.below(12) {
        0..=2 => 1,
        3 => rng.within(2, 16),
        4..=7 => rng.within(16, 100),
        8 | 9 => rng.within(1, 100_000),
        10 => u32::MAX - rng.pick(&[0, 0, 1, 1, 2, 5, 50]),
        _ => rng.some32(),
    }
}

/// Few names, so that grants, ends and queries meet each other.
pub fn any_login(rng: &mut Random) -> u32 {
    match rng.below(10) {
        0 => rng.pick(&[1, u32::MAX]),
        1 => rng.some32(),
        _ => rng.within(1, 80),
    }
}

pub fn any_rights(rng: &mut Random) -> u16 {
    match rng.below(4) {
        0 => rng.pick(&[1, 0x8000, 0xFFFF]),
        1 => 1 << rng.below(16),
        _ => rng.of(&LOGIN[2]) as u16,
    }
}

/// Days around the ends of February, with and without a leap day, and around the last that a page
/// has a date for.
const CALENDAR: [u32; 12] = [
    58, 59, 788, 789, 790, 11015, 11016, 11017, 47480, LAST_DATE, 47482, 47540,
];
/// 2099-12-31
pub const LAST_DATE: u32 = 47_481;

/// End days around a day and around the silence limit after it, and days whose dates are hard.
pub fn end_day(rng: &mut Random, state: &StateFields, day: u32) -> u32 {
    match rng.below(10) {
        0 => rng.pick(&[0, u32::MAX]),
        1 => rng.near(day),
        2 => rng.near(day.saturating_add(u32::from(state.silence))),
        3 => day,
        4 => rng.any32(),
        5 => rng.pick(&CALENDAR),
        6 => rng.within(0, LAST_DATE),
        _ => day.saturating_add(rng.within(0, 60)),
    }
}
