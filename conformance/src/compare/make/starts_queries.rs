//! Starts, queries and the days of pages aimed at a state, and lengths of output slices.

use super::arguments;
use super::random::Random;
use super::records;
use crate::compare::call::Records;
use crate::compare::fields::{StateFields, CERTIFIED, PRESENT};
use crate::layout::{DOOR, RIGHT};

pub fn start(rng: &mut Random, state: &StateFields) -> Vec<u8> {
    let fit = state.seats_of(&[CERTIFIED, PRESENT, PRESENT]);
    let seat = if fit.is_empty() || rng.chance(12) {
        rng.seat()
    } else {
        rng.pick(&fit)
    };
    let listed = state.seats[usize::from(seat)].life;
    let life = match rng.below(12) {
        0 => rng.any32(),
        1 => rng.near(listed),
        2 => listed.saturating_add(1),
        3 => listed.saturating_sub(1),
        4 => rng.pick(&[0, u32::MAX]),
        _ => listed,
    };
    records::start(seat, life)
}

/// A query at any door that opens more often than not, or one beside a rule.
pub fn query(rng: &mut Random, state: &StateFields) -> Vec<u8> {
    let door = any_door(rng);
    aimed_query(rng, state, door)
}

/// The same at a door.
pub fn aimed_query(rng: &mut Random, state: &StateFields, door: u8) -> Vec<u8> {
    let login = arguments::listed_login(rng, state);
    let row = state.logins.iter().find(|row| row.login == login);
    let end = row.map_or(state.day, |row| row.end);
    let rights = row.map_or(0, |row| row.rights);
    let day = asked_day(rng, state, end);
    let held: Vec<u8> = (0..=RIGHT.high as u8)
        .filter(|&right| rights >> right & 1 == 1)
        .collect();
    let right = if held.is_empty() || rng.chance(20) {
        rng.of(&RIGHT) as u8
    } else {
        rng.pick(&held)
    };
    at_door(rng, door, (login, day, right))
}

/// Door 0 more often than each other one, since it has queries of two kinds.
pub fn any_door(rng: &mut Random) -> u8 {
    match rng.chance(50) {
        true => 0,
        false => rng.of(&DOOR) as u8,
    }
}

/// A query at a door: at door 0 it need not name it.
pub fn at_door(rng: &mut Random, door: u8, (login, day, right): (u32, u32, u8)) -> Vec<u8> {
    match door {
        0 if rng.chance(60) => records::query(login, day, right),
        _ => records::door_query(login, day, right, door),
    }
}

/// The given day of a query or a page: around the silence limit and an end day, or soon.
fn asked_day(rng: &mut Random, state: &StateFields, end: u32) -> u32 {
    let limit = state.day.saturating_add(u32::from(state.silence));
    match rng.below(16) {
        0 => rng.near(limit),
        1 => rng.near(end),
        2 => limit,
        3 => limit.saturating_add(1),
        4 => end,
        5 => end.saturating_add(1),
        6 => rng.any32(),
        7 => state.day.saturating_sub(rng.within(1, 400)),
        8 => limit.min(end),
        9 => rng.pick(&[0, u32::MAX]),
        _ => state.day.saturating_add(rng.within(0, 3)),
    }
}

/// A page for a day that tells a listed login's line from the others.
pub fn page(rng: &mut Random, state: &StateFields) -> Records {
    let end = match state.logins.len() {
        0 => state.day,
        count => state.logins[rng.below(count)].end,
    };
    Records::Page(asked_day(rng, state, end))
}

/// A query that adds a miss where the door's misses are not 10: no such login, on the agreed day.
pub fn bad_query(rng: &mut Random, state: &StateFields, door: u8) -> Vec<u8> {
    let mut login = rng.pick(&[0, 0x0F00_0000]);
    while state.logins.iter().any(|row| row.login == login) {
        login = rng.any32();
    }
    let right = rng.of(&RIGHT) as u8;
    at_door(rng, door, (login, state.day, right))
}

/// The length of an output slice for `size` bytes: exact, longer and, with this chance in percent,
/// shorter, where there is a shorter one.
pub fn out_length(rng: &mut Random, size: usize, short: u32) -> usize {
    if rng.chance(short) && size > 0 {
        return match rng.below(3) {
            0 => size - 1,
            1 => rng.below(8),
            _ => rng.below(size),
        };
    }
    match rng.below(3) {
        0 => size,
        1 => size + 1,
        _ => size + rng.below(40),
    }
}
