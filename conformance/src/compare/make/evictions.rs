//! Grants into full lists (request A8): lists whose rows end around the agreed day, several together, and
//! grants around the day on which the first of them is over.

use super::lone_requests::to_member;
use super::random::Random;
use super::records;
use super::starts_queries;
use super::values;
use crate::compare::call::{Records, Request};
use crate::compare::fields::{first_to_end, Login, StateFields};
use crate::layout::{LOGINS, RIGHT};

/// Whether a list is full, or a row is left.
pub fn is_crowded(state: &StateFields) -> bool {
    state.logins.len() + 1 >= LOGINS.most
}

/// A list with no row left, or one: few end days, and now and then a row that ends before all others.
pub fn crowd(rng: &mut Random, state: &StateFields) -> Vec<Login> {
    let count = LOGINS.most - rng.pick(&[0, 0, 0, 0, 1]);
    // Names with others around and between them, or almost all of the lowest.
    let is_loose = rng.chance(50);
    let days = end_days(rng, state);
    let mut rows: Vec<Login> = Vec::new();
    while rows.len() < count {
        let login = match is_loose {
            true => 3 * rng.within(1, 80),
            false => values::any_login(rng),
        };
        if rows.iter().all(|row| row.login != login) {
            let end = rng.pick(&days);
            let rights = values::any_rights(rng);
            rows.push(Login { login, end, rights });
        }
    }
    rows.sort_by_key(|row| row.login);
    if rng.chance(30) {
        let earliest = days.iter().min().map_or(0, |day| day.saturating_sub(1));
        let any = rng.below(count);
        rows[rng.pick(&[0, any, count - 1])].end = earliest;
    }
    rows
}

fn end_days(rng: &mut Random, state: &StateFields) -> Vec<u32> {
    let day = state.day;
    let soon = day.saturating_add(rng.within(0, 9));
    match rng.below(7) {
        0 => vec![soon],
        1 => [0, 1, 2].map(|days| soon.saturating_add(days)).to_vec(),
        2 => [0, 2, 4, 9].map(|days| day.saturating_add(days)).to_vec(),
        3 => [1, 1, 2, 400].map(|days| day.saturating_sub(days)).to_vec(),
        4 => {
            let mut days = vec![day.saturating_add(rng.within(20, 500)); 20];
            days.push(soon);
            days
        }
        5 => vec![0, 1, soon, u32::MAX],
        _ => (0..9).map(|_| values::end_day(rng, state, day)).collect(),
    }
}

/// An announcement of the state's cycle about a crowded list, of which these logins were evicted.
pub fn announcement(rng: &mut Random, state: &StateFields, evicted: &[u32]) -> Vec<u8> {
    if !evicted.is_empty() && rng.chance(8) {
        let login = rng.pick(evicted);
        let arguments = records::arguments(&login.to_le_bytes());
        return records::announcement(9, state.cycle, state.day, arguments);
    }
    let (day, arguments) = grant(rng, state, evicted);
    records::announcement(8, state.cycle, day, arguments)
}

/// The day and the arguments of a grant to a crowded list.
pub fn grant(rng: &mut Random, state: &StateFields, evicted: &[u32]) -> (u32, [u8; 12]) {
    let day = announced_day(rng, state);
    let login = granted_login(rng, state, evicted);
    let end = match rng.below(9) {
        0 => day.saturating_sub(1),
        1..=3 => day,
        4 => day.saturating_add(1),
        5 => day.saturating_add(rng.within(0, 6)),
        // With a listed one, where that will do.
        6 => rng.pick(&state.logins).end.max(day),
        _ => values::end_day(rng, state, day).max(day),
    };
    (day, records::grant(login, end, values::any_rights(rng)))
}

/// Around the day on which the row that ends first is over; now and then beyond the silence limit.
fn announced_day(rng: &mut Random, state: &StateFields) -> u32 {
    let first = first_to_end(&state.logins).map_or(0, |place| state.logins[place].end);
    let day = match rng.below(12) {
        0 | 1 => first,
        2 => first.saturating_sub(1),
        3..=6 => first.saturating_add(1),
        7 => first.saturating_add(rng.within(1, 60)),
        8 => rng.pick(&state.logins).end.saturating_add(1),
        9 => {
            let limit = state.day.saturating_add(state.silence.into());
            limit.saturating_add(rng.within(0, 2))
        }
        _ => state.day.saturating_add(rng.within(0, 3)),
    };
    // Few days are far off, since no later action can go back.
    match day {
        far if far > state.day.saturating_add(500) && rng.chance(80) => state.day,
        day => day.max(state.day),
    }
}

/// A login to be granted: listed or evicted before, at either end of the list, beside the row that ends
/// first, or any that is not listed.
fn granted_login(rng: &mut Random, state: &StateFields, evicted: &[u32]) -> u32 {
    let rows = &state.logins;
    let first = rows[first_to_end(rows).unwrap_or(0)].login;
    let near = match rng.below(12) {
        0 => return first,
        1 => return rng.pick(rows).login,
        2 | 3 if !evicted.is_empty() => rng.pick(evicted),
        4 => rows[0].login.saturating_sub(1).max(1),
        5 => rows[rows.len() - 1].login.saturating_add(1),
        6 => rng.pick(&[1, u32::MAX]),
        7 => first.saturating_sub(1).max(1),
        8 => first.saturating_add(1),
        _ => values::any_login(rng),
    };
    let mut login = near;
    while state.place_of(login).is_some() {
        login = values::any_login(rng);
    }
    login
}

/// A query for a login that was evicted, soon; for a right that it holds where it is still listed.
pub fn query(rng: &mut Random, state: &StateFields, login: u32) -> Vec<u8> {
    let day = state.day.saturating_add(rng.pick(&[0, 0, 1, 9]));
    let right = match state.place_of(login) {
        Some(place) => state.logins[place].rights.trailing_zeros() as u8,
        None => rng.of(&RIGHT) as u8,
    };
    let door = starts_queries::any_door(rng);
    starts_queries::at_door(rng, door, (login, day, right))
}

/// The end day of the rows that end first, and of the others, which is small when it is cut to 16 bits.
const FIRST_END: u32 = 101;
const OTHER_END: u32 = 65_536;

/// The names of a list: 10, 20 and so on.
fn name(place: usize) -> u32 {
    10 * (1 + place as u32)
}

/// The printed run's state with so many logins, of which these rows end first.
fn state(count: usize, first: &[usize]) -> StateFields {
    let row = |place: usize| Login {
        login: name(place),
        end: match first.contains(&place) {
            true => FIRST_END,
            false => OTHER_END,
        },
        rights: 1,
    };
    StateFields {
        logins: (0..count).map(row).collect(),
        ..StateFields::printed_run()
    }
}

/// Grants to a full list: each place of the row that ends first, alone and with equals, and to one with a
/// row left.
pub fn edges() -> Vec<Request> {
    let (most, last) = (LOGINS.most, LOGINS.most - 1);
    let all: Vec<usize> = (0..most).collect();
    let firsts: [&[usize]; 6] = [&[0], &[31], &[last], &[31, last], &[0, 31, last], &all];
    let mut states = firsts.map(|first| state(most, first)).to_vec();
    states.push(state(last, &[31]));
    states.iter().flat_map(of_state).collect()
}

/// New rows at both ends of the list and on both sides of its middle row, and listed ones, on days around
/// both end days: performed, ending before their day, and voted for.
fn of_state(state: &StateFields) -> Vec<Request> {
    let (middle, last) = (name(31), name(LOGINS.most - 1));
    let logins = [1, middle - 1, middle + 1, last + 1, name(0), middle];
    let days = [FIRST_END - 1, FIRST_END, FIRST_END + 1, OTHER_END + 1];
    let quorum: &[(u8, u32)] = &[(0, 1), (1, 1)];
    let mut requests = Vec::new();
    for day in days {
        for login in logins {
            requests.push(deliver(state, day, (login, day), quorum));
            requests.push(deliver(state, day, (login, day - 1), quorum));
        }
        requests.push(deliver(state, day, (middle + 1, day), &[]));
    }
    requests
}

fn deliver(state: &StateFields, day: u32, granted: (u32, u32), rows: &[(u8, u32)]) -> Request {
    let arguments = records::grant(granted.0, granted.1, 2);
    let announcement = records::announcement(8, state.cycle, day, arguments);
    let sheet = records::sheet([1, 0], rows);
    to_member(state, Records::Deliver(announcement, sheet))
}
