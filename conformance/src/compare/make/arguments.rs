//! The arguments of the nine kinds, aimed at a state: mostly fit for it, else one step beside.

use super::random::Random;
use super::records;
use super::values;
use crate::compare::fields::{Notices, Proposal, StateFields, CERTIFIED, FREE, PRESENT};
use crate::layout::{self, ACTIONS, LEAST_QUORUM, MARGIN, SEAT, SUBJECT_KIND, SUBJECT_SIZE};

/// Chance in percent that arguments are made without a look at the state.
const WILD: u32 = 8;

/// A subject of a proposal: its kind and its arguments, well formed.
pub fn any(rng: &mut Random, state: &StateFields) -> (u16, [u8; SUBJECT_SIZE]) {
    let kind = rng.of(&SUBJECT_KIND) as u16;
    (kind, subject(rng, state, kind))
}

/// Well-formed arguments of kinds 4 to 7.
pub fn subject(rng: &mut Random, state: &StateFields, kind: u16) -> [u8; SUBJECT_SIZE] {
    match kind {
        // The bytes of a certify that are also those of a minima: only the kind tells the proposals
        // apart.
        4 if rng.chance(15) => {
            let mut both = minima(rng, state);
            // A certify has no byte in the place of the restart notice.
            both[5] = 0;
            both[0] = (0..=MARGIN.high as u8)
                .find(|&seat| state.seats[usize::from(seat)].standing == FREE)
                .unwrap_or(both[0]);
            both
        }
        4 => {
            let seat = seat_of(rng, state, &[FREE]);
            let life = rng.pick(&[1, 2, u32::MAX]);
            let life = if rng.chance(30) { rng.some32() } else { life };
            records::subject(4, &[seat.into(), life])
        }
        5 => minima(rng, state),
        6 => records::subject(6, &[seat_of(rng, state, &[CERTIFIED, PRESENT]).into()]),
        _ => rejoin(rng, state),
    }
}

fn minima(rng: &mut Random, state: &StateFields) -> [u8; SUBJECT_SIZE] {
    let present = state.present().max(1) as u32;
    let wild = rng.chance(WILD);
    let most = if wild {
        MARGIN.high
    } else {
        values::most_margin(present as usize)
    };
    let margin = if rng.chance(60) {
        rng.pick(&[0, most])
    } else {
        rng.within(0, most)
    };
    // One seat more or less than there are puts the quorum on either side of p.
    let top = if rng.chance(15) {
        (present + 1).min(LEAST_QUORUM.high)
    } else {
        present
    };
    let top = if wild { LEAST_QUORUM.high } else { top };
    let least = if rng.chance(60) {
        rng.pick(&[1, top])
    } else {
        rng.within(1, top)
    };
    let silence = values::any_silence(rng).into();
    let ordinary = values::named_notice(rng, state.notices.ordinary);
    let restart = values::named_notice(rng, state.notices.restart);
    records::subject(5, &[margin, least, silence, ordinary, restart])
}

/// Minima that leave the same notices in force and name one of them otherwise: a kept one by its days,
/// the one in force by zero. Others stay as they are.
pub fn keep_otherwise(rng: &mut Random, in_force: Notices, arguments: &mut [u8; SUBJECT_SIZE]) {
    let places = [(4, in_force.ordinary as u8), (5, in_force.restart as u8)];
    let (place, in_force) = rng.pick(&places);
    match &mut arguments[place] {
        named @ 0 => *named = in_force,
        named if *named == in_force => *named = 0,
        _ => {}
    }
}

fn seat_of(rng: &mut Random, state: &StateFields, standings: &[u8]) -> u8 {
    let seats = state.seats_of(standings);
    if seats.is_empty() || rng.chance(WILD) {
        return if rng.chance(20) {
            rng.end(&SEAT) as u8
        } else {
            rng.seat()
        };
    }
    rng.pick(&seats)
}

/// The 12 argument bytes of an announcement of this kind and day, well formed.
pub fn arguments(rng: &mut Random, state: &StateFields, kind: u16, day: u32) -> [u8; 12] {
    match kind {
        1 => {
            let (subject_kind, subject) = any(rng, state);
            records::propose(subject_kind, subject)
        }
        2 => records::arguments(&cancelled(rng, state).to_le_bytes()),
        3 => {
            let flag = rng.pick(&[0, 1]);
            // Now and then a seat that already stands so.
            let fit = if (flag == 1) != rng.chance(15) {
                CERTIFIED
            } else {
                PRESENT
            };
            records::arguments(&[seat_of(rng, state, &[fit]), flag])
        }
        4..=7 => records::arguments(&listed_subject(rng, state, kind)),
        8 => grant(rng, state, day),
        _ => records::arguments(&listed_login(rng, state).to_le_bytes()),
    }
}

/// The cycle of a listed proposal, mostly.
fn cancelled(rng: &mut Random, state: &StateFields) -> u32 {
    if state.proposals.is_empty() || rng.chance(WILD) {
        let near = rng.near(state.cycle);
        return if rng.chance(50) { near } else { rng.any32() };
    }
    let last = state.proposals.len() - 1;
    let row = if rng.chance(30) {
        rng.pick(&[0, last])
    } else {
        rng.below(last + 1)
    };
    let cycle = state.proposals[row].cycle;
    if rng.chance(WILD) {
        rng.near(cycle)
    } else {
        cycle
    }
}

/// The arguments of a listed proposal of this kind, mostly; else one byte beside them or new ones.
fn listed_subject(rng: &mut Random, state: &StateFields, kind: u16) -> [u8; SUBJECT_SIZE] {
    let other = rng.chance(15);
    let fits = |row: &&Proposal| {
        if other {
            row.kind != kind && well_formed(kind, row.arguments)
        } else {
            row.kind == kind
        }
    };
    let listed: Vec<[u8; SUBJECT_SIZE]> = state
        .proposals
        .iter()
        .filter(fits)
        .map(|row| row.arguments)
        .collect();
    if listed.is_empty() || rng.chance(WILD) {
        return subject(rng, state, kind);
    }
    rng.pick(&listed)
}

/// Whether the arguments of another kind would do for this one.
fn well_formed(kind: u16, arguments: [u8; SUBJECT_SIZE]) -> bool {
    let (_, fields) = ACTIONS[usize::from(kind) - 1];
    let values = layout::values(fields, &arguments, 0);
    let mut pairs = fields.iter().zip(values);
    let in_range = pairs.all(|(field, value)| (field.low..=field.high).contains(&value));
    in_range
        && arguments[layout::size(fields)..]
            .iter()
            .all(|byte| *byte == 0)
}

/// Now and then for the seat of a listed proposal to remove or rejoin it: each stays when the other is
/// used.
fn rejoin(rng: &mut Random, state: &StateFields) -> [u8; SUBJECT_SIZE] {
    let listed = state.proposals.iter().filter(|row| row.kind >= 6);
    let named: Vec<u8> = listed.map(|row| row.arguments[0]).collect();
    let seat = match rng.chance(25) && !named.is_empty() {
        true => rng.pick(&named),
        false => seat_of(rng, state, &[CERTIFIED, PRESENT]),
    };
    let listed = state.seats[usize::from(seat)].life;
    let life = match rng.below(8) {
        0 => rng.near(listed),
        1 => rng.any32(),
        2 => rng.pick(&[u32::MAX, listed, 0]),
        3 => listed.saturating_add(rng.within(1, 1000)),
        _ => listed.saturating_add(1),
    };
    records::subject(7, &[seat.into(), life])
}

fn grant(rng: &mut Random, state: &StateFields, day: u32) -> [u8; 12] {
    let login = if rng.chance(30) {
        listed_login(rng, state).max(1)
    } else {
        values::any_login(rng)
    };
    let end = values::end_day(rng, state, day);
    let end = match rng.below(10) {
        // Ended before its day, but not before the agreed one.
        0 => state.day.min(day.saturating_sub(1)),
        _ => end.max(day),
    };
    records::grant(login, end, values::any_rights(rng))
}

/// A listed login, mostly; else one beside it, or any.
pub fn listed_login(rng: &mut Random, state: &StateFields) -> u32 {
    if state.logins.is_empty() || rng.chance(WILD) {
        return if rng.chance(50) {
            rng.any32()
        } else {
            values::any_login(rng)
        };
    }
    // The first and the last row are where a search that is one row short goes wrong.
    let last = state.logins.len() - 1;
    let row = if rng.chance(30) {
        rng.pick(&[0, last])
    } else {
        rng.below(last + 1)
    };
    let login = state.logins[row].login;
    if rng.chance(WILD) {
        rng.near(login)
    } else {
        login
    }
}
