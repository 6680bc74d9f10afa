//! Random well-formed checkpoints and images: small to full, all ranges and their ends.

use super::announcements;
use super::arguments;
use super::evictions;
use super::random::Random;
use super::values;
use crate::compare::fields::{
    Login, Notices, OwnFields, Proposal, Seat, StateFields, CERTIFIED, FREE, PRESENT, RETIRED,
};
use crate::layout::{to_old, LOGINS, MISSES, PROPOSALS, SEATS, SUBJECT_SIZE};
use std::collections::BTreeSet;

pub fn any_state(rng: &mut Random) -> StateFields {
    let mut state = StateFields::printed_run();
    set_seats(rng, &mut state);
    set_minima(rng, &mut state);
    state.levels = [values::any_level(rng), values::any_level(rng)];
    state.day = values::any_day(rng);
    state.cycle = values::any_cycle(rng);
    set_proposals(rng, &mut state);
    set_logins(rng, &mut state);
    state
}

/// The checkpoint of a state, of kind 16 now and then; its notices are then others, unless they are
/// those of old.
pub fn checkpoint(rng: &mut Random, state: &StateFields) -> Vec<u8> {
    let percent = match state.notices == Notices::OF_OLD {
        true => 60,
        false => 20,
    };
    of_either_kind(rng, percent, state.write())
}

/// With this chance in percent a checkpoint of kind 26 as one of kind 16.
pub fn of_either_kind(rng: &mut Random, percent: u32, checkpoint: Vec<u8>) -> Vec<u8> {
    match rng.chance(percent) {
        true => to_old(&checkpoint),
        false => checkpoint,
    }
}

fn set_seats(rng: &mut Random, state: &mut StateFields) {
    let present = match rng.below(8) {
        0 => rng.pick(&[1, 1, 2]),
        1 | 2 => rng.within(3, 5),
        3 => SEATS.most as u32,
        4 => rng.within(13, 17),
        5 => rng.within(2, 8),
        _ => rng.within(1, SEATS.most as u32),
    } as usize;
    let others: &[u8] = if rng.chance(30) {
        &[FREE]
    } else {
        &[FREE, FREE, CERTIFIED, CERTIFIED, RETIRED]
    };
    let mut order: Vec<usize> = (0..SEATS.most).collect();
    rng.shuffle(&mut order);
    for (place, &seat) in order.iter().enumerate() {
        let standing = if place < present {
            PRESENT
        } else {
            rng.pick(others)
        };
        let life = if standing == FREE {
            0
        } else {
            values::any_life(rng)
        };
        state.seats[seat] = Seat { standing, life };
    }
}

fn set_minima(rng: &mut Random, state: &mut StateFields) {
    let present = state.present();
    let most = values::most_margin(present);
    state.margin = match rng.below(4) {
        0 | 1 => 0,
        2 => most,
        _ => rng.within(0, most),
    } as u8;
    state.least = match rng.below(4) {
        0 | 1 => 1,
        2 => present as u32,
        _ => rng.within(1, present as u32),
    } as u8;
    state.silence = values::any_silence(rng);
    state.notices = values::any_notices(rng);
}

/// Proposals of ages that belong together, many with the same subject, since then the lowest cycle
/// decides. Now and then all are to rejoin, mostly as many as there is room for.
fn set_proposals(rng: &mut Random, state: &mut StateFields) {
    let most = state.cycle.min(PROPOSALS.most as u32);
    let only = rng.chance(8).then_some(7);
    let count = match rng.below(6) {
        0..=3 if only.is_some() => most,
        0 => 0,
        1 => most,
        2 => most.min(PROPOSALS.most as u32 - 1),
        _ => rng.within(0, most),
    } as usize;
    let mut cycles = BTreeSet::new();
    while cycles.len() < count {
        cycles.insert(match rng.below(5) {
            0 => rng.within(0, most - 1),
            1 => state.cycle - rng.pick(&[1, 1, most]),
            2 => state.cycle - rng.within(1, most),
            _ => rng.within(0, state.cycle - 1),
        });
    }
    let ages = any_ages(rng, state.notices);
    state.proposals.clear();
    for cycle in cycles {
        let (low, high) = rng.pick(&ages);
        let age = rng.within(low, high.min(state.day).max(low));
        let day = state.day.saturating_sub(age);
        let (kind, arguments) = subject(rng, state, only);
        state.proposals.push(Proposal {
            cycle,
            day,
            kind,
            arguments,
        });
    }
}

/// Lowest and highest ages of the proposals of a state, on the agreed day: around the days of notice,
/// none lapsed, around the day on which they lapse, all lapsed, and of every sort. The last have ages
/// that are small when they are cut to 8 or 16 bits.
fn any_ages(rng: &mut Random, notices: Notices) -> Vec<(u32, u32)> {
    let around = |notice: u32| (notice.saturating_sub(3), notice + 2);
    let (ordinary, restart) = (around(notices.ordinary), around(notices.restart));
    match rng.below(8) {
        0 => vec![restart],
        1 => vec![restart, ordinary, ordinary],
        2 => vec![restart, ordinary, ordinary, (0, u32::MAX)],
        3 => vec![(0, 60)],
        4 => vec![ordinary, (58, 62)],
        5 => vec![ordinary, (61, 61), (62, 400)],
        6 => vec![(61, 61), (62, 400), (62, u32::MAX)],
        _ => vec![(0, 9), (60, 61), (256, 316), (65_536, 65_596)],
    }
}

/// A subject, of one kind only where that is given; many are those of earlier proposals.
fn subject(rng: &mut Random, state: &StateFields, only: Option<u16>) -> (u16, [u8; SUBJECT_SIZE]) {
    match (state.proposals.len(), only) {
        (used, _) if used > 0 && rng.chance(45) => {
            let earlier = state.proposals[rng.below(used)];
            (earlier.kind, earlier.arguments)
        }
        (_, Some(kind)) => (kind, arguments::subject(rng, state, kind)),
        (_, None) => arguments::any(rng, state),
    }
}

fn set_logins(rng: &mut Random, state: &mut StateFields) {
    if rng.chance(25) {
        state.logins = evictions::crowd(rng, state);
        return;
    }
    let most = LOGINS.most as u32;
    let count = match rng.below(6) {
        0 => 0,
        1 => most,
        2 => rng.within(most - 3, most),
        _ => rng.within(0, most),
    } as usize;
    let mut names = BTreeSet::new();
    while names.len() < count {
        names.insert(values::any_login(rng));
    }
    state.logins.clear();
    for login in names {
        let end = values::end_day(rng, state, state.day);
        let rights = values::any_rights(rng);
        state.logins.push(Login { login, end, rights });
    }
}

/// An own part for the image of `state`: any seat that is not free, votes and misses too.
pub fn any_own(rng: &mut Random, state: &StateFields) -> OwnFields {
    let standings: &[u8] = if rng.chance(80) {
        &[PRESENT]
    } else {
        &[CERTIFIED, PRESENT, RETIRED]
    };
    let seat = rng.pick(&state.seats_of(standings));
    let listed = state.seats[usize::from(seat)].life;
    let life = match rng.below(8) {
        0 => rng.near(listed).max(1),
        1 => rng.some32(),
        _ => listed.max(1),
    };
    let vote = rng
        .chance(35)
        .then(|| announcements::well_formed(rng, state));
    let misses = std::array::from_fn(|_| any_misses(rng));
    OwnFields {
        seat,
        life,
        vote,
        misses,
    }
}

/// The misses of one door.
fn any_misses(rng: &mut Random) -> u8 {
    match rng.below(4) {
        0 => MISSES.high as u8 - rng.pick(&[0, 1]),
        1 => rng.of(&MISSES) as u8,
        _ => 0,
    }
}
