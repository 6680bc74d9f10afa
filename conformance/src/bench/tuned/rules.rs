//! The table of no from 3 on: the lowest number that applies, or 0.

use super::announcement::{Action, Announcement};
use super::bytes::u32_at;
use super::image::Own;
use super::records::Query;
use super::state::{quorum, Login, State, CERTIFIED, FREE, PRESENT, RETIRED};

/// Rules 3 to 8.
pub fn deliver_refusal(state: &State, own: &Own, announced: &Announcement, sheet: &[u8]) -> u32 {
    match announced {
        _ if state.seats[own.seat].standing == RETIRED => 3,
        a if a.cycle < state.cycle => 4,
        a if a.cycle > state.cycle => 5,
        _ if state.cycle == u32::MAX => 6,
        a if a.day < state.day => 7,
        a if !is_signed(state, a.kind, sheet) => 8,
        _ => 0,
    }
}

fn is_signed(state: &State, kind: u16, sheet: &[u8]) -> bool {
    let level = usize::from(matches!(kind, 4..=6));
    let trustees = u32::from(state.trustees[level]);
    let mask = u32::from(sheet[4 + level]) & ((1 << trustees) - 1);
    2 * mask.count_ones() > trustees
}

/// Rules 9 to 14, where lapsed proposals are dropped.
pub fn action_refusal(state: &State, announced: &Announcement) -> u32 {
    let is_active = |seat: usize| matches!(state.seats[seat].standing, CERTIFIED | PRESENT);
    let is_ripe = || ripe(state, announced).is_some();
    match announced.action {
        Action::Propose { .. } if state.proposals.is_full() => 11,
        Action::Cancel { cycle } if place_of_cycle(state, cycle).is_none() => 13,
        Action::Presents { seat, flag } => presents_refusal(state, seat, flag),
        Action::Certify { seat, .. } if state.seats[seat].standing != FREE => 9,
        Action::Certify { .. } if !is_ripe() => 10,
        Action::Minima(_) if !is_ripe() => 10,
        Action::Minima(named) => short(state.present, named.margin, named.least),
        Action::Remove { seat } if !is_active(seat) => 9,
        Action::Remove { .. } if !is_ripe() => 10,
        Action::Remove { seat } => {
            let present = state.present - u8::from(state.seats[seat].standing == PRESENT);
            short(present, state.margin, state.least)
        }
        Action::Rejoin { seat, .. } if !is_active(seat) => 9,
        Action::Rejoin { .. } if !is_ripe() => 10,
        Action::Rejoin { seat, life } if life <= state.seats[seat].life => 14,
        Action::Grant(row) => grant_refusal(state, row, announced.day),
        Action::End { login } if state.logins.place(login).is_err() => 13,
        _ => 0,
    }
}

fn grant_refusal(state: &State, row: Login, day: u32) -> u32 {
    let logins = &state.logins;
    let lacks_row = logins.is_full() && logins.place(row.login).is_err();
    if lacks_row && logins.evicted(day).is_none() {
        return 11;
    }
    14 * u32::from(row.end < day)
}

fn presents_refusal(state: &State, seat: usize, flag: bool) -> u32 {
    let (fit, present) = if flag {
        (CERTIFIED, state.present + 1)
    } else {
        (PRESENT, state.present.saturating_sub(1))
    };
    if state.seats[seat].standing != fit {
        return 9;
    }
    short(present, state.margin, state.least)
}

/// Rule 12.
fn short(present: u8, margin: u8, least: u8) -> u32 {
    12 * u32::from(present < quorum(present, margin, least))
}

/// The place of the first proposal with the kind and the arguments that is as old as its notice; none
/// has lapsed.
pub fn ripe(state: &State, announced: &Announcement) -> Option<usize> {
    let least = match announced.kind {
        7 => state.restart,
        _ => state.ordinary,
    };
    state.proposals.used().iter().position(|row| {
        row.arguments == announced.arguments
            && row.kind == announced.kind
            && announced.day - row.day >= least.into()
    })
}

pub fn place_of_cycle(state: &State, cycle: u32) -> Option<usize> {
    state
        .proposals
        .used()
        .iter()
        .position(|row| row.cycle == cycle)
}

pub fn shows_quorum(state: &State, sheet: &[u8]) -> bool {
    let mut seen = 0u32;
    for row in sheet[7..].chunks_exact(5) {
        let place = usize::from(row[0]) & 31;
        let seat = &state.seats[place];
        let counts = seat.standing == PRESENT && seat.life == u32_at(row, 1);
        seen |= u32::from(counts) << place;
    }
    let quorum = quorum(state.present, state.margin, state.least);
    seen.count_ones() >= u32::from(quorum)
}

/// Rules 15 and 16.
pub fn vote_refusal(state: &State, own: &Own, announcement: &[u8]) -> u32 {
    let seat = &state.seats[own.seat];
    if seat.standing != PRESENT || seat.life != own.life {
        return 15;
    }
    match own.vote {
        Some(vote) if vote != announcement => 16,
        _ => 0,
    }
}

/// Rules 3 and 17 to 21.
pub fn query_refusal(state: &State, own: &Own, query: &Query) -> u32 {
    let day = query.day.max(state.day);
    if state.seats[own.seat].standing == RETIRED {
        return 3;
    }
    if own.misses[query.door] >= 10 {
        return 17;
    }
    if day - state.day > state.silence.into() {
        return 18;
    }
    let Ok(place) = state.logins.place(query.login) else {
        return 19;
    };
    match &state.logins.rows[place] {
        row if row.end < day => 20,
        row if row.rights >> query.right & 1 == 0 => 21,
        _ => 0,
    }
}
