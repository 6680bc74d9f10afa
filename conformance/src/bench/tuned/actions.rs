//! The nine actions, in place.

use super::announcement::{Action, Announcement, Minima};
use super::rules::{place_of_cycle, ripe};
use super::state::{Login, Proposal, Seat, State, CERTIFIED, PRESENT, RETIRED};

/// Performs an announcement that no rule refuses.
pub fn perform(state: &mut State, announced: &Announcement) {
    let (cycle, day) = (state.cycle, announced.day);
    if matches!(announced.kind, 4..=7) {
        drop_proposal(state, ripe(state, announced));
    }
    match announced.action {
        Action::Propose { kind, arguments } => {
            let row = Proposal {
                cycle,
                day,
                kind,
                arguments,
            };
            state.proposals.insert(state.proposals.count, row);
        }
        Action::Cancel { cycle } => drop_proposal(state, place_of_cycle(state, cycle)),
        Action::Presents { seat, flag } => {
            state.seats[seat].standing = if flag { PRESENT } else { CERTIFIED };
        }
        Action::Certify { seat, life } => {
            let standing = CERTIFIED;
            state.seats[seat] = Seat { standing, life };
        }
        Action::Minima(named) => set_minima(state, named),
        Action::Remove { seat } => state.seats[seat].standing = RETIRED,
        Action::Rejoin { seat, life } => state.seats[seat].life = life,
        Action::Grant(row) => grant(state, day, row),
        Action::End { login } => {
            if let Ok(place) = state.logins.place(login) {
                state.logins.remove(place);
            }
        }
    }
    (state.cycle, state.day) = (cycle + 1, day);
}

fn set_minima(state: &mut State, named: Minima) {
    (state.margin, state.least) = (named.margin, named.least);
    state.silence = named.silence;
    if named.ordinary != 0 {
        state.ordinary = named.ordinary;
    }
    if named.restart != 0 {
        state.restart = named.restart;
    }
}

fn grant(state: &mut State, day: u32, row: Login) {
    let logins = &mut state.logins;
    match logins.place(row.login) {
        Ok(place) => logins.rows[place] = row,
        Err(place) if !logins.is_full() => logins.insert(place, row),
        Err(place) => {
            if let Some(evicted) = logins.evicted(day) {
                logins.exchange(evicted, place, row);
            }
        }
    }
}

fn drop_proposal(state: &mut State, place: Option<usize>) {
    if let Some(place) = place {
        state.proposals.remove(place);
    }
}
