//! Rules 4 to 14 of the table of no: what a state, an announcement and a sheet decide.

use super::actions::{evicted, lacks_row, perform, ripe};
use super::announcement::{Action, Announcement};
use super::records::Sheet;
use super::state::{Cycle, Standing, State, MOST_PROPOSALS};

/// "the lowest number that applies is given, and only when it applies"
pub fn refusal(state: &State, announcement: &Announcement, sheet: &Sheet) -> Option<u8> {
    let mut numbers = 4..=14;
    numbers.find(|number| applies(*number, state, announcement, sheet))
}

fn applies(number: u8, state: &State, announcement: &Announcement, sheet: &Sheet) -> bool {
    let (cycle, day) = (announcement.cycle, announcement.day);
    match number {
        // "cycle passed"
        4 => cycle < state.cycle,
        // "cycle not reached"
        5 => cycle > state.cycle,
        // "cycle is 4294967295"
        6 => state.cycle == Cycle::LAST,
        // "day before agreed day"
        7 => day < state.day,
        // "too few trustees"
        8 => !sheet.has_majority(level(announcement), state),
        9 => is_unfit(state, &announcement.action),
        // "no ripe proposal"; request A6: "Rule 10 now covers kind 7."
        10 => announcement.is_proposed() && ripe(state, announcement).is_none(),
        11 => is_full(state, announcement),
        12 => leaves_no_quorum(state, announcement),
        13 => is_missing(state, &announcement.action),
        _ => is_late(state, announcement),
    }
}

/// The place of the level in a state and on a sheet: "Kinds 4, 5 and 6 need more than half of level
/// 2, the others more than half of level 1."
fn level(announcement: &Announcement) -> usize {
    usize::from(matches!(announcement.kind, 4..=6))
}

/// "seat's standing unfit (kinds 3, 4, 6, 7)"
fn is_unfit(state: &State, action: &Action) -> bool {
    let standing = |seat: &u8| state.seat(*seat).standing;
    match action {
        // "1: certified to present; 0: back"
        Action::Presents { seat, flag: true } => standing(seat) != Standing::Certified,
        Action::Presents { seat, flag: false } => standing(seat) != Standing::Present,
        // "free to certified"
        Action::Certify { seat, .. } => standing(seat) != Standing::Free,
        // "certified or present to retired"
        Action::Remove { seat } => !state.seat(*seat).is_held(),
        // "certified or present only"
        Action::Rejoin { seat, .. } => !state.seat(*seat).is_held(),
        _ => false,
    }
}

/// "table full and the row is needed"
fn is_full(state: &State, announcement: &Announcement) -> bool {
    match &announcement.action {
        // An equal proposal doesn't spare the row.
        Action::Propose(_) => state.proposals.len() >= MOST_PROPOSALS,
        // Request A8: where no row is dropped, "11 remains".
        Action::Grant { login, .. } => {
            lacks_row(state, *login) && evicted(state, announcement.day).is_none()
        }
        _ => false,
    }
}

/// "kind 3, 5 or 6 would leave quorum above p"
fn leaves_no_quorum(state: &State, announcement: &Announcement) -> bool {
    if !matches!(announcement.kind, 3 | 5 | 6) {
        return false;
    }
    let next = perform(state, announcement);
    next.quorum() > next.present()
}

/// "no such proposal or login"
fn is_missing(state: &State, action: &Action) -> bool {
    match action {
        Action::Cancel(cycle) => !state.proposals.iter().any(|p| p.cycle == *cycle),
        Action::End { login } => !state.logins.contains_key(login),
        _ => false,
    }
}

/// "rejoin life not above the listed"; "grant ending before its day"
fn is_late(state: &State, announcement: &Announcement) -> bool {
    match announcement.action {
        Action::Rejoin { seat, life } => life <= state.seat(seat).life,
        Action::Grant { end, .. } => end < announcement.day,
        _ => false,
    }
}
