//! Requests around the notices that the park can set (request A7): each field at and beside the ends of
//! its range with nothing else malformed, each use of a proposal around the day its notice is over, and
//! both kinds of a checkpoint.

use super::lone_requests::{logins, to_member};
use super::random::Random;
use super::records;
use crate::compare::call::{Records, Request};
use crate::compare::fields::{Notices, Proposal, StateFields};
use crate::layout::{record, to_old, BODY, CHECKPOINT_KIND, IMAGE_SIZE, MINIMA_KIND, NOTICES};
use crate::layout::{OLD_CHECKPOINT_KIND, PROPOSALS, SEATS, SUBJECT_SIZE};

/// The ends of the ranges, what is beside them, and the notices of old.
const DAYS: [u32; 9] = [0, 1, 2, 7, 29, 30, 31, 32, 255];
/// Ordinary notices in force, each with one that a minima names.
const CHANGES: [(u32, u32); 6] = [(7, 3), (3, 7), (1, 30), (30, 1), (30, 0), (2, 2)];

const DAY: u32 = 1000;
const CYCLE: u32 = 9;

pub fn edges() -> Vec<Request> {
    let named = DAYS.iter().flat_map(|days| {
        let both = [Notices::new(*days, 2), Notices::new(7, *days)];
        both.into_iter().flat_map(of_notices)
    });
    let used = [(1, 30), (30, 1), (7, 2), (2, 7), (29, 3)];
    let used = used.into_iter().flat_map(|(ordinary, restart)| {
        let notices = Notices::new(ordinary, restart);
        (4..=7).flat_map(move |kind| of_ages(notices, kind))
    });
    let changed = CHANGES.into_iter().flat_map(of_change);
    named.chain(used).chain(changed).chain(of_kinds()).collect()
}

/// Full checkpoints of both kinds, and each named as the other.
fn of_kinds() -> Vec<Request> {
    let current = full().write();
    let old = to_old(&current);
    let named = |kind: u16, checkpoint: &[u8]| start(record(kind, &checkpoint[BODY..]));
    vec![
        named(OLD_CHECKPOINT_KIND, &old),
        named(CHECKPOINT_KIND, &current),
        named(CHECKPOINT_KIND, &old),
        named(OLD_CHECKPOINT_KIND, &current),
    ]
}

/// A state in which every row of every table is used, with notices of 7 and 2 days.
fn full() -> StateFields {
    let rows = 1..=PROPOSALS.most as u32;
    let named = rows.map(|row| Proposal {
        cycle: row,
        ..proposal(MINIMA_KIND, row, minima(Notices::new(row, 30 - row)))
    });
    let state = state(Notices::OF_OLD, named.collect());
    StateFields {
        cycle: PROPOSALS.most as u32 + 1,
        seats: [state.seats[0]; SEATS.most],
        logins: logins(DAY).collect(),
        ..state
    }
}

/// Records for node-run: two starts whose notices differ by a day, and a removal that is due under one
/// of them only.
pub fn restarted(rng: &mut Random) -> Vec<u8> {
    let age = rng.within(NOTICES[0].low, NOTICES[0].high - 1);
    let seat_2 = records::subject(6, &[2]);
    let start = |days: u32| {
        let state = state(Notices::new(days, 1), vec![proposal(6, age, seat_2)]);
        [records::start(0, 1), state.write()].concat()
    };
    let mut starts = [start(age), start(age + 1)];
    rng.shuffle(&mut starts);
    let delivery = delivery(6, records::arguments(&seat_2));
    [starts, delivery].concat().concat()
}

/// The printed run's state, later.
fn state(notices: Notices, proposals: Vec<Proposal>) -> StateFields {
    StateFields {
        cycle: CYCLE,
        day: DAY,
        notices,
        proposals,
        ..StateFields::printed_run()
    }
}

fn minima(named: Notices) -> [u8; SUBJECT_SIZE] {
    let Notices { ordinary, restart } = named;
    records::subject(MINIMA_KIND, &[0, 2, 30, ordinary, restart])
}

fn proposal(kind: u16, age: u32, arguments: [u8; SUBJECT_SIZE]) -> Proposal {
    Proposal {
        cycle: 3,
        day: DAY - age,
        kind,
        arguments,
    }
}

/// An announcement, and a sheet with a quorum and all trustees.
fn delivery(kind: u16, arguments: [u8; 12]) -> [Vec<u8>; 2] {
    let announcement = records::announcement(kind, CYCLE, DAY, arguments);
    let sheet = records::sheet([1, 1], &[(0, 1), (1, 1)]);
    [announcement, sheet]
}

fn deliver(state: &StateFields, kind: u16, arguments: [u8; 12]) -> Request {
    let [announcement, sheet] = delivery(kind, arguments);
    to_member(state, Records::Deliver(announcement, sheet))
}

fn start(checkpoint: Vec<u8>) -> Request {
    Request {
        image: Vec::new(),
        records: Records::Start(checkpoint, records::start(0, 1)),
        out: IMAGE_SIZE,
    }
}

/// Notices announced, proposed, listed in a checkpoint of either kind, and in force.
fn of_notices(notices: Notices) -> Vec<Request> {
    let arguments = minima(notices);
    let listed = proposal(MINIMA_KIND, 20, arguments);
    let in_range = notices.ordinary <= 30 && notices.restart <= 30;
    let with = |rows: Vec<Proposal>| state(Notices::OF_OLD, rows);
    let before = with(if in_range { vec![listed] } else { Vec::new() });
    let in_force = state(notices, Vec::new());
    vec![
        deliver(&before, MINIMA_KIND, records::arguments(&arguments)),
        deliver(&before, 1, records::propose(MINIMA_KIND, arguments)),
        start(with(vec![listed]).write()),
        start(to_old(&with(vec![listed]).write())),
        start(in_force.write()),
        to_member(&in_force, Records::Checkpoint),
    ]
}

/// The use of a proposal of a kind on each side of its notice, and of the 60 days.
fn of_ages(notices: Notices, kind: u16) -> Vec<Request> {
    let arguments = match kind {
        4 => records::subject(4, &[5, 1]),
        6 => records::subject(6, &[2]),
        7 => records::subject(7, &[2, 2]),
        _ => minima(Notices::new(0, 0)),
    };
    let due = notices.of(kind);
    let request = |age: u32| {
        let state = state(notices, vec![proposal(kind, age, arguments)]);
        deliver(&state, kind, records::arguments(&arguments))
    };
    [due - 1, due, 60, 61].map(request).to_vec()
}

/// Minima that name another ordinary notice, on each side of both.
fn of_change((ordinary, named): (u32, u32)) -> Vec<Request> {
    let arguments = minima(Notices::new(named, 0));
    let ages = [ordinary - 1, ordinary, named.saturating_sub(1), named];
    let request = |age: u32| {
        let listed = proposal(MINIMA_KIND, age, arguments);
        let state = state(Notices::new(ordinary, 2), vec![listed]);
        deliver(&state, MINIMA_KIND, records::arguments(&arguments))
    };
    ages.map(request).to_vec()
}
