//! Requests that stand alone, each on a fresh image: the quickest way to every rule.

use super::announcements;
use super::malformed;
use super::random::Random;
use super::records;
use super::sheets;
use super::starts_queries;
use super::states;
use super::values::LAST_DATE;
use crate::compare::call::{Records, Request};
use crate::compare::fields::{Login, OwnFields, Proposal, StateFields};
use crate::layout::{kind_of, to_old, CHECKPOINT_SIZE, DOORS, LOGINS};

/// Requests to one state.
pub fn requests(rng: &mut Random) -> Vec<Request> {
    let state = states::any_state(rng);
    let own = states::any_own(rng, &state);
    (0..8).map(|_| any_request(rng, &state, &own)).collect()
}

/// Performed deliveries at ends that random requests seldom meet: a cancel of the last cycle that
/// can be cancelled, a grant for day 0.
pub fn ends() -> Vec<Request> {
    let mut late = StateFields::printed_run();
    late.cycle = u32::MAX - 1;
    late.proposals.push(Proposal {
        cycle: u32::MAX - 2,
        day: 100,
        kind: 6,
        arguments: [0; 8],
    });
    let cancel = records::announcement(
        2,
        late.cycle,
        100,
        records::arguments(&(u32::MAX - 2).to_le_bytes()),
    );
    let mut early = StateFields::printed_run();
    early.day = 0;
    let grant = records::announcement(8, 1, 0, records::grant(1, 0, 1));
    let request = |state: &StateFields, announcement: Vec<u8>| {
        let sheet = records::sheet([1, 0], &[(0, 1), (1, 1)]);
        to_member(state, Records::Deliver(announcement, sheet))
    };
    vec![request(&late, cancel), request(&early, grant)]
}

/// A full list of which the first login ends on a day, each other a day after the one before.
pub fn logins(first: u32) -> impl Iterator<Item = Login> {
    (0..LOGINS.most as u32).map(move |place| Login {
        login: 1 + place,
        end: first + place,
        rights: 1,
    })
}

/// Pages of full lists with every end day that has a date, and with the first that has none.
pub fn dates() -> impl Iterator<Item = Request> {
    (0..=LAST_DATE + 1).step_by(LOGINS.most).map(|first| {
        let mut state = StateFields::printed_run();
        state.logins = logins(first).collect();
        let page = Records::Page(state.day);
        to_member(&state, page)
    })
}

/// A request to a node of the printed run's seats.
pub fn to_member(state: &StateFields, records: Records) -> Request {
    let own = OwnFields {
        seat: 0,
        life: 1,
        vote: None,
        misses: [0; DOORS],
    };
    let image = own.image(state);
    let out = records.size(&image);
    Request {
        image,
        records,
        out,
    }
}

fn any_request(rng: &mut Random, state: &StateFields, own: &OwnFields) -> Request {
    let mut image = own.image(state);
    if rng.chance(8) {
        image = spoiled(rng, state, own);
    }
    let mut records = match rng.below(22) {
        0..=10 => deliver(rng, state, own),
        11..=14 => Records::Query(starts_queries::query(rng, state)),
        15..=18 => start(rng, state),
        19 | 20 => starts_queries::page(rng, state),
        _ => Records::Checkpoint,
    };
    if rng.chance(8) {
        damage(rng, &mut records);
    }
    if matches!(records, Records::Start(..)) {
        image.clear();
    }
    let out = starts_queries::out_length(rng, records.size(&image), 4);
    Request {
        image,
        records,
        out,
    }
}

fn spoiled(rng: &mut Random, state: &StateFields, own: &OwnFields) -> Vec<u8> {
    let mut image = own.image(state);
    let checkpoint = match rng.below(20) {
        0..=9 => {
            malformed::own(rng, &mut image);
            return image;
        }
        10 => to_old(&state.write()),
        _ => malformed::checkpoint(rng, state),
    };
    image.splice(..CHECKPOINT_SIZE, checkpoint);
    image
}

fn deliver(rng: &mut Random, state: &StateFields, own: &OwnFields) -> Records {
    let announcement = match &own.vote {
        Some(vote) if rng.chance(30) => vote.clone(),
        _ => announcements::any(rng, state),
    };
    let aim = sheets::any_aim(rng);
    let sheet = sheets::sheet(rng, state, kind_of(&announcement), aim, &[]);
    Records::Deliver(announcement, sheet)
}

fn start(rng: &mut Random, state: &StateFields) -> Records {
    let checkpoint = if rng.chance(50) {
        let malformed = malformed::checkpoint(rng, state);
        states::of_either_kind(rng, 30, malformed)
    } else {
        states::checkpoint(rng, state)
    };
    Records::Start(checkpoint, starts_queries::start(rng, state))
}

fn damage(rng: &mut Random, records: &mut Records) {
    match records {
        Records::Start(_, start) => malformed::bytes(rng, start),
        Records::Deliver(announcement, _) if rng.chance(50) => malformed::bytes(rng, announcement),
        Records::Deliver(_, sheet) => malformed::sheet(rng, sheet),
        Records::Query(query) => malformed::bytes(rng, query),
        _ => {}
    }
}
