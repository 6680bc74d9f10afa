//! That lists of logins are seen which are not as they should be (request A8).

use super::{claims_of, event, made_with, NO_FAULT, OWN};
use crate::compare::call::{Event, Records};
use crate::compare::fields::{Login, StateFields};
use crate::compare::make::records;
use crate::layout::LOGINS;

/// Logins 10, 20 and so on of which 300 and 400 ended on day 98, 500 on day 99; the others end on day 101.
fn state(count: u32) -> StateFields {
    let row = |place: u32| Login {
        login: 10 * place,
        end: match 10 * place {
            300 | 400 => 98,
            500 => 99,
            _ => 101,
        },
        rights: 1,
    };
    StateFields {
        logins: (1..=count).map(row).collect(),
        ..StateFields::printed_run()
    }
}

fn full() -> StateFields {
    state(LOGINS.most as u32)
}

const QUORUM: &[(u8, u32)] = &[(0, 1), (1, 1)];

fn grant(login: u32, end: u32, rows: &[(u8, u32)]) -> Records {
    let announcement = records::announcement(8, 1, 100, records::grant(login, end, 1));
    Records::Deliver(announcement, records::sheet([1, 0], rows))
}

/// What is wrong with a grant on day 100, by a node by value of the copy with a fault.
fn granted_with(fault: &str, state: &StateFields, records: Records) -> Option<String> {
    claims_of(&[made_with(fault, OWN.image(state), records)]).err()
}

#[test]
fn lists_that_are_left_as_they_should_be() {
    let (full, room) = (full(), state(63));
    for (state, login, rows) in [
        (&full, 5, QUORUM),
        (&full, 5, &[]),
        (&full, 300, QUORUM),
        (&full, 10, QUORUM),
        (&room, 5, QUORUM),
    ] {
        assert_eq!(granted_with(NO_FAULT, state, grant(login, 100, rows)), None);
    }
}

/// Faults, each with the rows of the list, the login that is granted and what is seen.
const WRONG: [(&str, u32, u32, &str); 9] = [
    (
        "EvictsLargestLogin",
        64,
        5,
        "login 400 is dropped: login 300 comes first",
    ),
    (
        "EvictsLatestOver",
        64,
        5,
        "login 500 is dropped: login 300 comes first",
    ),
    ("EvictsTwo", 64, 5, "logins 300 and 400 are both dropped"),
    (
        "EvictsForListed",
        64,
        10,
        "login 300 is dropped: kind 8 needs no row",
    ),
    (
        "EvictsFrom63",
        63,
        5,
        "login 300 is dropped: the list had 63 rows and has 63",
    ),
    (
        "EvictsAndIsLost",
        64,
        5,
        "login 5 is not left as the action names it",
    ),
    (
        "EvictedLoginGoesOn",
        64,
        5,
        "login 5 is not left as the action names it",
    ),
    ("LoginsInEndOrder", 64, 5, "the logins don't rise"),
    (
        "Rule11Remains",
        64,
        5,
        "a grant is refused by 11 and has a row",
    ),
];

#[test]
fn lists_that_are_not_left_as_they_should_be_are_seen() {
    for (fault, count, login, what) in WRONG {
        let found = granted_with(fault, &state(count), grant(login, 100, QUORUM));
        assert_eq!(found.as_deref(), Some(what), "{fault}");
    }
    let voted = "answer 128: the checkpoint is another than before";
    let found = granted_with("VoteEvicts", &full(), grant(5, 100, &[]));
    assert_eq!(found.as_deref(), Some(voted));
}

#[test]
fn a_row_that_is_dropped_before_it_is_over_is_seen() {
    let mut state = full();
    state.logins.iter_mut().for_each(|row| row.end = 100);
    assert_eq!(granted_with(NO_FAULT, &state, grant(5, 100, QUORUM)), None);
    let found = granted_with("EvictsUnended", &state, grant(5, 100, QUORUM));
    let what = "login 10 is dropped: it ends on day 100, announced is day 100";
    assert_eq!(found.as_deref(), Some(what));
}

/// A grant on day 100 that evicts a login from a full list, with the state after it.
fn evicting(before: &StateFields, login: u32, end: u32, evicted: u32) -> (Event, StateFields) {
    let arguments = records::grant(login, end, 1);
    let announcement = records::announcement(8, before.cycle, 100, arguments);
    let mut after = before.clone();
    after.cycle += 1;
    after.logins.retain(|row| row.login != evicted);
    after.logins.push(Login::of(&announcement));
    after.logins.sort_by_key(|row| row.login);
    let records = Records::Deliver(announcement, records::sheet([1, 0], QUORUM));
    (event(before, records, &after), after)
}

fn asked(state: &StateFields, login: u32, day: u32) -> Event {
    let query = Records::Query(records::query(login, day, 0));
    event(state, query, state)
}

#[test]
fn an_evicted_login_open_beyond_the_limit_is_seen() {
    let (_, second) = evicting(&full(), 5, 100, 300);
    let (_, third) = evicting(&second, 300, 200, 400);
    let first = || evicting(&full(), 5, 100, 300).0;
    let again = || evicting(&second, 300, 200, 400).0;
    assert!(claims_of(&[first(), asked(&second, 300, 130)]).is_ok());
    let what = "login 300, evicted in cycle 1, is open on day 131 in cycle 2";
    for events in [
        vec![first(), asked(&second, 300, 131)],
        vec![asked(&second, 300, 131), first()],
        // The grant is one that the asked node has not passed.
        vec![first(), again(), asked(&second, 300, 131)],
    ] {
        assert_eq!(claims_of(&events).err().as_deref(), Some(what));
    }
    let tally = claims_of(&[first(), again(), asked(&third, 300, 131)]).unwrap();
    assert_eq!((tally.regranted, tally.readmitted), (0, 1));
    // Login 500 was not evicted.
    assert!(claims_of(&[first(), asked(&second, 500, 131)]).is_ok());
}
