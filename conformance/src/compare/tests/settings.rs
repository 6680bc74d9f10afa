//! That notices are seen which are not as they should be (request A7).

use super::{claims_of, made_with, NO_FAULT};
use crate::compare::call::{Event, Outcome, Records, Request};
use crate::compare::fields::{Notices, OwnFields, Proposal, StateFields};
use crate::compare::make::records;
use crate::compare::FAULTY;
use crate::faulty;
use crate::layout::{to_old, DOORS, IMAGE_SIZE};

/// Minima that name these notices.
fn minima(ordinary: u32, restart: u32) -> [u8; 8] {
    records::subject(5, &[0, 2, 30, ordinary, restart])
}

/// Day 100, notices of 20 and 5 days. Proposed are minima of 10 days and to keep, and of 25 and 9 days,
/// both 20 days before; of 10 and 3 days, 19 days before.
fn state() -> StateFields {
    let proposal = |cycle, day, arguments| Proposal {
        cycle,
        day,
        kind: 5,
        arguments,
    };
    StateFields {
        cycle: 9,
        notices: Notices::new(20, 5),
        proposals: vec![
            proposal(1, 80, minima(10, 0)),
            proposal(2, 80, minima(25, 9)),
            proposal(3, 81, minima(10, 3)),
        ],
        ..StateFields::printed_run()
    }
}

/// What is wrong with minima of these notices, by a node by value of the copy with a fault.
fn minima_with(fault: &str, named: (u32, u32), rows: &[(u8, u32)]) -> Option<String> {
    let arguments = records::arguments(&minima(named.0, named.1));
    let announcement = records::announcement(5, 9, 100, arguments);
    let own = OwnFields {
        seat: 0,
        life: 1,
        vote: None,
        misses: [0; DOORS],
    };
    let records = Records::Deliver(announcement, records::sheet([1, 1], rows));
    claims_of(&[made_with(fault, own.image(&state()), records)]).err()
}

#[test]
fn notices_that_are_not_left_as_they_should_be_are_seen() {
    let quorum: &[(u8, u32)] = &[(0, 1), (1, 1)];
    for (named, rows) in [
        ((10, 0), quorum),
        ((25, 9), quorum),
        ((25, 9), &[]),
        ((10, 3), quorum),
    ] {
        assert_eq!(minima_with(NO_FAULT, named, rows), None);
    }
    let zero = "notices of 10 and 0 days are in force";
    let of_old = "notices of 10 and 2 days are in force and not of 10 and 5";
    let kept = "notices of 20 and 9 days are in force and not of 25 and 9";
    let early = "kind 5 is performed with no proposal of 20 to 60 days";
    let unused = "kind 5 leaves other proposals than it should";
    let voted = "answer 128: the checkpoint is another than before";
    for (fault, named, rows, what) in [
        ("KeepRestartSetsZero", (10, 0), quorum, zero),
        ("KeepRestartTakes2", (10, 0), quorum, of_old),
        ("OrdinaryNotSet", (25, 9), quorum, kept),
        ("RipeByNoticesAfter", (10, 3), quorum, early),
        ("UsedByNoticesAfter", (25, 9), quorum, unused),
        ("VoteSetsNotices", (25, 9), &[], voted),
    ] {
        let found = minima_with(fault, named, rows);
        assert_eq!(found.as_deref(), Some(what), "{fault}");
    }
}

/// What is wrong with a start by value of the copy with a fault.
fn start_with(fault: &str, checkpoint: Vec<u8>) -> Option<String> {
    let start = records::start(0, 1);
    faulty::set(faulty::find(fault));
    let (number, held) = match (FAULTY.start)(&checkpoint, &start) {
        Ok(node) => (0, node.image()),
        Err(number) => (number, Vec::new()),
    };
    faulty::set(None);
    let event = Event {
        request: Request {
            image: Vec::new(),
            records: Records::Start(checkpoint, start),
            out: IMAGE_SIZE,
        },
        outcome: Outcome {
            number,
            count: 0,
            written: (number == 0).then(|| held.clone()),
        },
        held,
    };
    claims_of(&[event]).err()
}

#[test]
fn starts_that_are_not_as_they_should_be_are_seen() {
    let (old, current) = (to_old(&state().write()), state().write());
    for checkpoint in [&old, &current] {
        assert_eq!(start_with(NO_FAULT, checkpoint.clone()), None);
    }
    let other = "answer 0: the checkpoint is another than before";
    let refused = "answer 1, and 0 from the checkpoint of kind 26";
    let image = "the image is another than from the checkpoint of kind 26";
    for (fault, checkpoint, what) in [
        ("Kind16With7And7", &old, other),
        ("StartSetsOfOld", &current, other),
        ("Kind16Refused", &old, refused),
        ("StartWithMiss", &old, image),
    ] {
        let found = start_with(fault, checkpoint.clone());
        assert_eq!(found.as_deref(), Some(what), "{fault}");
    }
}
