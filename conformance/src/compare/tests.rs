//! The checks that the comparison itself relies on.

mod evictions;
mod settings;
mod shares;

use super::call::{answer_in, count_in, Event, Outcome, Records, Request};
use super::check::claims::{Claims, Tally};
use super::check::doors::{same_at, Step};
use super::check::rerun;
use super::check::rosters::round_trip;
use super::fields::{Login, OwnFields, Proposal, StateFields};
use super::make::{self, records, rosters};
use super::{random_history, Case, Random, FAULTY, PAPER};
use crate::faulty;
use crate::layout::{kind_of, read, BODY, CYCLE_AND_DAY, DOORS, IMAGE_SIZE, LINE_SIZE};

const OWN: OwnFields = OwnFields {
    seat: 0,
    life: 1,
    vote: None,
    misses: [0; DOORS],
};

fn event(state: &StateFields, records: Records, after: &StateFields) -> Event {
    let image = OWN.image(state);
    let held = OWN.image(after);
    let outcome = Outcome {
        number: 0,
        count: 0,
        written: Some(held.clone()),
    };
    Event {
        request: Request {
            image,
            records,
            out: IMAGE_SIZE,
        },
        outcome,
        held,
    }
}

fn performed(state: &StateFields, announcement: Vec<u8>, seats: &[(u8, u32)]) -> Event {
    let mut after = state.clone();
    after.cycle += 1;
    [_, after.day] = read(&CYCLE_AND_DAY, &announcement, BODY);
    if kind_of(&announcement) == 8 {
        after.logins.push(Login::of(&announcement));
    }
    event(
        state,
        Records::Deliver(announcement, records::sheet([1, 1], seats)),
        &after,
    )
}

fn claims_of(events: &[Event]) -> Result<Tally, String> {
    let mut claims = Claims::new(&StateFields::printed_run().write());
    for event in events {
        claims.note(event)?;
    }
    claims.verdict()
}

/// An announcement about login 7 in the cycle of `state`.
fn about(kind: u16, state: &StateFields, day: u32) -> Vec<u8> {
    let arguments = if kind == 8 {
        records::grant(7, 900, 1)
    } else {
        records::arguments(&[7])
    };
    records::announcement(kind, state.cycle, day, arguments)
}

#[test]
fn cases_read_back() {
    for seed in 0..20 {
        let history = random_history(&PAPER, seed).map_err(|found| found.what);
        let history = history.unwrap();
        let call = &history.calls[0];
        let single = |records: Records, out: usize| {
            let image = OWN.image(&StateFields::printed_run());
            Case::Single(Request {
                image,
                records,
                out,
            })
        };
        let start = single(call.records.clone(), call.out);
        let page = single(Records::Page(u32::MAX), 0);
        let stream = Case::Stream(history.first.clone());
        let mut rng = Random::new(seed);
        let rosters = [(); 9].map(|()| Case::Single(rosters::any(&mut rng)));
        let shares = [(); 9].map(|()| Case::Single(make::shares::any(&mut rng)));
        let mut renewals = make::renewals::all(&mut rng).into_iter();
        let renewal = renewals.nth(seed as usize).map(Case::Renewal);
        for case in [Case::History(history), start, page, stream]
            .into_iter()
            .chain(rosters)
            .chain(shares)
            .chain(renewal)
        {
            assert_eq!(Case::read(&case.write()), Ok(case));
        }
    }
}

#[test]
fn a_line_that_is_no_case_is_named() {
    let read = |text: &str| Case::read(text).unwrap_err();
    assert_eq!(
        read("# why\n\njunk\n"),
        "line 3: not a line of a case: junk"
    );
    assert_eq!(read("stream 0g\n"), "line 1: not hexadecimal: 0g");
    let host = "hosts image\ncall 1 1144 checkpoint\n";
    assert_eq!(read(host), "line 2: host 1 is not among the hosts");
    assert_eq!(read("# nothing\n"), "no case is in it");
    let day = "hosts image\ncall 0 47 page -1\n";
    assert_eq!(read(day), "line 2: not a number: -1");
    let key = "renewal 2 3 0102 00 00 00\n";
    assert_eq!(read(key), "line 1: a key has no coefficients");
    for numbers in ["00", "0104"] {
        let text = format!("renewal 2 3 {numbers} 00 00\n");
        assert_eq!(read(&text), "line 1: a share number is not from 1 to 3");
    }
}

#[test]
fn a_split_within_the_bound_is_seen() {
    let first = StateFields::printed_run();
    let one = performed(&first, about(8, &first, 101), &[(0, 1), (1, 1)]);
    let other = |seats: &[(u8, u32)]| performed(&first, about(8, &first, 102), seats);
    assert!(claims_of(&[one]).is_ok());
    // No seat on both sheets, so the bound holds: a quorum that the node did not ask for.
    let one = performed(&first, about(8, &first, 101), &[(0, 1), (1, 1)]);
    assert!(claims_of(&[one, other(&[(2, 1), (1, 2)])]).is_err());
    let one = performed(&first, about(8, &first, 101), &[(0, 1), (1, 1)]);
    let beyond = claims_of(&[one, other(&[(1, 1), (2, 1)])]).unwrap();
    assert!(!beyond.within && beyond.split && beyond.tight == 1);
}

#[test]
fn a_start_from_elsewhere_is_not_lawful() {
    let first = StateFields::printed_run();
    let mut other = first.clone();
    other.day = 1;
    let start = |state: &StateFields| Records::Start(state.write(), records::start(0, 1));
    assert!(
        claims_of(&[event(&first, start(&first), &first)])
            .unwrap()
            .within
    );
    assert!(
        !claims_of(&[
            event(&first, start(&first), &first),
            event(&other, start(&other), &other)
        ])
        .unwrap()
        .within
    );
}

#[test]
fn an_ended_login_open_beyond_the_limit_is_seen() {
    let first = StateFields::printed_run();
    let mut later = first.clone();
    (later.cycle, later.day) = (2, 101);
    let mut last = later.clone();
    last.cycle = 3;
    let end = || performed(&first, about(9, &first, 101), &[(0, 1), (1, 1)]);
    let grant = || performed(&later, about(8, &later, 101), &[(0, 1), (1, 1)]);
    let ask =
        |state: &StateFields, day| event(state, Records::Query(records::query(7, day, 0)), state);
    assert_eq!(claims_of(&[end(), ask(&later, 131)]).unwrap().at_limit, 1);
    assert!(claims_of(&[end(), ask(&later, 132)]).is_err());
    assert!(claims_of(&[ask(&later, 132), end()]).is_err());
    // The grant is one that the asked node has not passed.
    assert!(claims_of(&[end(), grant(), ask(&later, 132)]).is_err());
    assert_eq!(
        claims_of(&[end(), grant(), ask(&last, 132)])
            .unwrap()
            .regranted,
        1
    );
}

/// A page for a day that the copy with a fault gives, where login 501 ends on day 120.
fn page_with(fault: &str, own: &OwnFields, day: u32) -> Event {
    let mut state = StateFields::printed_run();
    state.logins.push(Login {
        login: 501,
        end: 120,
        rights: 2,
    });
    let image = own.image(&state);
    let mut page = vec![0; LINE_SIZE];
    faulty::set(faulty::find(fault));
    let returned = (FAULTY.calls.page)(&image, day, &mut page);
    faulty::set(None);
    Event {
        held: image.clone(),
        request: Request {
            image,
            records: Records::Page(day),
            out: LINE_SIZE,
        },
        outcome: Outcome {
            number: answer_in(returned),
            count: count_in(returned),
            written: Some(page),
        },
    }
}

const NO_FAULT: &str = "";

#[test]
fn two_pages_at_one_cycle_for_one_day_are_seen() {
    let locked = OwnFields {
        misses: [10; DOORS],
        ..OWN
    };
    let pages = |fault| [page_with(fault, &OWN, 110), page_with(fault, &locked, 110)];
    assert_eq!(claims_of(&pages(NO_FAULT)).unwrap().pages, 1);
    let what = claims_of(&pages("WordOfLocked")).err().unwrap();
    assert_eq!(
        what,
        "two nodes at cycle 1 give other pages for day 110, within the bound"
    );
}

#[test]
fn a_word_that_no_query_agrees_with_is_seen() {
    let read = |fault, day| claims_of(&[page_with(fault, &OWN, day)]);
    for (day, asked, fault) in [
        (120, [1, 0, 0], "WordEndedEarly"),
        (121, [0, 0, 1], "WordEndedLate"),
        (130, [0, 0, 1], "WordSilentEarly"),
        (131, [0, 1, 0], "EndedWinsOverSilent"),
    ] {
        assert_eq!(read(NO_FAULT, day).unwrap().asked, asked);
        let what = read(fault, day).err().unwrap();
        assert!(what.contains("and a query answers"), "{fault}: {what}");
    }
}

/// A removal on day 100, by a node by value of the copy with a fault. Seat 2 was proposed 61 days
/// before it in cycle 1, and 60 days before it in cycle 2.
fn removal_with(fault: &str, seat: u8, rows: &[(u8, u32)]) -> Event {
    let proposal = |cycle, day| Proposal {
        cycle,
        day,
        kind: 6,
        arguments: records::subject(6, &[2]),
    };
    let mut state = StateFields::printed_run();
    state.cycle = 9;
    state.proposals = vec![proposal(1, 39), proposal(2, 40)];
    let announcement = records::announcement(6, 9, 100, records::arguments(&[seat]));
    let sheet = records::sheet([1, 1], rows);
    let records = Records::Deliver(announcement, sheet);
    made_with(fault, OWN.image(&state), records)
}

/// A delivery or a query at a node by value of the copy with a fault.
fn made_with(fault: &str, image: Vec<u8>, records: Records) -> Event {
    faulty::set(faulty::find(fault));
    let mut node = (FAULTY.from_image)(&image).expect("a node");
    let number = match &records {
        Records::Deliver(announcement, sheet) => node.deliver(announcement, sheet),
        Records::Query(query) => node.query(query),
        _ => panic!("neither a delivery nor a query"),
    };
    let held = node.image();
    faulty::set(None);
    Event {
        request: Request {
            image,
            records,
            out: IMAGE_SIZE,
        },
        outcome: Outcome {
            number,
            count: 0,
            written: Some(held.clone()),
        },
        held,
    }
}

#[test]
fn proposals_that_are_not_left_as_they_should_be_are_seen() {
    let quorum: &[(u8, u32)] = &[(0, 1), (1, 1)];
    let read = |fault, seat, rows| claims_of(&[removal_with(fault, seat, rows)]).err();
    for (seat, rows) in [(2, quorum), (2, &[]), (1, quorum)] {
        assert_eq!(read(NO_FAULT, seat, rows), None);
    }
    let lapsed = "the proposal of cycle 1 has lapsed on the agreed day 100";
    let others = "kind 6 leaves other proposals than it should";
    let missing = "kind 6 is performed with no proposal of 7 to 60 days";
    let voted = "answer 128: the checkpoint is another than before";
    let refused = "answer 10: the checkpoint is another than before";
    for (fault, seat, rows, what) in [
        ("LapsedNotDropped", 2, quorum, lapsed),
        ("LapsedUsedUp", 2, quorum, others),
        ("Rule10Missing", 1, quorum, missing),
        ("VoteDropsLapsed", 2, &[], voted),
        ("Rules9To14DropLapsed", 1, quorum, refused),
    ] {
        assert_eq!(read(fault, seat, rows).as_deref(), Some(what), "{fault}");
    }
}

/// What is wrong with a rejoin on day 100, by a node by value of the copy with a fault. Seat 2 was
/// proposed under life 2 and under life 3, 60 and 2 days before; seat 1 under its own life 2 days
/// before, seat 0 under life 2 the day before.
fn rejoin_with(fault: &str, seat: u32, life: u32) -> Option<String> {
    let arguments = |seat, life| records::subject(7, &[seat, life]);
    let proposal = |cycle, day, arguments| Proposal {
        cycle,
        day,
        kind: 7,
        arguments,
    };
    let mut state = StateFields::printed_run();
    state.cycle = 9;
    state.proposals = vec![
        proposal(1, 40, arguments(2, 2)),
        proposal(2, 98, arguments(2, 3)),
        proposal(3, 98, arguments(1, 1)),
        proposal(4, 99, arguments(0, 2)),
    ];
    let arguments = records::arguments(&arguments(seat, life));
    let announcement = records::announcement(7, 9, 100, arguments);
    let sheet = records::sheet([1, 0], &[(0, 1), (1, 1)]);
    let records = Records::Deliver(announcement, sheet);
    claims_of(&[made_with(fault, OWN.image(&state), records)]).err()
}

#[test]
fn rejoins_that_are_not_as_they_should_be_are_seen() {
    for (seat, life) in [(2, 2), (2, 3), (1, 1), (0, 2), (0, 9)] {
        assert_eq!(rejoin_with(NO_FAULT, seat, life), None);
    }
    let others = "kind 7 leaves other proposals than it should";
    let missing = "kind 7 is performed with no proposal of 2 to 60 days";
    let equal = "kind 7 leaves seat 1 with life 1 after 1";
    for (fault, seat, life, what) in [
        ("RejoinUsesAllOfSeat", 2, 2, others),
        ("RejoinUsesNothing", 2, 3, others),
        ("RestartDayEarly", 0, 2, missing),
        ("RejoinNeedsNoProposal", 0, 9, missing),
        ("RejoinEqualLife", 1, 1, equal),
    ] {
        let found = rejoin_with(fault, seat, life);
        assert_eq!(found.as_deref(), Some(what), "{fault}");
    }
    let removal = removal_with("RemoveFrees", 2, &[(0, 1), (1, 1)]);
    let what = "kind 6 leaves seat 2 with life 0 after 1";
    assert_eq!(claims_of(&[removal]).err().as_deref(), Some(what));
}

/// A call to a node with 3, 0, 10 and 9 misses, by the copy with a fault; login 501 opens.
fn at_doors_with(fault: &str, records: Records) -> Option<String> {
    let own = OwnFields {
        misses: [3, 0, 10, 9],
        ..OWN
    };
    let mut state = StateFields::printed_run();
    state.logins.push(Login {
        login: 501,
        end: 120,
        rights: 1,
    });
    claims_of(&[made_with(fault, own.image(&state), records)]).err()
}

fn asked(login: u32, door: u8) -> Records {
    Records::Query(records::door_query(login, 100, 0, door))
}

#[test]
fn a_query_that_leaves_other_misses_than_it_should_is_seen() {
    for records in [asked(501, 0), asked(501, 2), asked(7, 1), asked(7, 3)] {
        assert_eq!(at_doors_with(NO_FAULT, records), None);
    }
    let all = "answer 0: the misses are [0, 0, 0, 0] and not [0, 0, 10, 9]";
    let other = "answer 0: the misses are [0, 0, 10, 0] and not [3, 0, 10, 0]";
    let missed = "answer 19: the misses are [4, 0, 10, 9] and not [3, 1, 10, 9]";
    for (fault, records, what) in [
        ("OpenClearsAll", asked(501, 0), all),
        ("OpenClearsDoor0Too", asked(501, 3), other),
        ("MissAtDoor0", asked(7, 1), missed),
        (
            "LockedByAnyDoor",
            asked(501, 1),
            "answer 17 at door 1, misses 0",
        ),
        (
            "Door2NeverLocked",
            asked(501, 2),
            "answer 0 at door 2, misses 10",
        ),
    ] {
        let found = at_doors_with(fault, records);
        assert_eq!(found.as_deref(), Some(what), "{fault}");
    }
}

#[test]
fn a_delivery_that_leaves_other_misses_than_it_should_is_seen() {
    let grant = about(8, &StateFields::printed_run(), 101);
    let with = |rows: &[(u8, u32)]| Records::Deliver(grant.clone(), records::sheet([1, 1], rows));
    let (vote, quorum) = (with(&[]), with(&[(0, 1), (1, 1)]));
    for records in [vote.clone(), quorum.clone()] {
        assert_eq!(at_doors_with(NO_FAULT, records), None);
    }
    let voted = "answer 128: the misses are [3, 0, 0, 0] and not [3, 0, 10, 9]";
    let performed = "answer 0: the misses are [0, 0, 0, 9] and not [0, 0, 0, 0]";
    for (fault, records, what) in [
        ("VoteClearsDoors", vote, voted),
        ("PerformKeepsDoor3", quorum, performed),
    ] {
        let found = at_doors_with(fault, records);
        assert_eq!(found.as_deref(), Some(what), "{fault}");
    }
}

#[test]
fn a_door_that_others_change_is_seen() {
    let step = |place, number, misses| Step {
        place,
        answer: (number, 0),
        misses,
    };
    let whole = [
        step(0, 0, [0; DOORS]),
        step(2, 19, [1, 5, 0, 0]),
        step(3, 17, [1, 10, 0, 0]),
    ];
    let same = |fewer: &[Step]| same_at(0, whole.into_iter(), fewer).map_err(|(place, _)| place);
    let [first, second, third] = whole;
    let alone = |step: Step, number: u32, count: u8| Step {
        answer: (number, 0),
        misses: [count, 0, 0, 0],
        ..step
    };
    let (one, other) = (alone(second, 19, 1), alone(third, 17, 1));
    assert_eq!(same(&[first, one, other]), Ok(()));
    assert_eq!(same(&[first, alone(second, 19, 2), other]), Err(2));
    assert_eq!(same(&[first, one, alone(third, 19, 1)]), Err(3));
    assert_eq!(same(&[first, one]), Err(0));
}

/// What comes of an import and an export, each with the bytes that it wrote.
fn back(written: &[u8], line: &[u8]) -> [Result<(), String>; 2] {
    let outcome = |written: &[u8]| Outcome {
        number: 0,
        count: 1,
        written: Some(written.to_vec()),
    };
    let import = Records::Import {
        roster: line.to_vec(),
        cycle: 7,
        day: 9,
    };
    let export = Records::Export(written.to_vec());
    [
        round_trip(&import, &outcome(written)),
        round_trip(&export, &outcome(line)),
    ]
}

#[test]
fn values_that_do_not_come_back_are_seen() {
    let grant = |cycle, end| records::announcement(8, cycle, 9, records::grant(501, end, 1));
    let line = b"501,1970-05-01,0001\r\n";
    assert_eq!(back(&grant(7, 120), line), [Ok(()), Ok(())]);
    let [import, export] = back(&grant(8, 121), line);
    let what = "the lines of the announcements give other announcements";
    assert_eq!(import, Err(what.to_string()));
    let what = "the exported line \"501,1970-05-01,0001\\r\\n\" gives other values";
    assert_eq!(export, Err(what.to_string()));
    let [import, export] = back(&grant(7, 47_482), b"501,1970-05-01,0001\n");
    let what = "an imported grant is not exported: answer 24, count 0";
    assert_eq!(import, Err(what.to_string()));
    let what = "an exported line is not imported: answer 24, count 0";
    assert_eq!(export, Err(what.to_string()));
}

/// The shortest of several: one whose vote is of a later cycle keeps what leads there.
#[test]
fn a_failing_history_is_shortened() {
    faulty::set(faulty::find("VoteKept"));
    let found = (0..200).filter_map(|seed| random_history(&FAULTY, seed).err());
    let shortened = found.take(5).map(|found| {
        let Case::History(before) = found.case else {
            panic!("not a history");
        };
        let (short, _) = rerun::shorten(&FAULTY, before.clone(), String::new());
        assert!(before.calls.len() >= short.calls.len());
        assert!(rerun::again(&FAULTY, &short, &mut |_, _| {}).is_err());
        short
    });
    let short = shortened.min_by_key(|short| short.calls.len());
    let short = short.expect("a difference");
    // A start, a vote and a delivery with a quorum are enough.
    assert!(short.calls.len() <= 3, "{} calls", short.calls.len());
    faulty::set(None);
    assert!(rerun::again(&FAULTY, &short, &mut |_, _| {}).is_ok());
}

#[test]
fn a_failing_roster_is_shortened() {
    let line = |login: u32| format!("{login},1970-05-01,0001\r\n");
    let roster: String = [3, 2, 1, 0, 1, 2].map(line).concat();
    let records = Records::Import {
        roster: roster.into_bytes(),
        cycle: 7,
        day: 9,
    };
    faulty::set(faulty::find("RosterLogin0"));
    let request = rosters::request(records, 200);
    let (short, what) = rerun::shorten_roster(&FAULTY, request, String::new());
    faulty::set(None);
    assert_eq!(what, "archive answers 24, paper 0 with count 1");
    let Records::Import { roster, .. } = short.records else {
        panic!("not a roster");
    };
    assert_eq!(roster, line(0).into_bytes());
}

#[test]
fn the_copy_without_a_fault_shows_no_difference() {
    for seed in 100..120 {
        assert!(random_history(&FAULTY, seed).is_ok());
    }
}
