//! Random records: what is shown composes to the same bytes, and is malformed exactly where the
//! second implementation says so.

use super::{compose, show};
use crate::compare::fields::StateFields;
use crate::compare::make::random::Random;
use crate::compare::make::sheets::{any_aim, sheet};
use crate::compare::make::{announcements, malformed, records as made, starts_queries, states};
use crate::layout::{framed, to_old, DOOR, RIGHT};
use crate::paper::Node;
use crate::text::show_image;
use crate::text::warnings::refusal;

/// Whether an input is well-formed records and nothing else.
pub fn all_read_by_paper(mut input: &[u8]) -> bool {
    while !input.is_empty() {
        let (record, rest) = input.split_at(framed(input));
        if refusal(record).is_some() {
            return false;
        }
        input = rest;
    }
    true
}

/// One of each sort, well formed.
fn records(rng: &mut Random, state: &StateFields) -> Vec<Vec<u8>> {
    let announcement = announcements::any(rng, state);
    let aim = any_aim(rng);
    let sheet = sheet(rng, state, u16::from(announcement[2]), aim, &[]);
    vec![
        starts_queries::start(rng, state),
        state.write(),
        announcement,
        sheet,
        starts_queries::query(rng, state),
        made::door_query(
            rng.any32(),
            rng.any32(),
            rng.of(&RIGHT) as u8,
            rng.of(&DOOR) as u8,
        ),
        to_old(&state.write()),
    ]
}

fn check(input: &[u8], well_formed: bool) {
    let shown = show(input);
    assert_eq!(compose(&shown.text).as_deref(), Ok(input), "{}", shown.text);
    assert_eq!(shown.malformed, !well_formed, "{}", shown.text);
    let comments = shown.text.contains("# malformed: ");
    assert_eq!(comments, shown.malformed);
}

#[test]
fn well_formed_records() {
    let mut rng = Random::new(1);
    for _ in 0..3000 {
        let state = states::any_state(&mut rng);
        let input = records(&mut rng, &state).concat();
        assert!(all_read_by_paper(&input));
        check(&input, true);
    }
}

/// Both ends of a life that is proposed: in a propose and in a checkpoint.
#[test]
fn proposals_to_rejoin() {
    for life in [0, u32::MAX] {
        let text = format!(
            "announce cycle 1 day 2 propose rejoin seat 31 life {life}\n\
            checkpoint cycle 4 day 100 trustees 1 1 m 0 k 1 S 30\n  seat 0 present life 1\n  \
            proposal cycle 3 day 98 rejoin seat 31 life {life}\n"
        );
        let bytes = compose(&text).unwrap();
        assert!(all_read_by_paper(&bytes));
        check(&bytes, true);
        assert_eq!(show(&bytes).text, text);
    }
}

/// Notices that are named, kept and left out, in both kinds of a checkpoint; both bytes of the last
/// minima are zero.
#[test]
fn notices() {
    for notices in ["", " ordinary 1 restart 30"] {
        let text = format!(
            "announce cycle 1 day 2 minima m 0 k 1 S 30 ordinary 30 restart 1\n\
            announce cycle 1 day 2 propose minima m 0 k 1 S 30 ordinary 0 restart 30\n\
            announce cycle 1 day 2 minima m 0 k 1 S 30\n\
            checkpoint cycle 4 day 100 trustees 1 1 m 0 k 1 S 30{notices}\n  seat 0 present life 1\n  \
            proposal cycle 2 day 98 minima m 0 k 1 S 30 ordinary 5 restart 0\n  \
            proposal cycle 3 day 98 minima m 0 k 1 S 30\n"
        );
        let bytes = compose(&text).unwrap();
        assert!(all_read_by_paper(&bytes));
        check(&bytes, true);
        assert_eq!(show(&bytes).text, text);
        let size = if notices.is_empty() { 1108 } else { 1110 };
        assert_eq!(bytes.len(), 3 * 24 + size);
    }
    let named = compose("announce cycle 1 day 2 minima m 0 k 1 S 30 ordinary 0 restart 0");
    assert_eq!(named, compose("announce cycle 1 day 2 minima m 0 k 1 S 30"));
}

#[test]
fn damaged_records() {
    let mut rng = Random::new(2);
    let mut damaged = 0;
    for _ in 0..4000 {
        let state = states::any_state(&mut rng);
        let mut records = records(&mut rng, &state);
        let place = rng.below(records.len());
        match place {
            1 => records[1] = malformed::checkpoint(&mut rng, &state),
            3 => malformed::sheet(&mut rng, &mut records[3]),
            6 => records[6] = to_old(&malformed::checkpoint(&mut rng, &state)),
            _ => malformed::bytes(&mut rng, &mut records[place]),
        }
        let alone = all_read_by_paper(&records[place]);
        check(&records[place], alone);
        let all = records.concat();
        check(&all, all_read_by_paper(&all));
        damaged += usize::from(!alone);
    }
    assert!(damaged > 2000, "{damaged}");
}

#[test]
fn every_cut_of_a_stream() {
    let mut rng = Random::new(3);
    let state = states::any_state(&mut rng);
    let input = records(&mut rng, &state).concat();
    for end in 0..input.len() {
        check(&input[..end], all_read_by_paper(&input[..end]));
    }
}

#[test]
fn any_bytes() {
    let mut rng = Random::new(4);
    for _ in 0..5000 {
        let length = rng.below(120);
        let small = rng.chance(70);
        let mut byte = || rng.byte() & if small { 31 } else { 255 };
        let input: Vec<u8> = (0..length).map(|_| byte()).collect();
        check(&input, all_read_by_paper(&input));
    }
}

#[test]
fn images() {
    let mut rng = Random::new(5);
    for _ in 0..4000 {
        let mut state = states::any_state(&mut rng);
        let own = states::any_own(&mut rng, &state);
        if rng.chance(20) {
            state = StateFields::read(&malformed::checkpoint(&mut rng, &state)).unwrap();
        }
        let mut image = own.image(&state);
        if rng.chance(60) {
            malformed::own(&mut rng, &mut image);
        }
        let well_formed = Node::from_image(&image).is_some();
        let shown = show_image(&image);
        assert_eq!(compose(&shown.text).as_ref(), Ok(&image), "{}", shown.text);
        assert_eq!(shown.malformed, !well_formed, "{}", shown.text);
        assert_eq!(show(&image), shown);
    }
}
