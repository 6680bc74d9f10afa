//! The claims about notices that lapse (request A3), on every call of a history: a performed delivery
//! leaves no lapsed proposal, and one that needs a proposal uses up exactly one, that of lowest cycle of
//! those that are as old as the notice in force before it and at most 60 days (requests A6 and A7);
//! every other call leaves the state's checkpoint as it was, a start the one of kind 26 for the state
//! that it was given.

use super::one_call;
use crate::compare::call::{Event, Records};
use crate::compare::fields::{Notices, Proposal, StateFields};
use crate::layout::{self, kind_of, to_current, ARGUMENTS, BODY, CHECKPOINT_SIZE, CYCLE_AND_DAY};

pub fn check(event: &Event) -> Result<(), String> {
    let Event {
        request,
        outcome,
        held,
    } = event;
    let before = match (&request.records, outcome.number) {
        (Records::Deliver(announcement, _), 0) => {
            return performed(&request.image, announcement, held);
        }
        (Records::Start(checkpoint, _), 0) => to_current(checkpoint),
        _ => request.image.as_slice().into(),
    };
    // A host that holds no node has no checkpoint.
    match one_call::checkpoint_of(held).as_deref() == before.get(..CHECKPOINT_SIZE) {
        true => Ok(()),
        false => Err(format!(
            "answer {}: the checkpoint is another than before",
            outcome.number
        )),
    }
}

fn performed(image: &[u8], announcement: &[u8], held: &[u8]) -> Result<(), String> {
    let (Some(before), Some(after)) = (StateFields::read(image), StateFields::read(held)) else {
        return Err("a short image performs".to_string());
    };
    let mut rows = after.proposals.iter();
    if let Some(row) = rows.find(|row| row.is_lapsed(after.day)) {
        let (cycle, day) = (row.cycle, after.day);
        return Err(format!(
            "the proposal of cycle {cycle} has lapsed on the agreed day {day}"
        ));
    }
    match after.proposals == left(before.proposals, before.notices, announcement)? {
        true => Ok(()),
        false => Err(format!(
            "kind {} leaves other proposals than it should",
            kind_of(announcement)
        )),
    }
}

/// The rows that a performed announcement leaves, in their order.
fn left(
    mut rows: Vec<Proposal>,
    in_force: Notices,
    announcement: &[u8],
) -> Result<Vec<Proposal>, String> {
    let [_, day] = layout::read(&CYCLE_AND_DAY, announcement, BODY);
    rows.retain(|row| !row.is_lapsed(day));
    match kind_of(announcement) {
        1 => rows.push(Proposal::of(announcement)),
        2 => {
            let cycle = layout::number_at(announcement, ARGUMENTS, 4);
            rows.retain(|row| row.cycle != cycle);
        }
        kind @ 4..=7 => {
            let fits =
                |row: &Proposal| row.is_subject_of(announcement) && row.is_ripe(day, in_force);
            let used = rows.iter().position(fits);
            let least = in_force.of(kind);
            let missing =
                || format!("kind {kind} is performed with no proposal of {least} to 60 days");
            rows.remove(used.ok_or_else(missing)?);
        }
        _ => {}
    }
    Ok(rows)
}
