//! The claims about notices that the park can set (request A7), on every call of a history: both are 1
//! to 30 days in every state; a performed minima leaves those that it names, and the ones before it
//! where it names zero; every other call leaves them, an accepted start those of its checkpoint. A start
//! from a checkpoint of kind 16 answers and writes as one from the checkpoint of kind 26 for its state.
//! That the proposal of a minima was as old as the ordinary notice before it is checked in `notices`.

use crate::archive;
use crate::compare::call::{answer_in, Event, Outcome, Records, Request};
use crate::compare::fields::{Notices, StateFields};
use crate::layout::{kind_of, to_current, ARGUMENTS, IMAGE_SIZE, MINIMA_KIND, NOTICES};
use std::borrow::Cow;

pub fn check(event: &Event) -> Result<(), String> {
    same_start(&event.request, &event.outcome)?;
    // A host that holds no node has no notices.
    let Some(state) = StateFields::read(&event.held) else {
        return Ok(());
    };
    let found = state.notices;
    let in_range = |days: u32| (NOTICES[0].low..=NOTICES[0].high).contains(&days);
    if !in_range(found.ordinary) || !in_range(found.restart) {
        return Err(format!("notices of {} are in force", in_words(found)));
    }
    match left(event) {
        Some(left) if left != found => {
            let Notices { ordinary, restart } = left;
            let found = in_words(found);
            Err(format!(
                "notices of {found} are in force and not of {ordinary} and {restart}"
            ))
        }
        _ => Ok(()),
    }
}

fn in_words(notices: Notices) -> String {
    let Notices { ordinary, restart } = notices;
    format!("{ordinary} and {restart} days")
}

/// The notices that a call is to leave in force; none where there was no state before it.
fn left(event: &Event) -> Option<Notices> {
    let request = &event.request;
    match (&request.records, event.outcome.number) {
        (Records::Start(checkpoint, _), 0) => Some(StateFields::read(checkpoint)?.notices),
        (Records::Deliver(announcement, _), 0) if kind_of(announcement) == MINIMA_KIND => {
            let before = StateFields::read(&request.image)?.notices;
            Some(before.after(Notices::named(&announcement[ARGUMENTS..])))
        }
        _ => Some(StateFields::read(&request.image)?.notices),
    }
}

/// A start from a checkpoint of kind 16, once more from the one of kind 26.
fn same_start(request: &Request, outcome: &Outcome) -> Result<(), String> {
    let (Records::Start(checkpoint, start), 0 | 1 | 9 | 14) = (&request.records, outcome.number)
    else {
        return Ok(());
    };
    let Cow::Owned(current) = to_current(checkpoint) else {
        return Ok(());
    };
    let mut image = vec![0; IMAGE_SIZE];
    let number = answer_in(archive::node_start(&current, start, &mut image));
    match &outcome.written {
        _ if number != outcome.number => Err(format!(
            "answer {}, and {number} from the checkpoint of kind 26",
            outcome.number
        )),
        Some(written) if *written != image => {
            Err("the image is another than from the checkpoint of kind 26".to_string())
        }
        _ => Ok(()),
    }
}
