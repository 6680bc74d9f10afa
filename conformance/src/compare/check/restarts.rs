//! The claim about lives (request A6), on every delivery of a history that is performed: a certify and
//! a rejoin give their seat the life that they name, above the one before, and no other life changes.
//! What a rejoin uses up, and that other calls leave the lives, is checked in `notices`.

use crate::compare::call::{Event, Records};
use crate::compare::fields::StateFields;
use crate::layout::{arguments, kind_of};

pub fn check(event: &Event) -> Result<(), String> {
    let (Records::Deliver(announcement, _), 0) = (&event.request.records, event.outcome.number)
    else {
        return Ok(());
    };
    let lives = |image: &[u8]| Some(StateFields::read(image)?.seats.map(|seat| seat.life));
    let (Some(before), Some(after)) = (lives(&event.request.image), lives(&event.held)) else {
        return Err("a short image performs".to_string());
    };
    let named = named(announcement);
    for (seat, (old, new)) in before.into_iter().zip(after).enumerate() {
        let is_right = match named {
            Some((named, life)) if named == seat => new == life && life > old,
            _ => new == old,
        };
        if !is_right {
            let kind = kind_of(announcement);
            return Err(format!(
                "kind {kind} leaves seat {seat} with life {new} after {old}"
            ));
        }
    }
    Ok(())
}

/// The seat and the life that a certify or a rejoin names.
fn named(announcement: &[u8]) -> Option<(usize, u32)> {
    match (kind_of(announcement), &arguments(announcement)[..]) {
        (4 | 7, [seat, life]) => Some((*seat as usize, *life)),
        _ => None,
    }
}
