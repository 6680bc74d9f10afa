//! The calls of document 01, as C sees them.

use super::actions::perform;
use super::announcement::{is_sheet, Announcement};
use super::image::{self, CHECKPOINT, IMAGE, MISSES, OWN, VOTE, VOTED};
use super::records::{Query, Start};
use super::rules::{action_refusal, deliver_refusal, query_refusal, shows_quorum, vote_refusal};
use super::state::{State, CERTIFIED, PRESENT};

#[inline(never)]
pub fn node_start(checkpoint: &[u8], start: &[u8], out: &mut [u8]) -> u32 {
    let mut state = State::EMPTY;
    if !state.read(checkpoint) {
        return 1;
    }
    let Some(asked) = Start::read(start) else {
        return 1;
    };
    if out.len() < IMAGE {
        return 22;
    }
    let seat = &state.seats[asked.seat];
    if !matches!(seat.standing, CERTIFIED | PRESENT) {
        return 9;
    }
    if asked.life < seat.life {
        return 14;
    }
    image::copy(checkpoint, out);
    write_afresh(out, &start[4..9]);
    0
}

#[inline(never)]
pub fn node_deliver(image: &[u8], announcement: &[u8], sheet: &[u8], out: &mut [u8]) -> u32 {
    let mut state = State::EMPTY;
    let Some(own) = image::read(image, &mut state) else {
        return 1;
    };
    let Some(announced) = Announcement::read(announcement) else {
        return 1;
    };
    if !is_sheet(sheet) {
        return 2;
    }
    if out.len() < IMAGE {
        return 22;
    }
    let number = deliver_refusal(&state, &own, &announced, sheet);
    if number != 0 {
        return number;
    }
    // The image keeps them where it is not performed.
    state.proposals.drop_lapsed(announced.day);
    let number = action_refusal(&state, &announced);
    if number != 0 {
        return number;
    }
    if shows_quorum(&state, sheet) {
        perform(&mut state, &announced);
        state.write(out);
        write_afresh(out, &image[OWN..VOTED]);
        return 0;
    }
    let number = vote_refusal(&state, &own, announcement);
    if number != 0 {
        return number;
    }
    out[..IMAGE].copy_from_slice(image);
    out[VOTED] = 1;
    out[VOTE..MISSES].copy_from_slice(announcement);
    128
}

#[inline(never)]
pub fn node_query(image: &[u8], query: &[u8], out: &mut [u8]) -> u32 {
    let mut state = State::EMPTY;
    let Some(own) = image::read(image, &mut state) else {
        return 1;
    };
    let Some(query) = Query::read(query) else {
        return 1;
    };
    if out.len() < IMAGE {
        return 22;
    }
    let number = query_refusal(&state, &own, &query);
    let misses = match number {
        0 => 0,
        19..=21 => own.misses[query.door] + 1,
        _ => return number,
    };
    out[..IMAGE].copy_from_slice(image);
    out[MISSES + query.door] = misses;
    number
}

#[inline(never)]
pub fn node_checkpoint(image: &[u8], out: &mut [u8]) -> u32 {
    let mut state = State::EMPTY;
    if image::read(image, &mut state).is_none() {
        return 1;
    }
    if out.len() < CHECKPOINT {
        return 22;
    }
    out[..CHECKPOINT].copy_from_slice(&image[..CHECKPOINT]);
    0
}

/// The own part of this seat and life with no vote and no misses.
fn write_afresh(out: &mut [u8], seat_and_life: &[u8]) {
    out[OWN..VOTED].copy_from_slice(seat_and_life);
    out[VOTED..IMAGE].fill(0);
}
