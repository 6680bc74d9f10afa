//! What a call is to write, as far as the papers give it by itself: all of it but the tables of the
//! state after a performed action, the lines of a page, the values of a roster's lines, a date, shares
//! and keys.
//! These are compared between the implementations, and what has no image with the text.

use super::call::{Call, Numbers, Sort};
use crate::compare::call::VOTED;
use crate::layout::{self, door_of, kind_of, least_size, ANNOUNCEMENT_SIZE, ARGUMENTS};
use crate::layout::{to_current, CHECKPOINT_SIZE, IMAGE_SIZE, LOGIN, MISSES_AT, VOTE, VOTED_AT};

const OWN_AT: usize = CHECKPOINT_SIZE;

pub fn check(call: &Call, number: u32, written: &[u8]) -> Result<(), String> {
    let sizes: Vec<usize> = call.slices.iter().map(Vec::len).collect();
    let whole: &[usize] = match call.sort {
        Sort::Start => &[least_size(kind_of(&call.slices[0])), 9],
        Sort::Deliver => &[IMAGE_SIZE, 24],
        Sort::Query => &[IMAGE_SIZE, least_size(kind_of(&call.slices[1]))],
        Sort::Checkpoint | Sort::Page => &[IMAGE_SIZE],
        Sort::Import | Sort::Split | Sort::Merge | Sort::Add => &[],
        Sort::Export => &[ANNOUNCEMENT_SIZE],
    };
    if !sizes.starts_with(whole) {
        return Err(format!("takes slices of {sizes:?} bytes"));
    }
    match expected(call, number, written) == written {
        true => Ok(()),
        false => Err("wrote other bytes than it should".to_string()),
    }
}

fn expected(call: &Call, number: u32, written: &[u8]) -> Vec<u8> {
    let mut out = call.slices[0].clone();
    match (call.sort, number) {
        (Sort::Checkpoint, _) => out.truncate(CHECKPOINT_SIZE),
        (Sort::Page | Sort::Split | Sort::Merge, _) => out = written.to_vec(),
        (Sort::Add, _) => out = layout::added(&out, &call.slices[1]),
        (Sort::Import, _) => out = imported(call.numbers, written),
        (Sort::Export, _) => out = exported(&call.slices[0], written),
        // "Misses 0, no vote." The start record has seat and life behind its four bytes. "kind 26 is the
        // one written" (request A7).
        (Sort::Start, _) => {
            out = to_current(&out).into_owned();
            out.extend(&call.slices[1][4..]);
            out.resize(IMAGE_SIZE, 0);
        }
        (Sort::Deliver, VOTED) => {
            out[VOTED_AT] = 1;
            out[VOTE].copy_from_slice(&call.slices[1]);
        }
        (Sort::Deliver, _) => performed(&mut out, &call.slices[1], written),
        (Sort::Query, _) => asked(&mut out, &call.slices[1], number),
    }
    out
}

/// "19, 20 and 21 add a miss; open sets misses to 0", at the asked door alone (request A5).
fn asked(image: &mut [u8], query: &[u8], number: u32) {
    let misses = &mut image[MISSES_AT + door_of(query)];
    *misses = match number {
        0 => 0,
        _ => misses.wrapping_add(1),
    };
}

/// "cycle plus 1, day as announced, vote cleared, misses 0"; the numbers of trustees stay.
fn performed(image: &mut [u8], announcement: &[u8], written: &[u8]) {
    let cycle = u32::from_le_bytes([image[4], image[5], image[6], image[7]]);
    image[14..OWN_AT].copy_from_slice(&written[14..OWN_AT]);
    image[4..8].copy_from_slice(&cycle.wrapping_add(1).to_le_bytes());
    image[8..12].copy_from_slice(&announcement[8..12]);
    image[VOTED_AT..].fill(0);
}

/// "grant announcements .. for a given day and cycles rising by one from a given one" (request A2)
fn imported(numbers: Numbers, written: &[u8]) -> Vec<u8> {
    let Numbers { cycle, day, .. } = numbers;
    let announcements = written.chunks(ANNOUNCEMENT_SIZE).zip(cycle..);
    let announcement = |(written, cycle): (&[u8], u32)| {
        let head = [[22, 0, 8, 0], cycle.to_le_bytes(), day.to_le_bytes()].concat();
        let values = &written[ARGUMENTS..ARGUMENTS + layout::size(&LOGIN)];
        [head.as_slice(), values, &[0, 0]].concat()
    };
    announcements.flat_map(announcement).collect()
}

/// "login without leading zeros, capital hexadecimal, ended by CR LF" (request A2)
fn exported(announcement: &[u8], written: &[u8]) -> Vec<u8> {
    let [login, _, rights] = layout::read(&LOGIN, announcement, ARGUMENTS);
    let text = String::from_utf8_lossy(written);
    let date = text.split(',').nth(1).unwrap_or_default();
    format!("{login},{date},{rights:04X}\r\n").into_bytes()
}
