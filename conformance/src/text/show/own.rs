//! The own part of an image to text.

use super::bytes::{malformed, Bytes, Malformed, Read};
use super::records::announcement;
use crate::layout::{number_at, ALL_MISSES, BODY, CHECKPOINT_SIZE, OWN, SEATS, VOTED};
use std::ops::Range;

/// Where the vote stands in the own part.
const VOTE: Range<usize> =
    crate::layout::VOTE.start - CHECKPOINT_SIZE..crate::layout::VOTE.end - CHECKPOINT_SIZE;

/// "seat 1, life 4 (at least 1), voted flag 1 (0 or 1), voted announcement 24 (zero if none, else
/// well formed and of this cycle), misses 1. The seat isn't free."; "the counts of doors 1 to 3"
/// follow (request A5).
pub fn own(checkpoint: &[u8], part: &[u8]) -> Read<String> {
    let mut bytes = Bytes::new(part, 0);
    let mut text = "own".to_string();
    let values = bytes.fields(&OWN, &mut text)?;
    let standing = number_at(checkpoint, SEATS.row(values[0] as usize), 1);
    if standing == 0 {
        return malformed(0, format!("seat {} is free", values[0]));
    }
    let vote = match bytes.value(&VOTED)? {
        0 => String::new(),
        _ => vote(checkpoint, &part[VOTE])?,
    };
    if vote.is_empty() {
        bytes.unused(VOTE.end)?;
    }
    bytes.at = VOTE.end;
    bytes.fields(&ALL_MISSES, &mut text)?;
    Ok(text + "\n" + &vote)
}

/// The line of a vote, "well formed and of this cycle".
fn vote(checkpoint: &[u8], vote: &[u8]) -> Read<String> {
    let within = |found: Malformed| Malformed {
        at: VOTE.start + found.at,
        ..found
    };
    let text = announcement(vote).map_err(within)?;
    let (voted, cycle) = (number_at(vote, BODY, 4), number_at(checkpoint, BODY, 4));
    if voted != cycle {
        let why = format!("the vote is of cycle {voted}, the checkpoint of {cycle}");
        return malformed(VOTE.start + BODY, why);
    }
    Ok(format!("  voted {text}"))
}
