//! Calls derived from a request of the corpus, with the numbers that follow from its own by these
//! sentences of document 01: what is malformed ("So is an input slice that isn't exactly one
//! record, checkpoint or image"), 1 before 2 before 22, and 22 for every output slice that is too
//! short; for a page 23 in the place of 22 (request A1); for the calls of rosters 24 in the place of 1
//! and 25 in that of 22 (request A2); for those of shares 26 and 27 before 28, "a slice too short"
//! (request A9), for a sum "shorter than the first one's length" (request A10).

use super::call::{Call, Sort};
use super::make::{Slices, GUARD};
use crate::compare::call::given;
use crate::compare::make::records;
use crate::layout::{self, is_checkpoint, is_query, to_current, CHECKPOINT_KIND, CHECKPOINT_SIZE};
use crate::layout::{DOORS, IMAGE_SIZE, MISSES_AT, OLD_CHECKPOINT_SIZE, QUERY_KIND, SEATS};
use crate::text;

/// What is done with a derived call and the number it is to return; an error ends the sweep.
pub type Each<'a> = &'a mut dyn FnMut(&Call, Slices, u32) -> Result<(), String>;

type Swept = Result<(), String>;

const LONGEST_ROOM: usize = 1200;
/// How far beyond the least the longest of several output slices is.
const SPARE: usize = 61;
const LONGEST_SLICE: usize = 65536;

/// Output slices of several lengths, and each input slice a byte short. `number` is what the call
/// returns where it has room.
pub fn around(call: &Call, number: u32, each: Each) -> Swept {
    with_rooms(call, number, each)?;
    for place in 0..call.slices.len() {
        let mut cut = call.clone();
        let is_cut = cut.slices[place].pop().is_some();
        let number = match call.sort.is_of_shares() {
            true => shares_cut(&cut, number, place),
            false => number_cut(number, call.sort.malformed(place)),
        };
        if let Some(number) = number.filter(|_| is_cut) {
            with_rooms(&cut, number, each)?;
        }
    }
    Ok(())
}

/// What the call returns with a slice a byte short, where `malformed` is the number for that one.
/// None where the cut may mend what is malformed already.
fn number_cut(number: u32, malformed: u32) -> Option<u32> {
    match (number, malformed) {
        (1, 2) | (2, 1) => Some(1),
        (number, _) if is_malformed(number) => None,
        _ => Some(malformed),
    }
}

/// The same in a call of shares. None where a number that 27 is for may be cut off.
fn shares_cut(cut: &Call, number: u32, place: usize) -> Option<u32> {
    match number {
        27 if place == 0 => None,
        26 | 27 => Some(number),
        _ => Some(by_lengths(cut, number)),
    }
}

/// What a call of shares returns with slices of these lengths, where it returns `number` with others; k, n
/// and the share numbers are good.
fn by_lengths(call: &Call, number: u32) -> u32 {
    match call.sort {
        sort if call.is_short() => sort.no_room(),
        Sort::Add => given(call.room()),
        _ => number,
    }
}

/// Whether a call that returns this number has a malformed slice, k or n out of range or a bad share
/// number: what is tried before the lengths of slices.
pub fn is_malformed(number: u32) -> bool {
    matches!(number, 1 | 2 | 24 | 26 | 27)
}

/// With guard bytes behind each slice, and with nothing behind it.
fn with_gaps(call: &Call, number: u32, room: usize, each: Each) -> Swept {
    let wanted = with_room(call, number, room);
    each(call, Slices { room, gap: 0 }, wanted)?;
    each(call, Slices { room, gap: GUARD }, wanted)
}

fn with_rooms(call: &Call, number: u32, each: Each) -> Swept {
    let least = call.room();
    let short = least.saturating_sub(1);
    for room in [0, 1, short, least, least + 1, least + SPARE] {
        with_gaps(call, number, room, each)?;
    }
    Ok(())
}

/// "straight after 1 and 2"; "24 comes before 25"; "tried in that order"
fn with_room(call: &Call, number: u32, room: usize) -> u32 {
    match room < call.room() && !is_malformed(number) {
        true => call.sort.no_room(),
        false => number,
    }
}

/// Output slices of every length.
pub fn rooms(call: &Call, number: u32, each: Each) -> Swept {
    for room in 0..=LONGEST_ROOM.max(call.room() + SPARE) {
        with_gaps(call, number, room, each)?;
    }
    Ok(())
}

/// Input slices of every shorter and some longer lengths, and other records in the place of each.
/// Nothing of the call is malformed.
pub fn slices(call: &Call, number: u32, each: Each) -> Swept {
    if call.sort == Sort::Import {
        return cuts(call, each);
    }
    if call.sort.is_of_shares() {
        return share_lengths(call, number, each);
    }
    for place in 0..call.slices.len() {
        lengths(call, place, each)?;
        misplaced(call, place, each)?;
    }
    Ok(())
}

/// A roster cut at every length, and with zeros behind it. "lines end in CR LF, the last may lack it":
/// a cut behind a line or behind its line end leaves a roster.
fn cuts(call: &Call, each: Each) -> Swept {
    let whole = call.slices[0].clone();
    for length in 0..whole.len() + 3 {
        let mut other = call.clone();
        other.slices[0].resize(length, 0);
        let is_line = match whole.get(length..) {
            Some(behind) => behind.starts_with(b"\r\n") || whole[..length].ends_with(b"\r\n"),
            None => false,
        };
        let number = match is_line || length == 0 || length == whole.len() {
            true => given(layout::roster_lines(&other.slices[0])),
            false => 24,
        };
        with_rooms(&other, number, each)?;
    }
    Ok(())
}

/// The slices of a call that gives shares, a key or a sum, with every shorter length and some longer ones.
/// What stands behind the needed bytes changes nothing.
fn share_lengths(call: &Call, number: u32, each: Each) -> Swept {
    if !call.sort.writes(number) {
        return Ok(());
    }
    for place in 0..call.slices.len() {
        let whole = call.needed(place).max(call.slices[place].len());
        for length in (0..whole + SPARE).chain([LONGEST_SLICE]) {
            let mut other = call.clone();
            other.slices[place].resize(length, 0);
            with_rooms(&other, by_lengths(&other, number), each)?;
        }
    }
    Ok(())
}

/// As it is, and with the length field that fits it.
fn lengths(call: &Call, place: usize, each: Each) -> Swept {
    let whole = call.slices[place].len();
    let longer = [whole + 1, whole + 5, whole + 100, LONGEST_SLICE];
    for length in (0..whole).chain(longer) {
        let mut other = call.clone();
        let slice = &mut other.slices[place];
        slice.resize(length, 0);
        malformed(&other, place, each)?;
        let slice = &mut other.slices[place];
        let field = (length.max(2) - 2) as u16;
        let fitting = field.to_le_bytes();
        let size = length.min(2);
        slice[..size].copy_from_slice(&fitting[..size]);
        malformed(&other, place, each)?;
    }
    Ok(())
}

fn malformed(call: &Call, place: usize, each: Each) -> Swept {
    let slices = Slices {
        room: call.room(),
        gap: 0,
    };
    each(call, slices, call.sort.malformed(place))
}

const RECORDS: [&str; 5] = [
    "start seat 0 life 1",
    "announce cycle 1 day 101 end login 501",
    "sheet level-1 0 level-2 rows",
    "query login 501 day 120 right 0",
    "query login 501 day 120 right 0 door 1",
];

/// A record of another sort in the place of this one.
fn misplaced(call: &Call, place: usize, each: Each) -> Swept {
    let composed = RECORDS.iter().filter_map(|text| text::compose(text).ok());
    let others: Vec<Vec<u8>> = composed.chain(call.slices.clone()).collect();
    let own = sort_of(&call.slices[place]);
    for other in others.into_iter().filter(|other| sort_of(other) != own) {
        let mut call = call.clone();
        call.slices[place] = other;
        malformed(&call, place, each)?;
    }
    Ok(())
}

/// The kind that a record's third byte tells, the nine of an announcement as one, both of a query and
/// both of a checkpoint too.
fn sort_of(record: &[u8]) -> Option<u16> {
    let kind = record.get(2).copied().map(u16::from);
    kind.map(|kind| match kind {
        1..=9 => 1,
        _ if is_query(kind) => QUERY_KIND,
        _ if is_checkpoint(kind) => CHECKPOINT_KIND,
        _ => kind,
    })
}

/// The announcement of a delivery as the vote of its image, "well formed and of this cycle". The
/// image is well formed, so a delivery that returns 1 has a malformed announcement.
pub fn as_vote(call: &Call, number: u32, each: Each) -> Swept {
    let [image, announcement, ..] = call.slices.as_slice() else {
        return Ok(());
    };
    if call.sort != Sort::Deliver || announcement.len() != 24 {
        return Ok(());
    }
    let is_good = number != 1 && announcement[4..8] == image[4..8];
    let mut image = image.clone();
    image[layout::VOTED_AT] = 1;
    image[layout::VOTE].copy_from_slice(announcement);
    image_in_calls(&image, is_good, each)
}

/// The checkpoint of a start as the front of an image, where that is malformed: the one of a refused
/// start, one of kind 16 also as the one of kind 26 for its state; every one of kind 16 as it is
/// (request A7). The start is well formed, or makes a malformed own part as well.
pub fn as_image(call: &Call, number: u32, each: Each) -> Swept {
    let [checkpoint, start] = call.slices.as_slice() else {
        return Ok(());
    };
    let is_start = start.len() == 9 && start.starts_with(&[7, 0, 19, 0]);
    if call.sort != Sort::Start || !is_start {
        return Ok(());
    }
    if checkpoint.len() == OLD_CHECKPOINT_SIZE {
        image_in_calls(&image_of(checkpoint, start), false, each)?;
    }
    let current = to_current(checkpoint);
    match number == 1 && current.len() == CHECKPOINT_SIZE {
        true => image_in_calls(&image_of(&current, start), false, each),
        false => Ok(()),
    }
}

/// An image with the seat and the life of a start, of which life 0 would be malformed; no vote, no
/// misses.
fn image_of(checkpoint: &[u8], start: &[u8]) -> Vec<u8> {
    let mut image = [checkpoint, &start[4..]].concat();
    if start[5..] == [0; 4] {
        image[checkpoint.len() + 1] = 1;
    }
    image.resize(checkpoint.len() + IMAGE_SIZE - CHECKPOINT_SIZE, 0);
    image
}

/// The image of a checkpoint or page call in the other calls that take one.
pub fn in_other_calls(call: &Call, number: u32, each: Each) -> Swept {
    match call.sort {
        Sort::Checkpoint | Sort::Page if call.slices[0].len() == IMAGE_SIZE => {
            image_in_calls(&call.slices[0], number != 1, each)
        }
        _ => Ok(()),
    }
}

/// An image in each call that takes one: an announcement of cycle 0, which has passed in every
/// state, and at each door a query for login 0, which is never listed, on day 0, which is never after
/// the agreed day. The page is for day 0 as well.
pub fn image_in_calls(image: &[u8], is_good: bool, each: Each) -> Swept {
    let (deliver, page) = match is_good {
        true => (
            if is_halted(image) { 3 } else { 4 },
            given(layout::lines(image)),
        ),
        false => (1, 1),
    };
    let composed = DELIVERED.map(|text| text::compose(text).unwrap_or_default());
    let mut calls = vec![
        (Sort::Checkpoint, vec![], u32::from(!is_good)),
        (Sort::Deliver, composed.to_vec(), deliver),
        (Sort::Page, vec![], page),
    ];
    for door in 0..DOORS {
        let number = if is_good { asked_of(image, door) } else { 1 };
        let query = records::door_query(0, 0, 0, door as u8);
        calls.push((Sort::Query, vec![query], number));
    }
    for (sort, records, number) in calls {
        if let Some(call) = Call::new(sort, Some(image), records) {
            around(&call, number, each)?;
        }
    }
    Ok(())
}

const DELIVERED: [&str; 2] = [
    "announce cycle 0 day 101 end login 501",
    "sheet level-1 0 level-2 rows",
];

fn is_halted(image: &[u8]) -> bool {
    let seat = usize::from(image[CHECKPOINT_SIZE]);
    image.get(SEATS.row(seat)) == Some(&3)
}

/// What a node answers to such a query: 3 where it is halted, 17 where the door is locked, else 19.
fn asked_of(image: &[u8], door: usize) -> u32 {
    match image[MISSES_AT + door] {
        _ if is_halted(image) => 3,
        10 => 17,
        _ => 19,
    }
}
