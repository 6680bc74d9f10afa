//! Malformed records and checkpoints: one thing wrong at a time.

use super::random::Random;
use crate::compare::fields::{put, Login, Proposal, StateFields, FREE, PRESENT};
use crate::layout::{
    self, kind_of, least_size, Field, ACTIONS, ANNOUNCEMENT_SIZE, ARGUMENTS, BODY,
};
use crate::layout::{CHECKPOINT, CHECKPOINT_SIZE, DOORS, KIND, LOGINS, MISSES_AT, PROPOSALS, ROWS};
use crate::layout::{ROW_COUNT, ROW_COUNT_AT, ROW_SIZE, SEATS, START, START_KIND, SUBJECT_KIND};
use crate::layout::{SUBJECT_SIZE, VOTE, VOTED_AT};

/// Damages the bytes of any record.
pub fn bytes(rng: &mut Random, record: &mut Vec<u8>) {
    let place = rng.below(record.len().max(1));
    match rng.below(14) {
        0 => record.truncate(place),
        8 => reframe(record, record.len() + 1 + rng.below(8)),
        9 => reframe(record, record.len().saturating_sub(1 + rng.below(2))),
        10..=13 if record.len() > BODY => beyond(rng, record),
        1 => {
            let more = 1 + rng.below(8);
            let byte = rng.pick(&[0, 255]);
            record.resize(record.len() + more, byte);
        }
        2 if record.len() >= BODY => {
            record[2] = rng.below(28) as u8;
            record[3] = rng.pick(&[0, 0, 0, 1, 255]);
        }
        3 if record.len() >= 2 => record[0] = record[0].wrapping_add(rng.pick(&[1, 255, 5])),
        4 => record.iter_mut().for_each(|byte| *byte = rng.byte()),
        _ if !record.is_empty() => record[place] = any_change(rng, record[place]),
        _ => record.push(0),
    }
}

/// Cuts or extends a record with zeros and gives it the length that it has now.
pub fn reframe(record: &mut Vec<u8>, length: usize) {
    record.resize(length, 0);
    if length >= 2 {
        put(record, 0, &(length as u16 - 2).to_le_bytes());
    }
}

/// Bytes and the place where they make a record malformed.
type Change = (usize, Vec<u8>);

/// Every field set next to its range and far outside it; the fields begin at a place.
fn outside(fields: &[Field], mut at: usize) -> Vec<Change> {
    let mut changes = Vec::new();
    for field in fields {
        let bytes = |value: u32| layout::write(&[*field], &[value]);
        let values = field.outside().into_iter();
        changes.extend(values.map(|value| (at, bytes(value))));
        at += field.size;
    }
    changes
}

/// The same for the arguments of an action, and its first unused byte.
fn outside_action(kind: u16, at: usize, end: usize) -> Vec<Change> {
    let Some((_, fields)) = ACTIONS.get(usize::from(kind).wrapping_sub(1)) else {
        return Vec::new();
    };
    let mut changes = outside(fields, at);
    let unused = at + layout::size(fields);
    if unused < end {
        changes.push((unused, vec![1]));
    }
    changes
}

/// The same for an announcement's arguments; those of a propose hold another action.
fn outside_arguments(announcement: &[u8]) -> Vec<Change> {
    let kind = kind_of(announcement);
    if kind != 1 {
        return outside_action(kind, ARGUMENTS, ANNOUNCEMENT_SIZE);
    }
    let at = ARGUMENTS + SUBJECT_KIND.size;
    let subject = layout::arguments(announcement)[0] as u16;
    let mut changes = outside(&[SUBJECT_KIND], ARGUMENTS);
    changes.extend(outside_action(subject, at, at + SUBJECT_SIZE));
    changes.push((at + SUBJECT_SIZE, vec![1]));
    changes
}

fn make_one(rng: &mut Random, changes: &[Change], bytes: &mut [u8]) {
    if !changes.is_empty() {
        let (at, new) = &changes[rng.below(changes.len())];
        put(bytes, *at, new);
    }
}

/// Sets one field of a record outside its range.
fn beyond(rng: &mut Random, record: &mut [u8]) {
    let kind = kind_of(record);
    let is_whole = record.len() == least_size(kind);
    let changes = match kind {
        1..=9 if is_whole && rng.chance(80) => outside_arguments(record),
        1..=9 => outside(&[KIND], 2),
        _ if is_whole && layout::is_query(kind) => outside(layout::query_fields(kind), BODY),
        START_KIND if is_whole => outside(&START, BODY),
        _ => vec![(3, vec![1])],
    };
    make_one(rng, &changes, record);
}

fn any_change(rng: &mut Random, byte: u8) -> u8 {
    match rng.below(5) {
        0 => 0,
        1 => 255,
        2 => byte.wrapping_add(1),
        3 => byte.wrapping_sub(1),
        _ => rng.byte(),
    }
}

/// Damages a sheet where damage to a random byte seldom strikes: its count and its seats.
pub fn sheet(rng: &mut Random, sheet: &mut Vec<u8>) {
    let rows = sheet.len().saturating_sub(ROWS) / ROW_SIZE;
    match rng.below(5) {
        0 if rows > 0 => {
            sheet[ROWS + ROW_SIZE * rng.below(rows)] = rng.pick(&[32, 33, 64, 255]);
        }
        1 if sheet.len() >= ROWS => {
            sheet[ROW_COUNT_AT] = sheet[ROW_COUNT_AT].wrapping_add(rng.pick(&[1, 255]));
        }
        2 if sheet.len() >= ROWS => {
            let rows = ROW_COUNT.high as usize + 1;
            reframe(sheet, ROWS + ROW_SIZE * rows);
            sheet[ROW_COUNT_AT] = rows as u8;
        }
        3 if rows > 0 => {
            // The count and the length go down together, the slice stays too long.
            sheet[ROW_COUNT_AT] -= 1;
            sheet[0] = sheet[0].wrapping_sub(ROW_SIZE as u8);
        }
        _ => bytes(rng, sheet),
    }
}

/// A checkpoint with one field out of its range or out of its order. Some of the changes leave it
/// well formed.
pub fn checkpoint(rng: &mut Random, state: &StateFields) -> Vec<u8> {
    let mut state = state.clone();
    match rng.below(5) {
        0 if rng.chance(25) => state.least = (state.present() + rng.below(3)) as u8,
        0 => {
            let mut bytes = state.write();
            make_one(rng, &outside(&CHECKPOINT, BODY), &mut bytes);
            return bytes;
        }
        1 => spoil_seats(rng, &mut state),
        2 => spoil_proposals(rng, &mut state),
        3 => spoil_logins(rng, &mut state),
        _ => return spoil_tables(rng, &state),
    }
    state.write()
}

fn spoil_seats(rng: &mut Random, state: &mut StateFields) {
    let place = rng.below(SEATS.most);
    let other = rng.pick(&state.seats);
    let seat = &mut state.seats[place];
    match rng.below(5) {
        // Where p stays, nothing else is wrong.
        0 if seat.standing != PRESENT => seat.standing = 4,
        0 => seat.standing = rng.pick(&[4, 255]),
        1 if seat.standing == FREE => seat.life = rng.some32(),
        1 | 2 => seat.life = 0,
        3 => seat.standing = FREE,
        _ => *seat = other,
    }
}

fn spoil_proposals(rng: &mut Random, state: &mut StateFields) {
    if state.proposals.is_empty() {
        state.proposals.push(Proposal {
            cycle: state.cycle - 1,
            day: state.day,
            kind: rng.pick(&[6, 7]),
            arguments: [0; SUBJECT_SIZE],
        });
    }
    let place = rng.below(state.proposals.len());
    let other = state.proposals[rng.below(state.proposals.len())];
    let (cycle, day) = (state.cycle, state.day);
    let row = &mut state.proposals[place];
    match rng.below(7) {
        0 => row.cycle = rng.pick(&[cycle, cycle.wrapping_add(1), u32::MAX]),
        1 => row.cycle = other.cycle,
        2 => *row = other,
        3 => row.day = rng.pick(&[day, day.saturating_add(1), u32::MAX]),
        4 => row.kind = rng.pick(&[0, 3, 8, 4, 5, 6, 7, 260, 263]),
        5 => row.arguments[rng.below(SUBJECT_SIZE)] = rng.byte(),
        _ => {
            let changes = outside_action(row.kind, 0, SUBJECT_SIZE);
            make_one(rng, &changes, &mut row.arguments);
        }
    }
}

fn spoil_logins(rng: &mut Random, state: &mut StateFields) {
    if state.logins.is_empty() {
        state.logins.push(Login {
            login: 1,
            end: 1,
            rights: 1,
        });
    }
    let place = rng.below(state.logins.len());
    let other = state.logins[rng.below(state.logins.len())];
    let row = &mut state.logins[place];
    match rng.below(5) {
        0 => state.logins[0].login = 0,
        1 => row.login = other.login,
        2 => *row = other,
        3 => row.rights = 0,
        _ => row.login = rng.any32(),
    }
}

/// Counts that do not fit the rows, and unused rows that are not zero.
fn spoil_tables(rng: &mut Random, state: &StateFields) -> Vec<u8> {
    let mut bytes = state.write();
    let (table, used) = match rng.below(2) {
        0 => (PROPOSALS, state.proposals.len()),
        _ => (LOGINS, state.logins.len()),
    };
    if rng.chance(50) {
        let count = &mut bytes[table.count_at()];
        let above = table.most as u8 + 1;
        *count = rng.pick(&[count.wrapping_sub(1), *count + 1, above, 255]);
    } else {
        let unused = table.row(used.min(table.most - 1));
        bytes[unused + rng.below(table.end() - unused)] = rng.pick(&[1, 4, 128, 255]);
    }
    bytes
}

/// An image with one thing wrong in its own part. Some of the changes leave it well formed.
pub fn own(rng: &mut Random, image: &mut [u8]) {
    let (seat, life) = (CHECKPOINT_SIZE, CHECKPOINT_SIZE + 1);
    match rng.below(8) {
        0 => image[seat] = rng.pick(&[32, 255, 0, 31]),
        1 => image[life..VOTED_AT].fill(0),
        2 => image[VOTED_AT] = rng.pick(&[0, 1, 2, 2, 255]),
        3 => image[VOTE.start + rng.below(ANNOUNCEMENT_SIZE)] ^= 1 << rng.below(8),
        4 | 6 => image[MISSES_AT + rng.below(DOORS)] = rng.pick(&[10, 11, 11, 255]),
        // The cycle of the vote.
        5 => image[VOTE.start + BODY..][..4].fill(255),
        _ => image[seat] = rng.below(SEATS.most) as u8,
    }
}
