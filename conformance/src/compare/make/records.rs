//! The bytes of announcements, sheets, starts and queries.

use crate::layout::{
    record, write, ACTIONS, ARGUMENTS_SIZE, CYCLE_AND_DAY, DOOR_QUERY, MASKS, QUERY,
};
use crate::layout::{
    DOOR_QUERY_KIND, QUERY_KIND, ROW, SHEET_KIND, START, START_KIND, SUBJECT_SIZE,
};

pub fn announcement(kind: u16, cycle: u32, day: u32, arguments: [u8; ARGUMENTS_SIZE]) -> Vec<u8> {
    let mut body = write(&CYCLE_AND_DAY, &[cycle, day]);
    body.extend(arguments);
    record(kind, &body)
}

/// A sheet with its two masks. More than 255 rows have no count.
pub fn sheet(masks: [u8; 2], rows: &[(u8, u32)]) -> Vec<u8> {
    let mut body = write(&MASKS, &masks.map(u32::from));
    body.push(rows.len() as u8);
    for (seat, life) in rows {
        body.extend(write(&ROW, &[u32::from(*seat), *life]));
    }
    record(SHEET_KIND, &body)
}

pub fn start(seat: u8, life: u32) -> Vec<u8> {
    record(START_KIND, &write(&START, &[seat.into(), life]))
}

pub fn query(login: u32, day: u32, right: u8) -> Vec<u8> {
    record(QUERY_KIND, &write(&QUERY, &[login, day, right.into()]))
}

/// A query that names its door.
pub fn door_query(login: u32, day: u32, right: u8, door: u8) -> Vec<u8> {
    let values = [login, day, right.into(), door.into()];
    record(DOOR_QUERY_KIND, &write(&DOOR_QUERY, &values))
}

/// The bytes at the front, zeros behind them.
fn filled<const N: usize>(front: &[u8]) -> [u8; N] {
    let mut bytes = [0; N];
    bytes[..front.len()].copy_from_slice(front);
    bytes
}

/// 12 argument bytes with these at their front.
pub fn arguments(front: &[u8]) -> [u8; ARGUMENTS_SIZE] {
    filled(front)
}

/// The first 8 argument bytes of an action other than propose and grant.
pub fn subject(kind: u16, values: &[u32]) -> [u8; SUBJECT_SIZE] {
    filled(&write(ACTIONS[usize::from(kind) - 1].1, values))
}

pub fn grant(login: u32, end: u32, rights: u16) -> [u8; ARGUMENTS_SIZE] {
    filled(&write(ACTIONS[7].1, &[login, end, rights.into()]))
}

/// The arguments of a propose for a subject.
pub fn propose(kind: u16, subject: [u8; SUBJECT_SIZE]) -> [u8; ARGUMENTS_SIZE] {
    filled(&[&kind.to_le_bytes(), &subject[..]].concat())
}
