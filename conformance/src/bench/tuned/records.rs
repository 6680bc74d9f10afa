//! Start and query.

use super::bytes::{is_record, u32_at};

pub struct Start {
    pub seat: usize,
    pub life: u32,
}

pub struct Query {
    pub login: u32,
    pub day: u32,
    pub right: u8,
    pub door: usize,
}

impl Start {
    pub fn read(bytes: &[u8]) -> Option<Start> {
        (is_record(bytes, 9, 19) && bytes[4] < 32).then(|| Start {
            seat: bytes[4].into(),
            life: u32_at(bytes, 5),
        })
    }
}

impl Query {
    pub fn read(bytes: &[u8]) -> Option<Query> {
        let door = match bytes.len() {
            13 if is_record(bytes, 13, 20) => 0,
            14 if is_record(bytes, 14, 21) => bytes[13],
            _ => return None,
        };
        (bytes[12] <= 15 && door <= 3).then(|| Query {
            login: u32_at(bytes, 4),
            day: u32_at(bytes, 8),
            right: bytes[12],
            door: door.into(),
        })
    }
}
