//! Sheet, start and query.

use super::bytes::{record, require, Read, Reader};
use super::state::{Day, Standing, State, SEATS};

/// "Sheet, kind 18: level-1 mask (1), level-2 mask (1), row count 0 to 64 (1), rows of seat (1,
/// below 32) and life (4)."
#[derive(Debug, Clone, PartialEq, Eq)]
pub struct Sheet {
    pub masks: [u8; 2],
    pub rows: Vec<(u8, u32)>,
}

impl Sheet {
    pub fn read(bytes: &[u8]) -> Read<Self> {
        let (kind, mut reader) = record(bytes)?;
        require(kind == 18)?;
        let masks = [reader.u8()?, reader.u8()?];
        let count = reader.u8()?;
        require(count <= 64)?;
        let rows = (0..count).map(|_| read_row(&mut reader));
        let rows = rows.collect::<Read<Vec<_>>>()?;
        reader.end()?;
        Ok(Sheet { masks, rows })
    }

    /// How many seats the sheet counts: "A seat counts once, if it is present and some row has its
    /// listed life."
    pub fn votes(&self, state: &State) -> usize {
        let seats = 0..SEATS as u8;
        seats.filter(|seat| self.counts(state, *seat)).count()
    }

    fn counts(&self, state: &State, seat: u8) -> bool {
        let mut rows = self.rows.iter().filter(|(named, _)| *named == seat);
        rows.any(|(_, life)| is_vote(state, seat, *life))
    }

    /// "more than half of level 2, the others more than half of level 1"
    pub fn has_majority(&self, level: usize, state: &State) -> bool {
        let trustees = state.trustees[level];
        let mask = self.masks[level];
        // "Trustee i is bit i, lowest bit 0; bits beyond the trustees don't count."
        let signed = (0..trustees).filter(|i| mask >> i & 1 == 1).count();
        2 * signed > usize::from(trustees)
    }
}

fn read_row(reader: &mut Reader) -> Read<(u8, u32)> {
    Ok((reader.seat()?, reader.u32()?))
}

/// The seat "is present" and the row "has its listed life".
fn is_vote(state: &State, seat: u8, life: u32) -> bool {
    let listed = state.seat(seat);
    listed.standing == Standing::Present && life == listed.life
}

/// "Start, kind 19: seat 1, life 4."
#[derive(Debug, Clone, Copy, PartialEq, Eq)]
pub struct Start {
    pub seat: u8,
    pub life: u32,
}

impl Start {
    pub fn read(bytes: &[u8]) -> Read<Self> {
        let (kind, mut reader) = record(bytes)?;
        require(kind == 19)?;
        let (seat, life) = (reader.seat()?, reader.u32()?);
        reader.end()?;
        Ok(Start { seat, life })
    }
}

/// "Query, kind 20: login 4, day 4, right 1 (0 to 15)." Request A5: "A new query, kind 21, carries
/// the door in a byte after the right".
#[derive(Debug, Clone, Copy, PartialEq, Eq)]
pub struct Query {
    pub login: u32,
    pub day: Day,
    pub right: u8,
    pub door: u8,
}

impl Query {
    pub fn read(bytes: &[u8]) -> Read<Self> {
        let (kind, mut reader) = record(bytes)?;
        require(kind == 20 || kind == 21)?;
        let login = reader.u32()?;
        let day = Day::new(reader.u32()?);
        let right = reader.u8()?;
        require(right <= 15)?;
        let door = read_door(kind, &mut reader)?;
        reader.end()?;
        Ok(Query {
            login,
            day,
            right,
            door,
        })
    }
}

/// "kind 20 means door 0"; "A door above 3 .. is rule 1" (request A5).
fn read_door(kind: u16, reader: &mut Reader) -> Read<u8> {
    if kind == 20 {
        return Ok(0);
    }
    let door = reader.u8()?;
    require(door <= 3)?;
    Ok(door)
}
