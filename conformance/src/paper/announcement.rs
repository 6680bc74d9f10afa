//! "Announcement, 24 bytes: length 22; kind 1 to 9; cycle (4); day (4); 12 argument bytes, unused
//! ones zero."

use super::bytes::{all_zero, record, require, Malformed, Read, Reader};
use super::state::{Cycle, Day, Minima, Notices, Subject};

/// The nine actions with their arguments. Of a minima's notices zero means keep (request A7).
#[derive(Debug, Clone, PartialEq, Eq)]
pub enum Action {
    Propose(Subject),
    Cancel(Cycle),
    Presents { seat: u8, flag: bool },
    Certify { seat: u8, life: u32 },
    Minima(Minima, Notices),
    Remove { seat: u8 },
    Rejoin { seat: u8, life: u32 },
    Grant { login: u32, end: Day, rights: u16 },
    End { login: u32 },
}

#[derive(Debug, Clone, PartialEq, Eq)]
pub struct Announcement {
    pub kind: u16,
    pub cycle: Cycle,
    pub day: Day,
    pub action: Action,
    /// All of it, as a vote keeps it.
    pub bytes: Vec<u8>,
}

impl Announcement {
    pub fn read(bytes: &[u8]) -> Read<Self> {
        let (kind, mut reader) = record(bytes)?;
        let cycle = Cycle::new(reader.u32()?);
        let day = Day::new(reader.u32()?);
        let arguments = reader.take(12)?;
        reader.end()?;
        Ok(Announcement {
            kind,
            cycle,
            day,
            action: read_action(kind, arguments)?,
            bytes: bytes.to_vec(),
        })
    }

    /// "Kinds 4, 5 and 6 also use up the ripe proposal"; request A6: "rejoin needs its proposal".
    pub fn is_proposed(&self) -> bool {
        matches!(self.kind, 4..=7)
    }

    /// What a proposal of this announcement would hold.
    pub fn subject(&self) -> Subject {
        Subject {
            kind: self.kind,
            arguments: self.bytes[12..20].to_vec(),
        }
    }
}

/// The arguments of a kind, from 12 bytes or from the 8 of a subject.
fn read_action(kind: u16, bytes: &[u8]) -> Read<Action> {
    let mut reader = Reader::new(bytes);
    let action = match kind {
        1 => Action::Propose(read_subject(&mut reader)?),
        2 => Action::Cancel(Cycle::new(reader.u32()?)),
        3 => read_presents(&mut reader)?,
        4 => read_certify(&mut reader)?,
        5 => Action::Minima(read_minima(&mut reader)?, read_notices(&mut reader)?),
        6 => Action::Remove {
            seat: reader.seat()?,
        },
        7 => read_rejoin(&mut reader)?,
        8 => read_grant(&mut reader)?,
        // Login 0 is well formed and meets rule 13.
        9 => Action::End {
            login: reader.u32()?,
        },
        _ => return Err(Malformed),
    };
    // "unused ones zero"
    require(all_zero(reader.rest()))?;
    Ok(action)
}

/// "subject kind 2 (4, 5 or 6), its first 8 argument bytes"; request A6: "Propose now takes subject
/// kind 7"; "a proposal's subject arguments obey the ranges of their kind".
pub fn read_subject(reader: &mut Reader) -> Read<Subject> {
    let kind = reader.u16()?;
    let arguments = reader.take(8)?;
    require(matches!(kind, 4..=7))?;
    read_action(kind, arguments)?;
    Ok(Subject {
        kind,
        arguments: arguments.to_vec(),
    })
}

/// "seat 1, flag 1 (1 or 0)"
fn read_presents(reader: &mut Reader) -> Read<Action> {
    let seat = reader.seat()?;
    let flag = reader.u8()?;
    require(flag <= 1)?;
    Ok(Action::Presents {
        seat,
        flag: flag == 1,
    })
}

/// "seat 1, life 4 (at least 1)"
fn read_certify(reader: &mut Reader) -> Read<Action> {
    let seat = reader.seat()?;
    let life = reader.u32()?;
    require(life >= 1)?;
    Ok(Action::Certify { seat, life })
}

/// "m 1, k 1, S 2", each in its range.
pub fn read_minima(reader: &mut Reader) -> Read<Minima> {
    let margin = reader.u8()?;
    let least_quorum = reader.u8()?;
    let silence = reader.u16()?;
    require(margin <= 7)?;
    require((1..=32).contains(&least_quorum))?;
    require((1..=365).contains(&silence))?;
    Ok(Minima {
        margin,
        least_quorum,
        silence,
    })
}

/// Request A7: "The minima action takes two more bytes, ordinary notice and restart notice, 1 to 30 days
/// each, zero meaning keep."
pub fn read_notices(reader: &mut Reader) -> Read<Notices> {
    let ordinary = reader.u8()?;
    let restart = reader.u8()?;
    // "A notice above 30 is rule 1."
    require(ordinary <= 30)?;
    require(restart <= 30)?;
    Ok(Notices { ordinary, restart })
}

/// "seat 1, life 4"; life 0 is well formed and meets rule 9, 10 or 14.
fn read_rejoin(reader: &mut Reader) -> Read<Action> {
    let seat = reader.seat()?;
    let life = reader.u32()?;
    Ok(Action::Rejoin { seat, life })
}

/// "login 4 (at least 1), end day 4, rights 2 (not 0)"
fn read_grant(reader: &mut Reader) -> Read<Action> {
    let login = reader.u32()?;
    let end = Day::new(reader.u32()?);
    let rights = reader.u16()?;
    require(login >= 1)?;
    require(rights != 0)?;
    Ok(Action::Grant { login, end, rights })
}
