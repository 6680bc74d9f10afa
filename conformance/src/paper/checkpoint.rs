//! "Checkpoint, 1,108 bytes, length 1,106, kind 16", and request A7's "checkpoint of kind 26, length
//! 1,108 (1,110 bytes in all)": both are read into a state, and "kind 26 is the one written".

use std::collections::BTreeMap;

use super::announcement::{read_minima, read_notices, read_subject};
use super::bytes::{all_zero, push_u16, push_u32, record, require, Read, Reader};
use super::state::{Cycle, Day, Login, Notices, Proposal, Seat, Standing, State};
use super::state::{MOST_LOGINS, MOST_PROPOSALS, SEATS};

/// Of the one that is written.
pub const SIZE: usize = 1110;
const PROPOSAL_SIZE: usize = 18;
const LOGIN_SIZE: usize = 10;

pub fn read(bytes: &[u8]) -> Read<State> {
    let (kind, mut reader) = record(bytes)?;
    require(kind == 16 || kind == 26)?;
    let cycle = reader.u32()?;
    require(cycle >= 1)?;
    let day = reader.u32()?;
    let trustees = [read_trustees(&mut reader)?, read_trustees(&mut reader)?];
    let minima = read_minima(&mut reader)?;
    let notices = read_in_force(kind, &mut reader)?;
    let seats = (0..SEATS).map(|_| read_seat(&mut reader));
    let state = State {
        cycle: Cycle::new(cycle),
        day: Day::new(day),
        trustees,
        minima,
        notices,
        seats: seats.collect::<Read<_>>()?,
        proposals: read_proposals(&mut reader)?,
        logins: read_logins(&mut reader)?,
    };
    reader.end()?;
    // "quorum at most p"
    require(state.quorum() <= state.present())?;
    require(proposals_fit(&state))?;
    Ok(state)
}

/// "numbers of level-1 and level-2 trustees (1 to 8 each)"
fn read_trustees(reader: &mut Reader) -> Read<u8> {
    let trustees = reader.u8()?;
    require((1..=8).contains(&trustees))?;
    Ok(trustees)
}

/// Request A7: "They join the synchronised state after S in a checkpoint of kind 26 .., where zero is
/// malformed."; "Kind 16 is still read, with 7 and 2".
fn read_in_force(kind: u16, reader: &mut Reader) -> Read<Notices> {
    if kind == 16 {
        return Ok(Notices {
            ordinary: 7,
            restart: 2,
        });
    }
    let notices = read_notices(reader)?;
    require(notices.ordinary >= 1)?;
    require(notices.restart >= 1)?;
    Ok(notices)
}

/// "standing 1, life 4"; "Life is 32 bits, 0 exactly at free seats."
fn read_seat(reader: &mut Reader) -> Read<Seat> {
    let standing = Standing::read(reader.u8()?)?;
    let life = reader.u32()?;
    require((life == 0) == (standing == Standing::Free))?;
    Ok(Seat { standing, life })
}

/// The used rows of a table, in the order they stand: "Unused rows are zero."
fn used_rows<'a>(reader: &mut Reader<'a>, most: usize, size: usize) -> Read<Vec<&'a [u8]>> {
    let count = usize::from(reader.u8()?);
    let rows = reader.take(most * size)?.chunks(size);
    require(count <= most)?;
    require(rows.clone().skip(count).all(all_zero))?;
    Ok(rows.take(count).collect())
}

/// "proposal count 1, 16 times cycle 4, day 4, subject kind 2, subject arguments 8"
fn read_proposals(reader: &mut Reader) -> Read<Vec<Proposal>> {
    let rows = used_rows(reader, MOST_PROPOSALS, PROPOSAL_SIZE)?;
    rows.into_iter().map(read_proposal).collect()
}

fn read_proposal(row: &[u8]) -> Read<Proposal> {
    let mut reader = Reader::new(row);
    Ok(Proposal {
        cycle: Cycle::new(reader.u32()?),
        day: Day::new(reader.u32()?),
        subject: read_subject(&mut reader)?,
    })
}

/// "proposals in strictly rising cycle below the cycle, day at most the agreed day"; a lapsed one
/// (request A3) is well formed.
fn proposals_fit(state: &State) -> bool {
    let mut pairs = state.proposals.iter().zip(state.proposals.iter().skip(1));
    let rising = pairs.all(|(a, b)| a.cycle < b.cycle);
    let in_time = |p: &Proposal| p.cycle < state.cycle && p.day <= state.day;
    rising && state.proposals.iter().all(in_time)
}

/// "login count 1, 64 times login 4, end day 4, rights 2"; "logins at least 1 and strictly rising,
/// rights not zero".
fn read_logins(reader: &mut Reader) -> Read<BTreeMap<u32, Login>> {
    let rows = used_rows(reader, MOST_LOGINS, LOGIN_SIZE)?;
    let rows = rows.into_iter().map(read_login).collect::<Read<Vec<_>>>()?;
    let mut pairs = rows.iter().zip(rows.iter().skip(1));
    require(pairs.all(|(a, b)| a.0 < b.0))?;
    Ok(rows.into_iter().collect())
}

fn read_login(row: &[u8]) -> Read<(u32, Login)> {
    let mut reader = Reader::new(row);
    let login = reader.u32()?;
    let end = Day::new(reader.u32()?);
    let rights = reader.u16()?;
    require(login >= 1)?;
    require(rights != 0)?;
    Ok((login, Login { end, rights }))
}

/// "one state still has one kind-26 checkpoint" (request A7): the rows that are left are zero.
pub fn write(state: &State) -> Vec<u8> {
    let mut out = Vec::with_capacity(SIZE);
    push_u16(&mut out, 1108);
    push_u16(&mut out, 26);
    push_u32(&mut out, state.cycle.number());
    push_u32(&mut out, state.day.number());
    out.extend(state.trustees);
    out.extend([state.minima.margin, state.minima.least_quorum]);
    push_u16(&mut out, state.minima.silence);
    out.extend([state.notices.ordinary, state.notices.restart]);
    for seat in &state.seats {
        out.push(seat.standing as u8);
        push_u32(&mut out, seat.life);
    }
    write_proposals(state, &mut out);
    write_logins(state, &mut out);
    out
}

fn write_proposals(state: &State, out: &mut Vec<u8>) {
    out.push(state.proposals.len() as u8);
    let end = out.len() + MOST_PROPOSALS * PROPOSAL_SIZE;
    for proposal in &state.proposals {
        push_u32(out, proposal.cycle.number());
        push_u32(out, proposal.day.number());
        push_u16(out, proposal.subject.kind);
        out.extend(&proposal.subject.arguments);
    }
    out.resize(end, 0);
}

fn write_logins(state: &State, out: &mut Vec<u8>) {
    out.push(state.logins.len() as u8);
    let end = out.len() + MOST_LOGINS * LOGIN_SIZE;
    for (login, listed) in &state.logins {
        push_u32(out, *login);
        push_u32(out, listed.end.number());
        push_u16(out, listed.rights);
    }
    out.resize(end, 0);
}
