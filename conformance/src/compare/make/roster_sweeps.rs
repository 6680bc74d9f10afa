//! A roster damaged at every byte, cut at every length, and imported to output slices of every length.

use super::random::Random;
use super::roster_fields::{line, written};
use super::rosters::{request, PIECES};
use super::sweeps::Each;
use crate::compare::call::Records;
use crate::layout::announcements_size;

const CYCLE: u32 = 7;
const DAY: u32 = 20_000;

/// Rosters of three lines to be damaged: no field quoted, all, and some without the last line end.
pub fn bases(rng: &mut Random) -> Vec<Vec<u8>> {
    [0, 100, 50].map(|quoted| base(rng, quoted)).to_vec()
}

fn base(rng: &mut Random, quoted: u32) -> Vec<u8> {
    let mut lines = Vec::new();
    for _ in 0..3 {
        let contents = line(rng);
        let fields = contents.map(|content| written(&content, rng.chance(quoted)));
        lines.push(fields.join(&b","[..]));
    }
    let end: &[u8] = if quoted == 50 { b"" } else { b"\r\n" };
    [&lines.join(&b"\r\n"[..]), end].concat()
}

fn import(roster: Vec<u8>) -> Records {
    let (cycle, day) = (CYCLE, DAY);
    Records::Import { roster, cycle, day }
}

/// At every byte: it is left out, a piece is put before it, a piece is put in its place.
pub fn damage(base: &[u8], each: Each) -> Result<(), String> {
    for at in 0..=base.len() {
        let (front, back) = base.split_at(at);
        let behind = back.get(1..).unwrap_or_default();
        let put = PIECES.iter().map(|piece| [front, piece, back].concat());
        let changed = PIECES.iter().map(|piece| [front, piece, behind].concat());
        let left_out = [front, behind].concat();
        for roster in put.chain(changed).chain([left_out]) {
            let out = announcements_size(&roster) + at % 2;
            each(&request(import(roster), out))?;
        }
    }
    Ok(())
}

pub fn cuts(base: &[u8], each: Each) -> Result<(), String> {
    for size in 0..=base.len() {
        let roster = base[..size].to_vec();
        let out = announcements_size(&roster);
        each(&request(import(roster), out))?;
    }
    Ok(())
}

pub fn rooms(base: &[u8], each: Each) -> Result<(), String> {
    for out in 0..=announcements_size(base) + 11 {
        each(&request(import(base.to_vec()), out))?;
    }
    Ok(())
}
