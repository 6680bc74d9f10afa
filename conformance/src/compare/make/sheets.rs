//! Sheets: masks with and without a majority, rows that count and rows that do not.

use super::random::Random;
use super::records;
use crate::compare::fields::{StateFields, PRESENT};
use crate::layout::{ROW_COUNT, SEAT, TRUSTEES};

/// How many seats shall count.
#[derive(Clone, Copy, PartialEq)]
pub enum Aim {
    Quorum,
    OneLess,
    All,
    Nobody,
    Any,
}

pub fn any_aim(rng: &mut Random) -> Aim {
    match rng.below(20) {
        0..=8 => Aim::Quorum,
        9..=11 => Aim::OneLess,
        12 | 13 => Aim::All,
        14..=16 => Aim::Nobody,
        _ => Aim::Any,
    }
}

/// A sheet for an announcement of this kind. `voters` are rows of real votes, taken first.
pub fn sheet(
    rng: &mut Random,
    state: &StateFields,
    kind: u16,
    aim: Aim,
    voters: &[(u8, u32)],
) -> Vec<u8> {
    let masks = masks(rng, state, kind);
    let mut rows = counted_rows(rng, state, aim, voters);
    add_noise(rng, state, &mut rows);
    rng.shuffle(&mut rows);
    records::sheet(masks, &rows)
}

/// Masks: the level that the kind needs mostly has its majority, and bits beyond the trustees are
/// set at random.
fn masks(rng: &mut Random, state: &StateFields, kind: u16) -> [u8; 2] {
    let needed = usize::from((4..=6).contains(&kind));
    let mut masks = [0; 2];
    for (level, mask) in masks.iter_mut().enumerate() {
        let trustees = state.levels[level].clamp(TRUSTEES.low as u8, TRUSTEES.high as u8);
        let half = trustees / 2;
        let signed = if level != needed {
            rng.pick(&[0, half, trustees])
        } else if rng.chance(92) {
            rng.pick(&[half + 1, half + 1, trustees])
        } else {
            rng.pick(&[half, half, 0])
        };
        *mask = bits(rng, trustees, signed);
        if rng.chance(50) {
            *mask |= (u16::from(rng.byte()) << trustees) as u8;
        }
        if signed == 0 && rng.chance(50) {
            *mask = (0xFFu16 << trustees) as u8;
        }
    }
    masks
}

/// `count` of the lowest `among` bits.
fn bits(rng: &mut Random, among: u8, count: u8) -> u8 {
    let mut places: Vec<u8> = (0..among).collect();
    rng.shuffle(&mut places);
    places
        .iter()
        .take(usize::from(count))
        .fold(0, |mask, place| mask | 1 << place)
}

fn counted_rows(
    rng: &mut Random,
    state: &StateFields,
    aim: Aim,
    voters: &[(u8, u32)],
) -> Vec<(u8, u32)> {
    let present = state.seats_of(&[PRESENT]);
    let count = match aim {
        Aim::Quorum => state.quorum(),
        Aim::OneLess => state.quorum() - 1,
        Aim::All => present.len(),
        Aim::Nobody => 0,
        Aim::Any => rng.below(present.len() + 1),
    };
    let mut rows: Vec<(u8, u32)> = Vec::new();
    let mut order = present;
    rng.shuffle(&mut order);
    let invented = order
        .iter()
        .map(|&seat| (seat, state.seats[usize::from(seat)].life));
    for row in voters.iter().copied().chain(invented) {
        let listed = state.seats[usize::from(row.0 & 31)];
        let counts = listed.standing == PRESENT && listed.life == row.1;
        if counts && rows.len() < count && !rows.contains(&row) {
            rows.push(row);
        }
    }
    rows
}

/// Rows that must not count: doubled ones, other lives, seats that are not present.
fn add_noise(rng: &mut Random, state: &StateFields, rows: &mut Vec<(u8, u32)>) {
    let room = ROW_COUNT.high as usize - rows.len();
    let count = match rng.below(6) {
        0 | 1 => 0,
        2 => room,
        _ => rng.below(room.min(6) + 1),
    };
    for _ in 0..count {
        let row = if !rows.is_empty() && rng.chance(40) {
            rng.pick(rows)
        } else {
            idle_row(rng, state)
        };
        rows.push(row);
    }
}

fn idle_row(rng: &mut Random, state: &StateFields) -> (u8, u32) {
    let seat = if rng.chance(10) {
        rng.end(&SEAT) as u8
    } else {
        rng.seat()
    };
    let listed = state.seats[usize::from(seat)];
    let life = match rng.below(4) {
        0 => listed.life.wrapping_add(1),
        1 => listed.life.wrapping_sub(1),
        2 => rng.any32(),
        _ => listed.life,
    };
    if listed.standing == PRESENT && life == listed.life {
        return (seat, life ^ (1 << rng.below(32)));
    }
    (seat, life)
}
