//! Announcements to be exported: grants, the other kinds and malformed ones.

use super::announcements;
use super::malformed;
use super::random::Random;
use super::records;
use super::rosters::request;
use super::states;
use super::values::{self, LAST_DATE};
use crate::compare::call::{Records, Request};
use crate::layout::{kind_of, roster_line_size};

const DAY: u32 = 20_000;

/// Any announcement, mostly a grant.
pub fn any(rng: &mut Random) -> Records {
    let mut announcement = match rng.below(3) {
        0 => {
            let state = states::any_state(rng);
            announcements::any(rng, &state)
        }
        _ => grant(rng),
    };
    if rng.chance(15) {
        malformed::bytes(rng, &mut announcement);
    }
    Records::Export(announcement)
}

/// A well-formed grant that mostly ends by the last date.
pub fn grant(rng: &mut Random) -> Vec<u8> {
    let most = 10u64.pow(rng.within(1, 10)).min(u64::from(u32::MAX));
    let login = match rng.below(4) {
        0 => values::any_login(rng),
        _ => rng.within(1, most as u32),
    };
    let end = match rng.below(6) {
        0 => rng.pick(&[0, LAST_DATE, LAST_DATE + 1, u32::MAX]),
        1 => rng.near(LAST_DATE),
        _ => rng.within(0, LAST_DATE),
    };
    let arguments = records::grant(login, end, values::any_rights(rng));
    records::announcement(8, rng.any32(), rng.any32(), arguments)
}

/// Each edge with output slices about what its line needs.
pub fn edges() -> Vec<Request> {
    let mut rng = Random::new(1);
    let mut announcements = grants();
    let good = announcements[0].clone();
    announcements.extend((1..=9).map(|kind| of_kind(&mut rng, kind)));
    announcements.extend((0..good.len()).flat_map(|place| damaged(&mut rng, &good, place)));
    announcements.push([good.as_slice(), &[0]].concat());
    let rooms = |announcement: &Vec<u8>| {
        let size = roster_line_size(announcement);
        let export = Records::Export(announcement.clone());
        [0, size - 1, size, size + 1, 4 * size].map(|out| request(export.clone(), out))
    };
    announcements.iter().flat_map(rooms).collect()
}

/// A well-formed announcement of this kind.
fn of_kind(rng: &mut Random, kind: u16) -> Vec<u8> {
    let state = states::any_state(rng);
    loop {
        let announcement = announcements::well_formed(rng, &state);
        if kind_of(&announcement) == kind {
            return announcement;
        }
    }
}

/// With another bit at a place, cut there, and damaged somewhere.
fn damaged(rng: &mut Random, good: &[u8], place: usize) -> [Vec<u8>; 3] {
    let (mut other, mut any) = (good.to_vec(), good.to_vec());
    other[place] ^= 1 << (place % 8);
    malformed::bytes(rng, &mut any);
    [other, good[..place].to_vec(), any]
}

/// Grants whose logins have each number of digits, and whose other values are at their edges.
fn grants() -> Vec<Vec<u8>> {
    let logins = (0..10).flat_map(|digits| {
        let least = 10u32.pow(digits);
        [least, least.saturating_mul(10).saturating_sub(1).max(least)]
    });
    let mut values: Vec<(u32, u32, u16)> = logins.map(|login| (login, 20_818, 1)).collect();
    let ends = [
        0,
        58,
        59,
        788,
        789,
        11_016,
        LAST_DATE,
        LAST_DATE + 1,
        65_536,
        u32::MAX,
    ];
    values.extend(ends.map(|end| (501, end, 1)));
    values.extend([0x8000, 0xFFFF, 0xABCD, 0x0A0B].map(|rights| (u32::MAX, 0, rights)));
    values.extend([(0, 120, 1), (501, 120, 0)]);
    let write = |(login, end, rights)| records::grant(login, end, rights);
    let announce = |arguments| records::announcement(8, u32::MAX, DAY, arguments);
    values.into_iter().map(write).map(announce).collect()
}
