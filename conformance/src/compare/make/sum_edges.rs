//! Sums of shares (request A10) at their edges, one by one.

use super::rosters::request;
use super::share_edges::{bytes, with_length, with_out, with_slice};
use crate::compare::call::{Records, Request};
use crate::layout::{shares_size, KEY_SIZE, MOST_SHARES};
use std::ops::RangeInclusive;

/// From no byte to some more than the most shares have: every length is met.
pub const LENGTHS: RangeInclusive<usize> = 0..=600;

/// The first number of bytes for which 16 bits of the count are not enough, and the first that it can't
/// tell.
const BEYOND: [usize; 2] = [1 << 16, 1 << 24];

pub fn edges() -> impl Iterator<Item = Request> {
    let few = LENGTHS.flat_map(just_fitting);
    let shares = (0..=MOST_SHARES as usize).flat_map(|count| around(KEY_SIZE * count));
    let others = [1, 31, 33, 511, 513].into_iter().flat_map(around);
    let plain = [1, 33, shares_size(MOST_SHARES)]
        .into_iter()
        .flat_map(plain);
    let pairs = (0..=255).map(one_with_all);
    few.chain(shares).chain(others).chain(plain).chain(pairs)
}

/// Long runs, the last longer than the count can tell.
pub fn long() -> impl Iterator<Item = Request> {
    BEYOND.into_iter().map(|beyond| sum(beyond + 5))
}

/// Two runs of this length that differ, with room for their sum.
fn sum(length: usize) -> Request {
    let shares = bytes(length);
    let more = shares.iter().rev().map(|byte| byte.wrapping_mul(3));
    let records = Records::Add(shares.clone(), more.collect());
    request(records, length)
}

/// Slices of one length, and each of the other two a byte short.
fn just_fitting(length: usize) -> [Request; 3] {
    let base = sum(length);
    let short = length.saturating_sub(1);
    [with_length(&base, 1, short), with_out(&base, short), base]
}

/// The other two slices with lengths around the first one's, each alone and both.
fn around(length: usize) -> Vec<Request> {
    let short = length.saturating_sub(1);
    let base = sum(length);
    let mut all = vec![with_out(&with_length(&base, 1, length + 9), length + 7)];
    for other in [0, length / 2, short, length, length + 1, length + 40] {
        let changed = with_length(&base, 1, other);
        all.extend([with_out(&base, other), with_out(&changed, other), changed]);
    }
    all
}

/// Zeros and bytes 255 in either run, and a run with itself.
fn plain(length: usize) -> Vec<Request> {
    let base = sum(length);
    let mut all = vec![with_slice(&base, 1, bytes(length))];
    for place in 0..2 {
        all.extend([0, 255].map(|byte| with_slice(&base, place, vec![byte; length])));
    }
    all
}

/// A byte with each of the 256.
fn one_with_all(byte: u8) -> Request {
    let all: Vec<u8> = (0..=255).collect();
    let size = all.len();
    request(Records::Add(all, vec![byte; size]), size)
}
