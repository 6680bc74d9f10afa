//! Keys to be split, shares to be merged (request A9) and to be added (request A10) at random, mostly good.

use super::random::Random;
use super::rosters::request;
use super::starts_queries::out_length;
use super::{share_edges, sum_edges};
use crate::compare::call::{Records, Request};
use crate::layout::{coefficients_size, shares_size, KEY_SIZE, LEAST_SHARES, MOST_SHARES};

pub use super::products::products;
pub use super::sum_edges::{long as long_sums, LENGTHS};

/// All calls of shares at their edges.
pub fn edges() -> impl Iterator<Item = Request> {
    share_edges::edges().into_iter().chain(sum_edges::edges())
}

/// A split, a merge or a sum.
pub fn any(rng: &mut Random) -> Request {
    let (k, n) = match rng.chance(6) {
        true => out_of_range(rng),
        false => in_range(rng),
    };
    let records = match rng.below(5) {
        0 | 1 => split(rng, k, n),
        2 | 3 => merge(rng, k, n),
        _ => add(rng),
    };
    let out = out_length(rng, records.size(&[]), 6);
    request(records, out)
}

fn in_range(rng: &mut Random) -> (u32, u32) {
    let n = rng.within(LEAST_SHARES, MOST_SHARES);
    (rng.within(LEAST_SHARES, n), n)
}

/// Numbers near the ends of the range, at the ends of 32 bits, and good ones in their low byte.
fn out_of_range(rng: &mut Random) -> (u32, u32) {
    let (k, n) = in_range(rng);
    match rng.below(5) {
        0 => (rng.within(0, 1), n),
        1 => (k, rng.within(17, 19)),
        2 => (n + 1, rng.within(0, n)),
        3 => (k + (rng.within(0, 1) << 8), n + (rng.within(1, 3) << 8)),
        _ => (rng.any32(), rng.any32()),
    }
}

fn split(rng: &mut Random, k: u32, n: u32) -> Records {
    let key = slice(rng, KEY_SIZE);
    let coefficients = slice(rng, coefficients_size(k));
    Records::Split {
        key,
        k,
        n,
        coefficients,
    }
}

fn merge(rng: &mut Random, k: u32, n: u32) -> Records {
    let mut numbers = numbers(rng, k, n);
    if rng.chance(12) {
        spoil(rng, &mut numbers, n);
    }
    let shares = slice(rng, shares_size(k));
    Records::Merge {
        k,
        n,
        numbers,
        shares,
    }
}

/// Some shares, or any number of bytes.
fn add(rng: &mut Random) -> Records {
    let length = match rng.chance(70) {
        true => KEY_SIZE * rng.below(MOST_SHARES as usize + 1),
        false => rng.below(600),
    };
    let shares = rng.bytes(length);
    let more = match rng.chance(5) {
        true => shares.clone(),
        false => slice(rng, length),
    };
    Records::Add(shares, more)
}

/// As many bytes as are needed or some more, seldom fewer; none of them is 0, some or all.
fn slice(rng: &mut Random, needed: usize) -> Vec<u8> {
    let length = out_length(rng, needed, 4);
    let zeros = rng.pick(&[0, 0, 0, 30, 100]);
    let byte = |_| match rng.chance(zeros) {
        true => 0,
        false => rng.byte(),
    };
    (0..length).map(byte).collect()
}

/// k of the numbers from 1 to n in any order, and some bytes behind them; seldom fewer.
fn numbers(rng: &mut Random, k: u32, n: u32) -> Vec<u8> {
    let k = k.min(MOST_SHARES) as usize;
    let count = match rng.chance(5) {
        true => rng.below(k + 1),
        false => k,
    };
    let mut numbers = rng.share_numbers(count, n.min(MOST_SHARES));
    if rng.chance(30) && numbers.len() == k {
        let behind = (0..=rng.below(4)).map(|_| rng.byte() & 31);
        numbers.extend(behind);
    }
    numbers
}

/// One of the numbers is 0, above n, another one again, or any byte.
fn spoil(rng: &mut Random, numbers: &mut [u8], n: u32) {
    if numbers.is_empty() {
        return;
    }
    let place = rng.below(numbers.len());
    numbers[place] = match rng.below(4) {
        0 => 0,
        1 => n.wrapping_add(rng.within(1, 2)) as u8,
        2 => rng.pick(numbers),
        _ => rng.byte(),
    };
}
