//! Splits and merges at their edges, one by one.

use super::rosters::request;
use super::sweeps::slice_mut;
use crate::compare::call::{Records, Request};
use crate::layout::{coefficients_size, pairs, shares_size, KEY_SIZE, MOST_SHARES};

const MOST: u32 = u32::MAX;

/// k and n of which one is out of range, or both: below 2, above 16, k above n, and some that are good
/// in their low byte or half.
const OUT_OF_RANGE: [(u32, u32); 26] = [
    (0, 0),
    (0, 1),
    (1, 1),
    (0, 2),
    (1, 2),
    (2, 0),
    (2, 1),
    (0, 16),
    (1, 16),
    (3, 2),
    (16, 15),
    (2, 17),
    (16, 17),
    (17, 16),
    (17, 17),
    (17, 2),
    (MOST, 16),
    (2, MOST),
    (MOST, MOST),
    (0, MOST),
    (MOST, 0),
    (258, 3),
    (2, 259),
    (258, 259),
    (65_538, 65_539),
    (2, 2_147_483_651),
];

/// k and n whose slices and numbers are changed.
const CHANGED: [(u32, u32); 5] = [(2, 2), (2, 3), (3, 5), (15, 16), (16, 16)];

pub fn edges() -> Vec<Request> {
    let mut all: Vec<Request> = pairs().flat_map(|(k, n)| whole(k, n)).collect();
    all.extend(pairs().filter(|(k, n)| k < n).map(|(k, n)| one_more(k, n)));
    for (k, n) in OUT_OF_RANGE {
        all.extend(refused_by_26(k, n));
    }
    for (k, n) in CHANGED {
        all.extend(zeros_in_splits(k, n));
        all.extend(zeros_in_merges(k, n));
        all.extend(around(&split(k, n), [KEY_SIZE, coefficients_size(k)]));
        all.extend(around(&merge(k, n), [k as usize, shares_size(k)]));
        all.extend(other_numbers(k, n));
        all.extend(fewer_numbers(k, n));
    }
    all
}

/// Bytes that differ from place to place.
pub fn bytes(length: usize) -> Vec<u8> {
    let byte = |at: usize| (at * 151 + at / 32 * 29 + 87) as u8;
    (0..length).map(byte).collect()
}

/// With room for all shares.
fn split(k: u32, n: u32) -> Request {
    let records = Records::Split {
        key: bytes(KEY_SIZE),
        k,
        n,
        coefficients: bytes(coefficients_size(k)),
    };
    request(records, shares_size(n))
}

/// Shares of the first k numbers, with room for the key.
fn merge(k: u32, n: u32) -> Request {
    let records = Records::Merge {
        k,
        n,
        numbers: first_numbers(k.min(MOST_SHARES + 1) as usize),
        shares: bytes(shares_size(k)),
    };
    request(records, KEY_SIZE)
}

fn first_numbers(count: usize) -> Vec<u8> {
    (1..=count as u8).collect()
}

/// The request with another slice at a place: key, numbers or shares, then coefficients or shares.
pub fn with_slice(base: &Request, place: usize, slice: Vec<u8>) -> Request {
    let mut request = base.clone();
    *slice_mut(&mut request, place) = slice;
    request
}

pub fn with_length(base: &Request, place: usize, length: usize) -> Request {
    let mut request = base.clone();
    slice_mut(&mut request, place).resize(length, 0xEE);
    request
}

pub fn with_out(base: &Request, out: usize) -> Request {
    Request {
        out,
        ..base.clone()
    }
}

/// A split and three merges: of the first numbers, of the last ones, falling, and of the first ones in
/// no order.
fn whole(k: u32, n: u32) -> [Request; 4] {
    let merge = merge(k, n);
    let last = (1..=n as u8).rev().take(k as usize).collect();
    let mut rotated = first_numbers(k as usize);
    rotated.rotate_right(1);
    let (last, rotated) = (with_slice(&merge, 0, last), with_slice(&merge, 0, rotated));
    [split(k, n), merge, last, rotated]
}

/// A merge with a good number and a share more than are needed.
fn one_more(k: u32, n: u32) -> Request {
    let longer = with_length(&merge(k, n), 1, shares_size(k + 1));
    with_slice(&longer, 0, first_numbers(k as usize + 1))
}

/// With nothing else wrong; with a number that would be 27; with slices that would be 28; with both.
fn refused_by_26(k: u32, n: u32) -> Vec<Request> {
    let merge = merge(k, n);
    let bad_numbers = with_slice(&merge, 0, vec![0; 17]);
    let no_numbers = with_slice(&merge, 0, Vec::new());
    let mut all = vec![no_numbers];
    for request in [split(k, n), merge, bad_numbers] {
        all.push(with_length(&request, 1, 0));
        all.push(with_out(&request, 0));
        all.push(request);
    }
    all
}

/// Keys and coefficients with zeros, and of bytes 255; coefficients that are 0 but for those of one degree.
fn zeros_in_splits(k: u32, n: u32) -> Vec<Request> {
    let size = coefficients_size(k);
    let terms = k as usize - 1;
    let only = |degree: usize| -> Vec<u8> {
        let all = bytes(size).into_iter().enumerate();
        let kept = all.map(|(at, byte)| if at % terms == degree - 1 { byte } else { 0 });
        kept.collect()
    };
    let mut all = Vec::new();
    for coefficients in [vec![0; size], vec![255; size], only(1), only(terms)] {
        let changed = with_slice(&split(k, n), 1, coefficients);
        let half = [[0; KEY_SIZE / 2], [87; KEY_SIZE / 2]].concat();
        for key in [vec![0; KEY_SIZE], vec![255; KEY_SIZE], half] {
            all.push(with_slice(&changed, 0, key));
        }
        all.push(changed);
    }
    all
}

/// Shares of zeros, all and all but one.
fn zeros_in_merges(k: u32, n: u32) -> Vec<Request> {
    let merge = merge(k, n);
    let only = |place: usize| {
        let mut shares = vec![0; shares_size(k)];
        let share = shares.chunks_mut(KEY_SIZE).nth(place);
        share.into_iter().for_each(|share| share.fill(0x57));
        with_slice(&merge, 1, shares)
    };
    (0..=k as usize).map(only).collect()
}

/// Each slice with other lengths around the needed one, alone and with another one a byte short.
fn around(base: &Request, needed: [usize; 2]) -> Vec<Request> {
    let lengths = |needed: usize| [0, 1, needed - 1, needed, needed + 1, needed + 40];
    let size = base.size();
    let mut all: Vec<Request> = lengths(size).map(|out| with_out(base, out)).into();
    for place in 0..2 {
        let other = 1 - place;
        for length in lengths(needed[place]) {
            let changed = with_length(base, place, length);
            all.push(with_length(&changed, other, needed[other] - 1));
            all.extend([size - 1, size, size + 9].map(|out| with_out(&changed, out)));
        }
    }
    all
}

/// At every place of the first k and behind them: 0, numbers above n, and each of the first k again. A
/// number that is refused also with slices that are too short.
fn other_numbers(k: u32, n: u32) -> Vec<Request> {
    let (merge, k, above) = (merge(k, n), k as usize, n as u8 + 1);
    let mut all = Vec::new();
    for place in 0..=k {
        let again = first_numbers(k);
        for number in [0, above, above + 15, 128, 255].into_iter().chain(again) {
            let mut numbers = first_numbers(k.max(place + 1));
            numbers[place] = number;
            let changed = with_slice(&merge, 0, numbers);
            all.push(with_length(&changed, 1, 1));
            all.push(with_out(&changed, KEY_SIZE - 1));
            all.push(changed);
        }
    }
    all
}

/// Fewer than k numbers, all good or the last of them not.
fn fewer_numbers(k: u32, n: u32) -> Vec<Request> {
    let merge = merge(k, n);
    let mut all = Vec::new();
    for length in 0..k as usize {
        let good = first_numbers(length);
        for number in [length as u8, 0, n as u8 + 1, 1] {
            let mut numbers = good.clone();
            numbers
                .last_mut()
                .into_iter()
                .for_each(|last| *last = number);
            all.push(with_slice(&merge, 0, numbers));
        }
    }
    all
}
