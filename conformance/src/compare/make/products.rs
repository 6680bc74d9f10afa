//! Merges and splits that each multiply 32 bytes by one number, so that every product is asked for.

use super::rosters::request;
use crate::compare::call::{Records, Request};
use crate::layout::{coefficients_size, shares_size, KEY_SIZE, MOST_SHARES};
use crate::paper::shares::weights;
use std::collections::BTreeMap;

/// Every byte once, 32 at a time.
fn all_bytes() -> Vec<Vec<u8>> {
    let all: Vec<u8> = (0..=255).collect();
    all.chunks(KEY_SIZE).map(<[u8]>::to_vec).collect()
}

/// A merge for each weight and each 32 bytes, a split for each degree and each 32 bytes.
pub fn products() -> impl Iterator<Item = Request> {
    let merges = numbers_by_weight()
        .into_values()
        .flat_map(|numbers| all_bytes().into_iter().map(move |b| merge(&numbers, b)));
    let splits = (1..MOST_SHARES as usize)
        .flat_map(|degree| all_bytes().into_iter().map(move |b| split(degree, &b)));
    merges.chain(splits)
}

/// Share numbers of which the first has the weight, two to four of them: enough for every weight.
fn numbers_by_weight() -> BTreeMap<u8, Vec<u8>> {
    let mut found = BTreeMap::new();
    let mut lists: Vec<Vec<u8>> = (1..=MOST_SHARES as u8).map(|number| vec![number]).collect();
    for _ in 0..3 {
        lists = lists.iter().flat_map(|list| one_longer(list)).collect();
        for numbers in &lists {
            let weight = weights(numbers)[0];
            found.entry(weight).or_insert_with(|| numbers.clone());
        }
    }
    found
}

/// The list with another number, above all but the first.
fn one_longer(list: &[u8]) -> Vec<Vec<u8>> {
    let others = &list[1..];
    let from = others.last().map_or(1, |last| last + 1);
    let numbers = (from..=MOST_SHARES as u8).filter(|number| *number != list[0]);
    numbers.map(|number| [list, &[number]].concat()).collect()
}

/// The key is the product of the weight and the bytes: every other share is of zeros.
fn merge(numbers: &[u8], bytes: Vec<u8>) -> Request {
    let k = numbers.len() as u32;
    let mut shares = bytes;
    shares.resize(shares_size(k), 0);
    let records = Records::Merge {
        k,
        n: MOST_SHARES,
        numbers: numbers.to_vec(),
        shares,
    };
    request(records, KEY_SIZE)
}

/// Each share is the product of the bytes and a power of its number: the key and the coefficients of
/// every other degree are 0.
fn split(degree: usize, bytes: &[u8]) -> Request {
    let mut coefficients = vec![0; coefficients_size(MOST_SHARES)];
    let lent = coefficients.chunks_mut(MOST_SHARES as usize - 1);
    for (lent, byte) in lent.zip(bytes) {
        lent[degree - 1] = *byte;
    }
    let records = Records::Split {
        key: vec![0; KEY_SIZE],
        k: MOST_SHARES,
        n: MOST_SHARES,
        coefficients,
    };
    request(records, shares_size(MOST_SHARES))
}
