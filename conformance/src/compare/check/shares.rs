//! What the calls of shares wrote, through the archive again: "Any k shares give the key back" (request
//! A9), and sums of shares (request A10).

use crate::archive;
use crate::compare::call::{answer_in, Outcome, Records};
use crate::compare::make::random::Random;
use crate::layout::{added, KEY_SIZE, LEAST_SHARES, MOST_SHARES};

/// Of a split, some k of the shares in some order are merged to its key; what a merge gave is given
/// again for another order of its shares; a sum with one of its runs is the other one, and merged the sum
/// of what they are merged to.
pub fn round_trip(records: &Records, outcome: &Outcome) -> Result<(), String> {
    let Some(written) = &outcome.written else {
        return Ok(());
    };
    match records {
        Records::Split { key, k, n, .. } => {
            let numbers: Vec<u8> = (1..=*n as u8).collect();
            let merged = merged(*k, *n, &numbers, written)?;
            match key.starts_with(&merged) {
                true => Ok(()),
                false => Err("the shares give another key back".to_string()),
            }
        }
        Records::Merge {
            k,
            n,
            numbers,
            shares,
        } => match merged(*k, *n, &numbers[..*k as usize], shares)? == *written {
            true => Ok(()),
            false => Err("the shares in another order give another key".to_string()),
        },
        Records::Add(shares, more) => {
            same_run(shares, more, written)?;
            merged_alike(shares, more, written)
        }
        _ => Ok(()),
    }
}

/// A sum with its second run is the first one.
fn same_run(shares: &[u8], more: &[u8], sum: &[u8]) -> Result<(), String> {
    let mut back = vec![0; sum.len()];
    match archive::node_shares_add(sum, more, &mut back) {
        returned if answer_in(returned) == 0 && back == shares => Ok(()),
        _ => Err("the sum with its second run is not the first one".to_string()),
    }
}

/// The first shares of the sum, as many as can be merged, are merged to the sum of what those of both runs
/// are merged to.
pub fn merged_alike(shares: &[u8], more: &[u8], sum: &[u8]) -> Result<(), String> {
    let count = (sum.len() / KEY_SIZE).min(MOST_SHARES as usize);
    if count < LEAST_SHARES as usize {
        return Ok(());
    }
    let size = KEY_SIZE * count;
    let numbers = Random::new(seed(&sum[..size])).share_numbers(count, MOST_SHARES);
    let key = |run: &[u8]| merged(count as u32, MOST_SHARES, &numbers, &run[..size]);
    match key(sum)? == added(&key(shares)?, &key(more)?) {
        true => Ok(()),
        false => Err("the sum is merged to another key than the sum of both".to_string()),
    }
}

/// The shares of these numbers, in their order.
pub fn chosen(shares: &[u8], numbers: &[u8]) -> Vec<u8> {
    let share = |number: &u8| &shares[KEY_SIZE * (usize::from(*number) - 1)..][..KEY_SIZE];
    numbers.iter().flat_map(share).copied().collect()
}

/// The key that the archive merges from k of these shares. Which ones and in which order depends on
/// their bytes alone, so that a case shows the same again.
fn merged(k: u32, n: u32, numbers: &[u8], shares: &[u8]) -> Result<Vec<u8>, String> {
    let mut rng = Random::new(seed(shares));
    let mut all: Vec<(u8, &[u8])> = numbers
        .iter()
        .copied()
        .zip(shares.chunks(KEY_SIZE))
        .collect();
    rng.shuffle(&mut all);
    all.truncate(k as usize);
    let (numbers, shares): (Vec<u8>, Vec<&[u8]>) = all.into_iter().unzip();
    let mut key = vec![0; KEY_SIZE];
    match archive::node_shares_merge(k, n, &numbers, &shares.concat(), &mut key) {
        0 => Ok(key),
        returned => Err(format!(
            "shares {numbers:?} are not merged: answer {}",
            answer_in(returned)
        )),
    }
}

fn seed(bytes: &[u8]) -> u64 {
    let mix = |seed: u64, byte: &u8| Random::new(seed ^ u64::from(*byte)).number();
    bytes.iter().fold(0, mix)
}
