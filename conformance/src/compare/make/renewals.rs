//! Renewals of shares (request A10): a key is split, then shares of other keys are added.

use super::random::Random;
use crate::compare::call::Renewal;
use crate::layout::{coefficients_size, pairs, KEY_SIZE};

/// k and n for which every choice of k share numbers is tried, in every order.
pub const SMALL: [(u32, u32); 5] = [(2, 3), (2, 4), (3, 4), (3, 5), (4, 6)];

/// How many renewals each k and n has, each with share numbers of its own.
const CHOICES: usize = 4;

/// For each k and n some share numbers, then for small ones all.
pub fn all(rng: &mut Random) -> Vec<Renewal> {
    let mut all = Vec::new();
    for (k, n) in pairs() {
        for _ in 0..CHOICES {
            let numbers = rng.share_numbers(k as usize, n);
            all.push(renewal(rng, k, n, numbers));
        }
    }
    for (k, n) in SMALL {
        let choices = arrangements(k, n).into_iter();
        all.extend(choices.map(|numbers| renewal(rng, k, n, numbers)));
    }
    all
}

/// A key is renewed twice, then the shares of another one are added.
fn renewal(rng: &mut Random, k: u32, n: u32, numbers: Vec<u8>) -> Renewal {
    let zero = vec![0; KEY_SIZE];
    let keys = [rng.bytes(KEY_SIZE), zero.clone(), zero, rng.bytes(KEY_SIZE)];
    let with_coefficients = |key| (key, rng.bytes(coefficients_size(k)));
    Renewal {
        k,
        n,
        numbers,
        splits: keys.map(with_coefficients).into(),
    }
}

/// Every choice of k numbers from 1 to n, in every order.
pub fn arrangements(k: u32, n: u32) -> Vec<Vec<u8>> {
    let longer = |list: Vec<u8>| {
        let numbers = (1..=n as u8).filter(|number| !list.contains(number));
        let lists = numbers.map(|number| [&list[..], &[number]].concat());
        lists.collect::<Vec<_>>()
    };
    (0..k).fold(vec![Vec::new()], |lists, _| {
        lists.into_iter().flat_map(longer).collect()
    })
}
