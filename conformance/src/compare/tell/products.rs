//! Which products of the field (request A9) the calls were asked for.

use crate::compare::call::Records;
use crate::layout::{KEY_SIZE, MOST_SHARES};
use crate::paper::shares::weights;

const BYTES: usize = 256;
const NUMBERS: usize = MOST_SHARES as usize;
/// No weight is 0.
const BY_MERGES: usize = (BYTES - 1) * BYTES;
const BY_SPLITS: usize = (NUMBERS - 1) * NUMBERS * BYTES;

pub struct Products {
    /// By weight and byte.
    merged: Vec<bool>,
    /// By degree of a coefficient and its byte; each stands for as many products as there are share
    /// numbers.
    split: Vec<bool>,
}

impl Products {
    pub fn new() -> Products {
        Products {
            merged: vec![false; BYTES * BYTES],
            split: vec![false; NUMBERS * BYTES],
        }
    }

    /// A call that gave something. Only those count in which every sum has one term that can differ
    /// from 0, so that what is given is the product.
    pub fn note(&mut self, records: &Records) {
        match records {
            Records::Split {
                key,
                k,
                n,
                coefficients,
            } if *k == *n && *n == MOST_SHARES && is_zero(&key[..KEY_SIZE]) => {
                self.note_split(coefficients);
            }
            Records::Merge {
                k, numbers, shares, ..
            } => {
                let (first, others) = shares[..KEY_SIZE * *k as usize].split_at(KEY_SIZE);
                if is_zero(others) {
                    self.note_merge(&numbers[..*k as usize], first);
                }
            }
            _ => {}
        }
    }

    fn note_merge(&mut self, numbers: &[u8], share: &[u8]) {
        let weight = usize::from(weights(numbers)[0]);
        for byte in share {
            self.merged[weight * BYTES + usize::from(*byte)] = true;
        }
    }

    fn note_split(&mut self, coefficients: &[u8]) {
        let terms = NUMBERS - 1;
        for degree in 1..=terms {
            let mut others = coefficients[..KEY_SIZE * terms].iter().enumerate();
            if !others.all(|(at, byte)| *byte == 0 || at % terms == degree - 1) {
                continue;
            }
            for byte in coefficients
                .chunks(terms)
                .take(KEY_SIZE)
                .map(|lent| lent[degree - 1])
            {
                self.split[degree * BYTES + usize::from(byte)] = true;
            }
        }
    }

    /// How many by merges, and how many by splits.
    fn counts(&self) -> [usize; 2] {
        let count = |met: &[bool]| met.iter().filter(|met| **met).count();
        [count(&self.merged), NUMBERS * count(&self.split)]
    }

    pub fn missing(&self) -> Vec<String> {
        let [merged, split] = self.counts();
        let all = [
            (
                BY_MERGES - merged,
                "products of a weight and a byte of a share",
            ),
            (
                BY_SPLITS - split,
                "products of a coefficient and a power of a share number",
            ),
        ];
        let never = all.into_iter().filter(|(count, _)| *count > 0);
        never
            .map(|(count, what)| format!("{count} {what}"))
            .collect()
    }

    pub fn summary(&self) -> String {
        let [merged, split] = self.counts();
        format!(
            "products  of a weight and a byte of a share: {merged} of {BY_MERGES}  \
             of a coefficient and a power of a share number: {split} of {BY_SPLITS}"
        )
    }
}

fn is_zero(bytes: &[u8]) -> bool {
    bytes.iter().all(|byte| *byte == 0)
}
