//! Renewals of shares (request A10) through the archive and through the second implementation.

use super::one_call;
use super::second::Second;
use super::shares::chosen;
use crate::compare::call::{Outcome, Records, Renewal, Request};
use crate::compare::make::rosters::request;
use crate::layout::added;

/// What is done with each call and its outcome.
pub type Each<'a> = &'a mut dyn FnMut(&Request, &Outcome);

/// A renewal that is run.
struct Run<'a> {
    second: &'a Second,
    renewal: &'a Renewal,
    each: Each<'a>,
}

/// Makes the calls both ways. The shares are those of the sum of the keys, and give it back. Hands back in
/// how many rounds old and new shares together gave another key.
pub fn run(second: &Second, renewal: &Renewal, each: Each) -> Result<u64, String> {
    let mut run = Run {
        second,
        renewal,
        each,
    };
    let mut rounds = renewal.splits.iter();
    let Some((mut key, mut coefficients)) = rounds.next().cloned() else {
        return Ok(0);
    };
    let mut shares = run.split(&key, &coefficients)?;
    run.require_key(&shares, &key)?;
    let mut others = 0;
    for (another, with) in rounds {
        let more = run.split(another, with)?;
        let sum = run.add(&shares, &more)?;
        (key, coefficients) = (added(&key, another), added(&coefficients, with));
        same_shares(&run.split(&key, &coefficients)?, &sum)?;
        run.require_key(&sum, &key)?;
        others += u64::from(run.mixed(&shares, &sum)? != key);
        shares = sum;
    }
    Ok(others)
}

impl Run<'_> {
    /// What a call writes that has room.
    fn make(&mut self, records: Records) -> Result<Vec<u8>, String> {
        let out = records.size(&[]);
        let request = request(records, out);
        let outcome = one_call::compare_all(self.second, &request)?;
        (self.each)(&request, &outcome);
        let (name, number) = (request.records.name(), outcome.number);
        outcome
            .written
            .ok_or_else(|| format!("a {name} of a renewal answers {number}"))
    }

    fn split(&mut self, key: &[u8], coefficients: &[u8]) -> Result<Vec<u8>, String> {
        self.make(Records::Split {
            key: key.to_vec(),
            k: self.renewal.k,
            n: self.renewal.n,
            coefficients: coefficients.to_vec(),
        })
    }

    fn add(&mut self, shares: &[u8], more: &[u8]) -> Result<Vec<u8>, String> {
        self.make(Records::Add(shares.to_vec(), more.to_vec()))
    }

    /// The key of the shares of the renewal's numbers, which stand in their order.
    fn merge(&mut self, shares: Vec<u8>) -> Result<Vec<u8>, String> {
        self.make(Records::Merge {
            k: self.renewal.k,
            n: self.renewal.n,
            numbers: self.renewal.numbers.clone(),
            shares,
        })
    }

    /// "The merged sum must come out whichever k share numbers are used."
    fn require_key(&mut self, shares: &[u8], key: &[u8]) -> Result<(), String> {
        let merged = self.merge(chosen(shares, &self.renewal.numbers))?;
        same_key(&merged, key)
    }

    /// The key of the first half of the numbers from before the round and the others from after it.
    fn mixed(&mut self, before: &[u8], after: &[u8]) -> Result<Vec<u8>, String> {
        let numbers = &self.renewal.numbers;
        let (old, new) = numbers.split_at(numbers.len() / 2);
        self.merge([chosen(before, old), chosen(after, new)].concat())
    }
}

pub fn same_shares(wanted: &[u8], shares: &[u8]) -> Result<(), String> {
    match wanted == shares {
        true => Ok(()),
        false => Err("the sum is no shares of the keys' sum".to_string()),
    }
}

pub fn same_key(merged: &[u8], key: &[u8]) -> Result<(), String> {
    match merged == key {
        true => Ok(()),
        false => Err("the shares of the sum give another key than the keys' sum".to_string()),
    }
}
