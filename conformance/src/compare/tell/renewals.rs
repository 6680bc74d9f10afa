//! What renewals of shares (request A10) met.

use super::marks::{marks, Counts};
use crate::compare::call::{Renewal, SplitKey};
use crate::compare::make::renewals::{arrangements, SMALL};
use crate::layout::pairs;
use std::collections::BTreeSet;

marks! {
    "renewals" {
        Renewed "renewed once, the key the same";
        RenewedAgain "renewed again";
        SumOfKeys "shares of another key added, the keys' sum given";
        MixedOther "old and new shares together, another key given";
    }
}

pub struct Renewals {
    marks: Counts<Mark>,
    /// k, n and the share numbers of those that were renewed twice.
    met: BTreeSet<(u32, u32, Vec<u8>)>,
}

impl Renewals {
    pub fn new() -> Renewals {
        Renewals {
            marks: Counts::new(),
            met: BTreeSet::new(),
        }
    }

    /// Takes up a renewal that showed no difference, and in how many rounds a mix gave another key.
    pub fn note(&mut self, renewal: &Renewal, mixed: u64) {
        let is_zero = |(key, _): &SplitKey| key.iter().all(|byte| *byte == 0);
        let added = renewal.splits.get(1..).unwrap_or_default();
        let zeros = added.iter().take_while(|split| is_zero(split)).count();
        self.marks.meet_if(&[
            (zeros > 0, Mark::Renewed),
            (zeros > 1, Mark::RenewedAgain),
            (zeros < added.len(), Mark::SumOfKeys),
        ]);
        self.marks.add(Mark::MixedOther, mixed);
        if zeros > 1 {
            let Renewal { k, n, numbers, .. } = renewal.clone();
            self.met.insert((k, n, numbers));
        }
    }

    fn is_met(&self, k: u32, n: u32) -> bool {
        self.met.iter().any(|met| (met.0, met.1) == (k, n))
    }

    /// Of small k and n, the share numbers that were never met.
    fn missing_numbers(&self) -> Vec<String> {
        let mut lines = Vec::new();
        for (k, n) in SMALL {
            let all = arrangements(k, n).into_iter();
            let never = all.filter(|numbers| !self.met.contains(&(k, n, numbers.clone())));
            lines.extend(never.map(|numbers| format!("{k} of {n} renewed, numbers {numbers:?}")));
        }
        lines
    }

    /// What was never met, one line each.
    pub fn missing(&self) -> Vec<String> {
        let never = pairs().filter(|(k, n)| !self.is_met(*k, *n));
        let mut lines = self.marks.missing();
        lines.extend(never.map(|(k, n)| format!("{k} of {n} renewed")));
        lines.extend(self.missing_numbers());
        lines
    }

    pub fn summary(&self) -> Vec<String> {
        let (met, all) = (pairs().filter(|(k, n)| self.is_met(*k, *n)), pairs());
        let small = SMALL.map(|(k, n)| {
            let (all, met) = (arrangements(k, n).len(), self.met.iter());
            let met = met.filter(|met| (met.0, met.1) == (k, n)).count();
            format!("{k} of {n}: {met} of {all}")
        });
        let mut lines = self.marks.summary();
        lines.extend([
            format!("k and n  renewed twice: {} of {}", met.count(), all.count()),
            format!(
                "share numbers in their orders, renewed twice  {}",
                small.join("  ")
            ),
        ]);
        lines
    }
}
