//! What the calls of shares (requests A9 and A10) met: marks, k and n, products, sums, renewals.

use super::marks::Counts;
use super::merges::Merge;
use super::products::Products;
use super::renewals::Renewals;
use super::share_marks::Mark;
use super::splits::Split;
use super::sums::Sums;
use crate::compare::call::{Outcome, Records, Request};
use crate::layout::{pairs, MOST_SHARES};

const NUMBERS: usize = MOST_SHARES as usize + 1;

pub struct Shares {
    marks: Counts<Mark>,
    /// By k and n: how often shares were given, and how often a key.
    split: [[u64; NUMBERS]; NUMBERS],
    merged: [[u64; NUMBERS]; NUMBERS],
    products: Products,
    sums: Sums,
    pub renewals: Renewals,
}

impl Shares {
    pub fn new() -> Shares {
        Shares {
            marks: Counts::new(),
            split: [[0; NUMBERS]; NUMBERS],
            merged: [[0; NUMBERS]; NUMBERS],
            products: Products::new(),
            sums: Sums::new(),
            renewals: Renewals::new(),
        }
    }

    pub fn note(&mut self, request: &Request, outcome: &Outcome) {
        let (records, out) = (&request.records, request.out);
        if let Some(split) = Split::of(records, out) {
            split.note(outcome.number, &mut self.marks);
        }
        if let Some(merge) = Merge::of(records, out) {
            merge.note(outcome.number, &mut self.marks);
        }
        self.sums
            .note(records, out, outcome.number, &mut self.marks);
        if outcome.number == 0 {
            self.note_given(records);
        }
    }

    fn note_given(&mut self, records: &Records) {
        self.products.note(records);
        match records {
            Records::Split { k, n, .. } => self.split[*k as usize][*n as usize] += 1,
            Records::Merge { k, n, .. } => self.merged[*k as usize][*n as usize] += 1,
            _ => {}
        }
    }

    /// What was never met, one line each.
    pub fn missing(&self) -> Vec<String> {
        let mut lines = self.marks.missing();
        for (name, given) in [("split", &self.split), ("merged", &self.merged)] {
            let never = pairs().filter(|(k, n)| given[*k as usize][*n as usize] == 0);
            lines.extend(never.map(|(k, n)| format!("{k} of {n} {name}")));
        }
        lines.extend(self.products.missing());
        lines.extend(self.sums.missing());
        lines.extend(self.renewals.missing());
        lines
    }

    pub fn summary(&self) -> Vec<String> {
        let [split, merged] = [&self.split, &self.merged].map(|given| {
            let met = pairs().filter(|(k, n)| given[*k as usize][*n as usize] > 0);
            met.count()
        });
        let all = pairs().count();
        let pairs = format!("k and n  split: {split} of {all}  merged: {merged} of {all}");
        let mut lines = self.marks.summary();
        lines.extend([pairs, self.products.summary(), self.sums.summary()]);
        lines.extend(self.renewals.summary());
        lines
    }
}

/// How much longer than needed a slice is; below 0 where it is too short.
pub fn beyond(length: usize, needed: usize) -> isize {
    length as isize - needed as isize
}

pub fn is_short(beyond: &[isize]) -> bool {
    beyond.iter().any(|beyond| *beyond < 0)
}

pub fn note_room(marks: &mut Counts<Mark>, beyond: isize, exact: Mark, longer: Mark) {
    marks.meet_if(&[(beyond == 0, exact), (beyond > 0, longer)]);
}
