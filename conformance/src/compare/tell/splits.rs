//! What a split (request A9) met.

use super::marks::Counts;
use super::share_marks::{causes, Mark, SPLIT_CAUSES};
use super::shares::{beyond, is_short, note_room};
use crate::compare::call::Records;
use crate::layout::{coefficients_size, shares_size, KEY_SIZE};

pub struct Split<'a> {
    k: u32,
    n: u32,
    key: &'a [u8],
    coefficients: &'a [u8],
    /// The length of the output slice.
    out: usize,
}

impl<'a> Split<'a> {
    /// None for another call.
    pub fn of(records: &'a Records, out: usize) -> Option<Split<'a>> {
        let Records::Split {
            key,
            k,
            n,
            coefficients,
        } = records
        else {
            return None;
        };
        let (k, n) = (*k, *n);
        Some(Split {
            k,
            n,
            key,
            coefficients,
            out,
        })
    }

    /// Takes up a split with its answer.
    pub fn note(&self, number: u32, marks: &mut Counts<Mark>) {
        match number {
            0 => self.note_given(marks),
            26 => self.note_range(marks),
            _ => self.note_short(marks),
        }
    }

    /// How much longer than needed the key, the coefficients and the output slice are.
    fn beyond(&self) -> [isize; 3] {
        [
            beyond(self.key.len(), KEY_SIZE),
            beyond(self.coefficients.len(), coefficients_size(self.k)),
            beyond(self.out, shares_size(self.n)),
        ]
    }

    fn note_given(&self, marks: &mut Counts<Mark>) {
        let [key, coefficients, out] = self.beyond();
        marks.meet(Mark::KeysBack);
        note_room(marks, key, Mark::KeyExact, Mark::KeyLonger);
        note_room(marks, coefficients, Mark::TermsExact, Mark::TermsLonger);
        note_room(marks, out, Mark::SharesOutExact, Mark::SharesOutLonger);
        let zeros = self.key[..KEY_SIZE].iter().filter(|byte| **byte == 0);
        let zeros = zeros.count();
        marks.meet_if(&[
            (self.k == self.n, Mark::AllNeeded),
            (zeros == KEY_SIZE, Mark::KeyOfZeros),
            (0 < zeros && zeros < KEY_SIZE, Mark::KeyByte0),
        ]);
        self.note_terms(marks);
    }

    fn note_terms(&self, marks: &mut Counts<Mark>) {
        let terms = self.k as usize - 1;
        let coefficients = &self.coefficients[..KEY_SIZE * terms];
        let is_zero = |bytes: &[u8]| bytes.iter().all(|byte| *byte == 0);
        let mut lent = coefficients.chunks(terms);
        let is_only_last = terms > 1 && lent.clone().all(|lent| is_zero(&lent[..terms - 1]));
        let has_last_0 = lent.any(|lent| lent[terms - 1] == 0);
        let is_none = is_zero(coefficients);
        marks.meet_if(&[
            (is_none, Mark::NoTerms),
            (!is_none && is_only_last, Mark::OnlyLastTerm),
            (!is_none && has_last_0, Mark::LastTerm0),
        ]);
    }

    fn note_range(&self, marks: &mut Counts<Mark>) {
        let met = causes(self.k, self.n).into_iter().zip(SPLIT_CAUSES);
        marks.meet_if(&met.collect::<Vec<_>>());
        marks.meet_if(&[(is_short(&self.beyond()), Mark::SplitBefore28)]);
    }

    fn note_short(&self, marks: &mut Counts<Mark>) {
        let [key, coefficients, out] = self.beyond();
        let is_key = key == -1 && !is_short(&[coefficients, out]);
        let is_coefficients = coefficients == -1 && !is_short(&[key, out]);
        let is_out = out == -1 && !is_short(&[key, coefficients]);
        marks.meet_if(&[
            (is_key, Mark::KeyShort),
            (self.key.is_empty(), Mark::KeyNone),
            (is_coefficients, Mark::TermsShort),
            (self.coefficients.is_empty(), Mark::TermsNone),
            (is_out, Mark::SharesOutShort),
            (self.out == 0, Mark::SharesOutNone),
        ]);
    }
}
