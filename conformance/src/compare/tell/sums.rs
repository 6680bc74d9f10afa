//! What a sum of shares (request A10) met.

use super::marks::Counts;
use super::share_marks::Mark;
use super::shares::beyond;
use crate::compare::call::Records;
use crate::compare::make::shares::LENGTHS;
use crate::layout::KEY_SIZE;
use std::collections::BTreeSet;

const BYTES: usize = 256;
const PAIRS: usize = BYTES * BYTES;
/// The first length for which 16 bits of the count are not enough, and the first that it can't tell.
const BEYOND_16_BITS: usize = 1 << 16;
const BEYOND_COUNT: usize = 1 << 24;

pub struct Sums {
    /// By the two bytes: whether they were added.
    pairs: Vec<bool>,
    /// The lengths of what was added.
    lengths: BTreeSet<usize>,
}

impl Sums {
    pub fn new() -> Sums {
        Sums {
            pairs: vec![false; PAIRS],
            lengths: BTreeSet::new(),
        }
    }

    /// Takes up a sum with its answer; nothing of another call.
    pub fn note(&mut self, records: &Records, out: usize, number: u32, marks: &mut Counts<Mark>) {
        let Records::Add(shares, more) = records else {
            return;
        };
        let length = shares.len();
        let beyond = [more.len(), out].map(|other| beyond(other, length));
        match number {
            0 => {
                note_given(length, beyond, marks);
                note_contents(shares, &more[..length], marks);
                self.note_bytes(shares, more);
            }
            _ => note_short([more.len(), out], beyond, marks),
        }
    }

    fn note_bytes(&mut self, shares: &[u8], more: &[u8]) {
        for (one, other) in shares.iter().zip(more) {
            self.pairs[usize::from(*one) * BYTES + usize::from(*other)] = true;
        }
        self.lengths.insert(shares.len());
    }

    /// How many pairs of bytes were added.
    fn met(&self) -> usize {
        self.pairs.iter().filter(|met| **met).count()
    }

    /// What was never met, one line each.
    pub fn missing(&self) -> Vec<String> {
        let never = LENGTHS.filter(|length| !self.lengths.contains(length));
        let mut lines: Vec<String> = never
            .map(|length| format!("sum of {length} bytes"))
            .collect();
        let pairs = PAIRS - self.met();
        lines.extend((pairs > 0).then(|| format!("sums of {pairs} pairs of bytes")));
        lines
    }

    pub fn summary(&self) -> String {
        let (pairs, lengths) = (self.met(), self.lengths.range(LENGTHS).count());
        let (most, all) = (LENGTHS.end(), LENGTHS.count());
        format!("sums  of two bytes: {pairs} of {PAIRS}  of 0 to {most} bytes: {lengths} of {all}")
    }
}

/// How much longer than the first run the second one and the output slice are.
fn note_given(length: usize, [more, out]: [isize; 2], marks: &mut Counts<Mark>) {
    let is_longer = more > 0 && out > 0;
    marks.meet_if(&[
        (more == 0 && out == 0, Mark::SumExact),
        (more > 0 && out == 0, Mark::MoreLonger),
        (more == 0 && out > 0, Mark::SumOutLonger),
        (is_longer, Mark::SumBothLonger),
        (length == 0 && more == 0 && out == 0, Mark::SumNone),
        (length == 0 && is_longer, Mark::SumNoneLonger),
        (!length.is_multiple_of(KEY_SIZE), Mark::SumPart),
        (
            (BEYOND_16_BITS..BEYOND_COUNT).contains(&length),
            Mark::SumLong,
        ),
        (length >= BEYOND_COUNT, Mark::SumBeyondCount),
        (length > 0, Mark::SumsBack),
        (length >= 2 * KEY_SIZE, Mark::SumsMerged),
    ]);
}

fn note_contents(shares: &[u8], more: &[u8], marks: &mut Counts<Mark>) {
    let is_zero = |run: &[u8]| run.iter().all(|byte| *byte == 0);
    let is_some = !shares.is_empty();
    marks.meet_if(&[
        (is_some && is_zero(shares), Mark::SumFirstZeros),
        (is_some && is_zero(more), Mark::SumMoreZeros),
        (is_some && shares == more, Mark::SumSame),
    ]);
}

fn note_short(lengths: [usize; 2], [more, out]: [isize; 2], marks: &mut Counts<Mark>) {
    marks.meet_if(&[
        (more == -1 && out >= 0, Mark::MoreShort),
        (lengths[0] == 0 && out >= 0, Mark::MoreNone),
        (out == -1 && more >= 0, Mark::SumOutShort),
        (lengths[1] == 0 && more >= 0, Mark::SumOutNone),
        (more < 0 && out < 0, Mark::SumBothShort),
        (lengths == [0, 0], Mark::SumBothNone),
    ]);
}
