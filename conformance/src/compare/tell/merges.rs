//! What a merge (request A9) met.

use super::marks::Counts;
use super::share_marks::{causes, Mark, MERGE_CAUSES};
use super::shares::{beyond, is_short, note_room};
use crate::compare::call::Records;
use crate::layout::{shares_size, KEY_SIZE};

pub struct Merge<'a> {
    k: u32,
    n: u32,
    numbers: &'a [u8],
    shares: &'a [u8],
    /// The length of the output slice.
    out: usize,
}

impl<'a> Merge<'a> {
    /// None for another call.
    pub fn of(records: &'a Records, out: usize) -> Option<Merge<'a>> {
        let Records::Merge {
            k,
            n,
            numbers,
            shares,
        } = records
        else {
            return None;
        };
        let (k, n) = (*k, *n);
        Some(Merge {
            k,
            n,
            numbers,
            shares,
            out,
        })
    }

    /// Takes up a merge with its answer.
    pub fn note(&self, number: u32, marks: &mut Counts<Mark>) {
        match number {
            0 => {
                marks.meet(Mark::OrdersBack);
                self.note_numbers(marks);
                self.note_shares(marks);
            }
            26 => self.note_range(marks),
            27 => {
                self.note_alone(marks);
                self.note_bad_numbers(marks);
            }
            _ => self.note_short(marks),
        }
    }

    /// The numbers that rule 27 looks at: of the first k those that are there.
    fn first(&self) -> &[u8] {
        &self.numbers[..self.numbers.len().min(self.k as usize)]
    }

    /// How much longer than needed the numbers, the shares and the output slice are.
    fn beyond(&self) -> [isize; 3] {
        [
            beyond(self.numbers.len(), self.k as usize),
            beyond(self.shares.len(), shares_size(self.k)),
            beyond(self.out, KEY_SIZE),
        ]
    }

    fn note_numbers(&self, marks: &mut Counts<Mark>) {
        let (first, n) = (self.first(), self.n);
        let behind = &self.numbers[first.len()..];
        let is_rising = first.windows(2).all(|pair| pair[0] < pair[1]);
        let is_falling = first.windows(2).all(|pair| pair[0] > pair[1]);
        let is_above = |number: &u8| u32::from(*number) > n;
        let is_again = |number: &u8| first.contains(number);
        marks.meet_if(&[
            (is_rising, Mark::Rising),
            (is_falling, Mark::Falling),
            (!is_rising && !is_falling, Mark::NoOrder),
            (first.contains(&1), Mark::Number1),
            (first.contains(&(n as u8)), Mark::NumberN),
            (behind.is_empty(), Mark::NumbersExact),
            (!behind.is_empty(), Mark::Behind),
            (behind.contains(&0), Mark::Behind0),
            (behind.iter().any(is_above), Mark::BehindAbove),
            (behind.iter().any(is_again), Mark::BehindAgain),
        ]);
    }

    fn note_shares(&self, marks: &mut Counts<Mark>) {
        let [_, shares, out] = self.beyond();
        note_room(marks, shares, Mark::SharesExact, Mark::SharesLonger);
        note_room(marks, out, Mark::KeyOutExact, Mark::KeyOutLonger);
        for share in self.shares.chunks(KEY_SIZE).take(self.k as usize) {
            let zeros = share.iter().filter(|byte| **byte == 0).count();
            marks.meet_if(&[
                (zeros == KEY_SIZE, Mark::ShareOfZeros),
                (0 < zeros && zeros < KEY_SIZE, Mark::ShareByte0),
            ]);
        }
    }

    fn note_range(&self, marks: &mut Counts<Mark>) {
        let met = causes(self.k, self.n).into_iter().zip(MERGE_CAUSES);
        marks.meet_if(&met.collect::<Vec<_>>());
        let is_bad = (0..self.first().len()).any(|place| self.is_bad(place));
        let is_short = is_short(&self.beyond());
        marks.meet_if(&[
            (is_bad, Mark::Before27),
            (is_short, Mark::Before28),
            (is_bad && is_short, Mark::BeforeBoth),
        ]);
    }

    /// Whether the number at a place is 0, above n or one of those before it.
    fn is_bad(&self, place: usize) -> bool {
        let number = self.first()[place];
        number == 0 || u32::from(number) > self.n || self.is_again(place)
    }

    fn is_again(&self, place: usize) -> bool {
        let first = self.first();
        first[..place].contains(&first[place])
    }

    /// What is wrong by itself: one number, where the others are good and every slice is long enough.
    fn note_alone(&self, marks: &mut Counts<Mark>) {
        let first = self.first();
        let bad = |place: &usize| self.is_bad(*place);
        let bad: Vec<usize> = (0..first.len()).filter(bad).collect();
        let [only] = bad[..] else { return };
        if is_short(&self.beyond()) {
            return;
        }
        let (last, number) = (first.len() - 1, first[only]);
        let is_above = u32::from(number) == self.n + 1;
        let earlier = first[..only].iter().position(|other| *other == number);
        let is = |a: usize, b: usize| last > 1 && (earlier, only) == (Some(a), b);
        marks.meet_if(&[
            (only == 0 && number == 0, Mark::ZeroFirst),
            (only == last && number == 0, Mark::ZeroLast),
            (only == 0 && is_above, Mark::AboveFirst),
            (only == last && is_above, Mark::AboveLast),
            (is(0, 1), Mark::AgainAtOnce),
            (last > 0 && is(last - 1, last), Mark::AgainLast),
            (is(0, last), Mark::AgainApart),
        ]);
    }

    fn note_bad_numbers(&self, marks: &mut Counts<Mark>) {
        let [numbers, shares, out] = self.beyond();
        let first = self.first();
        let is_fewer = numbers < 0;
        let is_above = |number: &u8| u32::from(*number) > self.n;
        let is_again = (0..first.len()).any(|place| self.is_again(place));
        marks.meet_if(&[
            (first.contains(&255), Mark::Number255),
            (is_fewer && first.contains(&0), Mark::FewerZero),
            (is_fewer && first.iter().any(is_above), Mark::FewerAbove),
            (is_fewer && is_again, Mark::FewerAgain),
            (!is_fewer && shares < 0, Mark::SharesToo),
            (!is_fewer && out < 0, Mark::KeyOutToo),
        ]);
    }

    fn note_short(&self, marks: &mut Counts<Mark>) {
        let [numbers, shares, out] = self.beyond();
        let is_numbers = numbers == -1 && !is_short(&[shares, out]);
        let is_shares = shares == -1 && !is_short(&[numbers, out]);
        let is_out = out == -1 && !is_short(&[numbers, shares]);
        marks.meet_if(&[
            (is_numbers, Mark::NumbersShort),
            (self.numbers.is_empty(), Mark::NumbersNone),
            (is_shares, Mark::SharesShort),
            (self.shares.is_empty(), Mark::SharesNone),
            (is_out, Mark::KeyOutShort),
            (self.out == 0, Mark::KeyOutNone),
        ]);
    }
}
