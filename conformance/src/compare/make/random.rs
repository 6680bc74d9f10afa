//! Random numbers (splitmix64): a seed gives the same histories on every machine.

use crate::layout::{Field, SEAT};

pub struct Random(u64);

impl Random {
    pub fn new(seed: u64) -> Random {
        Random(seed)
    }

    pub fn number(&mut self) -> u64 {
        self.0 = self.0.wrapping_add(0x9E37_79B9_7F4A_7C15);
        let mut z = self.0;
        z = (z ^ (z >> 30)).wrapping_mul(0xBF58_476D_1CE4_E5B9);
        z = (z ^ (z >> 27)).wrapping_mul(0x94D0_49BB_1331_11EB);
        z ^ (z >> 31)
    }

    /// Below `end`; 0 where `end` is 0.
    pub fn below(&mut self, end: usize) -> usize {
        ((u128::from(self.number()) * end as u128) >> 64) as usize
    }

    /// From `low` to `high`, both included.
    pub fn within(&mut self, low: u32, high: u32) -> u32 {
        let span = u64::from(high - low) + 1;
        low + ((u128::from(self.number()) * u128::from(span)) >> 64) as u32
    }

    /// Within a field's range.
    pub fn of(&mut self, field: &Field) -> u32 {
        self.within(field.low, field.high)
    }

    /// An end of a field's range.
    pub fn end(&mut self, field: &Field) -> u32 {
        self.pick(&[field.low, field.high])
    }

    /// Any seat.
    pub fn seat(&mut self) -> u8 {
        self.of(&SEAT) as u8
    }

    pub fn chance(&mut self, percent: u32) -> bool {
        self.within(1, 100) <= percent
    }

    /// One of a list that is not empty.
    pub fn pick<T: Copy>(&mut self, list: &[T]) -> T {
        list[self.below(list.len())]
    }

    pub fn byte(&mut self) -> u8 {
        self.number() as u8
    }

    pub fn bytes(&mut self, count: usize) -> Vec<u8> {
        (0..count).map(|_| self.byte()).collect()
    }

    /// So many of the share numbers from 1 to n, in any order.
    pub fn share_numbers(&mut self, count: usize, n: u32) -> Vec<u8> {
        let mut numbers: Vec<u8> = (1..=n as u8).collect();
        self.shuffle(&mut numbers);
        numbers.truncate(count);
        numbers
    }

    pub fn shuffle<T>(&mut self, list: &mut [T]) {
        for end in (1..list.len()).rev() {
            let other = self.below(end + 1);
            list.swap(end, other);
        }
    }

    /// A 32-bit number: the ends of the range are as likely as all the rest.
    pub fn any32(&mut self) -> u32 {
        match self.below(6) {
            0 => self.pick(&[0, u32::MAX]),
            1 => self.pick(&[1, u32::MAX - 1]),
            2 | 3 => self.within(0, 200),
            _ => self.number() as u32,
        }
    }

    /// At least 1.
    pub fn some32(&mut self) -> u32 {
        self.any32().max(1)
    }

    /// `n` or a neighbour of it, around the end of the range where there is none.
    pub fn near(&mut self, n: u32) -> u32 {
        n.wrapping_add(self.pick(&[0, 1, 2, u32::MAX, u32::MAX - 1]))
    }
}
