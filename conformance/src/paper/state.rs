//! The synchronised state.

use std::collections::BTreeMap;

use super::bytes::{Malformed, Read};

pub const SEATS: usize = 32;
pub const MOST_PROPOSALS: usize = 16;
pub const MOST_LOGINS: usize = 64;

/// "A day is a 32-bit count from 1970-01-01"; held wider, so that no difference or sum is cut.
#[derive(Debug, Clone, Copy, PartialEq, Eq, PartialOrd, Ord)]
pub struct Day(i64);

impl Day {
    pub fn new(day: u32) -> Self {
        Day(i64::from(day))
    }

    pub fn number(self) -> u32 {
        self.0 as u32
    }

    /// This day minus an earlier one.
    pub fn since(self, earlier: Day) -> i64 {
        self.0 - earlier.0
    }
}

/// "a cycle is a 32-bit count of performed actions plus 1"
#[derive(Debug, Clone, Copy, PartialEq, Eq, PartialOrd, Ord)]
pub struct Cycle(u64);

impl Cycle {
    /// "cycle is 4294967295": after it there is none.
    pub const LAST: Cycle = Cycle(4_294_967_295);

    pub fn new(cycle: u32) -> Self {
        Cycle(u64::from(cycle))
    }

    pub fn number(self) -> u32 {
        self.0 as u32
    }

    /// "cycle plus 1"
    pub fn next(self) -> Self {
        Cycle(self.0 + 1)
    }
}

/// "Standings: 0 free, 1 certified, 2 present, 3 retired for good."
#[derive(Debug, Clone, Copy, PartialEq, Eq)]
pub enum Standing {
    Free,
    Certified,
    Present,
    Retired,
}

impl Standing {
    pub fn read(byte: u8) -> Read<Self> {
        Ok(match byte {
            0 => Standing::Free,
            1 => Standing::Certified,
            2 => Standing::Present,
            3 => Standing::Retired,
            _ => return Err(Malformed),
        })
    }
}

/// A seat's standing and life; "Life is 32 bits, 0 exactly at free seats."
#[derive(Debug, Clone, Copy, PartialEq, Eq)]
pub struct Seat {
    pub standing: Standing,
    pub life: u32,
}

impl Seat {
    pub const FREE: Seat = Seat {
        standing: Standing::Free,
        life: 0,
    };

    pub fn is_held(self) -> bool {
        matches!(self.standing, Standing::Certified | Standing::Present)
    }
}

/// What a proposal proposes: an announcement's kind and its first 8 argument bytes.
#[derive(Debug, Clone, PartialEq, Eq)]
pub struct Subject {
    pub kind: u16,
    pub arguments: Vec<u8>,
}

#[derive(Debug, Clone, PartialEq, Eq)]
pub struct Proposal {
    pub cycle: Cycle,
    pub day: Day,
    pub subject: Subject,
}

#[derive(Debug, Clone, Copy, PartialEq, Eq)]
pub struct Login {
    pub end: Day,
    pub rights: u16,
}

/// What kind 5 sets: "margin m (0 to 7); least quorum k (1 to 32); silence limit S (1 to 365 days)".
#[derive(Debug, Clone, Copy, PartialEq, Eq)]
pub struct Minima {
    pub margin: u8,
    pub least_quorum: u8,
    pub silence: u16,
}

/// Request A7: "ordinary notice and restart notice, 1 to 30 days each".
#[derive(Debug, Clone, Copy, PartialEq, Eq)]
pub struct Notices {
    pub ordinary: u8,
    pub restart: u8,
}

/// What the nodes of a park agree on. The tables hold used rows only.
#[derive(Debug, Clone, PartialEq, Eq)]
pub struct State {
    pub cycle: Cycle,
    pub day: Day,
    pub trustees: [u8; 2],
    pub minima: Minima,
    /// "They join the synchronised state after S" (request A7).
    pub notices: Notices,
    pub seats: Vec<Seat>,
    pub proposals: Vec<Proposal>,
    pub logins: BTreeMap<u32, Login>,
}

impl State {
    /// A seat; one that isn't there is free.
    pub fn seat(&self, seat: u8) -> Seat {
        let found = self.seats.get(usize::from(seat));
        found.copied().unwrap_or(Seat::FREE)
    }

    pub fn set_seat(&mut self, seat: u8, to: Seat) {
        if let Some(found) = self.seats.get_mut(usize::from(seat)) {
            *found = to;
        }
    }

    /// "p present seats"
    pub fn present(&self) -> usize {
        let counted = |seat: &&Seat| seat.standing == Standing::Present;
        self.seats.iter().filter(counted).count()
    }

    /// "Quorum = the larger of floor(p/2)+1+m and k, with p present seats."
    pub fn quorum(&self) -> usize {
        let p = self.present();
        let m = usize::from(self.minima.margin);
        let k = usize::from(self.minima.least_quorum);
        let majority = p / 2 + 1 + m;
        majority.max(k)
    }
}
