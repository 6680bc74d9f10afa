//! Proposals and the notices that they are judged by.

use super::put;
use crate::layout::{self, kind_of, number_at, ARGUMENTS, BODY, CYCLE_AND_DAY, NOTICES, PROPOSAL};
use crate::layout::{SUBJECT_KIND, SUBJECT_SIZE};

/// In days, in force or named by a minima, where zero means keep (request A7).
#[derive(Clone, Copy, PartialEq, Eq, Debug)]
pub struct Notices {
    pub ordinary: u32,
    pub restart: u32,
}

impl Notices {
    /// "Kind 16 is still read, with 7 and 2" (request A7).
    pub const OF_OLD: Notices = Notices::new(7, 2);

    pub const fn new(ordinary: u32, restart: u32) -> Notices {
        Notices { ordinary, restart }
    }

    /// The least days between a proposal of this kind and its use.
    pub fn of(self, kind: u16) -> u32 {
        match kind {
            7 => self.restart,
            _ => self.ordinary,
        }
    }

    /// Those that a minima names, in an announcement or in a proposal: by its 8 argument bytes.
    pub fn named(arguments: &[u8]) -> Notices {
        let at = layout::size(&layout::MINIMA);
        let [ordinary, restart] = layout::read(&NOTICES, arguments, at);
        Notices { ordinary, restart }
    }

    /// Those in force after a minima that names some: "zero meaning keep".
    pub fn after(self, named: Notices) -> Notices {
        let set = |named: u32, kept: u32| if named == 0 { kept } else { named };
        Notices {
            ordinary: set(named.ordinary, self.ordinary),
            restart: set(named.restart, self.restart),
        }
    }
}

#[derive(Clone, Copy, PartialEq, Debug)]
pub struct Proposal {
    pub cycle: u32,
    pub day: u32,
    pub kind: u16,
    pub arguments: [u8; SUBJECT_SIZE],
}

impl Proposal {
    /// What a performed propose adds.
    pub fn of(announcement: &[u8]) -> Proposal {
        let [cycle, day] = layout::read(&CYCLE_AND_DAY, announcement, BODY);
        let arguments = ARGUMENTS + SUBJECT_KIND.size;
        Proposal {
            cycle,
            day,
            kind: number_at(announcement, ARGUMENTS, SUBJECT_KIND.size) as u16,
            arguments: std::array::from_fn(|i| announcement[arguments + i]),
        }
    }

    /// The announced day minus the proposal's.
    pub fn age(&self, announced: u32) -> i64 {
        i64::from(announced) - i64::from(self.day)
    }

    /// Whether its notice is over and it has not lapsed.
    pub fn is_ripe(&self, announced: u32, in_force: Notices) -> bool {
        (in_force.of(self.kind).into()..=60).contains(&self.age(announced))
    }

    /// "lapses on day 61" (request A3)
    pub fn is_lapsed(&self, announced: u32) -> bool {
        self.age(announced) >= 61
    }

    /// Whether the announcement has its kind and arguments.
    pub fn is_subject_of(&self, announcement: &[u8]) -> bool {
        let arguments = &announcement[ARGUMENTS..ARGUMENTS + SUBJECT_SIZE];
        kind_of(announcement) == self.kind && arguments == self.arguments
    }

    pub(super) fn read(row: &[u8]) -> Proposal {
        let [cycle, day, kind] = layout::read(&PROPOSAL, row, 0);
        let arguments = layout::size(&PROPOSAL);
        Proposal {
            cycle,
            day,
            kind: kind as u16,
            arguments: std::array::from_fn(|i| row[arguments + i]),
        }
    }

    pub(super) fn write(&self, row: &mut [u8]) {
        layout::put(&PROPOSAL, &[self.cycle, self.day, self.kind.into()], row, 0);
        put(row, layout::size(&PROPOSAL), &self.arguments);
    }
}
