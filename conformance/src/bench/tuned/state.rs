//! The synchronised state, with the counts that the rules ask for.

pub const FREE: u8 = 0;
pub const CERTIFIED: u8 = 1;
pub const PRESENT: u8 = 2;
pub const RETIRED: u8 = 3;

#[derive(Clone, Copy)]
pub struct Seat {
    pub standing: u8,
    pub life: u32,
}

#[derive(Clone, Copy)]
pub struct Proposal {
    pub cycle: u32,
    pub day: u32,
    pub kind: u16,
    pub arguments: u64,
}

#[derive(Clone, Copy)]
pub struct Login {
    pub login: u32,
    pub end: u32,
    pub rights: u16,
}

/// The first `count` rows are used.
pub struct Table<T, const N: usize> {
    pub rows: [T; N],
    pub count: usize,
}

pub struct State {
    pub cycle: u32,
    pub day: u32,
    pub trustees: [u8; 2],
    pub margin: u8,
    pub least: u8,
    pub silence: u16,
    /// In days: for kinds 4 to 6, for kind 7.
    pub ordinary: u8,
    pub restart: u8,
    pub present: u8,
    pub seats: [Seat; 32],
    pub proposals: Table<Proposal, 16>,
    pub logins: Table<Login, 64>,
}

impl<T: Copy, const N: usize> Table<T, N> {
    pub fn used(&self) -> &[T] {
        &self.rows[..self.count]
    }

    pub fn is_full(&self) -> bool {
        self.count == N
    }

    pub fn insert(&mut self, at: usize, row: T) {
        self.rows.copy_within(at..self.count, at + 1);
        self.rows[at] = row;
        self.count += 1;
    }

    /// Puts a row before the one at `to` and takes out the one at `from`: the rows between move by one.
    pub fn exchange(&mut self, from: usize, to: usize, row: T) {
        if to > from {
            self.rows.copy_within(from + 1..to, from);
            self.rows[to - 1] = row;
        } else {
            self.rows.copy_within(to..from, to + 1);
            self.rows[to] = row;
        }
    }

    pub fn remove(&mut self, at: usize) {
        self.rows.copy_within(at + 1..self.count, at);
        self.count -= 1;
    }
}

impl Table<Proposal, 16> {
    /// Drops the rows that are more than 60 days old on a day that no row's lies after. The rows left
    /// move up.
    pub fn drop_lapsed(&mut self, day: u32) {
        let is_lapsed = |row: &Proposal| day - row.day > 60;
        let Some(first) = self.used().iter().position(is_lapsed) else {
            return;
        };
        let mut kept = first;
        for at in first + 1..self.count {
            let row = self.rows[at];
            self.rows[kept] = row;
            kept += usize::from(!is_lapsed(&row));
        }
        self.count = kept;
    }
}

impl Table<Login, 64> {
    /// The place of a login, or where it would be put.
    pub fn place(&self, login: u32) -> Result<usize, usize> {
        self.used().binary_search_by_key(&login, |row| row.login)
    }

    /// The place of the row that ended first, if that was before this day. Of equal ones it is the first,
    /// which has the smallest login.
    pub fn evicted(&self, day: u32) -> Option<usize> {
        let rows = self.used().iter().enumerate();
        let (place, row) = rows.min_by_key(|(_, row)| row.end)?;
        (row.end < day).then_some(place)
    }
}

pub fn quorum(present: u8, margin: u8, least: u8) -> u8 {
    (present / 2 + 1 + margin).max(least)
}

impl State {
    pub const EMPTY: State = State {
        cycle: 0,
        day: 0,
        trustees: [0; 2],
        margin: 0,
        least: 0,
        silence: 0,
        ordinary: 0,
        restart: 0,
        present: 0,
        seats: [Seat {
            standing: FREE,
            life: 0,
        }; 32],
        proposals: Table {
            rows: [Proposal {
                cycle: 0,
                day: 0,
                kind: 0,
                arguments: 0,
            }; 16],
            count: 0,
        },
        logins: Table {
            rows: [Login {
                login: 0,
                end: 0,
                rights: 0,
            }; 64],
            count: 0,
        },
    };
}
