//! The rows of the list of logins.

use crate::layout::{self, ARGUMENTS, LOGIN};

#[derive(Clone, Copy, PartialEq, Debug)]
pub struct Login {
    pub login: u32,
    pub end: u32,
    pub rights: u16,
}

impl Login {
    /// What a performed grant lists.
    pub fn of(announcement: &[u8]) -> Login {
        Login::read(&announcement[ARGUMENTS..])
    }

    /// Whether its end day lies before a day.
    pub fn is_over(&self, day: u32) -> bool {
        self.end < day
    }

    pub(super) fn read(row: &[u8]) -> Login {
        let [login, end, rights] = layout::read(&LOGIN, row, 0);
        let rights = rights as u16;
        Login { login, end, rights }
    }

    pub(super) fn write(&self, row: &mut [u8]) {
        let values = [self.login, self.end, self.rights.into()];
        layout::put(&LOGIN, &values, row, 0);
    }
}

/// The place of the row that ends first, of equal ones that of the smallest login.
pub fn first_to_end(rows: &[Login]) -> Option<usize> {
    let places = rows.iter().enumerate();
    let first = places.min_by_key(|(_, row)| (row.end, row.login));
    first.map(|(place, _)| place)
}
