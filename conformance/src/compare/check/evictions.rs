//! The claims about grants into a full list (request A8), on every delivery of a history: what a performed
//! one leaves of the list, and what a grant met that is refused by 11. They are properties of the lists
//! before and after it, not the action once more. That other calls leave the list is checked in `notices`.

use crate::archive;
use crate::compare::call::{answer_in, Event, Records};
use crate::compare::fields::{Login, StateFields};
use crate::compare::make::records;
use crate::layout::{self, kind_of, ARGUMENTS, BODY, CYCLE_AND_DAY, IMAGE_SIZE, LOGINS, MISSES_AT};

/// A delivery with the states before and after it.
struct Delivery<'a> {
    announcement: &'a [u8],
    day: u32,
    image: &'a [u8],
    before: StateFields,
    after: StateFields,
}

/// The login that a performed grant evicted (02, A8: drops), if it did.
pub fn check(event: &Event) -> Result<Option<u32>, String> {
    let (Records::Deliver(announcement, _), number @ (0 | 11)) =
        (&event.request.records, event.outcome.number)
    else {
        return Ok(None);
    };
    let image = &event.request.image;
    let (Some(before), Some(after)) = (StateFields::read(image), StateFields::read(&event.held))
    else {
        return Err("a short image performs".to_string());
    };
    let [_, day] = layout::read(&CYCLE_AND_DAY, announcement, BODY);
    let delivery = Delivery {
        announcement,
        day,
        image,
        before,
        after,
    };
    match number {
        0 => delivery.performed(),
        _ => delivery.refused().map(|()| None),
    }
}

impl Delivery<'_> {
    /// The login that a grant or an end names.
    fn named(&self) -> Option<u32> {
        let login = layout::number_at(self.announcement, ARGUMENTS, 4);
        matches!(kind_of(self.announcement), 8 | 9).then_some(login)
    }

    fn is_grant(&self) -> bool {
        kind_of(self.announcement) == 8
    }

    /// "at most 64 logins", "strictly rising"; of the rows that the action does not name at most one is
    /// gone, and the others are as they were.
    fn performed(&self) -> Result<Option<u32>, String> {
        let rows = &self.after.logins;
        if !rows.windows(2).all(|pair| pair[0].login < pair[1].login) {
            return Err("the logins don't rise".to_string());
        }
        self.names_its_row()?;
        let others = |state: &StateFields| {
            let mut rows = state.logins.clone();
            rows.retain(|row| Some(row.login) != self.named());
            rows
        };
        let (before, after) = (others(&self.before), others(&self.after));
        if let Some(row) = after.iter().find(|row| !before.contains(row)) {
            let login = row.login;
            return Err(format!("login {login} is not listed as before"));
        }
        let mut gone = before.iter().filter(|row| !after.contains(row));
        let Some(row) = gone.next() else {
            return Ok(None);
        };
        if let Some(other) = gone.next() {
            let (one, other) = (row.login, other.login);
            return Err(format!("logins {one} and {other} are both dropped"));
        }
        self.evicted(row)?;
        Ok(Some(row.login))
    }

    /// A granted login has the row that the grant names, an ended one has none.
    fn names_its_row(&self) -> Result<(), String> {
        let Some(login) = self.named() else {
            return Ok(());
        };
        let mut rows = self.after.logins.iter();
        let found = rows.find(|row| row.login == login).copied();
        let named = self.is_grant().then(|| Login::of(self.announcement));
        match found == named {
            true => Ok(()),
            false => Err(format!("login {login} is not left as the action names it")),
        }
    }

    /// Whether the login that it names was listed before it.
    fn is_listed(&self) -> bool {
        let place = |login: u32| self.before.place_of(login);
        self.named().and_then(place).is_some()
    }

    /// A row that is gone and that the action does not name.
    fn evicted(&self, row: &Login) -> Result<(), String> {
        let Login { login, end, .. } = *row;
        let rows = &self.before.logins;
        let counts = (rows.len(), self.after.logins.len());
        let is_before = |other: &&Login| (other.end, other.login) < (end, login);
        let wrong = if !self.is_grant() || self.is_listed() {
            format!("kind {} needs no row", kind_of(self.announcement))
        } else if counts != (LOGINS.most, LOGINS.most) {
            format!("the list had {} rows and has {}", counts.0, counts.1)
        } else if end >= self.day {
            format!("it ends on day {end}, announced is day {}", self.day)
        } else if let Some(first) = rows.iter().find(is_before) {
            format!("login {} comes first", first.login)
        } else if let Some(day) = self.open_day(row) {
            format!("it was open on day {day}")
        } else {
            return Ok(());
        };
        Err(format!("login {login} is dropped: {wrong}"))
    }

    /// A day, the announced one or later, on which the node before it opens a door for the login: asked are
    /// the announced day, the next and the last of the silence limit. Misses would only refuse more.
    fn open_day(&self, row: &Login) -> Option<u32> {
        let mut image = self.image.to_vec();
        image[MISSES_AT..].fill(0);
        let last = self.before.day.saturating_add(self.before.silence.into());
        let right = row.rights.trailing_zeros() as u8;
        let is_open = |day: &u32| {
            let query = records::query(row.login, *day, right);
            let returned = archive::node_query(&image, &query, &mut [0; IMAGE_SIZE]);
            answer_in(returned) == 0
        };
        let days = [self.day, self.day.saturating_add(1), last.max(self.day)];
        days.into_iter().find(is_open)
    }

    /// "Otherwise 11 remains": the list is full, the login is not listed and no row is over.
    fn refused(&self) -> Result<(), String> {
        let rows = &self.before.logins;
        let has_room = rows.len() < LOGINS.most || self.is_listed();
        let any_over = rows.iter().any(|row| row.is_over(self.day));
        match self.is_grant() && (has_room || any_over) {
            true => Err("a grant is refused by 11 and has a row".to_string()),
            false => Ok(()),
        }
    }
}
