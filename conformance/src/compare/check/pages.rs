//! The claims about pages (request A1). Nodes at equal cycles give one page for one day: for lawful
//! starts within the bound on double voters. The word of a line agrees with what a query answers:
//! for every node that is not halted, at a door that is not locked.

use crate::archive;
use crate::compare::call::answer_in;
use crate::compare::fields::{Login, OwnFields, StateFields};
use crate::compare::make::records;
use crate::layout::{DOORS, IMAGE_SIZE, LINE_SIZE, WORD};
use std::collections::HashMap;

/// The words of a line, each with what a query for a right that is held answers.
pub const WORDS: [(&str, u32); 3] = [("open", 0), ("silent", 18), ("ended", 20)];

#[derive(Default)]
pub struct Pages {
    /// By cycle and given day: the first page seen.
    seen: HashMap<(u32, u32), Vec<u8>>,
    /// A cycle and a given day for which two pages differ.
    pub split: Option<(u32, u32)>,
    /// Pages for a cycle and a day for which one was given before.
    pub shared: u64,
    /// Lines by the place of their word in `WORDS`, where a query was asked.
    pub asked: [u64; WORDS.len()],
}

impl Pages {
    /// Takes up a page that was given.
    pub fn note(&mut self, image: &[u8], day: u32, page: &[u8]) -> Result<(), String> {
        let (Some(state), Some(own)) = (StateFields::read(image), OwnFields::read(image)) else {
            return Err("a short image gives a page".to_string());
        };
        match self.seen.get(&(state.cycle, day)) {
            Some(seen) if seen != page => self.split = Some((state.cycle, day)),
            Some(_) => self.shared += 1,
            None => drop(self.seen.insert((state.cycle, day), page.to_vec())),
        }
        let free = (0..DOORS).find(|door| !own.is_locked(*door));
        let Some(door) = free.filter(|_| !own.is_halted(&state)) else {
            return Ok(());
        };
        for (row, line) in state.logins.iter().zip(page.chunks(LINE_SIZE)) {
            self.ask(image, day, door as u8, (row, line))?;
        }
        Ok(())
    }

    /// Asks at a door for a right that the row holds.
    fn ask(
        &mut self,
        image: &[u8],
        day: u32,
        door: u8,
        (row, line): (&Login, &[u8]),
    ) -> Result<(), String> {
        let right = row.rights.trailing_zeros() as u8;
        let query = records::door_query(row.login, day, right, door);
        let returned = archive::node_query(image, &query, &mut [0; IMAGE_SIZE]);
        let number = answer_in(returned);
        let word = line.get(WORD).unwrap_or_default();
        let word = String::from_utf8_lossy(word);
        let agrees = |(known, answer): &(&str, u32)| word.trim_end() == *known && number == *answer;
        let Some(place) = WORDS.iter().position(agrees) else {
            let login = row.login;
            return Err(format!(
                "login {login} reads \"{word}\" for day {day}, and a query answers {number}"
            ));
        };
        self.asked[place] += 1;
        Ok(())
    }
}
