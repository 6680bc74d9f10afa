//! Whether a login may use a right on a day, at a door.

use super::node::Node;
use super::records::Query;
use super::Answer::{self, No, Open};

impl Node {
    pub fn query(&mut self, query: &[u8]) -> Answer {
        match Query::read(query) {
            Ok(query) => self.query_read(&query),
            Err(_) => No(1),
        }
    }

    /// "Open when nothing below applies. 19, 20 and 21 add a miss; open sets misses to 0; 17 and 18
    /// don't touch them." The misses are those of the asked door (request A5).
    pub(super) fn query_read(&mut self, query: &Query) -> Answer {
        if self.is_halted() {
            return No(3);
        }
        let refusal = self.query_refusal(query);
        let misses = &mut self.misses[usize::from(query.door)];
        let Some(number) = refusal else {
            *misses = 0;
            return Open;
        };
        if matches!(number, 19..=21) {
            *misses += 1;
        }
        No(number)
    }

    fn query_refusal(&self, query: &Query) -> Option<u8> {
        let mut numbers = 17..=21;
        numbers.find(|number| self.query_refused(*number, query))
    }

    pub(super) fn query_refused(&self, number: u8, query: &Query) -> bool {
        // "Let t be the later of given and agreed day."
        let t = query.day.max(self.state.day);
        let silence = i64::from(self.state.minima.silence);
        let login = self.state.logins.get(&query.login);
        match number {
            // "misses are 10"
            17 => self.misses[usize::from(query.door)] == 10,
            // "t minus agreed day above S"
            18 => t.since(self.state.day) > silence,
            // "login not listed"
            19 => login.is_none(),
            // "t after end day"
            20 => login.is_some_and(|login| t > login.end),
            // "right not held"
            _ => login.is_some_and(|login| u32::from(login.rights) >> query.right & 1 == 0),
        }
    }
}
