//! Request A1: the login list "as a page". A passage in quotation marks is the request's own.

use super::calendar;
use super::image::{code, put};
use super::node::Node;
use super::records::Query;
use super::state::{Day, Login};
use super::Answer::Given;

impl Node {
    /// The lines for a given day: "Lines run in login order, without header."
    pub fn page(&self, day: u32) -> Vec<String> {
        let rows = self.state.logins.iter();
        let lines = rows.map(|(login, listed)| self.line(*login, listed, Day::new(day)));
        lines.collect()
    }

    /// "Each line has 46 characters and a line feed": a login, its end date, its rights, a word.
    fn line(&self, login: u32, listed: &Login, given: Day) -> String {
        let (date, rights) = (date(listed.end), rights(listed.rights));
        let word = self.word(login, given);
        // "login right-aligned in 10"; the word "padded to 7".
        format!("{login:>10} {date} {rights} {word:<7}\n")
    }

    /// "The last word must agree with what rules 18 and 20 give for the given day."
    fn word(&self, login: u32, given: Day) -> &'static str {
        // Neither rule looks at the right or the door.
        let (day, right, door) = (given, 0, 0);
        let query = Query {
            login,
            day,
            right,
            door,
        };
        // "Silent wins over ended."
        let mut numbers = [18, 20].into_iter();
        match numbers.find(|number| self.query_refused(*number, &query)) {
            Some(18) => "silent",
            Some(_) => "ended",
            None => "open",
        }
    }
}

/// "end date as year-month-day in 10"
fn date(end: Day) -> String {
    // "End days after 47481 (2099-12-31) print as ten hyphens."
    if end > Day::new(47_481) {
        return "-".repeat(10);
    }
    calendar::text(end)
}

/// "16 places for rights (letter A to P where bit 0 to 15 is held, else a hyphen)"
fn rights(held: u16) -> String {
    let place = |(bit, letter): (usize, char)| match held >> bit & 1 {
        1 => letter,
        _ => '-',
    };
    ('A'..='P').enumerate().map(place).collect()
}

/// The page as C gets it. "a halted node still gives the page"
pub fn node_page(image: &[u8], day: u32, out: &mut [u8]) -> u32 {
    let Some(node) = Node::from_image(image) else {
        return 1;
    };
    let lines = node.page(day);
    // "23, slice shorter than 47 bytes times the logins, tried after 1"
    if out.len() < 47 * lines.len() {
        return 23;
    }
    // "a longer slice keeps its tail"
    put(lines.concat().as_bytes(), out);
    // "It gives the number of lines": above the low 8 bits, which are the answer.
    code(Given) | (lines.len() as u32) << 8
}
