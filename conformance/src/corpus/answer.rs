//! Answers in words, as node-run prints them, and as the numbers that C gets.

use crate::compare::call::VOTED;
use std::fmt;

#[derive(Clone, Copy, PartialEq, Eq, Debug)]
pub enum Answer {
    Started,
    Voted,
    Done,
    Open,
    /// A checkpoint, a page, the announcements of a roster or a line of one, shares, their key or a sum of them
    /// were given. node-run has no request for any of them.
    Given,
    No(u32),
}

use Answer::{Done, Given, No, Open, Started, Voted};

impl Answer {
    pub fn read(words: &[&str]) -> Option<Answer> {
        match words {
            ["started"] => Some(Started),
            ["voted"] => Some(Voted),
            ["done"] => Some(Done),
            ["open"] => Some(Open),
            ["given"] => Some(Given),
            ["no", number] => number.parse().ok().map(No),
            _ => None,
        }
    }

    /// The answer in what the call returns.
    pub fn number(self) -> u32 {
        match self {
            Started | Done | Open | Given => 0,
            Voted => VOTED,
            No(number) => number,
        }
    }
}

impl fmt::Display for Answer {
    fn fmt(&self, f: &mut fmt::Formatter) -> fmt::Result {
        match self {
            Started => f.write_str("started"),
            Voted => f.write_str("voted"),
            Done => f.write_str("done"),
            Open => f.write_str("open"),
            Given => f.write_str("given"),
            No(number) => write!(f, "no {number}"),
        }
    }
}
