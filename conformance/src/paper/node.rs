//! The node by value: what it holds, deliver and checkpoint.

use super::announcement::Announcement;
use super::records::Sheet;
use super::state::{Standing, State};
use super::Answer::{self, Done, No, Voted};
use super::{actions, checkpoint, rules};

/// "one miss count, still 0 to 10, for each of doors 0 to 3" (request A5)
pub const DOORS: usize = 4;

/// The state and the "Own part: seat, life, the announcement voted for in this cycle if any, misses
/// (0 to 10)", these by door.
#[derive(Debug, Clone, PartialEq, Eq)]
pub struct Node {
    pub(super) state: State,
    pub(super) seat: u8,
    pub(super) life: u32,
    pub(super) vote: Option<Vec<u8>>,
    pub(super) misses: [u8; DOORS],
}

impl Node {
    pub fn cycle(&self) -> u32 {
        self.state.cycle.number()
    }

    pub fn checkpoint(&self) -> Vec<u8> {
        checkpoint::write(&self.state)
    }

    /// "A node whose own seat is retired is halted."
    pub(super) fn is_halted(&self) -> bool {
        self.state.seat(self.seat).standing == Standing::Retired
    }

    pub fn deliver(&mut self, announcement: &[u8], sheet: &[u8]) -> Answer {
        let Ok(announcement) = Announcement::read(announcement) else {
            return No(1);
        };
        let Ok(sheet) = Sheet::read(sheet) else {
            return No(2);
        };
        self.deliver_read(&announcement, &sheet)
    }

    pub(super) fn deliver_read(&mut self, announcement: &Announcement, sheet: &Sheet) -> Answer {
        if self.is_halted() {
            return No(3);
        }
        // Request A3: lapsed rows "are dropped before rules 9 to 14 are tried, and are gone from the
        // state if the action is performed; a refusal drops none". Rules 4 to 8 don't look at
        // proposals. A refusal or a vote leaves `self.state` as it was.
        let left = actions::without_lapsed(&self.state, announcement.day);
        if let Some(number) = rules::refusal(&left, announcement, sheet) {
            return No(number);
        }
        // "the sheet shows a quorum of the state before the action"; only its rows count.
        if sheet.votes(&self.state) >= self.state.quorum() {
            self.perform(&left, announcement);
            return Done;
        }
        self.vote(announcement)
    }

    /// "the node performs it: cycle plus 1, day as announced, vote cleared, misses 0"; request A5: "A
    /// performed action clears all four."
    fn perform(&mut self, left: &State, announcement: &Announcement) {
        self.state = actions::perform(left, announcement);
        self.vote = None;
        self.misses = [0; DOORS];
    }

    /// "Without a quorum it votes, unless 15 or 16 applies"
    fn vote(&mut self, announcement: &Announcement) -> Answer {
        if !self.may_vote() {
            return No(15);
        }
        if self.voted_otherwise(announcement) {
            return No(16);
        }
        self.vote = Some(announcement.bytes.clone());
        Voted
    }

    /// Rule 15 asks for the contrary: "own seat not present or own life not listed".
    fn may_vote(&self) -> bool {
        let listed = self.state.seat(self.seat);
        listed.standing == Standing::Present && self.life == listed.life
    }

    /// "voted for other bytes this cycle"; "the same 24 bytes later in that cycle get the same vote"
    fn voted_otherwise(&self, announcement: &Announcement) -> bool {
        let vote = self.vote.as_ref();
        vote.is_some_and(|vote| *vote != announcement.bytes)
    }
}
