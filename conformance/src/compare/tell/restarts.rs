//! What the histories met of proposals to rejoin (request A6), each with its own count.

use super::marks::Counts;
use super::restart_marks::Mark;
use crate::compare::call::{Outcome, Records, Request, VOTED};
use crate::compare::fields::{OwnFields, Proposal, StateFields, CERTIFIED, PRESENT};
use crate::layout::{self, kind_of, number_at, ARGUMENTS, BODY, CYCLE_AND_DAY, PROPOSALS, REJOIN};

pub struct Restarts {
    marks: Counts<Mark>,
    /// The proposals to rejoin a seat that were listed when it was removed, in this history.
    outlived: Vec<Proposal>,
}

impl Restarts {
    pub fn new() -> Restarts {
        Restarts {
            marks: Counts::new(),
            outlived: Vec::new(),
        }
    }

    pub fn missing(&self) -> Vec<String> {
        self.marks.missing()
    }

    pub fn summary(&self) -> Vec<String> {
        self.marks.summary()
    }

    /// A new history begins.
    pub fn begin(&mut self) {
        self.outlived.clear();
    }

    /// Takes up a call of a history.
    pub fn note(&mut self, request: &Request, outcome: &Outcome) {
        match (&request.records, outcome.number) {
            (Records::Start(checkpoint, _), 0) => self.note_start(checkpoint),
            // Others leave open what the rules about proposals would say.
            (Records::Deliver(announcement, sheet), number @ (0 | 9..=14 | VOTED)) => {
                self.note_delivery(&request.image, announcement, sheet, number);
            }
            _ => {}
        }
    }

    fn note_start(&mut self, checkpoint: &[u8]) {
        let Some(state) = StateFields::read(checkpoint) else {
            return;
        };
        let has_some = state.proposals.iter().any(|row| row.kind == 7);
        self.marks.meet_if(&[
            (!has_some, Mark::StartedNone),
            (has_some, Mark::Started),
            (is_full(&state.proposals), Mark::StartedFull),
        ]);
    }

    fn note_delivery(&mut self, image: &[u8], announcement: &[u8], sheet: &[u8], number: u32) {
        let Some(mut state) = StateFields::read(image) else {
            return;
        };
        let [_, day] = layout::read(&CYCLE_AND_DAY, announcement, BODY);
        // The rules look at what is left.
        state.proposals.retain(|row| !row.is_lapsed(day));
        match kind_of(announcement) {
            1 => self.note_proposed(&state, announcement, number),
            2 if number == 0 => self.note_cancelled(&state.proposals, announcement),
            6 if number == 0 => {
                let seat = announcement[ARGUMENTS];
                let rows = state.proposals.iter().filter(|row| is_of(row, seat));
                self.outlived.extend(rows);
            }
            7 => {
                self.note_rejoin(&state, announcement, day, number);
                let is_refused = number == 10 && could_vote(&state, image, sheet);
                self.marks.meet_if(&[(is_refused, Mark::VoteUnproposed)]);
            }
            _ => {}
        }
    }

    fn note_proposed(&mut self, state: &StateFields, announcement: &[u8], number: u32) {
        let is_refused = number == 11 && is_full(&state.proposals);
        self.marks.meet_if(&[(is_refused, Mark::FullRefused)]);
        let row = Proposal::of(announcement);
        if (row.kind, number) != (7, 0) {
            return;
        }
        let [seat, life] = layout::read(&REJOIN, &row.arguments, 0);
        let listed = state.seats[seat as usize];
        let is_held = matches!(listed.standing, CERTIFIED | PRESENT);
        let has_other = has_other_life(&state.proposals, &row.arguments);
        self.marks.meet_if(&[
            (is_held && life <= listed.life, Mark::ProposedLow),
            (!is_held, Mark::ProposedUnfit),
            (has_other, Mark::ProposedSecond),
        ]);
    }

    fn note_cancelled(&mut self, rows: &[Proposal], announcement: &[u8]) {
        let cycle = number_at(announcement, ARGUMENTS, 4);
        let is_one_of_two = |row: &Proposal| {
            (row.kind, row.cycle) == (7, cycle) && has_other_life(rows, &row.arguments)
        };
        self.marks
            .meet_if(&[(rows.iter().any(is_one_of_two), Mark::CancelledOne)]);
    }

    fn note_rejoin(&mut self, state: &StateFields, announcement: &[u8], day: u32, number: u32) {
        let rows = &state.proposals;
        let arguments = &announcement[ARGUMENTS..];
        let [seat, life] = layout::read(&REJOIN, arguments, 0);
        let is_low = life <= state.seats[seat as usize].life;
        let mut ripe = rows.clone();
        ripe.retain(|row| row.is_ripe(day, state.notices));
        let mut equal = ripe.iter().filter(|row| row.is_subject_of(announcement));
        let has_ripe = equal.clone().next().is_some();
        let was_removed = equal.any(|row| self.outlived.contains(row));
        let is_proposed = rows.iter().any(|row| row.is_subject_of(announcement));
        let is_unproposed = number == 10 && !is_proposed;
        let has_other = has_other_life(rows, arguments);
        let has_other_ripe = has_other_life(&ripe, arguments);
        self.marks.meet_if(&[
            (number == VOTED, Mark::Voted),
            (number == 0 && has_other, Mark::OtherStays),
            (number == 0 && is_full(rows), Mark::FullUsed),
            (number == 9 && was_removed, Mark::Removed),
            (is_unproposed && has_other_ripe, Mark::OtherLife),
            (is_unproposed && is_low, Mark::LowUnproposed),
            (number == 14 && has_ripe && is_low, Mark::Low),
        ]);
    }
}

/// Whether all rows of the table are used and to rejoin.
fn is_full(rows: &[Proposal]) -> bool {
    rows.len() == PROPOSALS.most && rows.iter().all(|row| row.kind == 7)
}

/// Whether a proposal is to rejoin this seat.
fn is_of(row: &Proposal, seat: u8) -> bool {
    row.kind == 7 && row.arguments[0] == seat
}

/// Whether a proposal is to rejoin the seat of these arguments under another life.
fn has_other_life(rows: &[Proposal], arguments: &[u8]) -> bool {
    let mut of_seat = rows.iter().filter(|row| is_of(row, arguments[0]));
    of_seat.any(|row| !arguments.starts_with(&row.arguments))
}

/// Whether a node would vote if no rule up to 14 refused: there is no quorum, and neither 15 nor 16
/// applies.
fn could_vote(state: &StateFields, image: &[u8], sheet: &[u8]) -> bool {
    let Some(own) = OwnFields::read(image) else {
        return false;
    };
    let listed = state.seats[usize::from(own.seat & 31)];
    let has_quorum = state.counted(sheet).count_ones() as usize >= state.quorum();
    let is_listed = (listed.standing, listed.life) == (PRESENT, own.life);
    !has_quorum && is_listed && own.vote.is_none()
}
