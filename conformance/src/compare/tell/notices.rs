//! What the histories met of notices that lapse (request A3), each with its own count.

use super::marks::Counts;
use super::notice_marks::{Mark, DROPPED, USED};
use crate::compare::call::{Outcome, Records, Request, VOTED};
use crate::compare::fields::{self, Proposal, StateFields};
use crate::layout::{self, kind_of, ARGUMENTS, BODY, CYCLE_AND_DAY, PROPOSALS};

pub type Notices = Counts<Mark>;

impl Notices {
    pub fn note(&mut self, request: &Request, outcome: &Outcome) {
        let before = match &request.records {
            Records::Start(checkpoint, _) => checkpoint,
            _ => &request.image,
        };
        let Some(state) = StateFields::read(before) else {
            return;
        };
        let has_lapsed = state.proposals.iter().any(|row| row.is_lapsed(state.day));
        match (&request.records, outcome.number) {
            // Others leave open whether the announcement is well formed.
            (Records::Deliver(announcement, _), number @ (0 | 3..=16 | VOTED)) => {
                self.note_delivery(&state, announcement, number);
            }
            (Records::Start(..), 0) => self.meet_if(&[(has_lapsed, Mark::Started)]),
            (Records::Query(_), 0 | 19..=21) => self.meet_if(&[(has_lapsed, Mark::Queried)]),
            (Records::Checkpoint, 0) => self.meet_if(&[(has_lapsed, Mark::Checkpoint)]),
            _ => {}
        }
    }

    fn note_delivery(&mut self, state: &StateFields, announcement: &[u8], number: u32) {
        let rows = &state.proposals;
        let [_, day] = layout::read(&CYCLE_AND_DAY, announcement, BODY);
        let kind = kind_of(announcement);
        match kind {
            1 => self.note_proposed(rows, day, number),
            2 => self.note_cancelled(rows, announcement, day, number),
            4..=7 => self.note_used(rows, state.notices, announcement, number),
            _ => {}
        }
        if rows.iter().any(|row| row.is_lapsed(day)) {
            self.meet(match number {
                0 => DROPPED[usize::from(kind) - 1],
                VOTED => Mark::Voted,
                3..=8 => Mark::Refused3To8,
                9..=14 => Mark::Refused9To14,
                _ => Mark::Refused15Or16,
            });
        }
    }

    fn note_proposed(&mut self, rows: &[Proposal], day: u32, number: u32) {
        if rows.len() < PROPOSALS.most {
            return;
        }
        let oldest = rows.iter().map(|row| row.age(day)).max();
        let all_lapsed = rows.iter().all(|row| row.is_lapsed(day));
        self.meet_if(&[
            (number == 11 && oldest == Some(60), Mark::Full60),
            (number == 0 && oldest == Some(61), Mark::Full61),
            (number == 0 && all_lapsed, Mark::FullLapsed),
        ]);
    }

    fn note_cancelled(&mut self, rows: &[Proposal], announcement: &[u8], day: u32, number: u32) {
        let cycle = layout::number_at(announcement, ARGUMENTS, 4);
        let row = rows.iter().find(|row| row.cycle == cycle);
        let age = row.map(|row| row.age(day));
        self.meet_if(&[
            (number == 0 && age == Some(60), Mark::Cancel60),
            (number == 13 && age == Some(61), Mark::Cancel61),
        ]);
    }

    /// Kinds 4 to 7.
    fn note_used(
        &mut self,
        rows: &[Proposal],
        in_force: fields::Notices,
        announcement: &[u8],
        number: u32,
    ) {
        let kind = kind_of(announcement);
        let [_, day] = layout::read(&CYCLE_AND_DAY, announcement, BODY);
        let [early, first, on_60, on_61] = USED[usize::from(kind) - 4];
        let least = i64::from(in_force.of(kind));
        let equal = rows.iter().filter(|row| row.is_subject_of(announcement));
        let has = |age: i64| equal.clone().any(|row| row.age(day) == age);
        let used = equal.clone().find(|row| row.is_ripe(day, in_force));
        let first_lapsed = equal.clone().find(|row| row.is_lapsed(day));
        let is_behind = match (first_lapsed, used) {
            (Some(lapsed), Some(used)) => lapsed.cycle < used.cycle,
            _ => false,
        };
        let age = used.map(|row| row.age(day));
        self.meet_if(&[
            (number == 10 && has(least - 1), early),
            (number == 0 && age == Some(least), first),
            (number == 0 && age == Some(60), on_60),
            (number == 10 && has(61), on_61),
            (number == 0 && is_behind, Mark::BehindLapsed),
        ]);
    }
}
