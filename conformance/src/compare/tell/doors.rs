//! What was met of doors (request A5), each with its own count.

use super::door_marks::{Mark, ELEVEN, LOCKED, NINE, OPEN, PERFORMED, TENTH};
use super::marks::Counts;
use super::mended::is_mended;
use crate::compare::call::{Outcome, Records, Request, VOTED};
use crate::compare::fields::OwnFields;
use crate::layout::{door_of, kind_of, number_at, DOOR, DOORS, DOOR_AT, DOOR_QUERY_KIND};
use crate::layout::{IMAGE_SIZE, MISSES, MISSES_AT, QUERY_KIND};

pub struct Doors {
    marks: Counts<Mark>,
    /// The image that the last miss at door 0 wrote, and the kind of its query.
    last: (Vec<u8>, u16),
}

impl Doors {
    pub fn new() -> Doors {
        Doors {
            marks: Counts::new(),
            last: (Vec::new(), 0),
        }
    }

    pub fn missing(&self) -> Vec<String> {
        self.marks.missing()
    }

    pub fn summary(&self) -> Vec<String> {
        self.marks.summary()
    }

    /// Takes up a call of a history.
    pub fn note(&mut self, request: &Request, outcome: &Outcome) {
        let Some(own) = OwnFields::read(&request.image) else {
            return;
        };
        match (&request.records, outcome.number) {
            (Records::Query(query), 0 | 17 | 19..=21) => {
                self.note_answer(&own, door_of(query), outcome.number);
                if door_of(query) == 0 {
                    self.note_kinds(&request.image, query, outcome);
                }
            }
            (Records::Deliver(..), 0) => {
                let cleared = |door: usize| (own.misses[door] > 0, PERFORMED[door]);
                self.marks
                    .meet_if(&std::array::from_fn::<_, DOORS, _>(cleared));
            }
            _ => {}
        }
        if own.misses != [0; DOORS] {
            self.note_kept(&request.records, outcome.number);
        }
    }

    /// A query at a door that was answered open, 17 or with a miss.
    fn note_answer(&mut self, own: &OwnFields, door: usize, number: u32) {
        let mut others = (0..DOORS).filter(|other| *other != door);
        let any_locked = others.clone().any(|other| own.is_locked(other));
        let any_counted = others.any(|other| own.misses[other] > 0);
        let has_9 = u32::from(own.misses[door]) + 1 == MISSES.high;
        self.marks.meet_if(&[
            (number == 17 && !any_locked, LOCKED[door]),
            (number == 0 && any_locked, OPEN[door]),
            (number == 0 && has_9, NINE[door]),
            (number > 17 && has_9, TENTH[door]),
            (number == 0 && any_counted, Mark::KeptByOpen),
            (number == 19 && any_counted, Mark::KeptBy19),
            (number == 20 && any_counted, Mark::KeptBy20),
            (number == 21 && any_counted, Mark::KeptBy21),
        ]);
    }

    /// A query at door 0, and the one before it where that was of the other kind and added a miss.
    fn note_kinds(&mut self, image: &[u8], query: &[u8], outcome: &Outcome) {
        let (written, before) = &self.last;
        if written == image {
            let kinds = (*before, kind_of(query), outcome.number);
            self.marks.meet_if(&[
                (kinds == (DOOR_QUERY_KIND, QUERY_KIND, 17), Mark::Locked20),
                (kinds == (QUERY_KIND, DOOR_QUERY_KIND, 17), Mark::Locked21),
                (kinds == (DOOR_QUERY_KIND, QUERY_KIND, 0), Mark::Cleared20),
                (kinds == (QUERY_KIND, DOOR_QUERY_KIND, 0), Mark::Cleared21),
            ]);
        }
        if let (19..=21, Some(written)) = (outcome.number, &outcome.written) {
            self.last = (written.clone(), kind_of(query));
        }
    }

    /// A call that leaves all misses as they are, where there are some: a halted node of a history has
    /// none.
    fn note_kept(&mut self, records: &Records, number: u32) {
        let mark = match (records, number) {
            (Records::Query(_), 1) => Mark::KeptBy1,
            (Records::Query(_), 17) => Mark::KeptBy17,
            (Records::Query(_), 18) => Mark::KeptBy18,
            (Records::Query(_), 22) => Mark::KeptBy22,
            (Records::Deliver(..), VOTED) => Mark::KeptByVote,
            (Records::Deliver(..), 1..) => Mark::KeptByRefused,
            (Records::Start(..), 1..) => Mark::KeptByStart,
            (Records::Checkpoint, _) => Mark::KeptByCheckpoint,
            (Records::Page(_), _) => Mark::KeptByPage,
            _ => return,
        };
        self.marks.meet(mark);
    }

    /// A call that was refused by 1. A door or a count counts where nothing else is malformed.
    pub fn note_malformed(&mut self, request: &Request) {
        if let Records::Query(query) = &request.records {
            let door = number_at(query, DOOR_AT, DOOR.size);
            if query.len() > DOOR_AT && door > DOOR.high && is_mended(request, mend_door) {
                let is_next = door == DOOR.high + 1;
                self.marks
                    .meet_if(&[(is_next, Mark::Door4), (!is_next, Mark::DoorAbove4)]);
            }
        }
        let misses = request.image.get(MISSES_AT..IMAGE_SIZE).unwrap_or_default();
        let eleven = |count: &u8| u32::from(*count) == MISSES.high + 1;
        if let Some(door) = misses.iter().position(eleven) {
            let mend = |request: &mut Request| request.image[MISSES_AT + door] = 0;
            self.marks
                .meet_if(&[(is_mended(request, mend), ELEVEN[door])]);
        }
    }
}

fn mend_door(request: &mut Request) {
    if let Records::Query(query) = &mut request.records {
        query[DOOR_AT] = 0;
    }
}
