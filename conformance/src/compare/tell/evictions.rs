//! What the histories met of grants into a full list (request A8), each with its own count.

use super::eviction_marks::Mark;
use super::marks::Counts;
use crate::compare::call::{Event, Records, VOTED};
use crate::compare::fields::{first_to_end, Login, OwnFields, StateFields, CERTIFIED};
use crate::layout::{self, kind_of, number_at, ARGUMENTS, BODY, CHECKPOINT_SIZE, CYCLE_AND_DAY};
use crate::layout::{LOGINS, QUERY};

/// A performed grant, end or eviction of a login.
struct Change {
    login: u32,
    cycle: u32,
    is_eviction: bool,
}

/// A performed eviction.
struct Eviction {
    by_value: bool,
    announcement: Vec<u8>,
    granted: u32,
    cycle: u32,
    /// The checkpoints before and after it.
    before: Vec<u8>,
    after: Vec<u8>,
}

/// A performed action whose day is beyond the silence limit of the node.
struct Jump {
    cycle: u32,
    from: u32,
    to: u32,
}

pub struct Evictions {
    marks: Counts<Mark>,
    /// Of this history.
    changes: Vec<Change>,
    evictions: Vec<Eviction>,
    jumps: Vec<Jump>,
}

/// A delivered grant.
struct Grant<'a> {
    event: &'a Event,
    announcement: &'a [u8],
    state: StateFields,
    day: u32,
    named: Login,
}

impl Evictions {
    pub fn new() -> Evictions {
        Evictions {
            marks: Counts::new(),
            changes: Vec::new(),
            evictions: Vec::new(),
            jumps: Vec::new(),
        }
    }

    pub fn missing(&self) -> Vec<String> {
        self.marks.missing()
    }

    pub fn summary(&self) -> Vec<String> {
        self.marks.summary()
    }

    /// A new history begins.
    pub fn begin(&mut self) {
        self.changes.clear();
        self.evictions.clear();
        self.jumps.clear();
    }

    /// Takes up a call of a history, at a host that holds its node by value or through C.
    pub fn note(&mut self, event: &Event, by_value: bool) {
        let image = &event.request.image;
        match (&event.request.records, event.outcome.number) {
            (Records::Start(checkpoint, _), 0) => {
                let is_after = self.evictions.iter().any(|done| done.after == *checkpoint);
                self.marks.meet_if(&[(is_after, Mark::Started)]);
            }
            (Records::Page(_), 0) => {
                let is_of = |done: &Eviction| image.starts_with(&done.after);
                let is_after = self.evictions.iter().any(is_of);
                self.marks.meet_if(&[(is_after, Mark::Page)]);
            }
            (Records::Query(query), number @ (0 | 19 | 20)) if !self.evictions.is_empty() => {
                self.note_query(image, query, number);
            }
            (Records::Deliver(announcement, _), number @ (0 | 11 | 13..=16 | VOTED)) => {
                match kind_of(announcement) {
                    8 => self.note_grant(event, announcement, by_value),
                    9 => self.note_end(announcement, number),
                    _ => {}
                }
                if number == 0 {
                    self.note_day(image, announcement);
                }
            }
            _ => {}
        }
    }

    /// Whether the last change of a login before a cycle is an eviction.
    fn is_evicted(&self, login: u32, cycle: u32) -> bool {
        let changes = self.changes.iter();
        let before = changes.filter(|change| change.login == login && change.cycle < cycle);
        let last = before.max_by_key(|change| change.cycle);
        last.is_some_and(|change| change.is_eviction)
    }

    fn note_query(&mut self, image: &[u8], query: &[u8], number: u32) {
        let [cycle, _] = layout::read(&CYCLE_AND_DAY, image, BODY);
        let [login, ..] = layout::read(&QUERY, query, BODY);
        let evicts_later =
            |change: &Change| change.is_eviction && change.login == login && change.cycle >= cycle;
        let is_behind = self.changes.iter().any(evicts_later);
        let is_gone = self.is_evicted(login, cycle);
        self.marks.meet_if(&[
            (number == 19 && is_gone, Mark::Query19),
            (number == 20 && is_behind, Mark::Query20),
            (number == 0 && is_behind, Mark::QueryOpen),
        ]);
    }

    fn note_end(&mut self, announcement: &[u8], number: u32) {
        let [cycle, _] = layout::read(&CYCLE_AND_DAY, announcement, BODY);
        let login = number_at(announcement, ARGUMENTS, 4);
        let is_gone = self.is_evicted(login, cycle);
        self.marks
            .meet_if(&[(number == 13 && is_gone, Mark::End13)]);
        if number == 0 {
            self.change(login, cycle, false);
        }
    }

    fn change(&mut self, login: u32, cycle: u32, is_eviction: bool) {
        self.changes.push(Change {
            login,
            cycle,
            is_eviction,
        });
    }

    /// A performed action on a later day.
    fn note_day(&mut self, image: &[u8], announcement: &[u8]) {
        let Some(state) = StateFields::read(image) else {
            return;
        };
        let [cycle, to] = layout::read(&CYCLE_AND_DAY, announcement, BODY);
        let from = state.day;
        if to - from > u32::from(state.silence) {
            self.jumps.push(Jump { cycle, from, to });
        }
    }

    fn note_grant(&mut self, event: &Event, announcement: &[u8], by_value: bool) {
        let Some(state) = StateFields::read(&event.request.image) else {
            return;
        };
        let [_, day] = layout::read(&CYCLE_AND_DAY, announcement, BODY);
        let named = Login::of(announcement);
        let grant = Grant {
            event,
            announcement,
            state,
            day,
            named,
        };
        let (rows, number) = (&grant.state.logins, event.outcome.number);
        let Some(first) = first_to_end(rows) else {
            return;
        };
        let is_full = rows.len() == LOGINS.most;
        match grant.state.place_of(named.login) {
            None if is_full => self.note_full(&grant, first, by_value),
            Some(place) if is_full && number == 0 => self.note_listed(&grant, first, place),
            None if number == 0 => self.note_room(&grant, first),
            _ => {}
        }
        if number == 0 {
            self.change(named.login, grant.state.cycle, false);
        }
    }

    fn note_listed(&mut self, grant: &Grant, first: usize, place: usize) {
        let is_over = grant.state.logins[first].is_over(grant.day);
        self.marks.meet_if(&[
            (is_over && place != first, Mark::ListedOther),
            (is_over && place == first, Mark::ListedOwn),
        ]);
    }

    fn note_room(&mut self, grant: &Grant, first: usize) {
        let rows = &grant.state.logins;
        let is_over = rows[first].is_over(grant.day);
        let is_gone = self.is_evicted(grant.named.login, grant.state.cycle);
        self.marks.meet_if(&[
            (rows.len() + 1 == LOGINS.most && is_over, Mark::Room63),
            (is_gone, Mark::AgainRoom),
        ]);
    }

    /// A grant to a full list of a login that is not listed.
    fn note_full(&mut self, grant: &Grant, first: usize, by_value: bool) {
        let (day, number) = (grant.day, grant.event.outcome.number);
        let end = grant.state.logins[first].end;
        let (is_late, is_over) = (grant.named.is_over(day), end < day);
        self.marks.meet_if(&[
            (number == 11 && end == day, Mark::OnDay),
            (
                number == 11 && end.checked_sub(1) == Some(day),
                Mark::DayAfter,
            ),
            (number == 11 && (end, day) == (0, 0), Mark::OnDay0),
            (number == 11 && is_late, Mark::LateFull),
            (number == 14 && is_over, Mark::Late),
            (number == VOTED, Mark::Voted),
            (number == 15, Mark::No15),
            (number == 16, Mark::No16),
        ]);
        if number != 0 {
            return;
        }
        self.note_days(grant, end);
        self.note_places(grant, first);
        self.note_performer(grant);
        self.note_sequence(grant, first);
        self.keep(grant, first, by_value);
    }

    fn note_days(&mut self, grant: &Grant, end: u32) {
        let Grant { state, day, .. } = grant;
        let rows = &state.logins;
        let equal = rows.iter().filter(|row| row.end == end).count();
        let age = day - end;
        self.marks.meet_if(&[
            (equal == 1, Mark::Alone),
            (equal == 2, Mark::OfTwo),
            (equal > 2, Mark::OfMore),
            (age == 1, Mark::DayBefore),
            (*day == u32::MAX, Mark::OnLastDay),
            (end == 0, Mark::EndedOn0),
            (end >= state.day, Mark::SinceAgreed),
            (age < u32::from(state.silence), Mark::WithinLimit),
            (rows.iter().all(|row| row.is_over(*day)), Mark::AllOver),
        ]);
    }

    fn note_places(&mut self, grant: &Grant, evicted: usize) {
        let rows = &grant.state.logins;
        let is_below =
            |(place, row): &(usize, &Login)| *place != evicted && row.login < grant.named.login;
        let to = rows.iter().enumerate().filter(is_below).count();
        let last = LOGINS.most - 1;
        self.marks.meet_if(&[
            (evicted == 0, Mark::FirstRow),
            (evicted > 0 && evicted < last, Mark::MiddleRow),
            (evicted == last, Mark::LastRow),
            (rows[evicted].login == 1, Mark::Login1),
            (rows[evicted].login == u32::MAX, Mark::LoginMost),
            (to == 0, Mark::ToFirst),
            (to == last, Mark::ToLast),
            (to < evicted, Mark::Before),
            (to > evicted, Mark::Behind),
            (to == evicted, Mark::SamePlace),
            ((evicted, to) == (0, last), Mark::FirstToLast),
            ((evicted, to) == (last, 0), Mark::LastToFirst),
        ]);
    }

    fn note_performer(&mut self, grant: &Grant) {
        let Some(own) = OwnFields::read(&grant.event.request.image) else {
            return;
        };
        let listed = grant.state.seats[usize::from(own.seat & 31)];
        let has_voted = own.vote.as_deref() == Some(grant.announcement);
        let mut proposals = grant.state.proposals.iter();
        self.marks.meet_if(&[
            (has_voted, Mark::VotedThenDone),
            (listed.standing == CERTIFIED, Mark::Certified),
            (listed.life != own.life, Mark::OtherLife),
            (
                proposals.any(|row| row.is_lapsed(grant.day)),
                Mark::WithLapsed,
            ),
        ]);
    }

    /// What an eviction has to do with what was performed before it.
    fn note_sequence(&mut self, grant: &Grant, evicted: usize) {
        let state = &grant.state;
        let row = state.logins[evicted];
        let before = grant.checkpoint();
        let earlier = self
            .evictions
            .iter()
            .filter(|done| done.cycle < state.cycle);
        let last = earlier.clone().max_by_key(|done| done.cycle);
        let jump = Jump {
            cycle: state.cycle,
            from: state.day,
            to: grant.day,
        };
        let is_beyond = jump.to - jump.from > u32::from(state.silence);
        let mut jumps = self.jumps.iter().filter(|jump| jump.cycle < state.cycle);
        let marks = [
            (is_beyond && jump.ends(&row), Mark::JumpedBeyond),
            (jumps.any(|jump| jump.ends(&row)), Mark::AfterJump),
            (
                earlier.clone().any(|done| done.after == before),
                Mark::Second,
            ),
            (
                last.is_some_and(|done| done.granted == row.login),
                Mark::GrantedNext,
            ),
            (
                self.is_evicted(grant.named.login, state.cycle),
                Mark::AgainEvicting,
            ),
        ];
        self.marks.meet_if(&marks);
    }

    /// Takes up an eviction; where another host performed the same one from the same state, that too.
    fn keep(&mut self, grant: &Grant, evicted: usize, by_value: bool) {
        let state = &grant.state;
        let done = Eviction {
            by_value,
            announcement: grant.announcement.to_vec(),
            granted: grant.named.login,
            cycle: state.cycle,
            before: grant.checkpoint().to_vec(),
            after: grant.event.held[..CHECKPOINT_SIZE].to_vec(),
        };
        let is_both = self
            .evictions
            .iter()
            .any(|other| done.is_at_other_host(other));
        self.marks.meet_if(&[(is_both, Mark::BothHosts)]);
        self.change(state.logins[evicted].login, state.cycle, true);
        self.evictions.push(done);
    }
}

impl Grant<'_> {
    /// The checkpoint of the state before it.
    fn checkpoint(&self) -> &[u8] {
        &self.event.request.image[..CHECKPOINT_SIZE]
    }
}

impl Jump {
    /// Whether a row is over after it and was not before.
    fn ends(&self, row: &Login) -> bool {
        !row.is_over(self.from) && row.is_over(self.to)
    }
}

impl Eviction {
    fn is_at_other_host(&self, other: &Eviction) -> bool {
        self.by_value != other.by_value
            && self.before == other.before
            && self.announcement == other.announcement
            && self.after == other.after
    }
}
