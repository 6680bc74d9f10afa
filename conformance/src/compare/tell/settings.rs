//! What was met of notices that the park can set (request A7), each with its own count.

use super::marks::Counts;
use super::setting_marks::{Mark, LAPSE, LONGER, OF_OLD, OTHER, SHORTER};
use crate::compare::call::{Outcome, Records, Request};
use crate::compare::fields::{Notices, Proposal, StateFields, FREE};
use crate::layout::{self, kind_of, to_current, ARGUMENTS, BODY, CYCLE_AND_DAY, LOGINS, MINIMA};
use crate::layout::{MINIMA_KIND, OLD_CHECKPOINT_KIND, PROPOSALS};

/// Performed minima that changed the notices.
struct Change {
    cycle: u32,
    before: Notices,
    after: Notices,
}

pub struct Settings {
    pub(super) marks: Counts<Mark>,
    /// Of this history.
    changes: Vec<Change>,
    /// The states of this history from which a node started by kind 16, as checkpoints of kind 26.
    started: Vec<Vec<u8>>,
    /// Those of them that a checkpoint call gave.
    given: Vec<Vec<u8>>,
}

/// A delivery of kind 4 to 7 that is performed or refused by 10.
struct Used<'a> {
    state: &'a StateFields,
    announcement: &'a [u8],
    day: u32,
    is_done: bool,
    /// The listed proposals of its kind and arguments, lapsed ones too.
    equal: Vec<Proposal>,
}

impl Settings {
    pub fn new() -> Settings {
        Settings {
            marks: Counts::new(),
            changes: Vec::new(),
            started: Vec::new(),
            given: Vec::new(),
        }
    }

    pub fn missing(&self) -> Vec<String> {
        self.marks.missing()
    }

    pub fn summary(&self) -> Vec<String> {
        self.marks.summary()
    }

    /// A new history begins.
    pub fn begin(&mut self) {
        self.changes.clear();
        self.started.clear();
        self.given.clear();
    }

    /// Takes up a call of a history.
    pub fn note(&mut self, request: &Request, outcome: &Outcome) {
        match (&request.records, outcome.number, &outcome.written) {
            (Records::Start(checkpoint, _), 0, _) => self.note_started(checkpoint),
            (Records::Checkpoint, 0, Some(written)) if self.started.contains(written) => {
                self.given.push(written.clone());
            }
            (Records::Deliver(announcement, _), number @ (0 | 10), _) => {
                self.note_delivery(&request.image, announcement, number == 0);
            }
            _ => {}
        }
    }

    fn note_started(&mut self, checkpoint: &[u8]) {
        let is_again = self.given.iter().any(|given| given == checkpoint);
        self.marks.meet_if(&[(is_again, Mark::StartedAgain)]);
        if kind_of(checkpoint) == OLD_CHECKPOINT_KIND {
            self.started.push(to_current(checkpoint).into_owned());
        }
    }

    /// Takes up an accepted start of any call.
    pub fn note_start(&mut self, checkpoint: &[u8]) {
        let Some(state) = StateFields::read(checkpoint) else {
            return;
        };
        let is_old = kind_of(checkpoint) == OLD_CHECKPOINT_KIND;
        let is_full = state.proposals.len() == PROPOSALS.most
            && state.logins.len() == LOGINS.most
            && state.seats_of(&[FREE]).is_empty();
        let names = |row: &Proposal| {
            row.kind == MINIMA_KIND && Notices::named(&row.arguments) != Notices::new(0, 0)
        };
        let any_named = state.proposals.iter().any(names);
        self.marks.meet_if(&[
            (!is_old, Mark::Started26),
            (is_old, Mark::Started16),
            (is_old && is_full, Mark::StartedFull),
            (is_old && any_named, Mark::StartedNamed),
        ]);
    }

    fn note_delivery(&mut self, image: &[u8], announcement: &[u8], is_done: bool) {
        let (Some(state), kind @ 4..=7) = (StateFields::read(image), kind_of(announcement)) else {
            return;
        };
        let [_, day] = layout::read(&CYCLE_AND_DAY, announcement, BODY);
        let rows = state.proposals.iter().copied();
        let equal = rows.filter(|row| row.is_subject_of(announcement)).collect();
        let used = Used {
            state: &state,
            announcement,
            day,
            is_done,
            equal,
        };
        self.note_days(&used, kind);
        self.note_changed(&used, kind);
        if kind == MINIMA_KIND {
            self.note_minima(&used);
        }
    }

    /// The edges of a notice.
    fn note_days(&mut self, used: &Used, kind: u16) {
        let in_force = used.state.notices.of(kind);
        let (is_done, age) = (used.is_done, used.age());
        let edges = match in_force == Notices::OF_OLD.of(kind) {
            true => OF_OLD,
            false => OTHER,
        };
        let [early, first] = edges[usize::from(kind) - 4];
        self.marks.meet_if(&[
            (!is_done && used.has_age(i64::from(in_force) - 1), early),
            (is_done && age == Some(in_force.into()), first),
        ]);
        let of_notice =
            |(days, is_restart, _): &&(u32, bool, _)| (*days, *is_restart) == (in_force, kind == 7);
        if let Some((_, _, [on_60, on_61])) = LAPSE.iter().find(of_notice) {
            self.marks.meet_if(&[
                (is_done && age == Some(60), *on_60),
                (!is_done && used.has_age(61), *on_61),
            ]);
        }
    }

    /// A proposal that was listed when the notices changed last.
    fn note_changed(&mut self, used: &Used, kind: u16) {
        let (state, place) = (used.state, usize::from(kind) - 4);
        let leads_here =
            |change: &&Change| change.cycle < state.cycle && change.after == state.notices;
        let last = self.changes.iter().filter(leads_here);
        let Some(change) = last.max_by_key(|change| change.cycle) else {
            return;
        };
        let was_ripe = |row: &Proposal| row.is_ripe(used.day, change.before);
        let mut listed = used.equal.iter().filter(|row| row.cycle < change.cycle);
        let is_longer = !used.is_done && listed.any(was_ripe);
        let row = used.row().filter(|row| row.cycle < change.cycle);
        let is_shorter = used.is_done && row.is_some_and(|row| !was_ripe(row));
        self.marks
            .meet_if(&[(is_longer, LONGER[place]), (is_shorter, SHORTER[place])]);
    }

    fn note_minima(&mut self, used: &Used) {
        let before = used.state.notices;
        let named = Notices::named(&used.announcement[ARGUMENTS..]);
        let after = before.after(named);
        if !used.is_done {
            let only_new = |row: &Proposal| row.is_ripe(used.day, after);
            let is_new_only = used.equal.iter().any(only_new);
            self.marks.meet_if(&[(is_new_only, Mark::MinimaNewOnly)]);
            return self.note_zeros(used, named);
        }
        let is_old_only = used.row().is_some_and(|row| !row.is_ripe(used.day, after));
        let (keeps_ordinary, keeps_restart) = (named.ordinary == 0, named.restart == 0);
        self.marks.meet_if(&[
            (is_old_only, Mark::MinimaOldOnly),
            (keeps_ordinary && !keeps_restart, Mark::KeptOrdinary),
            (keeps_restart && !keeps_ordinary, Mark::KeptRestart),
            (keeps_ordinary && keeps_restart, Mark::KeptBoth),
        ]);
        if after != before {
            let cycle = used.state.cycle;
            self.note_change(Change {
                cycle,
                before,
                after,
            });
        }
    }

    fn note_change(&mut self, change: Change) {
        let Change {
            cycle,
            before,
            after,
        } = change;
        let set = |of: fn(Notices) -> u32, days: u32| of(before) != days && of(after) == days;
        let (ordinary, restart) = (|n: Notices| n.ordinary, |n: Notices| n.restart);
        let raised = |of: fn(Notices) -> u32| {
            let lowered = |other: &Change| {
                other.cycle < cycle && of(other.before) != 1 && of(other.after) == 1
            };
            of(before) == 1 && of(after) > 1 && self.changes.iter().any(lowered)
        };
        let marks = [
            (set(ordinary, 1), Mark::Ordinary1),
            (set(ordinary, 30), Mark::Ordinary30),
            (set(restart, 1), Mark::Restart1),
            (set(restart, 30), Mark::Restart30),
            (raised(ordinary), Mark::OrdinaryRaised),
            (raised(restart), Mark::RestartRaised),
        ];
        self.marks.meet_if(&marks);
        self.changes.push(change);
    }

    /// Minima refused by 10 where ripe ones are listed that would leave the same in force.
    fn note_zeros(&mut self, used: &Used, named: Notices) {
        let state = used.state;
        let values = &used.announcement[ARGUMENTS..ARGUMENTS + layout::size(&MINIMA)];
        let is_same = |row: &&Proposal| {
            let proposed = Notices::named(&row.arguments);
            row.kind == MINIMA_KIND
                && row.is_ripe(used.day, state.notices)
                && row.arguments.starts_with(values)
                && state.notices.after(proposed) == state.notices.after(named)
        };
        for row in state.proposals.iter().filter(is_same) {
            let proposed = Notices::named(&row.arguments);
            let has_zero = |one: Notices, other: Notices| {
                one.ordinary < other.ordinary || one.restart < other.restart
            };
            self.marks.meet_if(&[
                (has_zero(proposed, named), Mark::ProposedZero),
                (has_zero(named, proposed), Mark::AnnouncedZero),
            ]);
        }
    }
}

impl Used<'_> {
    /// The proposal that is used up where it is performed.
    fn row(&self) -> Option<&Proposal> {
        let mut rows = self.equal.iter();
        rows.find(|row| row.is_ripe(self.day, self.state.notices))
    }

    fn age(&self) -> Option<i64> {
        self.row().map(|row| row.age(self.day))
    }

    fn has_age(&self, age: i64) -> bool {
        self.equal.iter().any(|row| row.age(self.day) == age)
    }
}
