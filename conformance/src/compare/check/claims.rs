//! The claims about a whole history (document 01, "One park, one list"): nodes at equal cycles
//! share one state, and a login that was ended, or evicted (02, A8: dropped), is not open beyond the
//! silence limit. Both hold for lawful starts within the bound on double voters. The claims about pages
//! are in `pages`, those about notices in `notices` and `settings`, those about lives in `restarts`, those
//! about doors in `doors`, those about full lists in `evictions`.

use super::doors;
use super::evictions;
use super::notices;
use super::one_call;
use super::pages::{Pages, WORDS};
use super::restarts;
use super::settings;
use crate::compare::call::{Event, Records};
use crate::compare::fields::StateFields;
use crate::layout::{self, kind_of, ARGUMENTS, BODY, CYCLE_AND_DAY, QUERY};
use std::cmp::Ordering;
use std::collections::{HashMap, HashSet};

/// A delivery that was performed.
struct Performed {
    announcement: Vec<u8>,
    /// Seats that count on the sheet, as bits.
    counted: u32,
    /// The margin in force.
    margin: u8,
}

/// An end, an eviction or a grant of a login that was performed.
struct Change {
    login: u32,
    cycle: u32,
    day: u32,
}

/// A query that was answered open, with the asked node's silence limit and cycle.
struct Opened {
    login: u32,
    day: u32,
    silence: u16,
    cycle: u32,
}

/// What a history showed about the claims.
pub struct Tally {
    /// Its starts are lawful and it is within the bound, so that the claims were checked on it.
    pub within: bool,
    /// Two nodes at one cycle differ: never within the bound.
    pub split: bool,
    /// Nodes met at a cycle that another one had reached before.
    pub shared: u64,
    /// Pairs of deliveries with different announcements and exactly 2m+1 seats on both sheets.
    pub tight: u64,
    /// Queries for an ended login beyond the limit that were open, since it was granted again.
    pub regranted: u64,
    /// The same for an evicted login.
    pub readmitted: u64,
    /// Queries for an ended login that were open on the last day that the limit allows.
    pub at_limit: u64,
    /// Pages for a cycle and a day for which one was given before.
    pub pages: u64,
    /// Lines of pages by the place of their word in `pages::WORDS`, where a query agreed.
    pub asked: [u64; WORDS.len()],
}

pub struct Claims {
    first: Vec<u8>,
    given: HashSet<Vec<u8>>,
    lawful: bool,
    /// By the state's checkpoint: the deliveries performed from it.
    performed: HashMap<Vec<u8>, Vec<Performed>>,
    /// By cycle: the first checkpoint seen.
    states: HashMap<u32, Vec<u8>>,
    split: Option<u32>,
    shared: u64,
    ends: Vec<Change>,
    evictions: Vec<Change>,
    grants: Vec<Change>,
    opened: Vec<Opened>,
    pages: Pages,
}

impl Claims {
    pub fn new(first: &[u8]) -> Claims {
        Claims {
            first: first.to_vec(),
            given: HashSet::new(),
            lawful: true,
            performed: HashMap::new(),
            states: HashMap::new(),
            split: None,
            shared: 0,
            ends: Vec::new(),
            evictions: Vec::new(),
            grants: Vec::new(),
            opened: Vec::new(),
            pages: Pages::default(),
        }
    }

    /// Takes up a call. Only answer 0 starts, performs, opens or gives.
    pub fn note(&mut self, event: &Event) -> Result<(), String> {
        notices::check(event)?;
        restarts::check(event)?;
        settings::check(event)?;
        doors::check(event)?;
        let evicted = evictions::check(event)?;
        let (0, Some(written)) = (event.outcome.number, &event.outcome.written) else {
            return Ok(());
        };
        match &event.request.records {
            Records::Start(checkpoint, _) => {
                self.lawful &= *checkpoint == self.first || self.given.contains(checkpoint);
                self.note_state(written)
            }
            Records::Deliver(announcement, sheet) => {
                self.note_performed(&event.request.image, announcement, sheet)?;
                self.note_changes(announcement, evicted);
                self.note_state(written)
            }
            Records::Query(query) => {
                let asked = StateFields::read(&event.request.image);
                let asked = asked.ok_or("a short image answers open")?;
                let [login, day, _] = layout::read(&QUERY, query, BODY);
                self.opened.push(Opened {
                    login,
                    day,
                    silence: asked.silence,
                    cycle: asked.cycle,
                });
                Ok(())
            }
            Records::Checkpoint => {
                self.given.insert(written.clone());
                Ok(())
            }
            Records::Page(day) => self.pages.note(&event.request.image, *day, written),
            _ => Ok(()),
        }
    }

    fn note_state(&mut self, image: &[u8]) -> Result<(), String> {
        let state = one_call::checkpoint_of(image)
            .ok_or("an image that was written gives no checkpoint")?;
        let [cycle, _] = layout::read(&CYCLE_AND_DAY, &state, BODY);
        match self.states.get(&cycle) {
            Some(seen) if *seen != state => self.split = Some(cycle),
            Some(_) => self.shared += 1,
            None => drop(self.states.insert(cycle, state)),
        }
        Ok(())
    }

    fn note_performed(
        &mut self,
        image: &[u8],
        announcement: &[u8],
        sheet: &[u8],
    ) -> Result<(), String> {
        let state =
            one_call::checkpoint_of(image).ok_or("an image that performs gives no checkpoint")?;
        let fields = StateFields::read(&state).ok_or("a checkpoint is short")?;
        let performed = Performed {
            announcement: announcement.to_vec(),
            counted: fields.counted(sheet),
            margin: fields.margin,
        };
        self.performed.entry(state).or_default().push(performed);
        Ok(())
    }

    /// Takes up what a performed announcement does to the list of logins.
    fn note_changes(&mut self, announcement: &[u8], evicted: Option<u32>) {
        let [cycle, day] = layout::read(&CYCLE_AND_DAY, announcement, BODY);
        let change = |login: u32| Change { login, cycle, day };
        // Grant and end both begin with the login.
        let named = change(layout::number_at(announcement, ARGUMENTS, 4));
        match kind_of(announcement) {
            8 => self.grants.push(named),
            9 => self.ends.push(named),
            _ => {}
        }
        self.evictions.extend(evicted.map(change));
    }

    /// By pair of performed deliveries from one state with different announcements: seats that
    /// count on both sheets, and 2m.
    fn double_voters(&self) -> Vec<(u32, u32)> {
        let mut pairs = Vec::new();
        for deliveries in self.performed.values() {
            for (i, one) in deliveries.iter().enumerate() {
                let others = deliveries[..i]
                    .iter()
                    .filter(|other| other.announcement != one.announcement);
                let both = others.map(|other| (one.counted & other.counted).count_ones());
                pairs.extend(both.map(|both| (both, 2 * u32::from(one.margin))));
            }
        }
        pairs
    }

    /// What the history showed; an error where the premises hold and a claim does not.
    pub fn verdict(&self) -> Result<Tally, String> {
        let pairs = self.double_voters();
        let within = self.lawful && pairs.iter().all(|(both, bound)| both <= bound);
        if let (true, Some(cycle)) = (within, self.split) {
            return Err(format!(
                "two nodes at cycle {cycle} differ, within the bound"
            ));
        }
        if let (true, Some((cycle, day))) = (within, self.pages.split) {
            return Err(format!(
                "two nodes at cycle {cycle} give other pages for day {day}, within the bound"
            ));
        }
        let tight = pairs.iter().filter(|(both, bound)| *both == bound + 1);
        let [regranted, at_limit] = self.opened_after("ended", &self.ends, within)?;
        let [readmitted, _] = self.opened_after("evicted", &self.evictions, within)?;
        Ok(Tally {
            within,
            split: self.split.is_some(),
            shared: self.shared,
            tight: tight.count() as u64,
            regranted,
            readmitted,
            at_limit,
            pages: self.pages.shared,
            asked: self.pages.asked,
        })
    }

    /// Open queries for logins that were ended or evicted: beyond the limit since granted again, and on
    /// the last day that it allows.
    fn opened_after(&self, how: &str, gone: &[Change], within: bool) -> Result<[u64; 2], String> {
        let [mut again, mut at_limit] = [0; 2];
        for gone in gone {
            for opened in self.opened.iter().filter(|o| o.login == gone.login) {
                // In 64 bits, so that the sum is never cut.
                let limit = u64::from(gone.day) + u64::from(opened.silence);
                match u64::from(opened.day).cmp(&limit) {
                    Ordering::Less => {}
                    Ordering::Equal => at_limit += 1,
                    Ordering::Greater if self.is_granted_again(gone, opened) => again += 1,
                    Ordering::Greater if within => return Err(opened.after(how, gone)),
                    Ordering::Greater => {}
                }
            }
        }
        Ok([again, at_limit])
    }

    fn is_granted_again(&self, gone: &Change, opened: &Opened) -> bool {
        self.grants.iter().any(|grant| {
            grant.login == gone.login && grant.cycle > gone.cycle && grant.cycle < opened.cycle
        })
    }
}

impl Opened {
    /// That it is open though it was ended or evicted.
    fn after(&self, how: &str, gone: &Change) -> String {
        let (login, since) = (gone.login, gone.cycle);
        let (day, cycle) = (self.day, self.cycle);
        format!("login {login}, {how} in cycle {since}, is open on day {day} in cycle {cycle}")
    }
}
