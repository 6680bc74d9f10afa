//! Makes a random history, one call after the other, with a look at the state that each call will
//! meet.

use super::announcements;
use super::ended_logins;
use super::evictions;
use super::habits::Habits;
use super::malformed;
use super::random::Random;
use super::sheets::{self, Aim};
use super::starts_queries;
use super::states;
use crate::compare::call::{Call, Event, History, Records};
use crate::compare::check::hosts::Hosts;
use crate::compare::fields::{OwnFields, StateFields, PRESENT};
use crate::layout::{kind_of, CHECKPOINT_SIZE, DOOR};
use crate::paper::{Answer, Node};
use std::collections::HashMap;

/// Queries that add misses at a door of a host until it is locked, or nearly so.
#[derive(Clone, Copy, Default)]
struct BadQueries {
    host: usize,
    door: u8,
    left: u32,
}

pub struct HistoryMaker {
    rng: Random,
    habits: Habits,
    first: Vec<u8>,
    given: Vec<Vec<u8>>,
    /// By the state's checkpoint: the announcement that was performed first, and the seats that
    /// counted, as bits.
    chosen: HashMap<Vec<u8>, (Vec<u8>, u32)>,
    /// Earlier deliveries, to be repeated at any host.
    sent: Vec<Records>,
    /// What comes next at one door.
    bad_queries: BadQueries,
    /// The logins that were evicted.
    evicted: Vec<u32>,
}

impl HistoryMaker {
    /// A maker, and the history without its calls.
    pub fn new(mut rng: Random) -> (HistoryMaker, History) {
        let first = states::any_state(&mut rng);
        let first = states::checkpoint(&mut rng, &first);
        let by_value = (0..rng.within(3, 8)).map(|_| rng.chance(40)).collect();
        let habits = Habits::any(&mut rng);
        let history = History {
            by_value,
            first: first.clone(),
            calls: Vec::new(),
        };
        let maker = HistoryMaker {
            rng,
            habits,
            first,
            given: Vec::new(),
            chosen: HashMap::new(),
            sent: Vec::new(),
            bad_queries: BadQueries::default(),
            evicted: Vec::new(),
        };
        (maker, history)
    }

    pub fn length(&mut self) -> usize {
        self.rng.within(20, 400) as usize
    }

    pub fn call(&mut self, hosts: &Hosts) -> Call {
        let BadQueries { mut host, left, .. } = self.bad_queries;
        if left == 0 {
            host = self.rng.below(hosts.count());
        }
        let image = hosts.image(host).unwrap_or_default();
        let records = match image.len() {
            0 => self.start(),
            _ if left > 0 => self.bad_query(&image),
            _ => self.records(hosts, host, &image),
        };
        let size = records.size(&image);
        let out = starts_queries::out_length(&mut self.rng, size, self.habits.short);
        Call { host, records, out }
    }

    /// Takes up what a call gave or performed.
    pub fn learn(&mut self, event: &Event) {
        let (0, Some(written)) = (event.outcome.number, &event.outcome.written) else {
            return;
        };
        match &event.request.records {
            Records::Deliver(announcement, sheet) => {
                self.learn_evicted(&event.request.image, announcement, written);
                let state = event.request.image[..CHECKPOINT_SIZE].to_vec();
                let counted = StateFields::read(&state).map_or(0, |state| state.counted(sheet));
                self.chosen
                    .entry(state)
                    .or_insert_with(|| (announcement.clone(), counted));
            }
            Records::Checkpoint => self.given.push(written.clone()),
            _ => {}
        }
    }

    /// Takes up the login that a performed grant evicted.
    fn learn_evicted(&mut self, image: &[u8], announcement: &[u8], written: &[u8]) {
        if kind_of(announcement) != 8 {
            return;
        }
        if let (Some(before), Some(after)) = (StateFields::read(image), StateFields::read(written))
        {
            let logins = before.logins.iter().map(|row| row.login);
            let gone = logins.filter(|login| after.place_of(*login).is_none());
            self.evicted.extend(gone);
        }
    }

    fn records(&mut self, hosts: &Hosts, host: usize, image: &[u8]) -> Records {
        let (Some(state), Some(own)) = (StateFields::read(image), OwnFields::read(image)) else {
            return Records::Checkpoint;
        };
        let halted = own.is_halted(&state);
        let restarts = if halted { 30 } else { self.habits.restarts };
        if self.rng.chance(restarts) {
            return self.start();
        }
        if self.rng.chance(self.habits.checkpoints) {
            return Records::Checkpoint;
        }
        if self.rng.chance(self.habits.pages) {
            return starts_queries::page(&mut self.rng, &state);
        }
        if self.rng.chance(2) {
            self.bad_queries = BadQueries {
                host,
                door: self.rng.of(&DOOR) as u8,
                left: self.rng.within(9, 12),
            };
        }
        if self.rng.chance(self.habits.queries) {
            return self.query(&state);
        }
        let delivery = self.deliver(hosts, image, &state, &own);
        self.sent.push(delivery.clone());
        delivery
    }

    fn query(&mut self, state: &StateFields) -> Records {
        let mut query = match self.habits.focus {
            login if login > 0 && self.rng.chance(50) => {
                ended_logins::query(&mut self.rng, state, login)
            }
            _ if !self.evicted.is_empty() && self.rng.chance(10) => {
                let login = self.rng.pick(&self.evicted);
                evictions::query(&mut self.rng, state, login)
            }
            _ => starts_queries::query(&mut self.rng, state),
        };
        self.damage(&mut query);
        Records::Query(query)
    }

    fn damage(&mut self, record: &mut Vec<u8>) {
        if self.rng.chance(self.habits.damage) {
            malformed::bytes(&mut self.rng, record);
        }
    }

    fn start(&mut self) -> Records {
        let mut checkpoint = match self.rng.below(self.given.len() + 1) {
            0 => self.first.clone(),
            // Mostly a late one, so that parks move on.
            _ if self.rng.chance(60) => self.given[self.given.len() - 1].clone(),
            place => self.given[place - 1].clone(),
        };
        let Some(state) = StateFields::read(&checkpoint) else {
            return Records::Checkpoint;
        };
        if !self.habits.lawful && self.rng.chance(20) {
            let other = states::any_state(&mut self.rng);
            checkpoint = states::checkpoint(&mut self.rng, &other);
        } else if self.rng.chance(self.habits.damage) {
            checkpoint = malformed::checkpoint(&mut self.rng, &state);
            checkpoint = states::of_either_kind(&mut self.rng, 30, checkpoint);
        }
        let mut start = starts_queries::start(&mut self.rng, &state);
        self.damage(&mut start);
        Records::Start(checkpoint, start)
    }

    fn bad_query(&mut self, image: &[u8]) -> Records {
        self.bad_queries.left -= 1;
        let BadQueries { door, left, .. } = self.bad_queries;
        let Some(state) = StateFields::read(image) else {
            return Records::Checkpoint;
        };
        // The last may open, with nine misses before it or more.
        Records::Query(match left == 0 && self.rng.chance(40) {
            true => starts_queries::aimed_query(&mut self.rng, &state, door),
            false => starts_queries::bad_query(&mut self.rng, &state, door),
        })
    }

    fn deliver(
        &mut self,
        hosts: &Hosts,
        image: &[u8],
        state: &StateFields,
        own: &OwnFields,
    ) -> Records {
        if !self.sent.is_empty() && self.rng.chance(8) {
            let late = self.sent.len().saturating_sub(30);
            let place = late + self.rng.below(self.sent.len() - late);
            return self.within_bound(image, state, self.sent[place].clone());
        }
        let chosen = self.chosen.get(&image[..CHECKPOINT_SIZE]).cloned();
        let mut announcement = self.announcement(state, own, chosen.as_ref());
        // Beyond the bound with as few double voters as there can be: first the seats that did not
        // count for the chosen one.
        let voters = match chosen {
            Some((_, counted)) if !self.habits.honest && self.rng.chance(50) => {
                others(state, counted)
            }
            _ => voters(hosts, &announcement),
        };
        let aim = sheets::any_aim(&mut self.rng);
        let kind = kind_of(&announcement);
        let mut sheet = sheets::sheet(&mut self.rng, state, kind, aim, &voters);
        self.damage(&mut announcement);
        if self.rng.chance(self.habits.damage) {
            malformed::sheet(&mut self.rng, &mut sheet);
        }
        let delivery = Records::Deliver(announcement, sheet);
        self.within_bound(image, state, delivery)
    }

    /// The one chosen for the state, the one that the node voted for, or another.
    fn announcement(
        &mut self,
        state: &StateFields,
        own: &OwnFields,
        chosen: Option<&(Vec<u8>, u32)>,
    ) -> Vec<u8> {
        let follow = if self.habits.honest { 65 } else { 40 };
        match (chosen, &own.vote) {
            (Some((chosen, _)), _) if self.rng.chance(follow) => chosen.clone(),
            (_, Some(vote)) if self.rng.chance(40) => vote.clone(),
            _ if self.habits.focus > 0 && self.rng.chance(50) => {
                ended_logins::announcement(&mut self.rng, state, self.habits.focus)
            }
            _ if evictions::is_crowded(state) && self.rng.chance(40) => {
                evictions::announcement(&mut self.rng, state, &self.evicted)
            }
            _ if self.rng.chance(self.habits.proposals) => {
                announcements::about_proposals(&mut self.rng, state)
            }
            _ => announcements::any(&mut self.rng, state),
        }
    }

    /// In an honest history, a delivery that would perform another announcement than the chosen one
    /// gets one seat less than a quorum.
    fn within_bound(&mut self, image: &[u8], state: &StateFields, delivery: Records) -> Records {
        let Records::Deliver(announcement, sheet) = &delivery else {
            return delivery;
        };
        let other = self
            .chosen
            .get(&image[..CHECKPOINT_SIZE])
            .is_some_and(|(chosen, _)| chosen != announcement);
        if !(self.habits.honest && other) {
            return delivery;
        }
        let performs = Node::from_image(image)
            .is_some_and(|mut node| node.deliver(announcement, sheet) == Answer::Done);
        if !performs {
            return delivery;
        }
        let kind = kind_of(announcement);
        let sheet = sheets::sheet(&mut self.rng, state, kind, Aim::OneLess, &[]);
        Records::Deliver(announcement.clone(), sheet)
    }
}

/// The rows of the hosts that voted for these bytes.
fn voters(hosts: &Hosts, announcement: &[u8]) -> Vec<(u8, u32)> {
    let images = (0..hosts.count()).filter_map(|host| hosts.image(host));
    let own_parts = images.filter_map(|image| OwnFields::read(&image));
    let voters = own_parts.filter(|own| own.vote.as_deref() == Some(announcement));
    voters.map(|own| (own.seat & 31, own.life)).collect()
}

/// The rows of the seats that are not among these bits.
fn others(state: &StateFields, counted: u32) -> Vec<(u8, u32)> {
    let present = state
        .seats_of(&[PRESENT])
        .into_iter()
        .filter(|seat| counted >> seat & 1 == 0);
    present
        .map(|seat| (seat, state.seats[usize::from(seat)].life))
        .collect()
}
