//! Input streams for node-run, made from histories and damaged.

use super::malformed;
use super::random::Random;
use super::settings;
use super::starts_queries;
use super::states;
use crate::compare::call::History;
use crate::compare::fields::StateFields;
use crate::layout::{is_checkpoint, is_query, kind_of, least_size, MISSES};

/// The most records of a stream: what follows damage is seldom read.
const LONGEST: usize = 60;

/// A stream of a history's records: those of one host or of all, mostly with damage; seldom one of
/// its own around a later start.
pub fn of_history(rng: &mut Random, history: &History) -> Vec<u8> {
    match (rng.below(33), StateFields::read(&history.first)) {
        (0, Some(state)) => around_start(rng, &state),
        (1, _) => settings::restarted(rng),
        _ => of_calls(rng, history),
    }
}

/// Queries that add misses at one door before and after a later start: together they would lock it.
fn around_start(rng: &mut Random, state: &StateFields) -> Vec<u8> {
    let checkpoint = states::checkpoint(rng, state);
    let start = [starts_queries::start(rng, state), checkpoint].concat();
    let door = starts_queries::any_door(rng);
    let mut stream = Vec::new();
    for _ in 0..2 {
        stream.extend(&start);
        for _ in 0..=MISSES.high / 2 {
            stream.extend(starts_queries::bad_query(rng, state, door));
        }
    }
    stream
}

fn of_calls(rng: &mut Random, history: &History) -> Vec<u8> {
    let host = rng.below(history.by_value.len());
    let all = rng.chance(30);
    let calls = history.calls.iter().filter(|call| all || call.host == host);
    let records = calls.flat_map(|call| call.records.in_order());
    let mut records: Vec<Vec<u8>> = records.cloned().collect();
    if rng.chance(5) {
        // What is before any node may be any record.
        records.drain(..rng.below(records.len() + 1));
    }
    records.truncate(rng.within(2, LONGEST as u32) as usize);
    // Damage at the end of a stream is only read where the records before it are whole.
    let (record_damage, stream_damage) = rng.pick(&[
        (0, 0),
        (0, 100),
        (0, 100),
        (1, 0),
        (1, 0),
        (1, 0),
        (2, 20),
        (4, 20),
    ]);
    for _ in 0..record_damage {
        damage_record(rng, &mut records);
    }
    let mut stream = records.concat();
    if rng.chance(stream_damage) {
        damage_stream(rng, &mut stream);
    }
    stream
}

/// Damage to one record in its place: framing stays whole unless the length itself is changed.
fn damage_record(rng: &mut Random, records: &mut Vec<Vec<u8>>) {
    if records.is_empty() {
        return;
    }
    let place = any_place(rng, records);
    let length = records[place].len();
    match rng.below(13) {
        0..=2 => malformed::reframe(&mut records[place], length.saturating_sub(1 + rng.below(2))),
        3 => malformed::reframe(&mut records[place], rng.below(length + 1)),
        11 if length > 2 => {
            let least = least_size(kind_of(&records[place]));
            malformed::reframe(&mut records[place], least - rng.below(2));
        }
        4 => malformed::reframe(&mut records[place], length + 1 + rng.below(6)),
        5 if length > 3 => records[place][3] = rng.pick(&[1, 255]),
        6 if length > 3 => records[place][2] = any_kind(rng, records[place][2]),
        7 => {
            records.remove(place);
        }
        8 => records.insert(place, records[place].clone()),
        9 => {
            let next = (place + 1) % records.len();
            records.swap(place, next);
        }
        10 if length > 0 => records[place][0] = rng.byte(),
        _ if length > 4 => records[place][4 + rng.below(length - 4)] = rng.pick(&[0, 1, 32, 255]),
        _ => {}
    }
}

/// The kind beside this one, or any up to the highest that has a place and beyond.
fn any_kind(rng: &mut Random, kind: u8) -> u8 {
    match rng.below(4) {
        0 => kind.wrapping_add(1),
        1 => kind.wrapping_sub(1),
        _ => rng.below(28) as u8,
    }
}

/// The place of a record: often that of a query, and that of a checkpoint, if there is one.
fn any_place(rng: &mut Random, records: &[Vec<u8>]) -> usize {
    let is_sort: fn(u16) -> bool = match rng.below(20) {
        0..=7 => is_query,
        8..=10 => is_checkpoint,
        _ => |_| true,
    };
    let is_meant = |place: &usize| is_sort(kind_of(&records[*place]));
    let places: Vec<usize> = (0..records.len()).filter(is_meant).collect();
    match places.len() {
        0 => rng.below(records.len()),
        count => places[rng.below(count)],
    }
}

/// Damage to the stream as a whole: a cut, stray bytes at the end, random bytes within.
fn damage_stream(rng: &mut Random, stream: &mut Vec<u8>) {
    let place = rng.below(stream.len() + 1);
    match rng.below(3) {
        0 => stream.truncate(place),
        1 => (0..rng.pick(&[1, 1, 2, 3, 4])).for_each(|_| stream.push(rng.pick(&[0, 1, 22]))),
        _ => stream.insert(place, rng.byte()),
    }
}
