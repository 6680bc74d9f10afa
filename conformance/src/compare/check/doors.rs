//! The claims about doors (request A5). On every call of a history: a query changes no count but that
//! of its door, a start and a performed action leave four zeros, every other call leaves the counts.
//! On a history: without the queries at the other doors, a door gets the same answers and is left the
//! same count.

use super::hosts::Hosts;
use super::second::Second;
use crate::compare::call::{Call, Event, History, Records};
use crate::compare::fields::OwnFields;
use crate::layout::{door_of, DOORS, MISSES};
use crate::paper::records::Query;

type Misses = [u8; DOORS];

pub fn check(event: &Event) -> Result<(), String> {
    let Some(held) = OwnFields::read(&event.held) else {
        return Ok(());
    };
    let left = left(event)?;
    match held.misses == left {
        true => Ok(()),
        false => Err(format!(
            "answer {}: the misses are {:?} and not {left:?}",
            event.outcome.number, held.misses
        )),
    }
}

/// The misses that a call is to leave.
fn left(event: &Event) -> Result<Misses, String> {
    let before = OwnFields::read(&event.request.image).map(|own| own.misses);
    let before = before.unwrap_or_default();
    match (&event.request.records, event.outcome.number) {
        (Records::Start(..) | Records::Deliver(..), 0) => Ok([0; DOORS]),
        (Records::Query(query), number @ (0 | 17..=21)) => answered(before, door_of(query), number),
        _ => Ok(before),
    }
}

/// After a query that is answered open or by one of rules 17 to 21.
fn answered(mut misses: Misses, door: usize, number: u32) -> Result<Misses, String> {
    let Some(count) = misses.get_mut(door) else {
        return Err(format!("answer {number} at door {door}"));
    };
    let is_locked = u32::from(*count) == MISSES.high;
    if is_locked != (number == 17) {
        return Err(format!("answer {number} at door {door}, misses {count}"));
    }
    match number {
        0 => *count = 0,
        19..=21 => *count += 1,
        _ => {}
    }
    Ok(misses)
}

/// A call that was made: its place in the history, what it returned, and the misses that its host
/// holds after it.
#[derive(Clone, Copy, PartialEq, Debug)]
pub struct Step {
    pub place: usize,
    pub answer: (u32, u32),
    pub misses: Misses,
}

/// "Two runs that differ only in the queries at other doors give one door the same answers and leave
/// it the same count." An error has the place of the call that differs.
pub fn apart(second: &'static Second, history: &History) -> Result<(), (usize, String)> {
    let whole = run(second, history, &|_| true)?;
    for door in 0..DOORS {
        let is_kept = |call: &Call| asked_door(&call.records).is_none_or(|asked| asked == door);
        let fewer = run(second, history, &is_kept)?;
        let kept = whole
            .iter()
            .filter(|step| is_kept(&history.calls[step.place]));
        same_at(door, kept.copied(), &fewer)?;
    }
    Ok(())
}

/// The door of a query; one that is malformed belongs to none.
fn asked_door(records: &Records) -> Option<usize> {
    let Records::Query(query) = records else {
        return None;
    };
    let query = Query::read(query).ok()?;
    Some(query.door.into())
}

/// The calls that are kept, made again.
fn run(
    second: &'static Second,
    history: &History,
    is_kept: &dyn Fn(&Call) -> bool,
) -> Result<Vec<Step>, (usize, String)> {
    let mut hosts = Hosts::new(second, &history.by_value);
    let mut steps = Vec::new();
    let calls = history.calls.iter().enumerate();
    for (place, call) in calls.filter(|(_, call)| is_kept(call)) {
        let event = hosts.step(call).map_err(|what| (place, what))?;
        let Some(event) = event else { continue };
        let own = OwnFields::read(&event.held);
        steps.push(Step {
            place,
            answer: (event.outcome.number, event.outcome.count),
            misses: own.map_or([0; DOORS], |own| own.misses),
        });
    }
    Ok(steps)
}

/// Both runs make the same calls, with the same answers, and leave a door the same misses.
pub fn same_at(
    door: usize,
    whole: impl Iterator<Item = Step>,
    fewer: &[Step],
) -> Result<(), (usize, String)> {
    let at_door = |step: &Step| (step.place, step.answer, step.misses[door]);
    let whole: Vec<Step> = whole.collect();
    let mut pairs = whole.iter().zip(fewer);
    let other = pairs.find(|(one, other)| at_door(one) != at_door(other));
    if other.is_none() && whole.len() == fewer.len() {
        return Ok(());
    }
    let what = format!("door {door} differs where the queries at other doors are left out");
    Err((other.map_or(0, |(one, _)| one.place), what))
}
