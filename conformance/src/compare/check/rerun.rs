//! Runs a history again, and shortens one that fails, and a roster.

use super::claims::{Claims, Tally};
use super::doors;
use super::hosts::Hosts;
use super::one_call;
use super::second::Second;
use crate::compare::call::{Event, History, Records, Request};

/// Runs a history again; `show` sees each call's place and its event, or none where it was not made.
/// An error has the place of the call that fails.
pub fn again(
    second: &'static Second,
    history: &History,
    show: &mut dyn FnMut(usize, Option<&Event>),
) -> Result<Tally, (usize, String)> {
    let mut hosts = Hosts::new(second, &history.by_value);
    let mut claims = Claims::new(&history.first);
    for (place, call) in history.calls.iter().enumerate() {
        let event = hosts.step(call).map_err(|what| (place, what))?;
        show(place, event.as_ref());
        if let Some(event) = event {
            claims.note(&event).map_err(|what| (place, what))?;
        }
    }
    let tally = claims.verdict();
    let tally = tally.map_err(|what| (history.calls.len(), what))?;
    doors::apart(second, history)?;
    Ok(tally)
}

fn fails(second: &'static Second, history: &History) -> Option<(usize, String)> {
    again(second, history, &mut |_, _| {}).err()
}

/// The shortest history found that still fails, and how: without what follows the failure, then
/// without each call that is not needed.
pub fn shorten(
    second: &'static Second,
    mut history: History,
    mut what: String,
) -> (History, String) {
    loop {
        let before = history.calls.len();
        if let Some((place, found)) = fails(second, &history) {
            history.calls.truncate(place + 1);
            what = found;
        }
        for place in (0..history.calls.len()).rev() {
            let mut shorter = history.clone();
            shorter.calls.remove(place);
            if let Some((_, found)) = fails(second, &shorter) {
                (history, what) = (shorter, found);
            }
        }
        if history.calls.len() == before {
            return (history, what);
        }
    }
}

/// A request that fails, and how: an import without each line that is not needed.
pub fn shorten_roster(
    second: &Second,
    mut request: Request,
    mut what: String,
) -> (Request, String) {
    let Records::Import { roster, .. } = request.records.clone() else {
        return (request, what);
    };
    let mut lines: Vec<&[u8]> = roster.split_inclusive(|byte| *byte == b'\n').collect();
    for place in (0..lines.len()).rev() {
        let mut fewer = lines.clone();
        fewer.remove(place);
        let mut shorter = request.clone();
        if let Records::Import { roster, .. } = &mut shorter.records {
            *roster = fewer.concat();
        }
        if let Err(found) = one_call::compare_all(second, &shorter) {
            (request, what, lines) = (shorter, found, fewer);
        }
    }
    (request, what)
}
