//! Histories about one login that is granted, ended and granted again while days pass: what the
//! claim on ended logins is about.

use super::random::Random;
use super::records;
use super::starts_queries;
use super::values;
use crate::compare::fields::StateFields;

/// Ends the login where it is listed, else grants it; the day moves by up to the silence limit and
/// one more.
pub fn announcement(rng: &mut Random, state: &StateFields, login: u32) -> Vec<u8> {
    let silence = u32::from(state.silence);
    let step = rng.pick(&[0, 0, 1, silence, silence + 1]);
    let day = state.day.saturating_add(step);
    if state.logins.iter().any(|row| row.login == login) {
        let arguments = records::arguments(&login.to_le_bytes());
        return records::announcement(9, state.cycle, day, arguments);
    }
    let end = day.saturating_add(rng.pick(&[silence, 3 * silence, u32::MAX]));
    let arguments = records::grant(login, end, 1 | values::any_rights(rng));
    records::announcement(8, state.cycle, day, arguments)
}

/// Asks on days around the silence limit after the agreed day and after an earlier day on which the
/// login may have been ended.
pub fn query(rng: &mut Random, state: &StateFields, login: u32) -> Vec<u8> {
    let silence = u32::from(state.silence);
    let base = state.day.saturating_sub(rng.pick(&[0, 0, 1, silence]));
    let day = base.saturating_add(rng.pick(&[0, silence, silence, silence + 1]));
    let door = starts_queries::any_door(rng);
    starts_queries::at_door(rng, door, (login, day, 0))
}
