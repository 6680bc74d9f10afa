//! Damaged input: every cut, extension and changed byte of each slice of a request, and output
//! slices of every length.

use super::announcements;
use super::arguments;
use super::exports;
use super::malformed;
use super::random::Random;
use super::records;
use super::sheets::{self, Aim};
use super::starts_queries;
use super::states;
use crate::compare::call::{Records, Request};
use crate::compare::fields::StateFields;
use crate::layout::{kind_of, number_at, to_old, DOOR, IMAGE_SIZE, RIGHT};

/// What is done with each damaged request; an error ends the sweep.
pub type Each<'a> = &'a mut dyn FnMut(&Request) -> Result<(), String>;

/// How many bytes longer than the longest output the longest output slice is.
const SPARE: usize = 11;

/// Requests to be damaged: a start from a checkpoint of each kind, a query of each kind, a checkpoint, a
/// page, an export and a delivery of each kind.
pub fn bases(rng: &mut Random) -> Vec<Request> {
    let state = states::any_state(rng);
    let own = states::any_own(rng, &state);
    let start = starts_queries::start(rng, &state);
    let (login, day) = (arguments::listed_login(rng, &state), state.day);
    let (right, door) = (rng.of(&RIGHT) as u8, rng.of(&DOOR) as u8);
    let mut bases = vec![
        Records::Start(state.write(), start.clone()),
        Records::Start(to_old(&state.write()), start),
        Records::Query(records::query(login, day, right)),
        Records::Query(records::door_query(login, day, right, door)),
        Records::Checkpoint,
        starts_queries::page(rng, &state),
        Records::Export(exports::grant(rng)),
    ];
    bases.extend((1..10).map(|kind| delivery(rng, &state, kind)));
    let request = |records: Records| {
        let image = match records.takes_image() {
            true => own.image(&state),
            false => Vec::new(),
        };
        let out = records.size(&image).max(IMAGE_SIZE);
        Request {
            image,
            records,
            out,
        }
    };
    bases.into_iter().map(request).collect()
}

fn delivery(rng: &mut Random, state: &StateFields, kind: u16) -> Records {
    let mut announcement = announcements::well_formed(rng, state);
    for _ in 0..100 {
        if kind_of(&announcement) == kind {
            break;
        }
        announcement = announcements::well_formed(rng, state);
    }
    let aim = rng.pick(&[Aim::Quorum, Aim::OneLess, Aim::All]);
    let sheet = sheets::sheet(rng, state, kind_of(&announcement), aim, &[]);
    Records::Deliver(announcement, sheet)
}

/// All damage to one request.
pub fn sweep(rng: &mut Random, base: &Request, each: Each) -> Result<(), String> {
    for place in 0..slices(base).len() {
        sweep_slice(rng, base, place, each)?;
    }
    for out in 0..=base.out + SPARE {
        each(&Request {
            out,
            ..base.clone()
        })?;
    }
    Ok(())
}

/// The input slices of a request.
fn slices(request: &Request) -> Vec<&Vec<u8>> {
    match &request.records {
        Records::Start(checkpoint, start) => vec![checkpoint, start],
        Records::Deliver(announcement, sheet) => vec![&request.image, announcement, sheet],
        Records::Query(query) => vec![&request.image, query],
        Records::Checkpoint | Records::Page(_) => vec![&request.image],
        Records::Import { roster, .. } => vec![roster],
        Records::Export(announcement) => vec![announcement],
        Records::Split {
            key, coefficients, ..
        } => vec![key, coefficients],
        Records::Merge {
            numbers, shares, ..
        } => vec![numbers, shares],
        Records::Add(shares, more) => vec![shares, more],
    }
}

pub fn slice_mut(request: &mut Request, place: usize) -> &mut Vec<u8> {
    match (&mut request.records, place) {
        (Records::Start(checkpoint, _), 0) => checkpoint,
        (Records::Start(_, start), _) => start,
        (Records::Import { roster, .. }, _) => roster,
        (Records::Export(announcement), _) => announcement,
        (Records::Split { key, .. }, 0) => key,
        (Records::Split { coefficients, .. }, _) => coefficients,
        (Records::Merge { numbers, .. }, 0) => numbers,
        (Records::Merge { shares, .. }, _) => shares,
        (Records::Add(shares, _), 0) => shares,
        (Records::Add(_, more), _) => more,
        (_, 0) => &mut request.image,
        (Records::Deliver(announcement, _), 1) => announcement,
        (Records::Deliver(_, sheet), _) => sheet,
        (Records::Query(query), _) => query,
        (Records::Checkpoint | Records::Page(_), _) => &mut request.image,
    }
}

fn sweep_slice(rng: &mut Random, base: &Request, place: usize, each: Each) -> Result<(), String> {
    sweep_lengths(base, place, each)?;
    sweep_bytes(rng, base, place, each)?;
    sweep_headers(base, place, each)?;
    let mut request = base.clone();
    for _ in 0..20 {
        let slice = slice_mut(&mut request, place);
        slice.iter_mut().for_each(|byte| *byte = rng.byte());
        each(&request)?;
    }
    Ok(())
}

/// Every shorter length, and eight longer ones: as they are, and under the length that they have now.
fn sweep_lengths(base: &Request, place: usize, each: Each) -> Result<(), String> {
    let whole = slices(base)[place].len();
    for length in 0..=whole + 8 {
        let fills: &[u8] = if length > whole { &[0, 255] } else { &[0] };
        for byte in fills {
            let mut request = base.clone();
            slice_mut(&mut request, place).resize(length, *byte);
            each(&request)?;
            malformed::reframe(slice_mut(&mut request, place), length);
            each(&request)?;
        }
    }
    Ok(())
}

fn sweep_bytes(rng: &mut Random, base: &Request, place: usize, each: Each) -> Result<(), String> {
    let whole = slices(base)[place].clone();
    let mut request = base.clone();
    for (at, &byte) in whole.iter().enumerate() {
        let changed = [
            0,
            255,
            byte.wrapping_add(1),
            byte.wrapping_sub(1),
            rng.byte(),
        ];
        for (i, &new) in changed.iter().enumerate() {
            if new != byte && !changed[..i].contains(&new) {
                slice_mut(&mut request, place)[at] = new;
                each(&request)?;
            }
        }
        slice_mut(&mut request, place)[at] = byte;
    }
    Ok(())
}

/// Every kind from 0 to 32, and lengths around the right one.
fn sweep_headers(base: &Request, place: usize, each: Each) -> Result<(), String> {
    let whole = slices(base)[place].clone();
    if whole.len() < 4 {
        return Ok(());
    }
    let mut request = base.clone();
    for kind in (0..=32).chain([256, 257, 272, 274, 0xFFFF]) {
        slice_mut(&mut request, place)[2..4].copy_from_slice(&u16::to_le_bytes(kind));
        each(&request)?;
    }
    *slice_mut(&mut request, place) = whole.clone();
    let right = number_at(&whole, 0, 2) as u16;
    for length in (0..40)
        .map(|add| right.wrapping_add(add).wrapping_sub(20))
        .chain([0, 256, 0xFFFF])
    {
        slice_mut(&mut request, place)[..2].copy_from_slice(&length.to_le_bytes());
        each(&request)?;
    }
    Ok(())
}

/// Sheets of every row count from 0 to 70 in their right length, and of 255 rows.
pub fn row_counts(base: &Request, each: Each) -> Result<(), String> {
    let Records::Deliver(announcement, _) = &base.records else {
        return Ok(());
    };
    for rows in (0..=70).chain([255]) {
        let rows = vec![(31, 1); rows];
        let sheet = records::sheet([255, 255], &rows);
        each(&Request {
            records: Records::Deliver(announcement.clone(), sheet),
            ..base.clone()
        })?;
    }
    Ok(())
}
