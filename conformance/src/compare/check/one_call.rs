//! One call through the archive and through the second implementation.

use super::second::{ByValue, Second};
use super::{rosters, shares};
use crate::archive;
use crate::compare::call::{answer_in, count_in, Outcome, Records, Request, ARCHIVE};
use crate::layout::{CHECKPOINT_SIZE, LINE_SIZE};
use std::panic::{catch_unwind, AssertUnwindSafe};

/// Bytes before and behind the output slice that no call may touch. Odd, since a slice may have any
/// alignment.
const GUARD: usize = 13;

/// Makes the call both ways and compares the answers and all bytes of the output slice.
pub fn compare(second: &Second, request: &Request) -> Result<Outcome, String> {
    let Request {
        image,
        records,
        out,
    } = request;
    let before = pattern(out + 2 * GUARD);
    let (mut proved, mut other) = (before.clone(), before.clone());
    let slice = GUARD..GUARD + out;
    let returned = ARCHIVE.make(image, records, &mut proved[slice.clone()]);
    let expected = guarded(|| second.calls.make(image, records, &mut other[slice]))?;
    if returned != expected {
        let (archive, paper) = (in_words(returned), in_words(expected));
        return Err(format!("archive answers {archive}, paper {paper}"));
    }
    let (number, count) = (answer_in(returned), count_in(returned));
    if let Some(at) = (0..before.len()).find(|&at| proved[at] != other[at]) {
        let what = match records {
            Records::Page(_) => other_line(at, &proved, &other),
            _ => other_byte(at, &proved, &other),
        };
        return Err(format!("answer {number}: {what}"));
    }
    let writes = records.writes(number);
    let size = if writes { request.size() } else { 0 };
    let end = GUARD + size;
    if size > *out || before[..GUARD] != proved[..GUARD] || before[end..] != proved[end..] {
        return Err(format!("answer {number}: bytes are written that must stay"));
    }
    let written = writes.then(|| proved[GUARD..end].to_vec());
    Ok(Outcome {
        number,
        count,
        written,
    })
}

/// That two outputs differ in a byte.
fn other_byte(at: usize, proved: &[u8], other: &[u8]) -> String {
    let place = at as i64 - GUARD as i64;
    let (archive, paper) = (proved[at], other[at]);
    format!("output byte {place} is {archive} from archive, {paper} from paper")
}

/// The same, with the line of a page in which the byte lies, whatever else may stand there.
fn other_line(at: usize, proved: &[u8], other: &[u8]) -> String {
    let first = at.saturating_sub(GUARD) / LINE_SIZE * LINE_SIZE + GUARD;
    let end = proved.len().min(first + LINE_SIZE);
    let line = |bytes: &[u8]| bytes[first..end].escape_ascii().to_string();
    let what = other_byte(at, proved, other);
    format!("{what}, in \"{}\" and \"{}\"", line(proved), line(other))
}

/// What a call returned.
fn in_words(returned: u32) -> String {
    match (answer_in(returned), count_in(returned)) {
        (number, 0) => number.to_string(),
        (number, count) => format!("{number} with count {count}"),
    }
}

/// Bytes that differ from place to place, so that a copied tail is seen.
fn pattern(length: usize) -> Vec<u8> {
    (0..length)
        .map(|i| (i * 89 + i / 256 * 7 + 13) as u8)
        .collect()
}

/// A panic of the second implementation is a difference like any other.
fn guarded<T>(call: impl FnOnce() -> T) -> Result<T, String> {
    catch_unwind(AssertUnwindSafe(call)).map_err(|_| "paper panics".to_string())
}

/// What a host by value holds, if anything.
pub type Held = Option<Box<dyn ByValue>>;

/// Makes the call by value and compares it with the outcome for C. Hands back what the host holds
/// now.
pub fn by_value(
    second: &Second,
    held: Held,
    request: &Request,
    outcome: &Outcome,
) -> Result<Held, String> {
    guarded(|| match &request.records {
        Records::Start(checkpoint, start) => {
            start_by_value(second, held, (checkpoint, start), outcome)
        }
        _ => call_by_value(held, request, outcome),
    })?
}

fn start_by_value(
    second: &Second,
    held: Held,
    (checkpoint, start): (&[u8], &[u8]),
    outcome: &Outcome,
) -> Result<Held, String> {
    match (second.start)(checkpoint, start) {
        Ok(node) => {
            agree(0, node.as_ref(), outcome.written.as_deref(), outcome)?;
            Ok(Some(node))
        }
        Err(number) if number == outcome.number => Ok(held),
        Err(number) => Err(format!(
            "by value paper refuses with {number}, for C it answers {}",
            outcome.number
        )),
    }
}

fn call_by_value(held: Held, request: &Request, outcome: &Outcome) -> Result<Held, String> {
    let Some(mut node) = held else {
        return match outcome.number {
            1 => Ok(None),
            _ => Err("paper reads no node from an image that its call takes".to_string()),
        };
    };
    let number = match &request.records {
        Records::Deliver(announcement, sheet) => node.deliver(announcement, sheet),
        Records::Query(query) => node.query(query),
        Records::Page(day) => return same_page(node, *day, outcome),
        _ => return same_checkpoint(node, outcome),
    };
    let image = outcome.written.as_deref().or(Some(&request.image));
    agree(number, node.as_ref(), image, outcome)?;
    Ok(Some(node))
}

fn agree(
    number: u32,
    node: &dyn ByValue,
    image: Option<&[u8]>,
    outcome: &Outcome,
) -> Result<(), String> {
    let what = if number != outcome.number {
        format!("by value paper answers {number}, for C {}", outcome.number)
    } else if Some(node.image().as_slice()) != image {
        format!("answer {number}: paper's node by value and its image for C differ")
    } else if !node.reads_back() {
        format!("answer {number}: paper's image does not read back as its node")
    } else {
        return Ok(());
    };
    Err(what)
}

/// By value the checkpoint is always given; a slice that is too short is refused for C only.
fn same_checkpoint(node: Box<dyn ByValue>, outcome: &Outcome) -> Result<Held, String> {
    match &outcome.written {
        Some(written) if *written != node.checkpoint() => {
            Err("paper's checkpoint by value and for C differ".to_string())
        }
        _ => Ok(Some(node)),
    }
}

/// The same for a page, with the number of its lines.
fn same_page(node: Box<dyn ByValue>, day: u32, outcome: &Outcome) -> Result<Held, String> {
    let lines = node.page(day);
    let is_same = |written: &Vec<u8>| {
        *written == lines.concat().into_bytes() && outcome.count == lines.len() as u32
    };
    match &outcome.written {
        Some(written) if !is_same(written) => {
            Err("paper's page by value and for C differ".to_string())
        }
        _ => Ok(Some(node)),
    }
}

/// A call that stands alone: for C, and by value where the output slice has room; what the calls of
/// rosters and of shares write is read back.
pub fn compare_all(second: &Second, request: &Request) -> Result<Outcome, String> {
    let outcome = compare(second, request)?;
    if !request.records.is_of_node() {
        rosters::round_trip(&request.records, &outcome)?;
        shares::round_trip(&request.records, &outcome)?;
    } else if request.out >= request.size() {
        let held = guarded(|| (second.from_image)(&request.image))?;
        by_value(second, held, request, &outcome)?;
    }
    Ok(outcome)
}

/// The checkpoint of an image, through the archive.
pub fn checkpoint_of(image: &[u8]) -> Option<Vec<u8>> {
    let mut out = vec![0; CHECKPOINT_SIZE];
    (archive::node_checkpoint(image, &mut out) == 0).then_some(out)
}
