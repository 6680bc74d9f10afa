//! The calls of a run in their order, the image handed from call to call.

use super::answer::Answer;
use super::call::{Call, Sort};
use super::file::{By, Request, Run};
use crate::layout::{is_checkpoint, is_query, least_size, SHEET_KIND, START_KIND};

/// Makes a call with an output slice of some length, and gives the image that it wrote.
pub type Each<'a> = &'a mut dyn FnMut(&Request, &Call, usize) -> Result<Option<Vec<u8>>, String>;

/// What a walk of a run met.
#[derive(Debug, Clone, Copy, Default, PartialEq, Eq)]
pub struct Counts {
    pub requests: usize,
    /// Of these, by call alone: node-run doesn't see them.
    pub by_call: usize,
    /// Of these, no call's: they end the run of node-run.
    pub ending: usize,
}

impl Counts {
    pub fn add(&mut self, more: Counts) {
        self.requests += more.requests;
        self.by_call += more.by_call;
        self.ending += more.ending;
    }
}

/// What went wrong, at the line of the answer.
pub type Found = (usize, String);

pub fn walk(run: &Run, each: Each) -> Result<Counts, Found> {
    let mut node: Option<Vec<u8>> = None;
    let mut counts = Counts::default();
    for request in &run.requests {
        let at = |what: String| (request.line, what);
        counts.requests += 1;
        match request.by {
            By::Call {
                sort,
                numbers,
                room,
            } => {
                counts.by_call += 1;
                for call in by_call(request, sort, node.as_deref()).map_err(at)? {
                    let call = Call { numbers, ..call };
                    each(request, &call, room.unwrap_or(call.room())).map_err(at)?;
                }
            }
            By::Run { cycle, .. } if counts.ending == 0 => {
                let ends = !in_run(request, &mut node, each).map_err(at)?;
                counts.ending += usize::from(ends);
                require_cycle(node.as_deref(), cycle).map_err(at)?;
            }
            By::Run { .. } => return Err(at("the run ended above".to_string())),
        }
    }
    Ok(counts)
}

/// The calls of a request by call alone, on the run's node or an image of its own. What they write is
/// dropped.
fn by_call(request: &Request, sort: Sort, node: Option<&[u8]>) -> Result<Vec<Call>, String> {
    let call = |slices: Vec<Vec<u8>>| {
        let (image, records) = match slices.len() > sort.records() {
            true => (Some(slices[0].as_slice()), slices[1..].to_vec()),
            false => (node, slices.clone()),
        };
        let call = Call::new(sort, image, records);
        call.ok_or("it has too many records, or too few".to_string())
    };
    expanded(request).into_iter().map(call).collect()
}

/// The slices of a request, once for each place of its `each`.
fn expanded(request: &Request) -> Vec<Vec<Vec<u8>>> {
    let mut all = vec![Vec::new()];
    for item in &request.items {
        let next = |before: &Vec<Vec<u8>>| {
            let changed = item.all().into_iter();
            let longer = changed.map(|bytes| [before.clone(), vec![bytes]].concat());
            longer.collect::<Vec<_>>()
        };
        all = all.iter().flat_map(next).collect();
    }
    all
}

/// A request of node-run's input. Gives whether it is one of a call's, so that the run goes on.
fn in_run(request: &Request, node: &mut Option<Vec<u8>>, each: Each) -> Result<bool, String> {
    if request.items.iter().any(|item| item.each.is_some()) {
        return Err("`each` stands in a request by call only".to_string());
    }
    let records: Vec<Vec<u8>> = request.items.iter().map(|i| i.bytes.clone()).collect();
    let kinds: Option<Vec<u16>> = records.iter().map(|r| framed_kind(r)).collect();
    let sort = match kinds.as_deref() {
        Some([19, kind]) if is_checkpoint(*kind) => Sort::Start,
        Some([1..=9, 18]) if node.is_some() => Sort::Deliver,
        Some([kind]) if is_query(*kind) && node.is_some() => Sort::Query,
        _ if request.answer == Answer::No(1) => return Ok(false),
        _ => return Err("it ends the run: its answer is no 1".to_string()),
    };
    let call = Call::new(sort, node.as_deref(), records).ok_or("no call takes it")?;
    if let Some(image) = each(request, &call, call.room())? {
        *node = Some(image);
    }
    Ok(true)
}

/// The kind of a record that is neither cut, nor followed by another byte, nor "too short for its
/// kind (a sheet: under 7 bytes)".
fn framed_kind(record: &[u8]) -> Option<u16> {
    let &[low, high, kind_low, kind_high, ..] = record else {
        return None;
    };
    let size = 2 + usize::from(u16::from_le_bytes([low, high]));
    let kind = u16::from_le_bytes([kind_low, kind_high]);
    let is_placed =
        matches!(kind, 1..=9 | SHEET_KIND | START_KIND) || is_checkpoint(kind) || is_query(kind);
    (is_placed && record.len() == size && size >= least_size(kind)).then_some(kind)
}

/// "the node's cycle after it (0 if none)"
fn require_cycle(node: Option<&[u8]>, wanted: u32) -> Result<(), String> {
    let cycle = match node {
        Some(&[_, _, _, _, a, b, c, d, ..]) => u32::from_le_bytes([a, b, c, d]),
        _ => 0,
    };
    match cycle == wanted {
        true => Ok(()),
        false => Err(format!("the node's cycle is {cycle}, wanted {wanted}")),
    }
}
