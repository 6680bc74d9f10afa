//! What of a composed text the second implementation would refuse to read.

use super::compose::Composed;
use super::show::{parts_of_image, parts_of_records, Part};
use crate::layout::{is_checkpoint, is_query, kind_of, SHEET_KIND, START_KIND};
use crate::paper::announcement::Announcement;
use crate::paper::records::{Query, Sheet, Start};
use crate::paper::{checkpoint, Node};

/// A line for each malformed record: where its text stands, the number that its call gives, and why.
pub fn warnings(composed: &Composed) -> Vec<String> {
    let bytes = &composed.bytes;
    let parts = match composed.is_image {
        true if Node::from_image(bytes).is_some() => Vec::new(),
        true => parts_of_image(bytes),
        false => parts_of_records(bytes),
    };
    let refused = parts.iter().filter_map(|part| {
        let number = match composed.is_image {
            true => part.read.is_err().then_some(1),
            false => refusal(part.bytes),
        };
        number.map(|number| warning(composed, part, number))
    });
    refused.collect()
}

fn warning(composed: &Composed, part: &Part, number: u8) -> String {
    let line = composed.line_of(part.at);
    let why = match &part.read {
        Err(found) => format!(": {}, at byte {} of it", found.why, found.at),
        Ok(_) => String::new(),
    };
    format!("line {line}: malformed, its call answers {number}{why}")
}

/// The number that a record's call gives where the second implementation can't read it.
pub fn refusal(record: &[u8]) -> Option<u8> {
    let is_read = match kind_of(record) {
        1..=9 => Announcement::read(record).is_ok(),
        kind if is_checkpoint(kind) => checkpoint::read(record).is_ok(),
        SHEET_KIND if Sheet::read(record).is_err() => return Some(2),
        SHEET_KIND => true,
        START_KIND => Start::read(record).is_ok(),
        kind if is_query(kind) => Query::read(record).is_ok(),
        _ => false,
    };
    (!is_read).then_some(1)
}
