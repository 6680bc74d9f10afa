//! The text of bytes. What is malformed is shown as its bytes, below a comment that says why.

mod bytes;
mod checkpoint;
mod own;
mod records;

use crate::layout::{framed, kind_of, number_at, query_fields, CHECKPOINT_KIND, CHECKPOINT_SIZE};
use crate::layout::{DOOR_QUERY_KIND, IMAGE_SIZE, QUERY_KIND, SHEET_KIND, START, START_KIND};
use crate::layout::{OLD_CHECKPOINT_KIND, OLD_CHECKPOINT_SIZE};
use bytes::{malformed, Read};
use checkpoint::checkpoint;
use records::{announcement, sheet, simple};

/// How many bytes stand on a line: an announcement has as many.
const ON_A_LINE: usize = 24;

#[derive(Debug, Clone, Default, PartialEq, Eq)]
pub struct Shown {
    pub text: String,
    /// Whether anything was.
    pub malformed: bool,
}

/// A part of the input that is read by itself: its place, its bytes and its text.
pub struct Part<'a> {
    pub at: usize,
    pub bytes: &'a [u8],
    pub read: Read<String>,
}

/// An image, where the input is one, and records otherwise.
pub fn show(input: &[u8]) -> Shown {
    let records = shown(&parts_of_records(input));
    let is_current = input.len() == IMAGE_SIZE
        && framed(input) == CHECKPOINT_SIZE
        && kind_of(input) == CHECKPOINT_KIND;
    // A checkpoint and 34 bytes of other records have the size of an image too.
    match records.malformed && (is_current || is_old_image(input)) {
        true => show_image(input),
        false => records,
    }
}

/// Whether the input has the size of an image with a checkpoint of kind 16, and that at its front.
fn is_old_image(input: &[u8]) -> bool {
    input.len() == IMAGE_SIZE - CHECKPOINT_SIZE + OLD_CHECKPOINT_SIZE
        && framed(input) == OLD_CHECKPOINT_SIZE
        && kind_of(input) == OLD_CHECKPOINT_KIND
}

/// The checkpoint of an image and its own part.
pub fn show_image(input: &[u8]) -> Shown {
    shown(&parts_of_image(input))
}

/// Whether the input is text and not records: every record has a zero in its kind.
pub fn looks_like_text(input: &[u8]) -> bool {
    let is_plain = |c: char| !c.is_control() || c.is_ascii_whitespace();
    let text = std::str::from_utf8(input);
    !input.is_empty() && text.is_ok_and(|text| text.chars().all(is_plain))
}

/// Records "framed by their length".
pub fn parts_of_records(input: &[u8]) -> Vec<Part<'_>> {
    let mut parts = Vec::new();
    let mut at = 0;
    while at < input.len() {
        let bytes = &input[at..][..framed(&input[at..])];
        let read = record(bytes);
        parts.push(Part { at, bytes, read });
        at += bytes.len();
    }
    parts
}

/// The text of a record that was framed by its length, with its line ends.
fn record(bytes: &[u8]) -> Read<String> {
    if bytes.len() < 2 {
        return malformed(bytes.len(), "the input ends within a length");
    }
    let length = number_at(bytes, 0, 2) as usize;
    if bytes.len() < 2 + length {
        let why = format!("the input ends within a record of {} bytes", 2 + length);
        return malformed(bytes.len(), why);
    }
    if length < 2 {
        return malformed(0, format!("length {length} has no room for a kind"));
    }
    match kind_of(bytes) {
        1..=9 => announcement(bytes),
        CHECKPOINT_KIND | OLD_CHECKPOINT_KIND => checkpoint(bytes),
        SHEET_KIND => sheet(bytes),
        START_KIND => simple("start", &START, bytes),
        kind @ (QUERY_KIND | DOOR_QUERY_KIND) => simple("query", query_fields(kind), bytes),
        kind => malformed(2, format!("kind {kind} is not that of a record")),
    }
}

pub fn parts_of_image(input: &[u8]) -> Vec<Part<'_>> {
    let size = input.len();
    if is_old_image(input) {
        return parts_of_old_image(input);
    }
    if size != IMAGE_SIZE {
        let why = format!("an image has {IMAGE_SIZE} bytes, not {size}");
        return vec![Part {
            at: 0,
            bytes: input,
            read: malformed(size.min(IMAGE_SIZE), why),
        }];
    }
    let (front, own) = input.split_at(CHECKPOINT_SIZE);
    let checkpoint = Part {
        at: 0,
        bytes: front,
        read: checkpoint::of_image(front),
    };
    let own = Part {
        at: CHECKPOINT_SIZE,
        bytes: own,
        read: own::own(front, own),
    };
    vec![checkpoint, own]
}

/// The checkpoint is one, but no image's.
fn parts_of_old_image(input: &[u8]) -> Vec<Part<'_>> {
    let (front, own) = input.split_at(OLD_CHECKPOINT_SIZE);
    let why = "an image has a checkpoint of kind 26, and the one above is of kind 16";
    let checkpoint = Part {
        at: 0,
        bytes: front,
        read: checkpoint(front),
    };
    let own = Part {
        at: OLD_CHECKPOINT_SIZE,
        bytes: own,
        read: malformed(0, why),
    };
    vec![checkpoint, own]
}

fn shown(parts: &[Part]) -> Shown {
    let malformed = parts.iter().any(|part| part.read.is_err());
    let text = parts.iter().map(Part::text).collect();
    Shown { text, malformed }
}

impl Part<'_> {
    fn text(&self) -> String {
        let found = match &self.read {
            Ok(text) => return text.clone(),
            Err(found) => found,
        };
        let (why, at) = (&found.why, found.at);
        let place = self.at + at;
        let mut text = format!("# malformed: {why}, at byte {at} of these, {place} of the input\n");
        for line in self.bytes.chunks(ON_A_LINE) {
            let digits: String = line.iter().map(|b| format!(" {b:02x}")).collect();
            text += &format!("bytes{digits}\n");
        }
        text
    }
}
