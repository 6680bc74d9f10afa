//! Announcement, sheet, start and query to text: a line each.

use super::bytes::{malformed, Bytes, Read};
use crate::layout::{kind_of, number_at, size, Field, ACTIONS, ANNOUNCEMENT_SIZE, ARGUMENTS_SIZE};
use crate::layout::{BODY, CYCLE_AND_DAY, LIFE, MASKS, ROWS, ROW_COUNT, ROW_SIZE, SEAT};
use crate::layout::{MINIMA, MINIMA_KIND, NAMED_NOTICES, SUBJECT_KIND, SUBJECT_SIZE};
use std::ops::RangeInclusive;

pub fn require_length(bytes: &[u8], length: usize) -> Read<()> {
    let found = number_at(bytes, 0, 2) as usize;
    if found == length && bytes.len() == 2 + length {
        Ok(())
    } else {
        malformed(0, format!("length {found} is not {length}"))
    }
}

pub fn require_kind(bytes: &[u8], kinds: RangeInclusive<u16>) -> Read<()> {
    let kind = kind_of(bytes);
    if kinds.contains(&kind) {
        Ok(())
    } else {
        malformed(2, format!("kind {kind} does not belong here"))
    }
}

/// Start and query: a word and fields.
pub fn simple(name: &str, fields: &[Field], bytes: &[u8]) -> Read<String> {
    require_length(bytes, BODY - 2 + size(fields))?;
    let mut text = name.to_string();
    Bytes::new(bytes, BODY).fields(fields, &mut text)?;
    Ok(text + "\n")
}

/// "Announcement, 24 bytes: length 22; kind 1 to 9; cycle (4); day (4); 12 argument bytes".
pub fn announcement(bytes: &[u8]) -> Read<String> {
    require_length(bytes, ANNOUNCEMENT_SIZE - 2)?;
    require_kind(bytes, 1..=9)?;
    let kind = kind_of(bytes);
    let mut text = "announce".to_string();
    let mut bytes = Bytes::new(bytes, BODY);
    bytes.fields(&CYCLE_AND_DAY, &mut text)?;
    let end = bytes.at + ARGUMENTS_SIZE;
    action(&mut bytes, kind, end, &mut text)?;
    Ok(text + "\n")
}

/// An action of kind 1 to 9 whose arguments have the bytes up to `end`.
fn action(bytes: &mut Bytes, kind: u16, end: usize, text: &mut String) -> Read<()> {
    let (name, fields) = ACTIONS[kind as usize - 1];
    *text += &format!(" {name}");
    match kind {
        1 => subject(bytes, text)?,
        MINIMA_KIND => minima(bytes, text)?,
        _ => drop(bytes.fields(fields, text)?),
    }
    bytes.unused(end)
}

/// The notices are shown where one of them is not zero.
fn minima(bytes: &mut Bytes, text: &mut String) -> Read<()> {
    bytes.fields(&MINIMA, text)?;
    let at = bytes.at;
    if bytes.number(size(&NAMED_NOTICES))? != 0 {
        bytes.at = at;
        bytes.fields(&NAMED_NOTICES, text)?;
    }
    Ok(())
}

/// "subject kind 2 (4, 5 or 6), its first 8 argument bytes", or 7 (request A6).
pub fn subject(bytes: &mut Bytes, text: &mut String) -> Read<()> {
    let at = bytes.at;
    match bytes.number(SUBJECT_KIND.size)? as u16 {
        kind @ 4..=7 => action(bytes, kind, at + SUBJECT_KIND.size + SUBJECT_SIZE, text),
        kind => malformed(at, format!("subject kind {kind} is not 4, 5, 6 or 7")),
    }
}

/// "level-1 mask (1), level-2 mask (1), row count 0 to 64 (1), rows of seat (1, below 32) and life
/// (4)"
pub fn sheet(bytes: &[u8]) -> Read<String> {
    let length = number_at(bytes, 0, 2);
    let mut text = "sheet".to_string();
    let mut bytes = Bytes::new(bytes, BODY);
    bytes.fields(&MASKS, &mut text)?;
    let count = bytes.value(&ROW_COUNT)?;
    let needed = ROWS as u32 - 2 + ROW_SIZE as u32 * count;
    if length != needed {
        let why = format!("length {length} is not {needed}, for {count} rows");
        return malformed(0, why);
    }
    text += " rows";
    for _ in 0..count {
        let (seat, life) = (bytes.value(&SEAT)?, bytes.value(&LIFE)?);
        text += &format!(" {seat}:{life}");
    }
    Ok(text + "\n")
}
