//! A checkpoint: its line, and a line for each seat that is not free, each proposal and each login.

use super::words::{Lines, Parse, Words};
use super::{push, record, subject, values};
use crate::layout::{Table, LIFE, LOGINS, PROPOSALS, SEATS, STANDING, STANDINGS};
use crate::layout::{CHECKPOINT_KIND, CYCLE_AND_DAY, LOGIN, NOTICES};
use crate::layout::{OLD_CHECKPOINT, OLD_CHECKPOINT_KIND};

/// What the lines of a checkpoint begin with.
pub const ROWS: &[&str] = &["seat", "proposal", "login"];

#[derive(Default)]
struct Rows {
    /// By seat; those that no line names are free.
    seats: [Option<Vec<u8>>; SEATS.most],
    proposals: Vec<Vec<u8>>,
    logins: Vec<Vec<u8>>,
}

/// What follows `checkpoint`, and the lines below it: seats, proposals and logins in any order, the
/// rows of each table as they stand.
pub fn compose(line: &mut Words, lines: &mut Lines) -> Parse<Vec<u8>> {
    let (kind, mut body) = head(line)?;
    line.finish()?;
    let mut rows = Rows::default();
    while let Some(mut row) = lines.next_if(|line| line.begins_with(ROWS)) {
        rows.read(&mut row)?;
        row.finish()?;
    }
    for seat in rows.seats {
        body.extend(seat.unwrap_or(vec![0; SEATS.size]));
    }
    write(&PROPOSALS, &rows.proposals, &mut body);
    write(&LOGINS, &rows.logins, &mut body);
    Ok(record(kind, &body))
}

/// The kind and the fields before the seats: one that has notices has a kind of its own.
fn head(line: &mut Words) -> Parse<(u16, Vec<u8>)> {
    let mut fields = values(line, &OLD_CHECKPOINT)?;
    if !line.begins_with(&[NOTICES[0].name]) {
        return Ok((OLD_CHECKPOINT_KIND, fields));
    }
    fields.extend(values(line, &NOTICES)?);
    Ok((CHECKPOINT_KIND, fields))
}

/// A row count and the rows; "Unused rows are zero."
fn write(table: &Table, rows: &[Vec<u8>], out: &mut Vec<u8>) {
    out.push(rows.len() as u8);
    let end = out.len() + table.most * table.size;
    out.extend(rows.concat());
    out.resize(end, 0);
}

impl Rows {
    fn read(&mut self, line: &mut Words) -> Parse<()> {
        if line.begins_with(&["seat"]) {
            self.seat(line)
        } else if line.begins_with(&["proposal"]) {
            require_room(line, &PROPOSALS, self.proposals.len())?;
            line.keyword("proposal")?;
            let mut row = values(line, &CYCLE_AND_DAY)?;
            row.extend(subject(line)?);
            self.proposals.push(row);
            Ok(())
        } else {
            require_room(line, &LOGINS, self.logins.len())?;
            self.logins.push(values(line, &LOGIN)?);
            Ok(())
        }
    }

    fn seat(&mut self, line: &mut Words) -> Parse<()> {
        line.keyword("seat")?;
        let word = line.take("a seat")?;
        let seat = word.number("seat", SEATS.most as u32 - 1)?;
        let listed = &mut self.seats[seat as usize];
        if listed.is_some() {
            return Err(word.place.error(format!("seat {seat} is named twice")));
        }
        let mut row = standing(line)?;
        row.extend(values(line, &[LIFE])?);
        *listed = Some(row);
        Ok(())
    }
}

/// A standing's word, or `standing` and a number.
fn standing(line: &mut Words) -> Parse<Vec<u8>> {
    if line.begins_with(&[STANDING.name]) {
        return values(line, &[STANDING]);
    }
    let word = line.take("a standing")?;
    let Some(number) = STANDINGS.iter().position(|name| *name == word.text) else {
        return Err(word.is_not("free, certified, present, retired or `standing` and a number"));
    };
    let mut out = Vec::new();
    push(&mut out, &STANDING, number as u32);
    Ok(out)
}

fn require_room(line: &Words, table: &Table, used: usize) -> Parse<()> {
    match line.peek() {
        Some(word) if used == table.most => Err(word.place.error(format!(
            "no row is left: a checkpoint has {} for `{}`",
            table.most, word.text
        ))),
        _ => Ok(()),
    }
}
