//! The bytes of a text: one record to a line, a checkpoint and an own part with lines below them.

mod checkpoint;
mod own;
pub mod words;

use crate::layout::{record, Field, Form, ACTIONS, ARGUMENTS_SIZE, SUBJECT_SIZE};
use crate::layout::{CYCLE_AND_DAY, DOOR, LIFE, MASKS, MINIMA, MINIMA_KIND, NAMED_NOTICES, QUERY};
use crate::layout::{DOOR_QUERY_KIND, QUERY_KIND, SHEET_KIND, START_KIND};
use crate::layout::{ROW_COUNT, SEAT, START};
use words::{Error, Parse, Word, Words};

/// The bytes of a text, and where they come from.
#[derive(Debug, Default, PartialEq, Eq)]
pub struct Composed {
    pub bytes: Vec<u8>,
    /// Whether they are a checkpoint and an own part.
    pub is_image: bool,
    /// Lines, and how many bytes are above each.
    begins: Vec<(usize, usize)>,
}

impl Composed {
    /// The line with the byte at a place.
    pub fn line_of(&self, at: usize) -> usize {
        let above = self.begins.iter().rev().find(|(_, begin)| *begin <= at);
        above.map_or(1, |(line, _)| *line)
    }
}

/// The bytes of a text, or the first thing that is not understood. Values outside the ranges of the
/// document are written where they fit their field, so that a refusal can be tried.
pub fn compose(text: &str) -> Result<Vec<u8>, Error> {
    Ok(compose_text(text)?.bytes)
}

/// The same for input that may not be text.
pub fn compose_bytes(input: &[u8]) -> Result<Composed, Error> {
    compose_text(words::text(input)?)
}

fn compose_text(text: &str) -> Result<Composed, Error> {
    let mut lines = words::lines(text);
    let mut composed = Composed::default();
    while let Some(mut line) = lines.next() {
        let first = line.take("a record")?;
        let above = composed.bytes.len();
        composed.begins.push((first.place.line, above));
        composed.bytes.extend(match first.text {
            "checkpoint" => checkpoint::compose(&mut line, &mut lines)?,
            "own" => {
                own::require_checkpoint(first.place, above)?;
                composed.is_image = true;
                own::compose(&mut line, &mut lines)?
            }
            _ => one_line(first, &mut line)?,
        });
    }
    Ok(composed)
}

/// What stands on one line.
fn one_line(first: Word, line: &mut Words) -> Parse<Vec<u8>> {
    let bytes = match first.text {
        "start" => record(START_KIND, &values(line, &START)?),
        "query" => query(line)?,
        "announce" => announcement(line)?,
        "sheet" => sheet(line)?,
        "bytes" => raw(line)?,
        _ => return Err(not_understood(first)),
    };
    line.finish()?;
    Ok(bytes)
}

/// A line that begins with this word stands nowhere, or not here.
fn not_understood(first: Word) -> Error {
    let word = first.text;
    let is_action = ACTIONS.iter().any(|(name, _)| *name == word);
    first.place.error(match word {
        _ if checkpoint::ROWS.contains(&word) => {
            format!("`{word}` is a line of a checkpoint, and none is above it")
        }
        "voted" => "`voted` is a line of `own`, and none is above it".to_string(),
        _ if is_action => format!("`{word}` is an action: `announce cycle .. day ..` comes first"),
        _ => return first.is_not("start, checkpoint, announce, sheet, query, own or bytes"),
    })
}

fn values(line: &mut Words, fields: &[Field]) -> Parse<Vec<u8>> {
    let mut out = Vec::new();
    for field in fields {
        if field.is_named {
            line.keyword(field.name)?;
        }
        let value = match field.form {
            Form::Number => {
                let expected = format!("a number ({})", field.name);
                line.take(&expected)?.number(field.name, field.most())?
            }
            Form::Bits => bits(line, field)?,
        };
        push(&mut out, field, value);
    }
    Ok(out)
}

fn push(out: &mut Vec<u8>, field: &Field, value: u32) {
    out.extend(&value.to_le_bytes()[..field.size]);
}

/// The bits of the numbers up to the next word that is none; no number gives 0.
fn bits(line: &mut Words, field: &Field) -> Parse<u32> {
    let mut set = 0;
    while let Some(word) = line.next_number() {
        let bit = 1 << word.number(field.name, 8 * field.size as u32 - 1)?;
        if set & bit != 0 {
            let what = format!("{} {} is named twice", field.name, word.text);
            return Err(word.place.error(what));
        }
        set |= bit;
    }
    Ok(set)
}

/// What follows `query`: one that names its door has a kind of its own.
fn query(line: &mut Words) -> Parse<Vec<u8>> {
    let mut body = values(line, &QUERY)?;
    if !line.begins_with(&[DOOR.name]) {
        return Ok(record(QUERY_KIND, &body));
    }
    body.extend(values(line, &[DOOR])?);
    Ok(record(DOOR_QUERY_KIND, &body))
}

/// What follows `announce`.
fn announcement(line: &mut Words) -> Parse<Vec<u8>> {
    let mut body = values(line, &CYCLE_AND_DAY)?;
    let (kind, mut arguments) = match line.begins_with(&["propose"]) {
        true => {
            line.keyword("propose")?;
            (1, subject(line)?)
        }
        false => action(line, "one of the nine actions (`records` lists them)")?,
    };
    arguments.resize(ARGUMENTS_SIZE, 0);
    body.extend(arguments);
    Ok(record(kind, &body))
}

/// An action other than propose: its kind and its argument bytes.
fn action(line: &mut Words, expected: &str) -> Parse<(u16, Vec<u8>)> {
    let word = line.take(expected)?;
    let named = ACTIONS.iter().skip(1).position(|(n, _)| *n == word.text);
    let Some(place) = named else {
        return Err(word.is_not(expected));
    };
    let kind = 2 + place as u16;
    let arguments = match kind {
        MINIMA_KIND => minima(line)?,
        _ => values(line, ACTIONS[1 + place].1)?,
    };
    Ok((kind, arguments))
}

/// What follows `minima`: one that names no notices keeps both, and their bytes are zero.
fn minima(line: &mut Words) -> Parse<Vec<u8>> {
    let mut arguments = values(line, &MINIMA)?;
    if line.begins_with(&[NAMED_NOTICES[0].name]) {
        arguments.extend(values(line, &NAMED_NOTICES)?);
    }
    Ok(arguments)
}

/// "subject kind 2 (4, 5 or 6), its first 8 argument bytes", or 7 (request A6). Other kinds are written
/// where their arguments fit.
fn subject(line: &mut Words) -> Parse<Vec<u8>> {
    let first = line.peek();
    let (kind, mut arguments) = action(line, "certify, minima, remove or rejoin")?;
    if let Some(word) = first.filter(|_| arguments.len() > SUBJECT_SIZE) {
        let size = arguments.len();
        let what = format!("`{}` has {size} argument bytes, a subject 8", word.text);
        return Err(word.place.error(what));
    }
    arguments.resize(SUBJECT_SIZE, 0);
    Ok([&kind.to_le_bytes(), &arguments[..]].concat())
}

/// What follows `sheet`: trustee numbers of both levels, then rows of seat:life.
fn sheet(line: &mut Words) -> Parse<Vec<u8>> {
    let mut body = values(line, &MASKS)?;
    line.keyword("rows")?;
    let mut rows = Vec::new();
    let mut count = 0;
    while let Some(word) = line.next_number() {
        if count == ROW_COUNT.most() {
            return Err(word.place.error("the row count does not fit: 0 to 255"));
        }
        count += 1;
        let Some((seat, life)) = word.split() else {
            return Err(word.is_not("a row seat:life"));
        };
        push(&mut rows, &SEAT, seat.number(SEAT.name, SEAT.most())?);
        push(&mut rows, &LIFE, life.number(LIFE.name, LIFE.most())?);
    }
    push(&mut body, &ROW_COUNT, count);
    body.extend(rows);
    Ok(record(SHEET_KIND, &body))
}

/// What follows `bytes`.
fn raw(line: &mut Words) -> Parse<Vec<u8>> {
    let mut bytes = vec![byte(line.take("a byte")?)?];
    while line.peek().is_some() {
        bytes.push(byte(line.take("a byte")?)?);
    }
    Ok(bytes)
}

fn byte(word: Word) -> Parse<u8> {
    let digits = word.text.len() == 2 && word.text.bytes().all(|c| c.is_ascii_hexdigit());
    match u8::from_str_radix(word.text, 16) {
        Ok(byte) if digits => Ok(byte),
        _ => Err(word.is_not("a byte of two hexadecimal digits")),
    }
}
