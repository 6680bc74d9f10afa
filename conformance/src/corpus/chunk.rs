//! One record, checkpoint, image, roster, key or run of shares of the text: its lines as `records compose`
//! takes them, or the text of a roster, and the changes of its bytes below them.

use crate::text;

/// A message about a line of the text.
#[derive(Debug, Clone, PartialEq, Eq)]
pub struct Error {
    pub line: usize,
    pub what: String,
}

pub type Parse<T> = Result<T, Error>;

pub fn error<T>(line: usize, what: impl Into<String>) -> Parse<T> {
    let what = what.into();
    Err(Error { line, what })
}

/// The bytes of a chunk. With `each`, a request is made for each of several of its bytes.
#[derive(Debug, Clone, PartialEq, Eq)]
pub struct Item {
    pub bytes: Vec<u8>,
    pub each: Option<Each>,
}

/// Each byte from a place to a place, both included, put to a value.
#[derive(Debug, Clone, Copy, PartialEq, Eq)]
pub struct Each {
    pub from: usize,
    pub to: usize,
    pub byte: u8,
}

/// A change of the bytes that the lines make.
#[derive(Debug, Clone)]
enum Change {
    At(usize, Vec<u8>),
    More(Vec<u8>),
    Size(usize),
    Each(Each),
}

#[derive(Debug, Clone, Default)]
pub struct Chunk {
    lines: Vec<(usize, String)>,
    /// The bytes of a roster.
    roster: Option<Vec<u8>>,
    changes: Vec<(usize, Change)>,
}

/// The longest slice that a size makes: a record of the greatest length field.
pub const LONGEST: usize = 65537;

impl Chunk {
    pub fn push(&mut self, line: usize, text: &str) {
        self.lines.push((line, text.to_string()));
    }

    /// A line `text`, where the chunk is a roster or is empty.
    pub fn push_text(&mut self, line: usize, text: &str) -> Parse<bool> {
        let fits = self.lines.is_empty() && self.changes.is_empty();
        if fits {
            let bytes = between_bars(line, text)?;
            self.roster.get_or_insert_default().extend(bytes);
        }
        Ok(fits)
    }

    /// A line `at`, `more`, `size` or `each` below the chunk.
    pub fn change(&mut self, line: usize, words: &[&str]) -> Parse<()> {
        let change = match words {
            ["at", place, "bytes", bytes @ ..] => {
                Change::At(number(line, place)?, hexadecimal(line, bytes)?)
            }
            ["more", "bytes", bytes @ ..] => Change::More(hexadecimal(line, bytes)?),
            ["size", size] => Change::Size(number(line, size)?.min(LONGEST)),
            ["each", from, "to", to, "bytes", byte] => Change::Each(Each {
                from: number(line, from)?,
                to: number(line, to)?,
                byte: hexadecimal(line, &[byte])?[0],
            }),
            _ => {
                return error(
                    line,
                    "at N bytes .., more bytes .., size N or each N to N bytes .. is expected",
                )
            }
        };
        self.changes.push((line, change));
        Ok(())
    }

    fn bytes(&self) -> Parse<Vec<u8>> {
        if let Some(roster) = &self.roster {
            return Ok(roster.clone());
        }
        let lines: Vec<&str> = self.lines.iter().map(|(_, text)| text.as_str()).collect();
        text::compose(&lines.join("\n")).or_else(|found| {
            let (line, _) = self.lines[found.place.line - 1];
            error(line, found.what)
        })
    }

    pub fn item(&self) -> Parse<Item> {
        let bytes = self.bytes()?;
        let mut item = Item { bytes, each: None };
        for (line, change) in &self.changes {
            item.apply(*line, change)?;
        }
        match self.lines.first() {
            Some((line, _)) if item.bytes.len() > LONGEST => error(*line, "no record is as long"),
            _ => Ok(item),
        }
    }
}

impl Item {
    fn apply(&mut self, line: usize, change: &Change) -> Parse<()> {
        let size = self.bytes.len();
        match change {
            Change::At(place, bytes) if place + bytes.len() <= size => {
                self.bytes[*place..place + bytes.len()].copy_from_slice(bytes);
            }
            Change::More(bytes) => self.bytes.extend(bytes),
            Change::Size(size) => self.bytes.resize(*size, 0),
            Change::Each(each) if each.from <= each.to && each.to < size => {
                self.each = Some(*each);
            }
            _ => return error(line, format!("the bytes before it are {size}")),
        }
        Ok(())
    }

    /// The bytes, or one for each place of `each`.
    pub fn all(&self) -> Vec<Vec<u8>> {
        let Some(each) = self.each else {
            return vec![self.bytes.clone()];
        };
        let changed = |place: usize| {
            let mut bytes = self.bytes.clone();
            bytes[place] = each.byte;
            bytes
        };
        (each.from..=each.to).map(changed).collect()
    }
}

pub fn number(line: usize, word: &str) -> Parse<usize> {
    word.parse()
        .or_else(|_| error(line, format!("`{word}` is not a number")))
}

/// The bytes of a text between two bars, with \r, \n, \\ and \xNN for those that it can't have.
pub fn between_bars(line: usize, text: &str) -> Parse<Vec<u8>> {
    let text = text.trim().strip_prefix('|');
    let Some(text) = text.and_then(|text| text.strip_suffix('|')) else {
        return error(line, "a text stands between two bars");
    };
    let mut bytes = Vec::new();
    let mut rest = text;
    while let Some((plain, escape)) = rest.split_once('\\') {
        bytes.extend(plain.bytes());
        let (byte, size) = escaped(line, escape)?;
        bytes.push(byte);
        rest = &escape[size..];
    }
    bytes.extend(rest.bytes());
    Ok(bytes)
}

/// The byte of what stands behind a backslash, and how many characters it has.
fn escaped(line: usize, text: &str) -> Parse<(u8, usize)> {
    match text.as_bytes() {
        [b'r', ..] => Ok((b'\r', 1)),
        [b'n', ..] => Ok((b'\n', 1)),
        [b'\\', ..] => Ok((b'\\', 1)),
        [b'x', ..] => {
            let digits = text.get(1..3).unwrap_or_default();
            Ok((hexadecimal(line, &[digits])?[0], 3))
        }
        _ => error(line, "\\r, \\n, \\\\ or \\xNN is expected"),
    }
}

/// Bytes of two hexadecimal digits, at least one.
pub fn hexadecimal(line: usize, words: &[&str]) -> Parse<Vec<u8>> {
    let text = format!("bytes {}", words.join(" "));
    text::compose(&text).or_else(|found| error(line, found.what))
}
