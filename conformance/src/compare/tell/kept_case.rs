//! Cases as text, to be kept and replayed: one call on each line, bytes in hexadecimal, and comments
//! that say the same in the words of `records`.

use crate::compare::call::{Call, History, Records, Renewal, Request, SplitKey};
use crate::layout::{KEY_SIZE, LEAST_SHARES, MOST_SHARES};
use crate::text::{show, show_image};
use std::str::FromStr;

/// What a difference was found on.
#[derive(Clone, PartialEq, Debug)]
pub enum Case {
    History(History),
    Single(Request),
    Renewal(Renewal),
    /// The standard input of node-run.
    Stream(Vec<u8>),
}

/// The records of a call in the words of `records`, the day of a page, a roster, a key or shares.
pub fn words_of(records: &Records) -> String {
    let slices = match records {
        Records::Page(day) => return format!("page for day {day}\n"),
        Records::Import { roster, cycle, day } => return roster_words(roster, *cycle, *day),
        Records::Export(announcement) => vec![announcement],
        Records::Split { .. } | Records::Merge { .. } | Records::Add(..) => {
            return share_words(records)
        }
        _ => records.in_order(),
    };
    let words = slices.into_iter().map(|slice| match slice.len() {
        0 => "# an empty slice\n".to_string(),
        _ => show(slice).text,
    });
    words.collect()
}

/// The lines of a roster, whatever may stand there.
fn roster_words(roster: &[u8], cycle: u32, day: u32) -> String {
    let lines = roster.split_inclusive(|byte| *byte == b'\n');
    let lines: String = lines
        .map(|line| format!("{}\n", line.escape_ascii()))
        .collect();
    format!("roster for day {day} and cycles from {cycle}:\n{lines}")
}

/// k and n and the slices, a line for each 32 bytes of a key or share and for the coefficients of each
/// key byte.
fn share_words(records: &Records) -> String {
    let lines = |name: &str, slice: &[u8], size: usize| -> String {
        let line = |bytes: &[u8]| format!("{name} {}\n", hex(bytes));
        slice.chunks(size.max(1)).map(line).collect()
    };
    match records {
        Records::Split {
            key,
            k,
            n,
            coefficients,
        } => {
            let terms = k.clamp(&LEAST_SHARES, &MOST_SHARES) - 1;
            let coefficients = lines("coefficients", coefficients, terms as usize);
            let key = lines("key", key, KEY_SIZE);
            format!("split {k} of {n}\n{key}{coefficients}")
        }
        Records::Merge {
            k,
            n,
            numbers,
            shares,
        } => {
            let shares = lines("share", shares, KEY_SIZE);
            format!("merge {k} of {n}\nnumbers {numbers:?}\n{shares}")
        }
        Records::Add(shares, more) => {
            let shares = lines("share", shares, KEY_SIZE);
            let more = lines("other share", more, KEY_SIZE);
            format!("add\n{shares}{more}")
        }
        _ => String::new(),
    }
}

/// The keys of a renewal, in their order.
pub fn renewal_words(renewal: &Renewal) -> String {
    let Renewal { k, n, numbers, .. } = renewal;
    let keys = renewal.splits.iter().map(|(key, _)| hex(key));
    let keys = keys.collect::<Vec<_>>().join("\nkey ");
    format!("renewal {k} of {n}\nnumbers {numbers:?}\nkey {keys}\n")
}

/// Lines as comments.
fn comment(text: &str) -> String {
    text.lines().map(|line| format!("# {line}\n")).collect()
}

pub fn hex(bytes: &[u8]) -> String {
    if bytes.is_empty() {
        return "-".to_string();
    }
    bytes.iter().map(|byte| format!("{byte:02x}")).collect()
}

fn bytes(hex: &str) -> Result<Vec<u8>, String> {
    if hex == "-" {
        return Ok(Vec::new());
    }
    if !hex.len().is_multiple_of(2) || !hex.is_ascii() {
        return Err(format!("not hexadecimal: {hex}"));
    }
    let pairs = (0..hex.len() / 2).map(|i| u8::from_str_radix(&hex[2 * i..2 * i + 2], 16));
    pairs
        .collect::<Result<_, _>>()
        .map_err(|_| format!("not hexadecimal: {hex}"))
}

fn records_line(records: &Records) -> String {
    match records {
        Records::Start(checkpoint, start) => format!("start {} {}", hex(checkpoint), hex(start)),
        Records::Deliver(announcement, sheet) => {
            format!("deliver {} {}", hex(announcement), hex(sheet))
        }
        Records::Query(query) => format!("query {}", hex(query)),
        Records::Checkpoint => "checkpoint".to_string(),
        Records::Page(day) => format!("page {day}"),
        Records::Import { roster, cycle, day } => format!("import {cycle} {day} {}", hex(roster)),
        Records::Export(announcement) => format!("export {}", hex(announcement)),
        Records::Split {
            key,
            k,
            n,
            coefficients,
        } => format!("split {k} {n} {} {}", hex(key), hex(coefficients)),
        Records::Merge {
            k,
            n,
            numbers,
            shares,
        } => format!("merge {k} {n} {} {}", hex(numbers), hex(shares)),
        Records::Add(shares, more) => format!("add {} {}", hex(shares), hex(more)),
    }
}

fn renewal_line(renewal: &Renewal) -> String {
    let Renewal { k, n, numbers, .. } = renewal;
    let splits = renewal.splits.iter();
    let splits: Vec<String> = splits
        .map(|(key, coefficients)| format!(" {} {}", hex(key), hex(coefficients)))
        .collect();
    format!("renewal {k} {n} {}{}\n", hex(numbers), splits.concat())
}

impl Case {
    pub fn write(&self) -> String {
        match self {
            Case::History(history) => write_history(history),
            Case::Single(request) => {
                let image = match request.image.as_slice() {
                    [] => String::new(),
                    image => show_image(image).text,
                };
                let words = comment(&(image + &words_of(&request.records)));
                let (out, image) = (request.out, hex(&request.image));
                let records = records_line(&request.records);
                format!("{words}single {out} {image} {records}\n")
            }
            Case::Renewal(renewal) => comment(&renewal_words(renewal)) + &renewal_line(renewal),
            Case::Stream(input) => format!("{}stream {}\n", comment(&show(input).text), hex(input)),
        }
    }

    /// Reads what `write` wrote; lines that begin with # are remarks.
    pub fn read(text: &str) -> Result<Case, String> {
        let mut history = History::default();
        for (index, line) in text.lines().enumerate() {
            let words: Vec<&str> = line
                .split('#')
                .next()
                .unwrap_or("")
                .split_whitespace()
                .collect();
            let case = read_line(&mut history, &words);
            let case = case.map_err(|what| format!("line {}: {what}", index + 1))?;
            if let Some(case) = case {
                return Ok(case);
            }
        }
        match history.by_value.is_empty() {
            true => Err("no case is in it".to_string()),
            false => Ok(Case::History(history)),
        }
    }
}

/// Reads a line into the history; a line that is a case by itself is given back.
fn read_line(history: &mut History, words: &[&str]) -> Result<Option<Case>, String> {
    match words {
        [] => {}
        ["stream", input] => return Ok(Some(Case::Stream(bytes(input)?))),
        ["single", out, image, records @ ..] => {
            return Ok(Some(Case::Single(Request {
                image: bytes(image)?,
                records: read_records(records)?,
                out: number(out)?,
            })))
        }
        ["renewal", k, n, numbers, splits @ ..] => {
            let renewal = Renewal {
                k: number(k)?,
                n: number(n)?,
                numbers: bytes(numbers)?,
                splits: read_splits(splits)?,
            };
            require_numbers(&renewal)?;
            return Ok(Some(Case::Renewal(renewal)));
        }
        ["first", first] => history.first = bytes(first)?,
        ["hosts", hosts @ ..] => {
            history.by_value = hosts.iter().map(|host| *host == "value").collect();
        }
        ["call", host, out, records @ ..] => {
            let (host, out) = (number(host)?, number(out)?);
            if host >= history.by_value.len() {
                return Err(format!("host {host} is not among the hosts"));
            }
            let records = read_records(records)?;
            history.calls.push(Call { host, records, out });
        }
        _ => return Err(format!("not a line of a case: {}", words.join(" "))),
    }
    Ok(None)
}

/// Keys, each with its coefficients behind it.
fn read_splits(words: &[&str]) -> Result<Vec<SplitKey>, String> {
    let read = |pair: &[&str]| match pair {
        [key, coefficients] => Ok((bytes(key)?, bytes(coefficients)?)),
        _ => Err("a key has no coefficients".to_string()),
    };
    words.chunks(2).map(read).collect()
}

/// A renewal takes shares by their numbers, so each must be there.
fn require_numbers(renewal: &Renewal) -> Result<(), String> {
    let n = renewal.n;
    let is_there = |number: &u8| (1..=n).contains(&u32::from(*number));
    match renewal.numbers.iter().all(is_there) {
        true => Ok(()),
        false => Err(format!("a share number is not from 1 to {n}")),
    }
}

fn write_history(history: &History) -> String {
    let hosts: Vec<&str> = history
        .by_value
        .iter()
        .map(|&by_value| if by_value { "value" } else { "image" })
        .collect();
    let first = comment(&show(&history.first).text);
    let mut text = format!(
        "hosts {}\n{first}first {}\n",
        hosts.join(" "),
        hex(&history.first)
    );
    for call in &history.calls {
        let (host, out, records) = (call.host, call.out, records_line(&call.records));
        text += &comment(&words_of(&call.records));
        text += &format!("call {host} {out} {records}\n");
    }
    text
}

fn number<T: FromStr>(word: &str) -> Result<T, String> {
    word.parse().map_err(|_| format!("not a number: {word}"))
}

fn read_records(words: &[&str]) -> Result<Records, String> {
    Ok(match words {
        ["start", checkpoint, start] => Records::Start(bytes(checkpoint)?, bytes(start)?),
        ["deliver", announcement, sheet] => Records::Deliver(bytes(announcement)?, bytes(sheet)?),
        ["query", query] => Records::Query(bytes(query)?),
        ["checkpoint"] => Records::Checkpoint,
        ["page", day] => Records::Page(number(day)?),
        ["import", cycle, day, roster] => Records::Import {
            roster: bytes(roster)?,
            cycle: number(cycle)?,
            day: number(day)?,
        },
        ["export", announcement] => Records::Export(bytes(announcement)?),
        ["split", k, n, key, coefficients] => Records::Split {
            key: bytes(key)?,
            k: number(k)?,
            n: number(n)?,
            coefficients: bytes(coefficients)?,
        },
        ["merge", k, n, numbers, shares] => Records::Merge {
            k: number(k)?,
            n: number(n)?,
            numbers: bytes(numbers)?,
            shares: bytes(shares)?,
        },
        ["add", shares, more] => Records::Add(bytes(shares)?, bytes(more)?),
        _ => return Err(format!("not a call: {}", words.join(" "))),
    })
}
