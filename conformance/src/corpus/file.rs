//! A file of the corpus: its text to runs of requests.

use super::answer::Answer;
use super::call::{Numbers, Sort, SORTS};
use super::chunk::{between_bars, error, hexadecimal, number, Chunk, Item, Parse, LONGEST};
use crate::layout::KEY_SIZE;
use crate::text;
use std::collections::HashMap;

/// How a request is made.
#[derive(Debug, Clone, Copy, PartialEq, Eq)]
pub enum By {
    /// As a part of node-run's input; its line has the ordinal and the cycle after it.
    Run { ordinal: usize, cycle: u32 },
    /// By a call alone, with an output slice of some length, or of the least that it takes.
    Call {
        sort: Sort,
        numbers: Numbers,
        room: Option<usize>,
    },
}

impl By {
    fn sort(self) -> Option<Sort> {
        match self {
            By::Run { .. } => None,
            By::Call { sort, .. } => Some(sort),
        }
    }
}

#[derive(Debug, Clone)]
pub struct Request {
    /// The line of its answer.
    pub line: usize,
    pub by: By,
    pub items: Vec<Item>,
    pub answer: Answer,
    /// The count that is given: of lines, announcements, bytes or shares; 0 for answers without one.
    pub count: usize,
    /// What is given with it: the lines of a page, the announcements of a roster or the line of one, shares,
    /// their key or a sum of them.
    pub output: Vec<Vec<u8>>,
}

/// One input of node-run, and the requests by call that stand between.
#[derive(Debug, Clone, Default)]
pub struct Run {
    pub requests: Vec<Request>,
}

/// What was read of a file.
#[derive(Default)]
struct Reader {
    /// The runs that ended, and the one at hand.
    runs: Vec<Run>,
    run: Run,
    names: HashMap<String, Chunk>,
    /// The name of the chunk at hand, where it is not a part of a request.
    naming: Option<String>,
    chunk: Option<Chunk>,
    items: Vec<Item>,
    call: Option<By>,
    /// How many lines of what the answer above gives have yet to come.
    awaited: usize,
}

/// Lines that belong to the chunk above them.
const BELOW: [&str; 5] = ["seat", "proposal", "login", "own", "voted"];
const CHANGES: [&str; 4] = ["at", "size", "each", "more"];
/// What the lines of a given output begin with.
const OUTPUTS: [(&str, Sort); 6] = [
    ("# page:", Sort::Page),
    ("# gives:", Sort::Import),
    ("# line:", Sort::Export),
    ("# share:", Sort::Split),
    ("# key:", Sort::Merge),
    ("# sum:", Sort::Add),
];

pub fn read(text: &str) -> Parse<Vec<Run>> {
    let mut reader = Reader::default();
    for (line, text) in (1..).zip(text.lines()) {
        reader.line(line, text.trim())?;
    }
    let last = text.lines().count();
    reader.close()?;
    reader.end_run(last)?;
    Ok(reader.runs)
}

impl Reader {
    fn line(&mut self, line: usize, text: &str) -> Parse<()> {
        if let Some(answer) = text.strip_prefix("# answer:") {
            return self.answer(line, answer);
        }
        for (front, sort) in OUTPUTS {
            if let Some(text) = text.strip_prefix(front) {
                return self.output(line, sort, text);
            }
        }
        if let Some(text) = text.strip_prefix("text ") {
            return self.text(line, text);
        }
        let text = text.split('#').next().unwrap_or_default();
        let words: Vec<&str> = text.split_whitespace().collect();
        match (words.as_slice(), &mut self.chunk) {
            ([], _) => Ok(()),
            ([first, ..], Some(chunk)) if CHANGES.contains(first) => chunk.change(line, &words),
            ([first, ..], Some(chunk)) if BELOW.contains(first) => {
                chunk.push(line, text);
                Ok(())
            }
            _ => {
                self.close()?;
                self.begin(line, text, &words)
            }
        }
    }

    /// A line that is not below another one.
    fn begin(&mut self, line: usize, text: &str, words: &[&str]) -> Parse<()> {
        match words {
            ["run"] => self.end_run(line)?,
            ["call", sort, words @ ..] => {
                self.require_answered(line)?;
                let sort = sort_named(line, sort)?;
                let (numbers, words) = numbers_named(line, sort, words)?;
                let room = room_named(line, words)?;
                self.call = Some(By::Call {
                    sort,
                    numbers,
                    room,
                });
            }
            ["let", name] => self.naming = Some(name.to_string()),
            ["same", name] => match self.names.get(*name) {
                Some(chunk) => self.chunk = Some(chunk.clone()),
                None => return error(line, format!("nothing above is named `{name}`")),
            },
            _ => {
                let mut chunk = Chunk::default();
                chunk.push(line, text);
                self.chunk = Some(chunk);
            }
        }
        Ok(())
    }

    /// A line of a roster: it goes on with the roster at hand, or begins one.
    fn text(&mut self, line: usize, text: &str) -> Parse<()> {
        if let Some(chunk) = &mut self.chunk {
            if chunk.push_text(line, text)? {
                return Ok(());
            }
        }
        self.close()?;
        let mut chunk = Chunk::default();
        chunk.push_text(line, text)?;
        self.chunk = Some(chunk);
        Ok(())
    }

    /// The chunk at hand gets its name, or is a part of the request.
    fn close(&mut self) -> Parse<()> {
        self.require_output()?;
        let Some(chunk) = self.chunk.take() else {
            return Ok(());
        };
        match self.naming.take() {
            Some(name) => drop(self.names.insert(name, chunk)),
            None => self.items.push(chunk.item()?),
        }
        Ok(())
    }

    fn end_run(&mut self, line: usize) -> Parse<()> {
        self.require_answered(line)?;
        let run = std::mem::take(&mut self.run);
        if !run.requests.is_empty() {
            self.runs.push(run);
        }
        Ok(())
    }

    fn require_answered(&self, line: usize) -> Parse<()> {
        match self.items.is_empty() && self.call.is_none() {
            true => Ok(()),
            false => error(line, "the request above has no answer"),
        }
    }

    fn answer(&mut self, line: usize, text: &str) -> Parse<()> {
        self.close()?;
        let words: Vec<&str> = text.split_whitespace().collect();
        let (by, answer) = match self.call.take() {
            Some(by) => (by, words.as_slice()),
            None => self.by_run(line, &words)?,
        };
        let (count, answer) = self.counted(line, by, answer)?;
        let Some(answer) = Answer::read(answer) else {
            return error(
                line,
                "started, voted, done, open, given or no N is expected",
            );
        };
        let items = std::mem::take(&mut self.items);
        self.run.requests.push(Request {
            line,
            by,
            items,
            answer,
            count,
            output: Vec::new(),
        });
        Ok(())
    }

    /// The count of an answer that has one, and its words without it. What is given follows.
    fn counted<'a, 'b>(
        &mut self,
        line: usize,
        by: By,
        words: &'a [&'b str],
    ) -> Parse<(usize, &'a [&'b str])> {
        match (by.sort(), words) {
            (Some(sort), ["given", count]) if sort.counts() => {
                let count = number(line, count)?;
                self.awaited = match sort {
                    Sort::Export => 1,
                    Sort::Add => count.div_ceil(KEY_SIZE),
                    _ => count,
                };
                Ok((count, &words[..1]))
            }
            (Some(sort), ["given"]) if sort.counts() => {
                error(line, "given and a number is expected")
            }
            (Some(Sort::Merge), ["given"]) => {
                self.awaited = 1;
                Ok((0, words))
            }
            _ => Ok((0, words)),
        }
    }

    /// A line of what the answer above gives.
    fn output(&mut self, line: usize, sort: Sort, text: &str) -> Parse<()> {
        let bytes = match sort {
            Sort::Import => text::compose(text).or_else(|found| error(line, found.what))?,
            Sort::Page => between_bars(line, text).map(|line| [&line[..], b"\n"].concat())?,
            Sort::Split | Sort::Merge | Sort::Add => {
                hexadecimal(line, &text.split_whitespace().collect::<Vec<_>>())?
            }
            _ => between_bars(line, text)?,
        };
        match self.run.requests.last_mut() {
            Some(request) if self.awaited > 0 && request.by.sort() == Some(sort) => {
                request.output.push(bytes);
            }
            _ => return error(line, "the answer above gives no such line"),
        }
        self.awaited -= 1;
        Ok(())
    }

    /// All that the answer above gives was there.
    fn require_output(&self) -> Parse<()> {
        match (self.awaited, self.run.requests.last()) {
            (1.., Some(request)) => error(request.line, "lines of what it gives are missing"),
            _ => Ok(()),
        }
    }

    /// `ORDINAL ANSWER CYCLE`, as node-run prints it.
    fn by_run<'a, 'b>(&self, line: usize, words: &'a [&'b str]) -> Parse<(By, &'a [&'b str])> {
        let [ordinal, answer @ .., cycle] = words else {
            return error(line, "an ordinal, an answer and a cycle are expected");
        };
        let ordinal = number(line, ordinal)?;
        let cycle = number(line, cycle)? as u32;
        let before = self.run.requests.iter();
        let next = 1 + before.filter(|r| matches!(r.by, By::Run { .. })).count();
        match ordinal == next {
            true => Ok((By::Run { ordinal, cycle }, answer)),
            false => error(line, format!("the ordinal is {next}")),
        }
    }
}

fn sort_named(line: usize, name: &str) -> Parse<Sort> {
    match SORTS.iter().find(|sort| sort.name() == name) {
        Some(sort) => Ok(*sort),
        None => error(
            line,
            "start, deliver, query, checkpoint, page, import, export, split, merge or add is expected",
        ),
    }
}

/// The numbers that a call takes, and the words behind them.
fn numbers_named<'a, 'b>(
    line: usize,
    sort: Sort,
    words: &'a [&'b str],
) -> Parse<(Numbers, &'a [&'b str])> {
    let mut numbers = Numbers::default();
    let rest = match (sort, words) {
        (Sort::Page, ["day", day, rest @ ..]) => {
            numbers.day = short(line, day)?;
            rest
        }
        (Sort::Import, ["cycle", cycle, "day", day, rest @ ..]) => {
            (numbers.cycle, numbers.day) = (short(line, cycle)?, short(line, day)?);
            rest
        }
        (Sort::Split | Sort::Merge, ["k", k, "n", n, rest @ ..]) => {
            (numbers.k, numbers.n) = (short(line, k)?, short(line, n)?);
            rest
        }
        (Sort::Page, _) => return error(line, "day N is expected"),
        (Sort::Import, _) => return error(line, "cycle N day N is expected"),
        (Sort::Split | Sort::Merge, _) => return error(line, "k N n N is expected"),
        _ => words,
    };
    Ok((numbers, rest))
}

fn short(line: usize, word: &str) -> Parse<u32> {
    let number = u32::try_from(number(line, word)?);
    number.or_else(|_| error(line, "a number of a call has 32 bits"))
}

fn room_named(line: usize, words: &[&str]) -> Parse<Option<usize>> {
    match words {
        [] => Ok(None),
        ["room", room] => match number(line, room)? {
            room if room <= LONGEST => Ok(Some(room)),
            _ => error(
                line,
                format!("an output slice here has {LONGEST} bytes at most"),
            ),
        },
        _ => error(line, "room N, or the end of the line, is expected"),
    }
}
