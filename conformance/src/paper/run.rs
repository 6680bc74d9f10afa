//! The program node-run on a whole input.

use super::node::Node;
use super::start::start;
use super::Answer::{self, Done, Given, No, Open, Started, Voted};

/// What ends the run: a cut record, one out of its place, or no node to ask.
struct Ends;

/// What is left of the input, and the node if there is one.
struct Run<'a> {
    rest: &'a [u8],
    node: Option<Node>,
}

/// What node-run prints: "one line each: ordinal, answer, the node's cycle after it (0 if none)".
pub fn node_run(input: &[u8]) -> Vec<u8> {
    let mut run = Run {
        rest: input,
        node: None,
    };
    let mut lines = String::new();
    let mut ordinal: u64 = 1;
    // "input that ends before a request just ends the run"
    while !run.rest.is_empty() {
        let (answer, ends) = match run.request() {
            Ok(answer) => (answer, false),
            Err(Ends) => (No(1), true),
        };
        lines += &format!("{ordinal} {} {}\n", word(answer), run.cycle());
        ordinal += 1;
        if ends {
            break;
        }
    }
    lines.into_bytes()
}

/// "started", "voted", "done", "open", or "no" and the number.
fn word(answer: Answer) -> String {
    match answer {
        Started => "started".into(),
        Voted => "voted".into(),
        Done => "done".into(),
        Open => "open".into(),
        Given => "given".into(),
        No(number) => format!("no {number}"),
    }
}

/// The whole bytes of the shortest record of a kind that has a place.
fn least_size(kind: u16) -> Option<usize> {
    Some(match kind {
        1..=9 => 24,
        16 => 1108,
        26 => 1110,
        18 => 7,
        19 => 9,
        20 => 13,
        21 => 14,
        _ => return None,
    })
}

impl<'a> Run<'a> {
    fn cycle(&self) -> u32 {
        self.node.as_ref().map_or(0, Node::cycle)
    }

    /// "Records are framed by their length and placed by their kind". What is cut takes the rest of
    /// the input.
    fn record(&mut self) -> Result<(u16, &'a [u8]), Ends> {
        let input = std::mem::take(&mut self.rest);
        let &[low, high, ref follows @ ..] = input else {
            return Err(Ends);
        };
        let length = usize::from(u16::from_le_bytes([low, high]));
        let kind = match *follows {
            [low, high, ..] if length >= 2 => u16::from_le_bytes([low, high]),
            _ => return Err(Ends),
        };
        if follows.len() < length {
            return Err(Ends);
        }
        let (record, rest) = input.split_at(2 + length);
        self.rest = rest;
        // "A record too short for its kind (a sheet: under 7 bytes) ... counts as cut".
        if record.len() < least_size(kind).ok_or(Ends)? {
            return Err(Ends);
        }
        Ok((kind, record))
    }

    /// The second record of a request, of one of these kinds.
    fn second(&mut self, expected: &[u16]) -> Result<&'a [u8], Ends> {
        let (kind, record) = self.record()?;
        if expected.contains(&kind) {
            Ok(record)
        } else {
            Err(Ends)
        }
    }

    /// "start and checkpoint (one request), then announcement and sheet (one), or query (one)"
    fn request(&mut self) -> Result<Answer, Ends> {
        let (kind, first) = self.record()?;
        match kind {
            // Request A7: "node-run places it like 16".
            19 => {
                let checkpoint = self.second(&[16, 26])?;
                Ok(self.start(checkpoint, first))
            }
            1..=9 => self.deliver(first),
            // "an announcement or query before any node" ends the run. Request A5: "node-run places 21
            // as a query".
            20 | 21 => Ok(self.node.as_mut().ok_or(Ends)?.query(first)),
            _ => Err(Ends),
        }
    }

    /// "A later start replaces the node if it is accepted and leaves it otherwise."
    fn start(&mut self, checkpoint: &[u8], record: &[u8]) -> Answer {
        match start(checkpoint, record) {
            Ok(node) => {
                self.node = Some(node);
                Started
            }
            Err(number) => No(number),
        }
    }

    /// A malformed announcement still takes its sheet.
    fn deliver(&mut self, announcement: &[u8]) -> Result<Answer, Ends> {
        if self.node.is_none() {
            return Err(Ends);
        }
        let sheet = self.second(&[18])?;
        let node = self.node.as_mut().ok_or(Ends)?;
        Ok(node.deliver(announcement, sheet))
    }
}
