//! A file's requests through all three, and what is derived from them through both that are called.

use super::answer::Answer;
use super::call::{Call, Sort};
use super::file::{By, Request, Run};
use super::make::{Desk, Made, Slices};
use super::reached::Reached;
use super::sweep;
use super::walk::{walk, Counts, Found};
use crate::compare::call::{given, ARCHIVE};
use crate::compare::program::printed;
use crate::compare::PAPER;
use crate::layout::kind_of;
use crate::text;
use std::io;
use std::path::PathBuf;

/// The most that is shown of a line that was printed.
const MOST_SHOWN: usize = 80;

pub struct Checker {
    pub desk: Desk,
    pub node_run: PathBuf,
    pub reached: Reached,
    /// The answers of calls for which the lengths of all slices were swept, each once; of queries also
    /// by their kind, of starts by that of the checkpoint.
    swept: Vec<(Sort, Answer, u16)>,
}

impl Checker {
    pub fn new(node_run: PathBuf) -> io::Result<Checker> {
        Ok(Checker {
            desk: Desk::new()?,
            node_run,
            reached: Reached::default(),
            swept: Vec::new(),
        })
    }

    pub fn file(&mut self, runs: &[Run]) -> Result<Counts, Found> {
        let mut counts = Counts::default();
        for run in runs {
            let each = &mut |request: &Request, call: &Call, room: usize| {
                self.request(request, call, room)
            };
            counts.add(walk(run, each)?);
            self.run(run)?;
        }
        Ok(counts)
    }

    /// A request in both that are called. Gives the image that it wrote.
    fn request(
        &mut self,
        request: &Request,
        call: &Call,
        room: usize,
    ) -> Result<Option<Vec<u8>>, String> {
        let (sort, answer) = (call.sort, request.answer);
        if !sort.answers().contains(&answer) {
            return Err(format!("{} never answers {answer}", sort.name()));
        }
        let returned = answer.number() | given(request.count);
        let made = self.both(call, Slices { room, gap: 0 }, returned)?;
        self.reached.note(sort, answer);
        if sort.is_told() {
            request.require_output(made.written.as_deref())?;
        }
        if room == call.room() {
            self.derive(request, call, returned)?;
        }
        if !sort.writes_image() {
            return Ok(None);
        }
        if let Some(image) = &made.written {
            self.require_image(image)?;
        }
        Ok(made.written)
    }

    /// What follows from a request that has room.
    fn derive(&mut self, request: &Request, call: &Call, number: u32) -> Result<(), String> {
        let kind = match call.sort {
            Sort::Start => kind_of(&call.slices[0]),
            Sort::Query => kind_of(&call.slices[1]),
            _ => 0,
        };
        let key = (call.sort, request.answer, kind);
        let first = !self.swept.contains(&key);
        let each = &mut |call: &Call, on: Slices, wanted: u32| self.derived(call, on, wanted);
        sweep::around(call, number, each)?;
        let held = request.items.len() == call.sort.records();
        if held {
            sweep::as_vote(call, number, each)?;
        }
        sweep::as_image(call, number, each)?;
        sweep::in_other_calls(call, number, each)?;
        if first {
            sweep::rooms(call, number, each)?;
        }
        if first && !sweep::is_malformed(number) {
            sweep::slices(call, number, each)?;
        }
        if first {
            self.swept.push(key);
        }
        Ok(())
    }

    /// An image that was written is taken by the next call.
    fn require_image(&mut self, image: &[u8]) -> Result<(), String> {
        sweep::image_in_calls(image, true, &mut |call, on, wanted| {
            self.derived(call, on, wanted)
        })
    }

    /// A call that no text has.
    fn derived(&mut self, call: &Call, on: Slices, wanted: u32) -> Result<(), String> {
        let made = self.both(call, on, wanted);
        made.map(drop).map_err(|what| {
            let sizes: Vec<usize> = call.slices.iter().map(Vec::len).collect();
            let (sort, room) = (call.sort.name(), on.room);
            format!("derived {sort}, slices of {sizes:?} bytes, output slice of {room}: {what}")
        })
    }

    /// Both return the number, and write the same.
    fn both(&mut self, call: &Call, on: Slices, wanted: u32) -> Result<Made, String> {
        let mut all = Vec::new();
        for by in [&ARCHIVE, &PAPER.calls] {
            let of = |what: String| format!("{} {what}", by.name);
            let made = self.desk.make(by, call, on).map_err(of)?;
            if made.number != wanted {
                return Err(of(format!("returns {}, wanted {wanted}", made.number)));
            }
            all.push(made);
        }
        match (all.pop(), all.pop()) {
            (Some(second), Some(archive)) if second == archive => Ok(archive),
            _ => Err("the archive and the second implementation write other bytes".to_string()),
        }
    }

    /// The run's input through node-run and through the second implementation.
    fn run(&self, run: &Run) -> Result<(), Found> {
        let (input, wanted) = (run.input(), run.lines());
        let line = run.requests.last().map_or(0, |request| request.line);
        let printed = printed(&self.node_run, &input).map_err(|what| (line, what))?;
        run.compare("node-run", &printed, &wanted)?;
        run.compare(PAPER.calls.name, &(PAPER.node_run)(&input), &wanted)
    }
}

impl Run {
    /// The bytes for node-run.
    pub fn input(&self) -> Vec<u8> {
        let in_run = self.requests.iter().filter(|request| request.is_in_run());
        in_run
            .flat_map(|request| request.items.iter())
            .flat_map(|item| item.bytes.clone())
            .collect()
    }

    /// What node-run is to print.
    pub fn lines(&self) -> Vec<u8> {
        let lines = self.requests.iter().filter_map(Request::printed);
        lines.collect::<String>().into_bytes()
    }

    /// Finds the first line that is not as wanted, at the answer that it belongs to.
    fn compare(&self, name: &str, printed: &[u8], wanted: &[u8]) -> Result<(), Found> {
        if printed == wanted {
            return Ok(());
        }
        let text = String::from_utf8_lossy(printed).into_owned();
        let mut lines = text.split_inclusive('\n');
        for request in self.requests.iter().filter(|request| request.is_in_run()) {
            let line = lines.next().unwrap_or("nothing");
            if Some(line) != request.printed().as_deref() {
                let shown: String = line.trim_end().escape_debug().take(MOST_SHOWN).collect();
                return Err((request.line, format!("{name} prints \"{shown}\"")));
            }
        }
        let last = self.requests.last().map_or(0, |request| request.line);
        Err((last, format!("{name} prints more lines after it")))
    }
}

impl Request {
    /// What was written is what the text has: lines, announcements, shares, a key or a sum, one behind the other.
    fn require_output(&self, written: Option<&[u8]>) -> Result<(), String> {
        let mut rest = written.unwrap_or_default();
        for wanted in &self.output {
            let (piece, behind) = rest.split_at(wanted.len().min(rest.len()));
            if piece != wanted {
                let shown = self.shown();
                let (piece, wanted) = (shown(piece), shown(wanted));
                return Err(format!("it writes {piece}, wanted {wanted}"));
            }
            rest = behind;
        }
        match rest.len() {
            0 => Ok(()),
            more => Err(format!("it writes {more} bytes more")),
        }
    }

    /// How a piece of its output is shown: bytes of shares in hexadecimal.
    fn shown(&self) -> fn(&[u8]) -> String {
        match self.by {
            By::Call { sort, .. } if sort.is_of_shares() => hexadecimal,
            _ => shown,
        }
    }

    fn is_in_run(&self) -> bool {
        matches!(self.by, By::Run { .. })
    }

    fn printed(&self) -> Option<String> {
        match self.by {
            By::Run { ordinal, cycle } => Some(format!("{ordinal} {} {cycle}\n", self.answer)),
            By::Call { .. } => None,
        }
    }
}

fn hexadecimal(piece: &[u8]) -> String {
    let bytes: Vec<String> = piece.iter().map(|byte| format!("{byte:02x}")).collect();
    bytes.join(" ")
}

/// An announcement in the words of `records`, a line between bars.
fn shown(piece: &[u8]) -> String {
    match text::show(piece) {
        shown if !shown.malformed && !piece.is_empty() => format!("`{}`", shown.text.trim_end()),
        _ => format!("|{}|", piece.escape_ascii()),
    }
}
