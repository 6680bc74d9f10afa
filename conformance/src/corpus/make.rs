//! One call on guarded slices. After it: no input slice and no byte around a slice was changed, and
//! the output slice was written exactly where the number says so.

use super::call::{self, Call};
use super::memory::fenced;
use super::written;
use crate::compare::call::Calls;
use std::io;

/// The bytes before each slice, and behind it where it doesn't end with its memory.
pub const GUARD: usize = 64;
const FILL: u8 = 0xA5;

/// An output slice of `room` bytes; each slice ends `gap` bytes before its memory does.
#[derive(Clone, Copy, Debug)]
pub struct Slices {
    pub room: usize,
    pub gap: usize,
}

/// What a call returned, and what it wrote.
#[derive(Clone, PartialEq, Debug)]
pub struct Made {
    pub number: u32,
    pub written: Option<Vec<u8>>,
}

/// The memories of the slices, the output slice's last.
pub struct Desk {
    memories: [&'static mut [u8]; 4],
    /// How many calls were made.
    pub calls: u64,
}

impl Desk {
    pub fn new() -> io::Result<Desk> {
        let memories = [fenced()?, fenced()?, fenced()?, fenced()?];
        Ok(Desk { memories, calls: 0 })
    }

    pub fn make(&mut self, by: &Calls, call: &Call, on: Slices) -> Result<Made, String> {
        self.place(call, on);
        let number = self.call(by, call, on);
        self.calls += 1;
        self.require_inputs(call, on)?;
        let written = self.written(call, number, on)?;
        if let Some(written) = &written {
            written::check(call, number, written)?;
        }
        Ok(Made { number, written })
    }

    fn place(&mut self, call: &Call, on: Slices) {
        let [inputs @ .., output] = &mut self.memories;
        place(output, &vec![FILL; on.room], on.gap);
        for (memory, slice) in inputs.iter_mut().zip(&call.slices) {
            place(memory, slice, on.gap);
        }
    }

    fn require_inputs(&self, call: &Call, on: Slices) -> Result<(), String> {
        for (memory, slice) in self.memories.iter().zip(&call.slices) {
            require_kept(memory, slice, on.gap, "an input slice or a byte beside it")?;
        }
        Ok(())
    }

    fn call(&mut self, by: &Calls, call: &Call, on: Slices) -> u32 {
        let [inputs @ .., output] = &mut self.memories;
        let slices: Vec<&[u8]> = inputs
            .iter()
            .zip(&call.slices)
            .map(|(memory, slice)| within(memory, slice.len(), on.gap))
            .collect();
        let end = output.len() - on.gap;
        call::make(by, call, &slices, &mut output[end - on.room..end])
    }

    /// What was written; "longer ones keep their tail".
    fn written(&self, call: &Call, number: u32, on: Slices) -> Result<Option<Vec<u8>>, String> {
        let [.., output] = &self.memories;
        let writes = call.sort.writes(number);
        let size = if writes { call.room() } else { 0 };
        if size > on.room {
            return Err(format!("returns {number}, but has no room to write"));
        }
        let mut slice = within(output, on.room, on.gap).to_vec();
        slice[size..].fill(FILL);
        let what = "what it may not write of its output slice, or a byte beside it";
        require_kept(output, &slice, on.gap, what)?;
        slice.truncate(size);
        Ok(writes.then_some(slice))
    }
}

/// The slice of this length in its memory.
fn within(memory: &[u8], length: usize, gap: usize) -> &[u8] {
    let end = memory.len() - gap;
    &memory[end - length..end]
}

/// A slice between its guard bytes, as the memory shall end.
fn guarded(slice: &[u8], gap: usize) -> Vec<u8> {
    [&[FILL; GUARD][..], slice, &[FILL; GUARD][..gap]].concat()
}

fn place(memory: &mut [u8], slice: &[u8], gap: usize) {
    let guarded = guarded(slice, gap);
    let start = memory.len() - guarded.len();
    memory[start..].copy_from_slice(&guarded);
}

fn require_kept(memory: &[u8], slice: &[u8], gap: usize, what: &str) -> Result<(), String> {
    match memory.ends_with(&guarded(slice, gap)) {
        true => Ok(()),
        false => Err(format!("changed {what}")),
    }
}
