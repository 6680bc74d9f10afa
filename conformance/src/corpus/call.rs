//! The ten calls as C sees them, with the slices and the numbers that the text gives them.

use super::answer::Answer;
use crate::compare::call::{answer_in, possible_answers, writes, Calls, CALLS, VOTED};
use crate::layout::{self, CHECKPOINT_SIZE, IMAGE_SIZE, KEY_SIZE, LINE_SIZE};

#[derive(Clone, Copy, PartialEq, Eq, Debug)]
pub enum Sort {
    Start,
    Deliver,
    Query,
    Checkpoint,
    Page,
    Import,
    Export,
    Split,
    Merge,
    Add,
}

use Sort::{Add, Checkpoint, Deliver, Export, Import, Merge, Page, Query, Split, Start};

pub const SORTS: [Sort; 10] = [
    Start, Deliver, Query, Checkpoint, Page, Import, Export, Split, Merge, Add,
];

impl Sort {
    pub fn name(self) -> &'static str {
        CALLS[self as usize]
    }

    /// How many records its request has in the text.
    pub fn records(self) -> usize {
        [2, 2, 1, 0, 0, 1, 1, 2, 2, 2][self as usize]
    }

    /// The number for an output slice that is too short.
    pub fn no_room(self) -> u32 {
        match self {
            Page => 23,
            Import | Export => 25,
            Split | Merge | Add => 28,
            _ => 22,
        }
    }

    /// Whether an image is its first slice.
    pub fn takes_image(self) -> bool {
        matches!(self, Deliver | Query | Checkpoint | Page)
    }

    /// Whether the call writes its output where it returns this number.
    pub fn writes(self, returned: u32) -> bool {
        writes(self as usize, answer_in(returned))
    }

    /// Whether what it gives stands in the text.
    pub fn is_told(self) -> bool {
        matches!(self, Page | Import | Export | Split | Merge | Add)
    }

    /// Whether it gives a count.
    pub fn counts(self) -> bool {
        self.is_told() && self != Merge
    }

    /// Whether it is one of shares (requests A9 and A10): its slices are no records, may be longer than needed
    /// and are never malformed.
    pub fn is_of_shares(self) -> bool {
        matches!(self, Split | Merge | Add)
    }

    /// Whether what the call writes is an image.
    pub fn writes_image(self) -> bool {
        matches!(self, Start | Deliver | Query)
    }

    /// The answers that the call can give.
    pub fn answers(self) -> Vec<Answer> {
        let good = match self {
            Start => Answer::Started,
            Deliver => Answer::Done,
            Query => Answer::Open,
            _ => Answer::Given,
        };
        let answer = |number| match number {
            0 => good,
            VOTED => Answer::Voted,
            _ => Answer::No(number),
        };
        possible_answers(self as usize)
            .into_iter()
            .map(answer)
            .collect()
    }

    /// The number for a malformed slice: 2 for the sheet, 24 in the calls of rosters, 1 for each other. In
    /// the calls of shares none is malformed.
    pub fn malformed(self, slice: usize) -> u32 {
        match (self, slice) {
            (Deliver, 2) => 2,
            (Import | Export, _) => 24,
            _ => 1,
        }
    }
}

/// The numbers that a call takes; 0 in those that take none.
#[derive(Clone, Copy, PartialEq, Eq, Debug, Default)]
pub struct Numbers {
    /// The cycle of a roster's first line.
    pub cycle: u32,
    /// The day of a page or a roster.
    pub day: u32,
    /// Of shares: how many give the key, and how many there are.
    pub k: u32,
    pub n: u32,
}

/// A call with its input slices, in the order of C's parameters.
#[derive(Clone, PartialEq, Debug)]
pub struct Call {
    pub sort: Sort,
    pub slices: Vec<Vec<u8>>,
    pub numbers: Numbers,
}

impl Call {
    /// From the records of a request in the order of the text, and the image for calls that take
    /// one.
    pub fn new(sort: Sort, image: Option<&[u8]>, mut records: Vec<Vec<u8>>) -> Option<Call> {
        if records.len() != sort.records() {
            return None;
        }
        match sort {
            // The text has the start first, as node-run reads it; C has the checkpoint first.
            Start => records.reverse(),
            _ if sort.takes_image() => records.insert(0, image?.to_vec()),
            _ => {}
        }
        Some(Call {
            sort,
            slices: records,
            numbers: Numbers::default(),
        })
    }

    /// The fewest bytes of an output slice; those of a page depend on the image, those of a roster on
    /// its lines, those of a line on the login, those of shares on their number and those of a sum on the
    /// first run.
    pub fn room(&self) -> usize {
        match self.sort {
            Checkpoint => CHECKPOINT_SIZE,
            Page => LINE_SIZE * layout::lines(&self.slices[0]),
            Import => layout::announcements_size(&self.slices[0]),
            Export => layout::roster_line_size(&self.slices[0]),
            Split => layout::shares_size(self.numbers.n),
            Merge => KEY_SIZE,
            Add => self.slices[0].len(),
            _ => IMAGE_SIZE,
        }
    }

    /// The fewest bytes of an input slice in a call of shares.
    pub fn needed(&self, slice: usize) -> usize {
        let k = self.numbers.k;
        match (self.sort, slice) {
            (Split, 0) => KEY_SIZE,
            (Split, _) => layout::coefficients_size(k),
            (Add, 0) => 0,
            (Add, _) => self.slices[0].len(),
            (_, 0) => k as usize,
            _ => layout::shares_size(k),
        }
    }

    /// Whether an input slice of a call of shares is too short.
    pub fn is_short(&self) -> bool {
        let mut slices = self.slices.iter().enumerate();
        slices.any(|(place, slice)| slice.len() < self.needed(place))
    }
}

/// Makes a call on these slices, as many as it has.
pub fn make(by: &Calls, call: &Call, slices: &[&[u8]], out: &mut [u8]) -> u32 {
    let Numbers { cycle, day, k, n } = call.numbers;
    match call.sort {
        Start => (by.start)(slices[0], slices[1], out),
        Deliver => (by.deliver)(slices[0], slices[1], slices[2], out),
        Query => (by.query)(slices[0], slices[1], out),
        Checkpoint => (by.checkpoint)(slices[0], out),
        Page => (by.page)(slices[0], day, out),
        Import => (by.import)(slices[0], cycle, day, out),
        Export => (by.export)(slices[0], out),
        Split => (by.split)(slices[0], k, n, slices[1], out),
        Merge => (by.merge)(k, n, slices[0], slices[1], out),
        Add => (by.add)(slices[0], slices[1], out),
    }
}
