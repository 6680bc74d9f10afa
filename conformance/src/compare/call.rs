//! Calls: their inputs, their output slices, what of it they write, and the ten functions of an
//! implementation that make them.

use crate::archive;
use crate::layout::{self, CHECKPOINT_SIZE, IMAGE_SIZE, KEY_SIZE, LINE_SIZE};

/// What is handed to a call beside the image: records, the day of a page, a roster with its numbers, a
/// key or shares of one with theirs, two runs of shares.
#[derive(Clone, PartialEq, Debug)]
pub enum Records {
    /// A checkpoint and a start.
    Start(Vec<u8>, Vec<u8>),
    /// An announcement and a sheet.
    Deliver(Vec<u8>, Vec<u8>),
    Query(Vec<u8>),
    Checkpoint,
    Page(u32),
    /// With the cycle of the first line and the day of all announcements.
    Import {
        roster: Vec<u8>,
        cycle: u32,
        day: u32,
    },
    /// An announcement.
    Export(Vec<u8>),
    Split {
        key: Vec<u8>,
        k: u32,
        n: u32,
        coefficients: Vec<u8>,
    },
    Merge {
        k: u32,
        n: u32,
        numbers: Vec<u8>,
        shares: Vec<u8>,
    },
    /// Two runs of shares to be added.
    Add(Vec<u8>, Vec<u8>),
}

/// A call of a history: at a host, with an output slice of `out` bytes.
#[derive(Clone, PartialEq, Debug)]
pub struct Call {
    pub host: usize,
    pub records: Records,
    pub out: usize,
}

/// A park's history. Hosts keep a node by value or an image, as `by_value` says.
#[derive(Clone, PartialEq, Debug, Default)]
pub struct History {
    pub by_value: Vec<bool>,
    pub first: Vec<u8>,
    pub calls: Vec<Call>,
}

/// A key and its coefficients.
pub type SplitKey = (Vec<u8>, Vec<u8>);

/// A key that is split, then keys whose shares are added to its shares one after the other, all with the
/// same k and n (request A10); after each the shares of some k numbers are merged.
#[derive(Clone, PartialEq, Debug)]
pub struct Renewal {
    pub k: u32,
    pub n: u32,
    /// The share numbers of every merge.
    pub numbers: Vec<u8>,
    pub splits: Vec<SplitKey>,
}

/// A call that stands alone: `image` is what the node held, empty for calls that take none.
#[derive(Clone, PartialEq, Debug)]
pub struct Request {
    pub image: Vec<u8>,
    pub records: Records,
    pub out: usize,
}

/// What a call answered, the count that it gave, and what it wrote.
#[derive(Clone, PartialEq, Debug)]
pub struct Outcome {
    pub number: u32,
    pub count: u32,
    pub written: Option<Vec<u8>>,
}

/// A call that was made at a host, with its outcome.
pub struct Event {
    pub request: Request,
    pub outcome: Outcome,
    /// The image of what the host holds after it; empty where it holds no node.
    pub held: Vec<u8>,
}

pub const VOTED: u32 = 128;

pub const CALLS: [&str; 10] = [
    "start",
    "deliver",
    "query",
    "checkpoint",
    "page",
    "import",
    "export",
    "split",
    "merge",
    "add",
];

/// The answers that each call can give, in the order of `CALLS`.
pub fn possible_answers(call: usize) -> Vec<u32> {
    match call {
        0 => vec![0, 1, 9, 14, 22],
        1 => (0..=16).chain([22, VOTED]).collect(),
        2 => vec![0, 1, 3, 17, 18, 19, 20, 21, 22],
        3 => vec![0, 1, 22],
        4 => vec![0, 1, 23],
        5 | 6 => vec![0, 24, 25],
        7 => vec![0, 26, 28],
        8 => vec![0, 26, 27, 28],
        _ => vec![0, 28],
    }
}

/// The answer in what a call returns: the low 8 bits.
pub fn answer_in(returned: u32) -> u32 {
    returned & 255
}

/// The count in what a call returns: the bits above.
pub fn count_in(returned: u32) -> u32 {
    returned >> 8
}

/// What a call returns that gives so many lines, announcements, bytes or shares: the low 24 bits of it.
pub fn given(count: usize) -> u32 {
    (count as u32) << 8
}

/// Whether a call of `CALLS` that answers `number` writes its output: "A call that starts, votes,
/// performs, answers open or adds a miss writes a whole image", a checkpoint call its checkpoint, a
/// page call its page, an import its announcements, an export its line, a split its shares, a merge its
/// key, an add its sum.
pub fn writes(call: usize, number: u32) -> bool {
    let adds_miss = call == 2 && (19..=21).contains(&number);
    number == 0 || number == VOTED || adds_miss
}

impl Records {
    /// The place of the call in `CALLS`.
    pub fn index(&self) -> usize {
        match self {
            Records::Start(..) => 0,
            Records::Deliver(..) => 1,
            Records::Query(..) => 2,
            Records::Checkpoint => 3,
            Records::Page(_) => 4,
            Records::Import { .. } => 5,
            Records::Export(_) => 6,
            Records::Split { .. } => 7,
            Records::Merge { .. } => 8,
            Records::Add(..) => 9,
        }
    }

    pub fn name(&self) -> &'static str {
        CALLS[self.index()]
    }

    /// The records as node-run takes them: a start comes before its checkpoint.
    pub fn in_order(&self) -> Vec<&Vec<u8>> {
        match self {
            Records::Start(checkpoint, start) => vec![start, checkpoint],
            Records::Deliver(announcement, sheet) => vec![announcement, sheet],
            Records::Query(query) => vec![query],
            _ => vec![],
        }
    }

    /// The bytes that a whole output needs; those of a page depend on the image. For input that is
    /// refused it is the size that would be nearest.
    pub fn size(&self, image: &[u8]) -> usize {
        match self {
            Records::Checkpoint => CHECKPOINT_SIZE,
            Records::Page(_) => LINE_SIZE * layout::lines(image),
            Records::Import { roster, .. } => layout::announcements_size(roster),
            Records::Export(announcement) => layout::roster_line_size(announcement),
            Records::Split { n, .. } => layout::shares_size(*n),
            Records::Merge { .. } => KEY_SIZE,
            Records::Add(shares, _) => shares.len(),
            _ => IMAGE_SIZE,
        }
    }

    /// Whether the call takes an image.
    pub fn takes_image(&self) -> bool {
        self.is_of_node() && !matches!(self, Records::Start(..))
    }

    /// Whether the call makes, asks or tells of a node; the calls of rosters and of shares don't.
    pub fn is_of_node(&self) -> bool {
        let is_of_roster = matches!(self, Records::Import { .. } | Records::Export(_));
        let is_of_shares = matches!(
            self,
            Records::Split { .. } | Records::Merge { .. } | Records::Add(..)
        );
        !is_of_roster && !is_of_shares
    }

    /// Whether the call leaves the node as it is: what it writes is no image.
    pub fn keeps_node(&self) -> bool {
        matches!(self, Records::Checkpoint | Records::Page(_))
    }

    /// Whether the call writes its output where it answers `number`.
    pub fn writes(&self, number: u32) -> bool {
        writes(self.index(), number)
    }
}

impl Request {
    /// The bytes that a whole output needs.
    pub fn size(&self) -> usize {
        self.records.size(&self.image)
    }
}

type Deliver = fn(&[u8], &[u8], &[u8], &mut [u8]) -> u32;
type Split = fn(&[u8], u32, u32, &[u8], &mut [u8]) -> u32;
type Merge = fn(u32, u32, &[u8], &[u8], &mut [u8]) -> u32;

/// The ten calls of one implementation, as C sees them.
pub struct Calls {
    pub name: &'static str,
    pub start: fn(&[u8], &[u8], &mut [u8]) -> u32,
    pub deliver: Deliver,
    pub query: fn(&[u8], &[u8], &mut [u8]) -> u32,
    pub checkpoint: fn(&[u8], &mut [u8]) -> u32,
    pub page: fn(&[u8], u32, &mut [u8]) -> u32,
    pub import: fn(&[u8], u32, u32, &mut [u8]) -> u32,
    pub export: fn(&[u8], &mut [u8]) -> u32,
    pub split: Split,
    pub merge: Merge,
    pub add: fn(&[u8], &[u8], &mut [u8]) -> u32,
}

/// The shipped static library.
pub const ARCHIVE: Calls = Calls {
    name: "archive",
    start: archive::node_start,
    deliver: archive::node_deliver,
    query: archive::node_query,
    checkpoint: archive::node_checkpoint,
    page: archive::node_page,
    import: archive::node_roster_import,
    export: archive::node_roster_export,
    split: archive::node_shares_split,
    merge: archive::node_shares_merge,
    add: archive::node_shares_add,
};

impl Calls {
    /// Makes the call that takes these records, and the image where it takes one.
    pub fn make(&self, image: &[u8], records: &Records, out: &mut [u8]) -> u32 {
        match records {
            Records::Start(checkpoint, start) => (self.start)(checkpoint, start, out),
            Records::Deliver(announcement, sheet) => {
                (self.deliver)(image, announcement, sheet, out)
            }
            Records::Query(query) => (self.query)(image, query, out),
            Records::Checkpoint => (self.checkpoint)(image, out),
            Records::Page(day) => (self.page)(image, *day, out),
            Records::Import { roster, cycle, day } => (self.import)(roster, *cycle, *day, out),
            Records::Export(announcement) => (self.export)(announcement, out),
            Records::Split {
                key,
                k,
                n,
                coefficients,
            } => (self.split)(key, *k, *n, coefficients, out),
            Records::Merge {
                k,
                n,
                numbers,
                shares,
            } => (self.merge)(*k, *n, numbers, shares, out),
            Records::Add(shares, more) => (self.add)(shares, more, out),
        }
    }
}
