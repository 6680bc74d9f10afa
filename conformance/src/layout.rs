//! The records of document 01 and requests A5 to A7 as one table: the fields of each in the order of
//! their bytes, their sizes and ranges. Where the parts of checkpoints and images stand is in `places`,
//! the line of a page and that of a roster in `lines`, the slices of shares in `shares`. What writes,
//! shows and damages records takes them from here; the second implementation and the version for speed
//! have their own.

mod lines;
mod places;
mod shares;

pub use lines::{announcements_size, lines, roster_line_size, roster_lines, LINE_SIZE, WORD};
pub use places::{to_current, to_old, Table, CHECKPOINT_SIZE, IMAGE_SIZE, LOGINS, MISSES_AT};
pub use places::{NOTICES_AT, OLD_CHECKPOINT_SIZE, PROPOSALS, SEATS, VOTE, VOTED_AT};
pub use shares::{added, coefficients_size, pairs, shares_size};
pub use shares::{KEY_SIZE, LEAST_SHARES, MOST_SHARES};

/// How a field's value stands in the text.
#[derive(Debug, Clone, Copy, PartialEq, Eq)]
pub enum Form {
    Number,
    /// The numbers of the bits that are set, lowest bit 0.
    Bits,
}

/// A field with its name in the text, its size in bytes and the range that the document gives.
#[derive(Debug, Clone, Copy)]
pub struct Field {
    pub name: &'static str,
    /// Whether the name stands before the value. The second number of trustees and the misses of doors
    /// 1 to 3 have none.
    pub is_named: bool,
    pub size: usize,
    pub low: u32,
    pub high: u32,
    pub form: Form,
}

impl Field {
    /// The highest value that fits.
    pub const fn most(&self) -> u32 {
        MAX >> (32 - 8 * self.size)
    }

    /// Values that fit and are outside the range: those next to it and the highest.
    pub fn outside(&self) -> Vec<u32> {
        let below = self.low.checked_sub(1);
        let above = (self.high < self.most()).then(|| [self.high + 1, self.most()]);
        below
            .into_iter()
            .chain(above.into_iter().flatten())
            .collect()
    }
}

const MAX: u32 = u32::MAX;

const fn number(name: &'static str, size: usize, low: u32, high: u32) -> Field {
    Field {
        name,
        is_named: true,
        size,
        low,
        high,
        form: Form::Number,
    }
}

const fn bits(name: &'static str, size: usize, low: u32) -> Field {
    let field = number(name, size, low, MAX);
    Field {
        high: field.most(),
        form: Form::Bits,
        ..field
    }
}

const fn unnamed(field: Field) -> Field {
    Field {
        is_named: false,
        ..field
    }
}

pub const SEAT: Field = number("seat", 1, 0, 31);
/// "life 0 in a row, start or rejoin" is well formed, proposed or announced; the other lives are at
/// least 1.
pub const LIFE: Field = number("life", 4, 0, MAX);
pub const HELD_LIFE: Field = number("life", 4, 1, MAX);
const CYCLE: Field = number("cycle", 4, 0, MAX);
const DAY: Field = number("day", 4, 0, MAX);
pub const TRUSTEES: Field = number("trustees", 1, 1, 8);
pub const MARGIN: Field = number("m", 1, 0, 7);
pub const LEAST_QUORUM: Field = number("k", 1, 1, 32);
pub const SILENCE: Field = number("S", 2, 1, 365);
/// In days: "1 to 30 days each" (request A7).
pub const NOTICES: [Field; 2] = [number("ordinary", 1, 1, 30), number("restart", 1, 1, 30)];
/// Those that a minima names, proposed or announced: "zero meaning keep".
pub const NAMED_NOTICES: [Field; 2] = [number("ordinary", 1, 0, 30), number("restart", 1, 0, 30)];
/// "login 0 in a query or end" is well formed; those of a grant and a list are at least 1.
const ANY_LOGIN: Field = number("login", 4, 0, MAX);
pub const RIGHT: Field = number("right", 1, 0, 15);
/// Of one door.
pub const MISSES: Field = number("misses", 1, 0, 10);
pub const DOOR: Field = number("door", 1, 0, 3);
pub const DOORS: usize = DOOR.high as usize + 1;
pub const STANDING: Field = number("standing", 1, 0, 3);
pub const VOTED: Field = number("voted flag", 1, 0, 1);
pub const ROW_COUNT: Field = number("row count", 1, 0, 64);
pub const KIND: Field = number("kind", 2, 1, 9);
/// "4, 5 or 6", and 7 (request A6).
pub const SUBJECT_KIND: Field = number("subject kind", 2, 4, 7);

pub const START: [Field; 2] = [SEAT, LIFE];
pub const QUERY: [Field; 3] = [ANY_LOGIN, DAY, RIGHT];
/// A query that names its door (request A5).
pub const DOOR_QUERY: [Field; 4] = [ANY_LOGIN, DAY, RIGHT, DOOR];
/// Of a sheet; the row count and the rows follow.
pub const MASKS: [Field; 2] = [bits("level-1", 1, 0), bits("level-2", 1, 0)];
pub const ROW: [Field; 2] = [SEAT, LIFE];
/// Of an announcement; the action follows.
pub const CYCLE_AND_DAY: [Field; 2] = [CYCLE, DAY];
/// Of a proposal's row; the subject's arguments follow.
pub const PROPOSAL: [Field; 3] = [CYCLE, DAY, SUBJECT_KIND];
pub const LOGIN: [Field; 3] = [
    number("login", 4, 1, MAX),
    number("end", 4, 0, MAX),
    bits("rights", 2, 1),
];
const HELD_CYCLE: Field = number("cycle", 4, 1, MAX);
/// Of a checkpoint of kind 26, with the notices "after S" (request A7); the seats, the proposals and the
/// logins follow.
pub const CHECKPOINT: [Field; 9] = [
    HELD_CYCLE,
    DAY,
    TRUSTEES,
    unnamed(TRUSTEES),
    MARGIN,
    LEAST_QUORUM,
    SILENCE,
    NOTICES[0],
    NOTICES[1],
];
/// Of one of kind 16, which has no notices.
pub const OLD_CHECKPOINT: [Field; 7] = *CHECKPOINT.first_chunk().unwrap();
pub const SEAT_ROW: [Field; 2] = [STANDING, LIFE];
/// An image's own part up to the voted flag; the vote and the misses follow.
pub const OWN: [Field; 2] = [SEAT, HELD_LIFE];
/// The misses of an image, by door.
pub const ALL_MISSES: [Field; DOORS] = [MISSES, unnamed(MISSES), unnamed(MISSES), unnamed(MISSES)];

/// What every minima has in the text; the notices stand behind it where it names them.
pub const MINIMA: [Field; 3] = [MARGIN, LEAST_QUORUM, SILENCE];
pub const MINIMA_KIND: u16 = 5;
pub const REJOIN: [Field; 2] = [SEAT, LIFE];
/// The nine actions by kind, from 1. The argument of propose is another action.
pub const ACTIONS: [(&str, &[Field]); 9] = [
    ("propose", &[]),
    ("cancel", &[CYCLE]),
    ("presents", &[SEAT, number("flag", 1, 0, 1)]),
    ("certify", &[SEAT, HELD_LIFE]),
    (
        "minima",
        &[
            MARGIN,
            LEAST_QUORUM,
            SILENCE,
            NAMED_NOTICES[0],
            NAMED_NOTICES[1],
        ],
    ),
    ("remove", &[SEAT]),
    ("rejoin", &REJOIN),
    ("grant", &LOGIN),
    ("end", &[ANY_LOGIN]),
];

/// "Standings: 0 free, 1 certified, 2 present, 3 retired for good."
pub const STANDINGS: [&str; 4] = ["free", "certified", "present", "retired"];

/// The one that is written (request A7), and the one of document 01, which is still read.
pub const CHECKPOINT_KIND: u16 = 26;
pub const OLD_CHECKPOINT_KIND: u16 = 16;
pub const SHEET_KIND: u16 = 18;
pub const START_KIND: u16 = 19;
pub const QUERY_KIND: u16 = 20;
pub const DOOR_QUERY_KIND: u16 = 21;

/// Where a record's body begins: length and kind are before it.
pub const BODY: usize = 4;
pub const ARGUMENTS_SIZE: usize = 12;
pub const SUBJECT_SIZE: usize = 8;
pub const ARGUMENTS: usize = BODY + size(&CYCLE_AND_DAY);
pub const ANNOUNCEMENT_SIZE: usize = ARGUMENTS + ARGUMENTS_SIZE;
/// Where a sheet's row count and its rows stand.
pub const ROW_COUNT_AT: usize = BODY + size(&MASKS);
pub const ROWS: usize = ROW_COUNT_AT + ROW_COUNT.size;
pub const ROW_SIZE: usize = size(&ROW);
/// Where the door of a query stands: behind the fields of one that names none.
pub const DOOR_AT: usize = BODY + size(&QUERY);
pub const fn size(fields: &[Field]) -> usize {
    let (mut size, mut place) = (0, 0);
    while place < fields.len() {
        size += fields[place].size;
        place += 1;
    }
    size
}

/// The number at a place; bytes that are not there count as zero.
pub fn number_at(bytes: &[u8], at: usize, size: usize) -> u32 {
    let end = bytes.len().min(at + size);
    let field = bytes[at.min(end)..end].iter().rev();
    field.fold(0, |n, byte| n << 8 | u32::from(*byte))
}

/// A record's kind.
pub fn kind_of(record: &[u8]) -> u16 {
    number_at(record, 2, KIND.size) as u16
}

/// The values of fields that stand one behind the other from a place on.
pub fn values(fields: &[Field], bytes: &[u8], mut at: usize) -> Vec<u32> {
    let read = |field: &Field| {
        let value = number_at(bytes, at, field.size);
        at += field.size;
        value
    };
    fields.iter().map(read).collect()
}

/// The same for a record whose number of fields is known.
pub fn read<const N: usize>(fields: &[Field; N], bytes: &[u8], mut at: usize) -> [u32; N] {
    let mut rest = fields.iter();
    std::array::from_fn(|_| {
        let size = rest.next().map_or(0, |field| field.size);
        at += size;
        number_at(bytes, at - size, size)
    })
}

/// The bytes of values, one behind the other.
pub fn write(fields: &[Field], values: &[u32]) -> Vec<u8> {
    let mut out = vec![0; size(fields)];
    put(fields, values, &mut out, 0);
    out
}

/// Writes values over the bytes from a place on.
pub fn put(fields: &[Field], values: &[u32], bytes: &mut [u8], mut at: usize) {
    for (field, value) in fields.iter().zip(values) {
        let end = at + field.size;
        bytes[at..end].copy_from_slice(&value.to_le_bytes()[..field.size]);
        at = end;
    }
}

/// "A record is a 2-byte length (of what follows it), a 2-byte kind, a body."
pub fn record(kind: u16, body: &[u8]) -> Vec<u8> {
    let length = KIND.size as u16 + body.len() as u16;
    [&length.to_le_bytes(), &kind.to_le_bytes(), body].concat()
}

/// The bytes of the shortest record of a kind that node-run takes.
pub fn least_size(kind: u16) -> usize {
    match kind {
        CHECKPOINT_KIND => CHECKPOINT_SIZE,
        OLD_CHECKPOINT_KIND => OLD_CHECKPOINT_SIZE,
        SHEET_KIND => ROWS,
        START_KIND => BODY + size(&START),
        QUERY_KIND => BODY + size(&QUERY),
        DOOR_QUERY_KIND => BODY + size(&DOOR_QUERY),
        _ => ANNOUNCEMENT_SIZE,
    }
}

/// Whether a record is a checkpoint, by its kind.
pub fn is_checkpoint(kind: u16) -> bool {
    matches!(kind, CHECKPOINT_KIND | OLD_CHECKPOINT_KIND)
}

/// The fields of a checkpoint of this kind, before its seats.
pub fn checkpoint_fields(kind: u16) -> &'static [Field] {
    match kind {
        OLD_CHECKPOINT_KIND => &OLD_CHECKPOINT,
        _ => &CHECKPOINT,
    }
}

/// Whether a record is a query, by its kind.
pub fn is_query(kind: u16) -> bool {
    matches!(kind, QUERY_KIND | DOOR_QUERY_KIND)
}

/// The fields of a query of this kind.
pub fn query_fields(kind: u16) -> &'static [Field] {
    match kind {
        DOOR_QUERY_KIND => &DOOR_QUERY,
        _ => &QUERY,
    }
}

/// The door of a well-formed query: "kind 20 means door 0" (request A5).
pub fn door_of(query: &[u8]) -> usize {
    match kind_of(query) {
        DOOR_QUERY_KIND => number_at(query, DOOR_AT, DOOR.size) as usize,
        _ => 0,
    }
}

/// The bytes of the first record "framed by their length"; all that are left where it is cut.
pub fn framed(rest: &[u8]) -> usize {
    let size = 2 + number_at(rest, 0, 2) as usize;
    size.min(rest.len())
}

/// The values of an announcement's arguments; of a propose, the subject's kind.
pub fn arguments(announcement: &[u8]) -> Vec<u32> {
    match usize::from(kind_of(announcement)) {
        1 => values(&[SUBJECT_KIND], announcement, ARGUMENTS),
        kind @ 2..=9 => values(ACTIONS[kind - 1].1, announcement, ARGUMENTS),
        _ => Vec::new(),
    }
}
