//! Where the parts of checkpoints of kind 26 and of images stand, and the checkpoint of one kind as one
//! of the other.

use super::{kind_of, number_at, record, size, ALL_MISSES, ANNOUNCEMENT_SIZE, BODY, CHECKPOINT};
use super::{CHECKPOINT_KIND, LOGIN, NOTICES, OLD_CHECKPOINT, OLD_CHECKPOINT_KIND, OWN, PROPOSAL};
use super::{SEAT_ROW, SUBJECT_SIZE};
use std::borrow::Cow;
use std::ops::Range;

/// A table of a checkpoint: where its first row stands, its most rows and the bytes of each.
pub struct Table {
    pub at: usize,
    pub most: usize,
    pub size: usize,
}

impl Table {
    pub const fn end(&self) -> usize {
        self.at + self.most * self.size
    }

    /// Where the number of used rows stands: a byte before the rows.
    pub const fn count_at(&self) -> usize {
        self.at - 1
    }

    pub const fn row(&self, row: usize) -> usize {
        self.at + row * self.size
    }
}

/// Where the notices stand: "after S" (request A7).
pub const NOTICES_AT: usize = BODY + size(&OLD_CHECKPOINT);
pub const SEATS: Table = Table {
    at: BODY + size(&CHECKPOINT),
    most: 32,
    size: size(&SEAT_ROW),
};
pub const PROPOSALS: Table = Table {
    at: SEATS.end() + 1,
    most: 16,
    size: size(&PROPOSAL) + SUBJECT_SIZE,
};
pub const LOGINS: Table = Table {
    at: PROPOSALS.end() + 1,
    most: 64,
    size: size(&LOGIN),
};
pub const CHECKPOINT_SIZE: usize = LOGINS.end();
pub const OLD_CHECKPOINT_SIZE: usize = CHECKPOINT_SIZE - size(&NOTICES);
/// Where the parts of an image stand behind its checkpoint.
pub const VOTED_AT: usize = CHECKPOINT_SIZE + size(&OWN);
pub const VOTE: Range<usize> = VOTED_AT + 1..VOTED_AT + 1 + ANNOUNCEMENT_SIZE;
pub const MISSES_AT: usize = VOTE.end;
pub const IMAGE_SIZE: usize = MISSES_AT + size(&ALL_MISSES);

/// A checkpoint of kind 16 as the one of kind 26 for its state: "Kind 16 is still read, with 7 and 2"
/// (request A7). Other bytes stay as they are.
pub fn to_current(checkpoint: &[u8]) -> Cow<'_, [u8]> {
    let is_old = kind_of(checkpoint) == OLD_CHECKPOINT_KIND
        && checkpoint.len() == OLD_CHECKPOINT_SIZE
        && number_at(checkpoint, 0, 2) as usize == OLD_CHECKPOINT_SIZE - 2;
    if !is_old {
        return checkpoint.into();
    }
    let (front, behind) = checkpoint.split_at(NOTICES_AT);
    record(CHECKPOINT_KIND, &[&front[BODY..], &[7, 2], behind].concat()).into()
}

/// A checkpoint of kind 26 as one of kind 16: its notices are left out.
pub fn to_old(checkpoint: &[u8]) -> Vec<u8> {
    let (front, behind) = checkpoint.split_at(NOTICES_AT);
    let behind = &behind[size(&NOTICES)..];
    record(OLD_CHECKPOINT_KIND, &[&front[BODY..], behind].concat())
}
