//! Time per call.

use super::cases::Case;
use super::tuned;
use crate::compare::call::{Calls, ARCHIVE};
use crate::compare::PAPER;
use crate::layout::{LINE_SIZE, LOGINS};
use std::hint::black_box;
use std::time::Instant;

/// The shipped static library, the second implementation and the version written for speed.
pub const VERSIONS: [Calls; 3] = [ARCHIVE, PAPER.calls, TUNED];

pub const TUNED: Calls = Calls {
    name: "tuned",
    start: tuned::node_start,
    deliver: tuned::node_deliver,
    query: tuned::node_query,
    checkpoint: tuned::node_checkpoint,
    page: tuned::node_page,
    import: tuned::node_roster_import,
    export: tuned::node_roster_export,
    split: tuned::node_shares_split,
    merge: tuned::node_shares_merge,
    add: tuned::node_shares_add,
};

/// An output slice that has room in every case: for the page of a full list.
pub const OUT_SIZE: usize = LINE_SIZE * LOGINS.most;

const ROUNDS: usize = 200;
const CALLS_PER_ROUND: u32 = 500;

/// The least ns per call of each subject. A round measures all of them, one after the other, so that
/// what else the machine does meets all alike.
pub fn least<const N: usize>(mut subjects: [&mut dyn FnMut(); N]) -> [f64; N] {
    let mut least = [f64::INFINITY; N];
    for _ in 0..ROUNDS {
        for (subject, least) in subjects.iter_mut().zip(&mut least) {
            *least = least.min(round(subject));
        }
    }
    least
}

fn round(subject: &mut dyn FnMut()) -> f64 {
    let begin = Instant::now();
    for _ in 0..CALLS_PER_ROUND {
        subject();
    }
    begin.elapsed().as_secs_f64() * 1e9 / f64::from(CALLS_PER_ROUND)
}

/// The case once through the calls, its output slice not cleared. Panics where it returns another number.
pub fn make(calls: &Calls, case: &Case, out: &mut [u8]) {
    let returned = calls.make(black_box(&case.image), black_box(&case.records), out);
    assert_eq!(returned, case.returned, "{} by {}", case.name, calls.name);
    black_box(out);
}

/// An image copied in and out again: what no call that writes one can undercut by much.
pub fn copy(image: &[u8], between: &mut [u8], out: &mut [u8]) {
    between.copy_from_slice(black_box(image));
    out.copy_from_slice(black_box(between));
    black_box(out);
}
