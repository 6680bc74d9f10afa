//! Whether one thing is all that is malformed in a request.

use crate::compare::call::Request;
use crate::compare::check::second::PAPER;

/// Whether a request is no longer refused by 1 once this is mended.
pub fn is_mended(request: &Request, mend: impl Fn(&mut Request)) -> bool {
    let mut mended = request.clone();
    mend(&mut mended);
    let mut out = vec![0; mended.out];
    PAPER.calls.make(&mended.image, &mended.records, &mut out) != 1
}
