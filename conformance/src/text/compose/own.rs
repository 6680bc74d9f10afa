//! The own part of an image: a line `own`, and a line `voted` below it if the node voted.

use super::words::{Lines, Parse, Place, Words};
use super::{announcement, push, values};
use crate::layout::{ANNOUNCEMENT_SIZE, CHECKPOINT_SIZE, DOORS, MISSES, OLD_CHECKPOINT_SIZE, OWN};

/// An own part comes behind the 1,110 bytes of a checkpoint, well formed or not. Behind the 1,108 of one
/// of kind 16 it is written too, so that the refusal can be tried.
pub fn require_checkpoint(place: Place, above: usize) -> Parse<()> {
    if matches!(above, CHECKPOINT_SIZE | OLD_CHECKPOINT_SIZE) {
        return Ok(());
    }
    Err(place.error(format!(
        "`own` makes an image of one checkpoint ({CHECKPOINT_SIZE} bytes) above it: {above} bytes \
         are above it"
    )))
}

/// What follows `own`, and the vote on the line below it. Nothing follows an image.
pub fn compose(line: &mut Words, lines: &mut Lines) -> Parse<Vec<u8>> {
    let mut out = values(line, &OWN)?;
    let misses = misses(line)?;
    line.finish()?;
    match lines.next_if(|line| line.begins_with(&["voted"])) {
        None => out.extend([0; 1 + ANNOUNCEMENT_SIZE]),
        Some(mut vote) => {
            vote.keyword("voted")?;
            vote.keyword("announce")?;
            out.push(1);
            out.extend(announcement(&mut vote)?);
            vote.finish()?;
        }
    }
    out.extend(misses);
    match lines.peek().and_then(Words::peek) {
        Some(word) => Err(word.place.error("an image ends with its own part")),
        None => Ok(out),
    }
}

/// The misses of doors 0 to 3; those that are left out are 0.
fn misses(line: &mut Words) -> Parse<Vec<u8>> {
    let mut counts = values(line, &[MISSES])?;
    while counts.len() < DOORS {
        let Some(word) = line.next_number() else {
            break;
        };
        push(
            &mut counts,
            &MISSES,
            word.number(MISSES.name, MISSES.most())?,
        );
    }
    counts.resize(DOORS, 0);
    Ok(counts)
}
