//! A checkpoint to text: its line, and one for each seat that is not free, each proposal and login.

use super::bytes::{malformed, Bytes, Read};
use super::records::{require_kind, require_length, subject};
use crate::layout::{checkpoint_fields, kind_of, least_size, size, BODY, CHECKPOINT};
use crate::layout::{Field, Table, LIFE, LOGINS, PROPOSALS, SEATS, STANDING, STANDINGS};
use crate::layout::{CHECKPOINT_KIND, CHECKPOINT_SIZE, CYCLE_AND_DAY, LOGIN};

/// Where the margin stands: behind cycle, day and trustees.
const MARGIN_AT: usize = BODY + size(CHECKPOINT.first_chunk::<4>().unwrap());

/// The checkpoint of an image: of kind 26 alone.
pub fn of_image(bytes: &[u8]) -> Read<String> {
    require_length(bytes, CHECKPOINT_SIZE - 2)?;
    require_kind(bytes, CHECKPOINT_KIND..=CHECKPOINT_KIND)?;
    checkpoint(bytes)
}

/// A record of either kind.
pub fn checkpoint(bytes: &[u8]) -> Read<String> {
    let kind = kind_of(bytes);
    require_length(bytes, least_size(kind) - 2)?;
    let mut bytes = Bytes::new(bytes, BODY);
    let mut text = "checkpoint".to_string();
    let head = bytes.fields(checkpoint_fields(kind), &mut text)?;
    text += "\n";
    let present = seats(&mut bytes, &mut text)?;
    require_quorum(&head, present)?;
    proposals(&mut bytes, head[0], head[1], &mut text)?;
    logins(&mut bytes, &mut text)?;
    Ok(text)
}

/// "32 times standing 1, life 4"; "Life is 32 bits, 0 exactly at free seats." Gives how many are
/// present.
fn seats(bytes: &mut Bytes, text: &mut String) -> Read<u32> {
    let mut present = 0;
    for seat in 0..SEATS.most {
        let standing = bytes.value(&STANDING)?;
        let name = STANDINGS[standing as usize];
        let at = bytes.at;
        let life = bytes.value(&LIFE)?;
        if (life == 0) != (standing == 0) {
            return malformed(at, format!("seat {seat} is {name} with life {life}"));
        }
        if standing > 0 {
            *text += &format!("  seat {seat} {name} life {life}\n");
        }
        present += u32::from(standing == 2);
    }
    Ok(present)
}

/// "quorum at most p"
fn require_quorum(head: &[u32], present: u32) -> Read<()> {
    let (margin, least) = (head[4], head[5]);
    let quorum = least.max(present / 2 + 1 + margin);
    if quorum <= present {
        return Ok(());
    }
    let why = format!("the quorum {quorum} is above the {present} present seats");
    malformed(MARGIN_AT, why)
}

/// "proposals in strictly rising cycle below the cycle, day at most the agreed day, arguments well
/// formed"
fn proposals(bytes: &mut Bytes, cycle: u32, day: u32, text: &mut String) -> Read<()> {
    let mut least = 0;
    rows(bytes, "proposal count", &PROPOSALS, |bytes| {
        let at = bytes.at;
        *text += "  proposal";
        let row = bytes.fields(&CYCLE_AND_DAY, text)?;
        if row[0] < least {
            return malformed(at, format!("proposals do not rise at cycle {}", row[0]));
        }
        if row[0] >= cycle {
            let why = format!("proposal cycle {} is not below cycle {cycle}", row[0]);
            return malformed(at, why);
        }
        if row[1] > day {
            let why = format!("proposal day {} is after day {day}", row[1]);
            return malformed(at + 4, why);
        }
        // Below the cycle, so there is a next one.
        least = row[0] + 1;
        subject(bytes, text)?;
        *text += "\n";
        Ok(())
    })
}

/// "logins at least 1 and strictly rising, rights not zero"
fn logins(bytes: &mut Bytes, text: &mut String) -> Read<()> {
    let mut last = 0;
    rows(bytes, "login count", &LOGINS, |bytes| {
        let at = bytes.at;
        *text += " ";
        let row = bytes.fields(&LOGIN, text)?;
        if row[0] <= last {
            return malformed(at, format!("login {} does not rise above {last}", row[0]));
        }
        last = row[0];
        *text += "\n";
        Ok(())
    })
}

/// The used rows of a table, then the unused ones: "Unused rows are zero."
fn rows(
    bytes: &mut Bytes,
    name: &'static str,
    table: &Table,
    mut row: impl FnMut(&mut Bytes) -> Read<()>,
) -> Read<()> {
    let count = bytes.value(&Field {
        name,
        high: table.most as u32,
        ..STANDING
    })?;
    let end = bytes.at + table.most * table.size;
    for _ in 0..count {
        row(bytes)?;
    }
    bytes.unused(end)
}
