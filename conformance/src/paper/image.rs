//! "Image for C", which "grows by 3 bytes at its end" (request A5) and "by the same two bytes" as its
//! checkpoint (request A7), and the calls of document 01 as C sees them.

use super::announcement::Announcement;
use super::bytes::{all_zero, push_u32, require, Read, Reader};
use super::checkpoint;
use super::node::{Node, DOORS};
use super::records::{Query, Sheet, Start};
use super::start::start_read;
use super::state::{Standing, State};
use super::Answer::{self, Done, Given, No, Open, Started, Voted};

/// "1,139 bytes", "the counts of doors 1 to 3" and the two notices
pub const SIZE: usize = 1144;

impl Node {
    pub fn from_image(image: &[u8]) -> Option<Node> {
        read(image).ok()
    }

    pub fn image(&self) -> Vec<u8> {
        let mut out = self.checkpoint();
        out.push(self.seat);
        push_u32(&mut out, self.life);
        out.push(u8::from(self.vote.is_some()));
        let vote = self.vote.clone().unwrap_or(vec![0; 24]);
        out.extend(vote);
        out.extend(self.misses);
        out
    }
}

/// "checkpoint; seat 1, life 4 (at least 1), voted flag 1 (0 or 1), voted announcement 24 (zero if
/// none, else well formed and of this cycle), misses 1. The seat isn't free." The misses byte is door
/// 0's count, "the counts of doors 1 to 3" follow it (request A5). The checkpoint is one of kind 26,
/// which alone has this size (request A7).
fn read(image: &[u8]) -> Read<Node> {
    let mut reader = Reader::new(image);
    let state = checkpoint::read(reader.take(checkpoint::SIZE)?)?;
    let seat = reader.seat()?;
    require(state.seat(seat).standing != Standing::Free)?;
    let life = reader.u32()?;
    require(life >= 1)?;
    let vote = read_vote(&mut reader, &state)?;
    let misses = read_misses(&mut reader)?;
    reader.end()?;
    Ok(Node {
        state,
        seat,
        life,
        vote,
        misses,
    })
}

fn read_vote(reader: &mut Reader, state: &State) -> Read<Option<Vec<u8>>> {
    let flag = reader.u8()?;
    let bytes = reader.take(24)?;
    require(flag <= 1)?;
    if flag == 0 {
        require(all_zero(bytes))?;
        return Ok(None);
    }
    let announcement = Announcement::read(bytes)?;
    require(announcement.cycle == state.cycle)?;
    Ok(Some(bytes.to_vec()))
}

/// "A door above 3 or a lent count above 10 is rule 1." (request A5)
fn read_misses(reader: &mut Reader) -> Read<[u8; DOORS]> {
    let mut misses = [0; DOORS];
    for count in &mut misses {
        *count = reader.u8()?;
        require(*count <= 10)?;
    }
    Ok(misses)
}

/// What C gets for an answer.
pub fn code(answer: Answer) -> u32 {
    match answer {
        Started | Done | Open | Given => 0,
        Voted => 128,
        No(number) => u32::from(number),
    }
}

/// "A call that starts, votes, performs, answers open or adds a miss writes a whole image to its
/// output slice; no other does."
fn writes_image(answer: Answer) -> bool {
    matches!(answer, Started | Voted | Done | Open | No(19..=21))
}

/// "output slice shorter than 1,108 (checkpoint) or 1,139 (image)"; the image grows by 3 bytes, "and
/// rule 22's image size with it" (request A5); both grow by two, "and rule 22's sizes follow" (request
/// A7).
fn is_short(out: &[u8], size: usize) -> bool {
    out.len() < size
}

/// "longer ones keep their tail"
pub(super) fn put(bytes: &[u8], out: &mut [u8]) {
    out.iter_mut().zip(bytes).for_each(|(to, byte)| *to = *byte);
}

fn finish(answer: Answer, node: &Node, out: &mut [u8]) -> u32 {
    if writes_image(answer) {
        put(&node.image(), out);
    }
    code(answer)
}

pub fn node_start(checkpoint: &[u8], start: &[u8], out: &mut [u8]) -> u32 {
    let (Ok(state), Ok(start)) = (checkpoint::read(checkpoint), Start::read(start)) else {
        return 1;
    };
    if is_short(out, SIZE) {
        return 22;
    }
    match start_read(state, start) {
        Ok(node) => finish(Started, &node, out),
        Err(number) => u32::from(number),
    }
}

pub fn node_deliver(image: &[u8], announcement: &[u8], sheet: &[u8], out: &mut [u8]) -> u32 {
    let (Ok(mut node), Ok(announcement)) = (read(image), Announcement::read(announcement)) else {
        return 1;
    };
    let Ok(sheet) = Sheet::read(sheet) else {
        return 2;
    };
    // "Calls that write a slice also try 22, straight after 1 and 2."
    if is_short(out, SIZE) {
        return 22;
    }
    let answer = node.deliver_read(&announcement, &sheet);
    finish(answer, &node, out)
}

pub fn node_query(image: &[u8], query: &[u8], out: &mut [u8]) -> u32 {
    let (Ok(mut node), Ok(query)) = (read(image), Query::read(query)) else {
        return 1;
    };
    if is_short(out, SIZE) {
        return 22;
    }
    let answer = node.query_read(&query);
    finish(answer, &node, out)
}

/// "A halted node still gives its checkpoint."
pub fn node_checkpoint(image: &[u8], out: &mut [u8]) -> u32 {
    let Ok(node) = read(image) else {
        return 1;
    };
    if is_short(out, checkpoint::SIZE) {
        return 22;
    }
    put(&node.checkpoint(), out);
    code(Given)
}
