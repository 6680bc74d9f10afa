//! "Commissioning is a start from the park's first checkpoint."

use super::checkpoint;
use super::node::{Node, DOORS};
use super::records::Start;
use super::state::State;

/// Starts a node, or gives the number of the refusal.
pub fn start(checkpoint: &[u8], start: &[u8]) -> Result<Node, u8> {
    match (checkpoint::read(checkpoint), Start::read(start)) {
        (Ok(state), Ok(start)) => start_read(state, start),
        _ => Err(1),
    }
}

/// "Misses 0, no vote. A life above the listed one is taken". The misses of all doors are 0.
pub(super) fn start_read(state: State, start: Start) -> Result<Node, u8> {
    let listed = state.seat(start.seat);
    // "start: free or retired"
    if !listed.is_held() {
        return Err(9);
    }
    // "start life below it"
    if start.life < listed.life {
        return Err(14);
    }
    Ok(Node {
        state,
        seat: start.seat,
        life: start.life,
        vote: None,
        misses: [0; DOORS],
    })
}
