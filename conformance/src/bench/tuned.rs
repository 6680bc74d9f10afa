//! Document 01 and requests A1 to A10 once more, written for speed alone: what the bench measures the
//! archive against. It exists for the bench and may be dropped with it.
//!
//! No heap: a node is one struct on the stack, read and checked in one pass over the image. The rules
//! and actions work on references. Where a call leaves the state as it was, the image that it writes
//! is a copy of the one it got.

mod actions;
mod announcement;
mod bytes;
mod calls;
mod image;
mod page;
mod records;
mod roster;
mod rules;
mod shares;
mod state;

pub use calls::{node_checkpoint, node_deliver, node_query, node_start};
pub use page::node_page;
pub use roster::{node_roster_export, node_roster_import};
pub use shares::{node_shares_add, node_shares_merge, node_shares_split};

#[cfg(test)]
mod tests;
