//! Document 01 and the change requests (02) that have landed in plain Rust: a second access node,
//! written from the texts alone.
//!
//! A passage in quotation marks is a text's own; where no request is named, document 01's.

pub mod actions;
pub mod announcement;
pub mod bytes;
pub mod calendar;
pub mod checkpoint;
pub mod csv;
pub mod field;
pub mod image;
pub mod node;
pub mod page;
pub mod query;
pub mod records;
pub mod roster;
pub mod rules;
pub mod run;
pub mod shares;
pub mod start;
pub mod state;

pub use node::Node;
pub use start::start;

/// What a call answers.
#[derive(Debug, Clone, Copy, PartialEq, Eq)]
pub enum Answer {
    Started,
    Voted,
    Done,
    Open,
    /// A checkpoint, a page, the announcements of a roster or a line of one, shares, their key or a sum of
    /// them were given.
    Given,
    /// A number of the table of no.
    No(u8),
}
