//! Records as text: `compose` makes the bytes of a text that a person wrote, `show` the text of
//! bytes. What `show` gives composes to the same bytes, whatever they are. `roster` makes announcements
//! of a roster, and a roster of announcements.
//!
//! usage.txt describes the text. A passage in quotation marks is document 01's own.

mod compose;
mod roster;
mod show;
#[cfg(test)]
mod tests;
mod warnings;

pub use compose::words::{Error, Place};
pub use compose::{compose, compose_bytes, Composed};
pub use roster::{read_day, read_roster, write_roster};
pub use show::{looks_like_text, show, show_image, Shown};
pub use warnings::warnings;

/// What the program prints without arguments.
pub const USAGE: &str = include_str!("text/usage.txt");
