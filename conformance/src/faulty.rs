//! The planted faults, and the copy of `paper` in which the build put them behind a switch: wrong
//! readings of the papers, one at a time, that a comparison must find. conformance/faults says what
//! each changes.

use std::cell::Cell;

pub struct Fault {
    pub name: &'static str,
    /// What the fault does.
    pub shows: &'static str,
}

pub const ALL: &[Fault] = include!(concat!(env!("OUT_DIR"), "/faults.rs"));

thread_local! {
    static NUMBER: Cell<usize> = const { Cell::new(0) };
}

/// Switches on the fault at this place of the list, in this thread; with none the copy does as
/// `paper`.
pub fn set(place: Option<usize>) {
    NUMBER.set(place.map_or(0, |place| place + 1));
}

/// The place of a fault in the list.
pub fn find(name: &str) -> Option<usize> {
    ALL.iter().position(|fault| fault.name == name)
}

/// The number that the copy asks for: 0, or a place of the list plus 1.
#[inline]
fn number() -> usize {
    NUMBER.get()
}

#[allow(warnings, clippy::all)]
pub(crate) mod paper {
    include!(concat!(env!("OUT_DIR"), "/paper.rs"));
}
