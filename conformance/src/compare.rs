//! The archive and node-run compared with the second implementation: `make` makes random histories
//! of a park and damaged input, `check` runs them both ways, `tell` says what was met and found.

pub(crate) mod call;
mod check;
pub(crate) mod fields;
pub(crate) mod make;
mod stages;
mod tell;
#[cfg(test)]
mod tests;

pub use check::program;
pub use check::second::{Second, FAULTY, PAPER};
pub use make::random::Random;
pub use make::streams;
pub use stages::{random_history, Found, Stages};
pub use tell::kept_case::Case;
pub use tell::replay;
