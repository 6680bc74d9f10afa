//! The corpus: requests as text, each with the answer that the papers give it, through the
//! archive, the second implementation and node-run. corpus/README.md describes the text.
//!
//! `file` reads a file to requests, `walk` hands the image from call to call, `make` makes one call
//! on slices that end where memory ends, `sweep` derives calls from a request whose numbers follow
//! from its own, and `check` holds all three to the answers.

pub mod answer;
pub mod call;
pub mod check;
pub mod chunk;
pub mod export;
pub mod file;
pub mod make;
mod memory;
pub mod reached;
mod sweep;
#[cfg(test)]
mod tests;
pub mod walk;
mod written;
