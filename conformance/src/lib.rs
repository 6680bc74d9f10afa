//! What shows that the shipped archive does as the papers say and how fast, and its records as text. conformance/README.md says what is where.

pub mod archive;
pub mod bench;
pub mod command_line;
pub mod compare;
pub mod corpus;
pub mod faulty;
mod layout;
pub mod paper;
pub mod text;
