//! How long each call takes, by each implementation.

pub mod cases;
pub mod measure;
mod tuned;
