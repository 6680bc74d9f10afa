//! Calls, histories and streams run through the shipped code and through the second implementation.

pub mod claims;
pub mod doors;
mod evictions;
pub mod hosts;
mod notices;
pub mod one_call;
pub mod pages;
pub mod program;
pub mod renewals;
pub mod rerun;
mod restarts;
pub mod rosters;
pub mod second;
mod settings;
pub mod shares;
