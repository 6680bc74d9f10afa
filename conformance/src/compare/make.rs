//! Random input: histories aimed at the rules, records one step beside them, and damage.

pub mod announcements;
pub mod arguments;
mod ended_logins;
pub mod evictions;
mod exports;
mod habits;
pub mod histories;
pub mod lone_requests;
pub mod malformed;
mod products;
pub mod random;
pub mod records;
pub mod renewals;
mod roster_edges;
mod roster_fields;
mod roster_sweeps;
pub mod rosters;
pub mod settings;
mod share_edges;
pub mod shares;
pub mod sheets;
pub mod starts_queries;
pub mod states;
pub mod streams;
mod sum_edges;
pub mod sweeps;
mod values;
