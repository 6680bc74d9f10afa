//! What was met and what was found, in lines that a person reads.

pub mod coverage;
mod door_marks;
mod doors;
mod eviction_marks;
mod evictions;
pub mod kept_case;
mod malformed_settings;
mod marks;
mod mended;
mod merges;
mod notice_marks;
mod notices;
mod products;
mod ranges;
mod renewals;
pub mod replay;
mod restart_marks;
mod restarts;
pub mod roster_marks;
mod rosters;
mod setting_marks;
mod settings;
mod share_marks;
mod shares;
mod splits;
mod summary;
mod sums;
