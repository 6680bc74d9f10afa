//! What a random history is like as a whole.

use super::random::Random;
use super::values;

pub struct Habits {
    /// From one state only one announcement gets a quorum: the bound on double voters is kept.
    pub honest: bool,
    /// Starts are given the first checkpoint or one that a call gave.
    pub lawful: bool,
    /// Chances in percent. Damaged records:
    pub damage: u32,
    /// Output slices that are too short:
    pub short: u32,
    /// Queries:
    pub queries: u32,
    /// Checkpoints:
    pub checkpoints: u32,
    /// Pages:
    pub pages: u32,
    /// Starts at a host that holds a node:
    pub restarts: u32,
    /// Announcements about proposals, of minima above all:
    pub proposals: u32,
    /// A login that much of the history is about, or 0.
    pub focus: u32,
}

impl Habits {
    pub fn any(rng: &mut Random) -> Habits {
        Habits {
            honest: rng.chance(75),
            lawful: rng.chance(85),
            damage: rng.pick(&[0, 1, 4]),
            short: rng.pick(&[0, 2, 5]),
            queries: rng.pick(&[5, 20, 40]),
            checkpoints: rng.pick(&[3, 8]),
            pages: rng.pick(&[2, 6]),
            restarts: rng.pick(&[1, 4, 10]),
            proposals: rng.pick(&[0, 60]),
            focus: if rng.chance(25) {
                values::any_login(rng)
            } else {
                0
            },
        }
    }
}
