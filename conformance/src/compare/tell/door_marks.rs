//! What the calls must meet of doors (request A5).

use super::marks::marks;
use crate::layout::DOORS;

marks! {
    "door locked and the others not, no 17" {
        Locked0 "door 0";
        Locked1 "door 1";
        Locked2 "door 2";
        Locked3 "door 3";
    }
    "door open while another is locked" {
        Open0 "door 0";
        Open1 "door 1";
        Open2 "door 2";
        Open3 "door 3";
    }
    "tenth miss at a door" {
        Tenth0 "door 0";
        Tenth1 "door 1";
        Tenth2 "door 2";
        Tenth3 "door 3";
    }
    "door open after 9 misses" {
        Nine0 "door 0";
        Nine1 "door 1";
        Nine2 "door 2";
        Nine3 "door 3";
    }
    "misses cleared by a performed action" {
        Performed0 "door 0";
        Performed1 "door 1";
        Performed2 "door 2";
        Performed3 "door 3";
    }
    "kinds 20 and 21 on the count of door 0" {
        Locked20 "tenth miss by 21, no 17 to 20";
        Locked21 "tenth miss by 20, no 17 to 21";
        Cleared20 "miss by 21, open to 20";
        Cleared21 "miss by 20, open to 21";
    }
    "misses at other doors kept by" {
        KeptByOpen "open";
        KeptBy19 "no 19";
        KeptBy20 "no 20";
        KeptBy21 "no 21";
    }
    "misses kept by" {
        KeptBy17 "query to a locked door, no 17";
        KeptBy18 "silent node, no 18";
        KeptBy1 "malformed query, no 1";
        KeptBy22 "query without room, no 22";
        KeptByVote "vote";
        KeptByRefused "refused delivery";
        KeptByStart "refused start";
        KeptByCheckpoint "checkpoint";
        KeptByPage "page";
    }
    "door above 3 and nothing else malformed, no 1" {
        Door4 "door 4";
        DoorAbove4 "above";
    }
    "misses of 11 and nothing else malformed, no 1" {
        Eleven0 "door 0";
        Eleven1 "door 1";
        Eleven2 "door 2";
        Eleven3 "door 3";
    }
}

/// Marks by door.
pub type ByDoor = [Mark; DOORS];

pub const LOCKED: ByDoor = [Mark::Locked0, Mark::Locked1, Mark::Locked2, Mark::Locked3];
pub const OPEN: ByDoor = [Mark::Open0, Mark::Open1, Mark::Open2, Mark::Open3];
pub const TENTH: ByDoor = [Mark::Tenth0, Mark::Tenth1, Mark::Tenth2, Mark::Tenth3];
pub const NINE: ByDoor = [Mark::Nine0, Mark::Nine1, Mark::Nine2, Mark::Nine3];
pub const PERFORMED: ByDoor = [
    Mark::Performed0,
    Mark::Performed1,
    Mark::Performed2,
    Mark::Performed3,
];
pub const ELEVEN: ByDoor = [Mark::Eleven0, Mark::Eleven1, Mark::Eleven2, Mark::Eleven3];
