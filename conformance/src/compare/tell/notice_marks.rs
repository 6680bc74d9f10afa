//! What the histories must meet of notices that lapse (request A3), also of those for a rejoin (request
//! A6). An age is the announced day minus the proposal's. A notice is the one in force (request A7).

use super::marks::marks;

marks! {
    "notices used" {
        CertifyEarly "certify a day before its notice is over, no 10";
        CertifyFirst "certify on the day its notice is over";
        Certify60 "certify after 60 days";
        Certify61 "certify after 61 days, no 10";
        MinimaEarly "minima a day before its notice is over, no 10";
        MinimaFirst "minima on the day its notice is over";
        Minima60 "minima after 60 days";
        Minima61 "minima after 61 days, no 10";
        RemoveEarly "remove a day before its notice is over, no 10";
        RemoveFirst "remove on the day its notice is over";
        Remove60 "remove after 60 days";
        Remove61 "remove after 61 days, no 10";
        RejoinEarly "rejoin a day before its notice is over, no 10";
        RejoinFirst "rejoin on the day its notice is over";
        Rejoin60 "rejoin after 60 days";
        Rejoin61 "rejoin after 61 days, no 10";
        BehindLapsed "behind a lapsed equal one";
    }
    "notices cancelled" {
        Cancel60 "after 60 days";
        Cancel61 "after 61 days, no 13";
    }
    "proposals to a full table" {
        Full60 "oldest of 60 days, no 11";
        Full61 "oldest of 61 days";
        FullLapsed "all lapsed";
    }
    "lapsed notices dropped by" {
        Propose "propose";
        Cancel "cancel";
        Presents "presents";
        Certify "certify";
        Minima "minima";
        Remove "remove";
        Rejoin "rejoin";
        Grant "grant";
        End "end";
    }
    "lapsed notices kept by" {
        Voted "vote";
        Refused3To8 "no 3 to 8";
        Refused9To14 "no 9 to 14";
        Refused15Or16 "no 15 or 16";
        Started "start";
        Queried "query";
        Checkpoint "checkpoint";
    }
}

/// By kind, from 4: a use at the edges of its notice and of 60 days.
pub const USED: [[Mark; 4]; 4] = [
    [
        Mark::CertifyEarly,
        Mark::CertifyFirst,
        Mark::Certify60,
        Mark::Certify61,
    ],
    [
        Mark::MinimaEarly,
        Mark::MinimaFirst,
        Mark::Minima60,
        Mark::Minima61,
    ],
    [
        Mark::RemoveEarly,
        Mark::RemoveFirst,
        Mark::Remove60,
        Mark::Remove61,
    ],
    [
        Mark::RejoinEarly,
        Mark::RejoinFirst,
        Mark::Rejoin60,
        Mark::Rejoin61,
    ],
];

/// By kind, from 1: a performed action that drops a lapsed row.
pub const DROPPED: [Mark; 9] = [
    Mark::Propose,
    Mark::Cancel,
    Mark::Presents,
    Mark::Certify,
    Mark::Minima,
    Mark::Remove,
    Mark::Rejoin,
    Mark::Grant,
    Mark::End,
];
