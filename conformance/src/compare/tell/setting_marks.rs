//! What the calls must meet of notices that the park can set (request A7), beside the days of
//! `notice_marks`: in histories, but for starts and what is malformed, which count in all calls. A
//! notice is over on the day on which a proposal is as old.

use super::marks::marks;

marks! {
    "notices set" {
        Ordinary1 "ordinary 1";
        Ordinary30 "ordinary 30";
        Restart1 "restart 1";
        Restart30 "restart 30";
        OrdinaryRaised "ordinary 1 and later more";
        RestartRaised "restart 1 and later more";
    }
    "notices kept by zero" {
        KeptOrdinary "ordinary alone";
        KeptRestart "restart alone";
        KeptBoth "both";
    }
    "minima that change the ordinary notice" {
        MinimaOldOnly "only the one before it over";
        MinimaNewOnly "only the one that it names over, no 10";
    }
    "minima that differ in a zero, no 10" {
        ProposedZero "zero proposed, the notice in force announced";
        AnnouncedZero "the notice in force proposed, zero announced";
    }
    "notice changed since it was proposed, only the old one over, no 10" {
        LongerCertify "certify";
        LongerMinima "minima";
        LongerRemove "remove";
        LongerRejoin "rejoin";
    }
    "notice changed since it was proposed, only the new one over" {
        ShorterCertify "certify";
        ShorterMinima "minima";
        ShorterRemove "remove";
        ShorterRejoin "rejoin";
    }
    "notices of 7 and 2 days" {
        Certify6 "certify after 6, no 10";
        Certify7 "certify after 7";
        Minima6 "minima after 6, no 10";
        Minima7 "minima after 7";
        Remove6 "remove after 6, no 10";
        Remove7 "remove after 7";
        Rejoin1 "rejoin after 1, no 10";
        Rejoin2 "rejoin after 2";
    }
    "other notices" {
        CertifyEarly "certify a day early, no 10";
        CertifyFirst "certify on the day";
        MinimaEarly "minima a day early, no 10";
        MinimaFirst "minima on the day";
        RemoveEarly "remove a day early, no 10";
        RemoveFirst "remove on the day";
        RejoinEarly "rejoin a day early, no 10";
        RejoinFirst "rejoin on the day";
    }
    "proposals under a notice of 1 day" {
        Ordinary1On60 "ordinary, used after 60 days";
        Ordinary1On61 "ordinary, lapsed after 61, no 10";
        Restart1On60 "restart, used after 60 days";
        Restart1On61 "restart, lapsed after 61, no 10";
    }
    "proposals under a notice of 30 days" {
        Ordinary30On60 "ordinary, used after 60 days";
        Ordinary30On61 "ordinary, lapsed after 61, no 10";
        Restart30On60 "restart, used after 60 days";
        Restart30On61 "restart, lapsed after 61, no 10";
    }
    "starts from a checkpoint" {
        Started26 "of kind 26";
        Started16 "of kind 16";
        StartedFull "of kind 16, every row used";
        StartedNamed "of kind 16, with a proposal that names notices";
        StartedAgain "of kind 26, given by a node that started from kind 16";
    }
    "notice of 31 and nothing else malformed, no 1" {
        AnnouncedOrdinary "ordinary announced";
        AnnouncedRestart "restart announced";
        ProposedOrdinary "ordinary proposed";
        ProposedRestart "restart proposed";
        ListedOrdinary "ordinary in a listed proposal";
        ListedRestart "restart in a listed proposal";
        CheckpointOrdinary "ordinary of a checkpoint";
        CheckpointRestart "restart of a checkpoint";
        ImageOrdinary "ordinary of an image";
        ImageRestart "restart of an image";
    }
    "notice of zero and nothing else malformed, no 1" {
        CheckpointOrdinary0 "ordinary of a checkpoint";
        CheckpointRestart0 "restart of a checkpoint";
        ImageOrdinary0 "ordinary of an image";
        ImageRestart0 "restart of an image";
    }
    "image and nothing else malformed, no 1" {
        OldImage "with a checkpoint of kind 16";
    }
}

/// Marks by kind, from 4.
type ByKind = [Mark; 4];

pub const LONGER: ByKind = [
    Mark::LongerCertify,
    Mark::LongerMinima,
    Mark::LongerRemove,
    Mark::LongerRejoin,
];
pub const SHORTER: ByKind = [
    Mark::ShorterCertify,
    Mark::ShorterMinima,
    Mark::ShorterRemove,
    Mark::ShorterRejoin,
];

/// By kind, from 4: a day before the notice is over, and on the day.
type Edges = [[Mark; 2]; 4];

pub const OF_OLD: Edges = [
    [Mark::Certify6, Mark::Certify7],
    [Mark::Minima6, Mark::Minima7],
    [Mark::Remove6, Mark::Remove7],
    [Mark::Rejoin1, Mark::Rejoin2],
];
pub const OTHER: Edges = [
    [Mark::CertifyEarly, Mark::CertifyFirst],
    [Mark::MinimaEarly, Mark::MinimaFirst],
    [Mark::RemoveEarly, Mark::RemoveFirst],
    [Mark::RejoinEarly, Mark::RejoinFirst],
];

/// By the notice in force and whether it is the restart notice: a use after 60 days, and 10 after 61.
pub const LAPSE: [(u32, bool, [Mark; 2]); 4] = [
    (1, false, [Mark::Ordinary1On60, Mark::Ordinary1On61]),
    (1, true, [Mark::Restart1On60, Mark::Restart1On61]),
    (30, false, [Mark::Ordinary30On60, Mark::Ordinary30On61]),
    (30, true, [Mark::Restart30On60, Mark::Restart30On61]),
];

/// Of a notice of 31, the ordinary one first.
pub const ANNOUNCED: [Mark; 2] = [Mark::AnnouncedOrdinary, Mark::AnnouncedRestart];
pub const PROPOSED: [Mark; 2] = [Mark::ProposedOrdinary, Mark::ProposedRestart];
pub const LISTED: [Mark; 2] = [Mark::ListedOrdinary, Mark::ListedRestart];
pub const CHECKPOINT: [Mark; 2] = [Mark::CheckpointOrdinary, Mark::CheckpointRestart];
pub const IMAGE: [Mark; 2] = [Mark::ImageOrdinary, Mark::ImageRestart];
/// Of a notice of zero.
pub const CHECKPOINT_0: [Mark; 2] = [Mark::CheckpointOrdinary0, Mark::CheckpointRestart0];
pub const IMAGE_0: [Mark; 2] = [Mark::ImageOrdinary0, Mark::ImageRestart0];
