//! What the histories must meet of proposals to rejoin (request A6), beside the days of
//! `notice_marks`. They are ripe from the restart notice in force to 60 days.

use super::marks::marks;

marks! {
    "rejoins proposed" {
        ProposedLow "life not above the listed one";
        ProposedUnfit "seat free or retired";
        ProposedSecond "another life of the seat listed";
        FullRefused "to 16 proposals to rejoin, no 11";
        CancelledOne "one of two lives cancelled";
    }
    "rejoins" {
        Voted "vote";
        OtherStays "another life of the seat stays listed";
        FullUsed "from 16 proposals to rejoin";
        Removed "seat removed since it was proposed, no 9";
        OtherLife "only another life proposed, no 10";
        LowUnproposed "not proposed and life not above the listed one, no 10";
        VoteUnproposed "no ripe proposal and no quorum, no 10";
        Low "ripe and life not above the listed one, no 14";
    }
    "starts from a checkpoint with proposals to rejoin" {
        StartedNone "none, as of old";
        Started "some";
        StartedFull "16";
    }
}
