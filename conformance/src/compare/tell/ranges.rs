//! The ranges whose both ends the calls must meet, and the edges of pages, each as a range of its two
//! sides.

use crate::layout::VOTED;
use crate::layout::{
    Field, ACTIONS, CHECKPOINT, CYCLE_AND_DAY, HELD_LIFE, KIND, LIFE, LOGIN, LOGINS,
};
use crate::layout::{
    DOOR, DOORS, MASKS, MISSES, PROPOSALS, QUERY, ROW_COUNT, SEAT, SEATS, STANDING, SUBJECT_KIND,
};

macro_rules! ranges {
    ($($id:ident $ends:expr, $name:literal;)*) => {
        #[derive(Clone, Copy)]
        pub enum Range { $($id),* }
        /// The name of each range, its lowest and its highest value, in the order of `Range`.
        pub const RANGES: &[(&str, (u32, u32))] = &[$(($name, $ends)),*];
    };
}

const MAX: u32 = u32::MAX;

const fn of(field: Field) -> (u32, u32) {
    (field.low, field.high)
}

/// The argument of an action of this kind.
const fn argument(kind: usize, place: usize) -> (u32, u32) {
    of(ACTIONS[kind - 1].1[place])
}

ranges! {
    Cycle of(CHECKPOINT[0]), "state: cycle";
    Day of(CHECKPOINT[1]), "state: day";
    Level1 of(CHECKPOINT[2]), "state: level-1 trustees";
    Level2 of(CHECKPOINT[3]), "state: level-2 trustees";
    Margin of(CHECKPOINT[4]), "state: margin";
    Least of(CHECKPOINT[5]), "state: least quorum";
    Silence of(CHECKPOINT[6]), "state: silence limit";
    Ordinary of(CHECKPOINT[7]), "state: ordinary notice";
    Restart of(CHECKPOINT[8]), "state: restart notice";
    Present (1, SEATS.most as u32), "state: present seats";
    Standing of(STANDING), "state: standing";
    Life of(HELD_LIFE), "state: life of a seat that is not free";
    Proposals (0, PROPOSALS.most as u32), "state: proposals";
    ProposalCycle (0, MAX - 1), "state: cycle of a proposal";
    ProposalDay of(CYCLE_AND_DAY[1]), "state: day of a proposal";
    Logins (0, LOGINS.most as u32), "state: logins";
    Login of(LOGIN[0]), "state: login";
    EndDay of(LOGIN[1]), "state: end day";
    Rights of(LOGIN[2]), "state: rights";
    OwnSeat of(SEAT), "own seat";
    OwnLife of(HELD_LIFE), "own life";
    Voted of(VOTED), "own vote";
    Misses0 of(MISSES), "own misses at door 0";
    Misses1 of(MISSES), "own misses at door 1";
    Misses2 of(MISSES), "own misses at door 2";
    Misses3 of(MISSES), "own misses at door 3";
    StartSeat of(SEAT), "start: seat";
    StartLife of(LIFE), "start: life";
    Kind of(KIND), "announcement: kind";
    AnnouncedCycle of(CYCLE_AND_DAY[0]), "announcement: cycle";
    AnnouncedDay of(CYCLE_AND_DAY[1]), "announcement: day";
    Mask1 of(MASKS[0]), "sheet: level-1 mask";
    Mask2 of(MASKS[1]), "sheet: level-2 mask";
    Rows of(ROW_COUNT), "sheet: rows";
    RowSeat of(SEAT), "sheet: seat of a row";
    RowLife of(LIFE), "sheet: life of a row";
    AskedLogin of(QUERY[0]), "query: login";
    AskedDay of(QUERY[1]), "query: day";
    AskedRight of(QUERY[2]), "query: right";
    AskedDoor of(DOOR), "query: door";
    Subject of(SUBJECT_KIND), "propose: subject kind";
    CancelledCycle argument(2, 0), "cancel: cycle";
    PresentsSeat argument(3, 0), "presents: seat";
    PresentsFlag argument(3, 1), "presents: flag";
    RejoinSeat argument(7, 0), "rejoin: seat";
    RejoinLife argument(7, 1), "rejoin: life";
    EndedLogin argument(9, 0), "end: login";
    DonePropose of(SUBJECT_KIND), "performed propose: subject kind";
    DoneSubjectSeat argument(4, 0), "performed propose: seat to certify";
    DoneSubjectOrdinary argument(5, 3), "performed propose: ordinary notice to be set";
    DoneSubjectRestart argument(5, 4), "performed propose: restart notice to be set";
    DoneSubjectRejoin argument(7, 0), "performed propose: seat to rejoin";
    DoneSubjectLife argument(7, 1), "performed propose: life to rejoin under";
    DoneCancel (0, MAX - 2), "performed cancel: cycle";
    DonePresents argument(3, 0), "performed presents: seat";
    DoneFlag argument(3, 1), "performed presents: flag";
    DoneCertify argument(4, 0), "performed certify: seat";
    DoneCertifyLife argument(4, 1), "performed certify: life";
    DoneMargin argument(5, 0), "performed minima: margin";
    DoneLeast argument(5, 1), "performed minima: least quorum";
    DoneSilence argument(5, 2), "performed minima: silence limit";
    DoneOrdinary argument(5, 3), "performed minima: ordinary notice";
    DoneRestart argument(5, 4), "performed minima: restart notice";
    DoneRemove argument(6, 0), "performed remove: seat";
    DoneRejoin argument(7, 0), "performed rejoin: seat";
    DoneRejoinLife (2, MAX), "performed rejoin: life";
    DoneGrant argument(8, 0), "performed grant: login";
    DoneGrantEnd argument(8, 1), "performed grant: end day";
    DoneGrantRights argument(8, 2), "performed grant: rights";
    DoneEnd (1, MAX), "performed end: login";
    DoneDay of(CYCLE_AND_DAY[1]), "performed: announced day";
    DoneCycle (1, MAX - 1), "performed: cycle";
    PageLines (0, LOGINS.most as u32), "page: lines";
    PageRoom (0, 1), "page: output slice for no lines";
    PageDay (0, MAX), "page: given day";
    PageDayBack (0, 1), "page: given day before the agreed day";
    PageSilence (0, 1), "page: days of t beyond the silence limit";
    PageEnded (0, 1), "page: days of t after an end day";
    PageSilentEnded (0, 1), "page: silent, and t after an end day";
    PageHalted (0, 1), "page: own seat retired";
    PageMisses of(MISSES), "page: own misses at the door with the most";
    PageLogin of(LOGIN[0]), "page: login";
    PageRights (1, 16), "page: rights held";
    PageEnd of(LOGIN[1]), "page: end day";
    PageMarch (58, 59), "page: last of February and first of March 1970";
    PageLeap (788, 790), "page: days beside the leap day of 1972";
    PageLeapDay (789, 11_016), "page: leap days of 1972 and 2000";
    PageLastDate (47_481, 47_482), "page: last end day with a date and the next";
}

/// The ranges of a checkpoint's fields before its tables.
pub const HEAD: [Range; 9] = [
    Range::Cycle,
    Range::Day,
    Range::Level1,
    Range::Level2,
    Range::Margin,
    Range::Least,
    Range::Silence,
    Range::Ordinary,
    Range::Restart,
];

/// By door.
pub const OWN_MISSES: [Range; DOORS] = [
    Range::Misses0,
    Range::Misses1,
    Range::Misses2,
    Range::Misses3,
];

/// The ranges of a query's fields, of which the last is not in every query.
pub const ASKED: [Range; 4] = [
    Range::AskedLogin,
    Range::AskedDay,
    Range::AskedRight,
    Range::AskedDoor,
];

/// The ranges of the arguments of an announcement, by kind. Those of the other kinds have no end
/// that a performed one has not.
pub const ANNOUNCED: [&[Range]; 10] = [
    &[],
    &[Range::Subject],
    &[Range::CancelledCycle],
    &[Range::PresentsSeat, Range::PresentsFlag],
    &[],
    &[],
    &[],
    &[Range::RejoinSeat, Range::RejoinLife],
    &[],
    &[Range::EndedLogin],
];

/// The ranges of the arguments of a performed announcement, by kind.
pub const PERFORMED: [&[Range]; 10] = [
    &[],
    &[Range::DonePropose],
    &[Range::DoneCancel],
    &[Range::DonePresents, Range::DoneFlag],
    &[Range::DoneCertify, Range::DoneCertifyLife],
    &[
        Range::DoneMargin,
        Range::DoneLeast,
        Range::DoneSilence,
        Range::DoneOrdinary,
        Range::DoneRestart,
    ],
    &[Range::DoneRemove],
    &[Range::DoneRejoin, Range::DoneRejoinLife],
    &[
        Range::DoneGrant,
        Range::DoneGrantEnd,
        Range::DoneGrantRights,
    ],
    &[Range::DoneEnd],
];

/// The end days whose dates a page must have given.
pub const DATES: [Range; 5] = [
    Range::PageEnd,
    Range::PageMarch,
    Range::PageLeap,
    Range::PageLeapDay,
    Range::PageLastDate,
];
