//! What the histories must meet of grants into a full list (request A8). Such a grant evicts a row (02,
//! A8: drops): it is performed, the list has 64 rows and the login is not listed. A row is over where its
//! end day lies before the announced day.

use super::marks::marks;

marks! {
    "evictions by rows of the earliest end day" {
        Alone "one";
        OfTwo "two";
        OfMore "more";
    }
    "grants to a full list by its earliest end day" {
        DayBefore "the day before the announced one";
        OnDay "the announced day, no 11";
        DayAfter "the day after it, no 11";
        OnDay0 "day 0 announced and the end day, no 11";
        EndedOn0 "day 0, over";
        SinceAgreed "over on the announced day, not on the agreed day";
        WithinLimit "over for fewer days than the silence limit";
        OnLastDay "over on day 4294967295";
        AllOver "every row over";
    }
    "evicted row" {
        FirstRow "first";
        MiddleRow "in the middle";
        LastRow "last";
        Login1 "of login 1";
        LoginMost "of login 4294967295";
    }
    "granted row" {
        ToFirst "to the first place";
        ToLast "to the last place";
        Before "before the evicted one";
        Behind "behind it";
        SamePlace "to its place";
        FirstToLast "to the last place, the first row evicted";
        LastToFirst "to the first place, the last row evicted";
    }
    "grants to a full list of a listed login" {
        ListedOther "another row over";
        ListedOwn "its own row the first that is over";
    }
    "grants beside an eviction" {
        Room63 "to 63 rows with one over";
        LateFull "no row over and ended before its day, no 11";
        Late "a row over and ended before its day, no 14";
    }
    "grants that would evict a row" {
        Voted "vote";
        VotedThenDone "performed by a node that voted for it";
        No15 "no 15";
        No16 "no 16";
    }
    "evictions performed" {
        BothHosts "from one state by value and through C, with one checkpoint";
        Certified "at a certified seat";
        OtherLife "under a life that is not listed";
        WithLapsed "with a lapsed proposal dropped";
        JumpedBeyond "on a day beyond the silence limit that ends the row";
        AfterJump "after a day beyond the silence limit that ended the row";
        Second "from the list that one left";
        GrantedNext "of the row that the last one granted";
    }
    "after an eviction" {
        End13 "end of the login, no 13";
        Query19 "query for it, no 19";
        Query20 "query for it at a node that is behind, no 20";
        QueryOpen "query for it at a node that is behind, open";
        Page "page of its list";
        AgainRoom "granted again to a list with room";
        AgainEvicting "granted again, another row evicted";
        Started "start from its checkpoint";
    }
}
