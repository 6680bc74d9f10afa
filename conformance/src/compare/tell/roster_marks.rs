//! What the calls of rosters (request A2) must meet.

use super::marks::marks;

marks! {
    "rosters given" {
        NoLine "no line";
        OneLine "one line";
        Lines63 "63 lines";
        Lines64 "64 lines";
        NotQuoted "no field quoted";
        SomeQuoted "some fields quoted";
        AllQuoted "all fields quoted";
        LastEnd "line end at the end";
        NoLastEnd "no line end at the end";
        Login1 "login 1";
        LoginMost "login 4294967295";
        LeadingZeros "leading zeros";
        LoginTwice "a login twice";
        FirstDate "1970-01-01";
        LastDate "2099-12-31";
        LeapDay "29 February";
        LeapDay2000 "2000-02-29";
        Over "end date before the given day";
        SmallDigits "small hexadecimal digits";
        CapitalDigits "capital hexadecimal digits";
        OneRight "rights 0001";
        AllRights "rights FFFF";
        Cycle0 "first cycle 0";
        LastCycle "last cycle 4294967294";
        EmptyLastCycle "no line, cycle 4294967295";
        ImportExact "slice that just fits";
        ImportLonger "longer slice";
    }
    "rosters refused by 25" {
        ImportShort "slice one byte short";
        ImportNoSlice "empty slice";
    }
    "rosters refused by 24" {
        BareCr "bare CR";
        BareLf "bare LF";
        QuoteWithin "quote in a field that is not quoted";
        BehindQuote "text behind a closing quote";
        QuoteNotClosed "no closing quote";
        NotText "byte that is no text";
        OneField "one field";
        TwoFields "two fields";
        FourFields "four fields";
        CrLfAlone "CR LF alone";
        EmptyLineWithin "empty line in the middle";
        EmptyLineLast "empty line at the end";
        Lines65 "65 lines";
        CycleBeyond "last cycle 4294967295";
        LoginForm "login that is no number";
        ElevenDigits "eleven digits";
        LoginRange "login out of range";
        Login0 "login 0";
        LoginBeyond "login 4294967296";
        DateForm "date in another form";
        NoDate "date that is none";
        NoLeapDay "29 February of another year";
        DateRange "date out of range";
        DateBefore "1969-12-31";
        DateBeyond "2100-01-01";
        RightsForm "rights in another form";
        NoRights "rights 0000";
        SpaceBefore "space before a value";
        SpaceBehind "space behind a value";
        QuoteInside "doubled quote inside";
        CommaInside "comma inside";
        BreakInside "line break inside";
        ImportBefore25 "slice too short as well";
    }
    "exports given" {
        Digits1 "login of 1 digit";
        Digits2 "2";
        Digits3 "3";
        Digits4 "4";
        Digits5 "5";
        Digits6 "6";
        Digits7 "7";
        Digits8 "8";
        Digits9 "9";
        Digits10 "10 digits";
        ExportLastDay "end day 47481";
        ExportExact "slice that just fits";
        ExportLonger "longer slice";
    }
    "exports refused by 25" {
        ExportShort "slice one byte short";
        ExportNoSlice "empty slice";
    }
    "exports refused by 24" {
        Propose "propose";
        Cancel "cancel";
        Presents "presents";
        Certify "certify";
        Minima "minima";
        Remove "remove";
        Rejoin "rejoin";
        End "end";
        ExportLater "grant of end day 47482";
        ExportMalformed "malformed";
        ExportBefore25 "slice too short as well";
    }
    "round trips" {
        LinesBack "announcements exported and read again";
        RostersBack "exported lines read as one roster";
        ExportsBack "exports read again";
    }
    "rosters swept" {
        SweptBytes "damaged at every byte";
        SweptCuts "cut at every length";
        SweptRooms "with slices of every length";
    }
}

/// By the number of digits, from 1.
pub const DIGITS: [Mark; 10] = [
    Mark::Digits1,
    Mark::Digits2,
    Mark::Digits3,
    Mark::Digits4,
    Mark::Digits5,
    Mark::Digits6,
    Mark::Digits7,
    Mark::Digits8,
    Mark::Digits9,
    Mark::Digits10,
];
