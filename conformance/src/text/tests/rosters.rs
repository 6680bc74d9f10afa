//! Rosters as the office reads and writes them: every message has its line and field.

use super::{compose, file, show};
use crate::text::{read_day, read_roster, write_roster};

/// Rosters of two lines of which the second is given here, each with its message.
const LINES: &[(&str, &str)] = &[
    (
        "501,2026-12-31",
        "2: 2 fields, not login, end date and rights",
    ),
    (
        "501,2026-12-31,0001,",
        "2: 4 fields, not login, end date and rights",
    ),
    ("\r\n", "2: one field, not login, end date and rights"),
    (
        "501x,2026-12-31,0001",
        "2, field 1 (login): \"501x\" is not 1 to 10 decimal digits",
    ),
    (
        " 501,2026-12-31,0001",
        "2, field 1 (login): \" 501\" is not 1 to 10 decimal digits",
    ),
    (
        "00000000501,2026-12-31,0001",
        "2, field 1 (login): \"00000000501\" is not 1 to 10 decimal digits",
    ),
    (
        ",2026-12-31,0001",
        "2, field 1 (login): nothing is not 1 to 10 decimal digits",
    ),
    (
        "0,2026-12-31,0001",
        "2, field 1 (login): \"0\" is not from 1 to 4294967295",
    ),
    (
        "4294967296,2026-12-31,0001",
        "2, field 1 (login): \"4294967296\" is not from 1 to 4294967295",
    ),
    (
        "501,31.12.2026,0001",
        "2, field 2 (end date): \"31.12.2026\" is not year-month-day, as 2026-12-31",
    ),
    (
        "501,2026-02-29,0001",
        "2, field 2 (end date): \"2026-02-29\" is not in the calendar",
    ),
    (
        "501,2100-01-01,0001",
        "2, field 2 (end date): \"2100-01-01\" is not from 1970-01-01 to 2099-12-31",
    ),
    (
        "501,2026-12-31,1",
        "2, field 3 (rights): \"1\" is not four hexadecimal digits",
    ),
    (
        "501,2026-12-31,0000",
        "2, field 3 (rights): \"0000\" is no right",
    ),
    (
        "501,2026-12-31,\"00\r\n01\"",
        "2, field 3 (rights): \"00\\r\\n01\" is not four hexadecimal digits",
    ),
    (
        "501,2026-12-31,0001\n",
        "2, field 3 (rights): a LF without CR: lines end in CR LF",
    ),
    (
        "501\r,2026-12-31,0001",
        "2, field 1 (login): a CR without LF: lines end in CR LF",
    ),
    (
        "501,2026\"12\"31,0001",
        "2, field 2 (end date): a quote in a field that does not begin with one",
    ),
    (
        "501,\"2026-12-31\" ,0001",
        "2, field 2 (end date): more of the field behind its closing quote",
    ),
    (
        "501,2026-12-31,0001,\"x",
        "2, field 4: its closing quote is missing",
    ),
    (
        "501,2026-12-31,0001\u{e9}",
        "2, field 3 (rights): a byte that is not a printable character of ASCII",
    ),
];

const FIRST: &str = "501,2026-12-31,0001\r\n";

#[test]
fn each_message_of_a_roster() {
    for (line, message) in LINES {
        let roster = format!("{FIRST}{line}");
        let found = read_roster(roster.as_bytes(), 10, 101);
        assert_eq!(found, Err(format!("line {message}")), "{roster:?}");
    }
    let long = format!("{},2026-12-31,0001", "5".repeat(41));
    let found = read_roster(long.as_bytes(), 10, 101);
    let shown = format!("\"{}..\"", "5".repeat(40));
    let message = format!("line 1, field 1 (login): {shown} is not 1 to 10 decimal digits");
    assert_eq!(found, Err(message));
    let found = read_roster(FIRST.repeat(65).as_bytes(), 10, 101);
    assert_eq!(
        found,
        Err("line 65: a roster has at most 64 lines".to_string())
    );
    let found = read_roster(FIRST.repeat(3).as_bytes(), u32::MAX - 2, 101);
    let message = "line 3: its cycle is 4294967295, the last one is 4294967294";
    assert_eq!(found, Err(message.to_string()));
}

/// What show prints of examples/roster.csv.
const EXAMPLE: &str = "\
announce cycle 10 day 101 grant login 501 end 20818 rights 0
announce cycle 11 day 101 grant login 502 end 20877 rights 0 1 2 3 4 5 6 7
announce cycle 12 day 101 grant login 503 end 21243 rights 0 15
announce cycle 13 day 101 grant login 4294967295 end 47481 rights 0 1 2 3 4 5 6 7 8 9 10 11 12 13 14 15
";

#[test]
fn the_example_is_read_and_written() {
    let announcements = read_roster(&file("../examples/roster.csv"), 10, 101).unwrap();
    assert_eq!(show(&announcements).text, EXAMPLE);
    let written = write_roster(&announcements).unwrap();
    let lines = "501,2026-12-31,0001\r\n502,2027-02-28,00FF\r\n503,2028-02-29,8001\r\n\
        4294967295,2099-12-31,FFFF\r\n";
    assert_eq!(String::from_utf8(written.clone()).unwrap(), lines);
    assert_eq!(read_roster(&written, 10, 101), Ok(announcements));
    assert_eq!(read_roster(b"", u32::MAX, 0), Ok(Vec::new()));
    assert_eq!(write_roster(b""), Ok(Vec::new()));
}

/// What is no grant of a roster, behind a good one of 24 bytes.
const RECORDS: &[(&str, &str)] = &[
    (
        "announce cycle 1 day 2 end login 501",
        "`announce cycle 1 day 2 end login 501` is no grant",
    ),
    (
        "query login 501 day 120 right 0",
        "`query login 501 day 120 right 0` is no grant",
    ),
    (
        "announce cycle 1 day 2 grant login 501 end 47482 rights 0",
        "end day 47482 is after 2099-12-31 (47481)",
    ),
    (
        "announce cycle 1 day 2 grant login 0 end 120 rights 0",
        "login 0 is below 1",
    ),
    (
        "bytes 16 00 08",
        "the input ends within a record of 24 bytes",
    ),
];

#[test]
fn each_message_of_announcements() {
    let good = "announce cycle 1 day 2 grant login 501 end 120 rights 0\n";
    for (record, message) in RECORDS {
        let found = write_roster(&compose(&format!("{good}{record}")).unwrap());
        assert_eq!(found, Err(format!("record 2, at byte 24: {message}")));
    }
    let found = write_roster(&compose(&good.repeat(65)).unwrap());
    let message = "record 65, at byte 1536: a roster has at most 64 lines";
    assert_eq!(found, Err(message.to_string()));
    let most = write_roster(&compose(&good.repeat(64)).unwrap());
    assert_eq!(most, Ok("501,1970-05-01,0001\r\n".repeat(64).into_bytes()));
}

#[test]
fn days_are_counts_or_dates() {
    for (word, day) in [
        ("0", Some(0)),
        ("4294967295", Some(u32::MAX)),
        ("4294967296", None),
        ("1970-01-01", Some(0)),
        ("2099-12-31", Some(47_481)),
        ("2100-01-01", None),
        ("2026-02-29", None),
        ("+1", None),
        ("-1", None),
        ("", None),
    ] {
        assert_eq!(read_day(word), day, "{word}");
    }
}
