//! Values outside the ranges are written, and shown with the reason and the place.

use super::round_trip::all_read_by_paper;
use super::{cases, compose, first_checkpoint, show};
use crate::layout::{kind_of, SHEET_KIND};
use crate::text::{compose_bytes, warnings};

/// Records and the comments of show.
const RECORDS: &str = "\
start seat 32 life 1
  seat 32 is not in 0 to 31, at byte 4
query login 1 day 1 right 16
  right 16 is not in 0 to 15, at byte 12
query login 1 day 1 right 16 door 0
  right 16 is not in 0 to 15, at byte 12
query login 1 day 1 right 0 door 4
  door 4 is not in 0 to 3, at byte 13
query login 1 day 1 right 0 door 255
  door 255 is not in 0 to 3, at byte 13
announce cycle 1 day 2 presents seat 0 flag 2
  flag 2 is not in 0 to 1, at byte 13
announce cycle 1 day 2 certify seat 0 life 0
  life 0 is below 1, at byte 13
announce cycle 1 day 2 minima m 8 k 1 S 30
  m 8 is not in 0 to 7, at byte 12
announce cycle 1 day 2 minima m 0 k 0 S 30
  k 0 is not in 1 to 32, at byte 13
announce cycle 1 day 2 minima m 0 k 33 S 30
  k 33 is not in 1 to 32, at byte 13
announce cycle 1 day 2 minima m 0 k 1 S 366
  S 366 is not in 1 to 365, at byte 14
announce cycle 1 day 2 minima m 0 k 1 S 30 ordinary 31 restart 0
  ordinary 31 is not in 0 to 30, at byte 16
announce cycle 1 day 2 minima m 0 k 1 S 30 ordinary 30 restart 31
  restart 31 is not in 0 to 30, at byte 17
announce cycle 1 day 2 minima m 0 k 1 S 30 ordinary 0 restart 255
  restart 255 is not in 0 to 30, at byte 17
announce cycle 1 day 2 propose minima m 0 k 1 S 30 ordinary 31 restart 1
  ordinary 31 is not in 0 to 30, at byte 18
announce cycle 1 day 2 propose minima m 0 k 1 S 30 ordinary 1 restart 31
  restart 31 is not in 0 to 30, at byte 19
announce cycle 1 day 2 remove seat 255
  seat 255 is not in 0 to 31, at byte 12
announce cycle 1 day 2 rejoin seat 32 life 0
  seat 32 is not in 0 to 31, at byte 12
announce cycle 1 day 2 grant login 0 end 6 rights 1
  login 0 is below 1, at byte 12
announce cycle 1 day 2 grant login 5 end 6 rights
  rights name none, at byte 20
announce cycle 1 day 2 propose presents seat 1 flag 1
  subject kind 3 is not 4, 5, 6 or 7, at byte 12
announce cycle 1 day 2 propose certify seat 32 life 1
  seat 32 is not in 0 to 31, at byte 14
announce cycle 1 day 2 propose rejoin seat 32 life 0
  seat 32 is not in 0 to 31, at byte 14
sheet level-1 level-2 rows 0:1 32:1
  seat 32 is not in 0 to 31, at byte 12
bytes 05
  the input ends within a length, at byte 1
bytes 16 00 08
  the input ends within a record of 24 bytes, at byte 3
bytes 00 00
  length 0 has no room for a kind, at byte 0
bytes 01 00 13
  length 1 has no room for a kind, at byte 0
bytes 02 00 0a 00
  kind 10 is not that of a record, at byte 2
bytes 02 00 08 01
  kind 264 is not that of a record, at byte 2
bytes 03 00 13 00 00
  length 3 is not 7, at byte 0
bytes 0c 00 14 00 f5 01 00 00 78 00 00 00 00 00
  length 12 is not 11, at byte 0
bytes 0b 00 15 00 f5 01 00 00 78 00 00 00 00
  length 11 is not 12, at byte 0
bytes 02 00 16 00
  kind 22 is not that of a record, at byte 2
bytes 04 00 12 00 01 00
  the bytes end within a field, at byte 6
bytes 05 00 12 00 01 00 01
  length 5 is not 10, for 1 rows, at byte 0
bytes 05 00 12 00 01 00 41
  row count 65 is not in 0 to 64, at byte 6
bytes 16 00 09 00 01 00 00 00 01 00 00 00 05 00 00 00 00 00 00 00 00 00 00 07
  the unused byte is 07, not 00, at byte 23
bytes 16 00 05 00 01 00 00 00 01 00 00 00 00 01 1e 00 05 05 01 00 00 00 00 00
  the unused byte is 01, not 00, at byte 18
bytes 16 00 01 00 01 00 00 00 01 00 00 00 05 00 00 01 1e 00 05 05 00 01 00 00
  the unused byte is 01, not 00, at byte 21
bytes 16 00 01 00 01 00 00 00 01 00 00 00 06 00 05 07 00 00 00 00 00 00 00 00
  the unused byte is 07, not 00, at byte 15
bytes 16 00 01 00 01 00 00 00 01 00 00 00 07 00 05 07 00 00 00 01 00 00 00 00
  the unused byte is 01, not 00, at byte 19
bytes 16 00 01 00 01 00 00 00 01 00 00 00 08 00 05 07 00 00 00 00 00 00 00 00
  subject kind 8 is not 4, 5, 6 or 7, at byte 12
";

/// What compose warns of for a text below another one.
fn warned(text: &str) -> Vec<String> {
    let text = format!("# one\nstart seat 0 life 1\n\n{text}\n");
    warnings(&compose_bytes(text.as_bytes()).unwrap())
}

fn check_warning(text: &str, number: u8, why: &str) {
    let number = match text.starts_with("bytes") && kind_of(&compose(text).unwrap()) == SHEET_KIND {
        true => 2,
        false => number,
    };
    let expected = format!("line 4: malformed, its call answers {number}: {why} of it");
    assert_eq!(warned(text), [expected], "{text}");
}

#[test]
fn no_warnings() {
    assert_eq!(warned(&first_checkpoint()), Vec::<String>::new());
    let image = first_checkpoint() + "own seat 0 life 1 misses 10\n";
    let composed = compose_bytes(image.as_bytes()).unwrap();
    assert_eq!(warnings(&composed), Vec::<String>::new());
}

#[test]
fn a_malformed_image() {
    let image = first_checkpoint() + "own seat 0 life 1 misses 11\n";
    let why = "misses 11 is not in 0 to 10, at byte 30";
    let expected = format!("line 5: malformed, its call answers 1: {why} of it");
    let composed = compose_bytes(image.as_bytes()).unwrap();
    assert_eq!(warnings(&composed), [expected]);
}

#[test]
fn records() {
    for (text, why) in cases(RECORDS) {
        let bytes = compose(&text).unwrap();
        assert!(!all_read_by_paper(&bytes), "{text}");
        let shown = show(&bytes);
        assert!(shown.malformed);
        let at = why.rsplit(' ').next().unwrap();
        let expected = format!("# malformed: {why} of these, {at} of the input\nbytes ");
        assert!(shown.text.starts_with(&expected), "{text}");
        let number = if text.starts_with("sheet") { 2 } else { 1 };
        check_warning(&text, number, why);
    }
}

#[test]
fn the_place_in_the_input() {
    let text = "start seat 0 life 1\nstart seat 32 life 1\nquery login 1 day 1 right 0\n";
    let expected = "start seat 0 life 1\n\
        # malformed: seat 32 is not in 0 to 31, at byte 4 of these, 13 of the input\n\
        bytes 07 00 13 00 20 01 00 00 00\n\
        query login 1 day 1 right 0\n";
    assert_eq!(show(&compose(text).unwrap()).text, expected);
}

/// What is added to a checkpoint of cycle 1, day 100 and three present seats.
const ROWS: &str = "\
seat 3 standing 4 life 1
  standing 4 is not in 0 to 3, at byte 35
seat 3 free life 5
  seat 3 is free with life 5, at byte 36
seat 3 retired life 0
  seat 3 is retired with life 0, at byte 36
proposal cycle 1 day 90 remove seat 2
  proposal cycle 1 is not below cycle 1, at byte 181
proposal cycle 0 day 101 remove seat 2
  proposal day 101 is after day 100, at byte 185
proposal cycle 0 day 9 remove seat 2 / proposal cycle 0 day 9 remove seat 2
  proposals do not rise at cycle 0, at byte 199
proposal cycle 0 day 9 cancel cycle 2
  subject kind 2 is not 4, 5, 6 or 7, at byte 189
proposal cycle 0 day 9 rejoin seat 32 life 0
  seat 32 is not in 0 to 31, at byte 191
proposal cycle 0 day 9 minima m 0 k 1 S 0
  S 0 is not in 1 to 365, at byte 193
proposal cycle 0 day 9 minima m 0 k 1 S 1 ordinary 31 restart 2
  ordinary 31 is not in 0 to 30, at byte 195
proposal cycle 0 day 9 minima m 0 k 1 S 1 ordinary 0 restart 31
  restart 31 is not in 0 to 30, at byte 196
login 0 end 9 rights 1
  login 0 is below 1, at byte 470
login 5 end 9 rights
  rights name none, at byte 478
login 5 end 9 rights 1 / login 5 end 9 rights 1
  login 5 does not rise above 5, at byte 480
";

/// Bytes of that checkpoint, set to another value.
const BYTES: &[(usize, u8, &str)] = &[
    (0, 0x53, "length 1107 is not 1108, at byte 0"),
    (4, 0, "cycle 0 is below 1, at byte 4"),
    (12, 0, "trustees 0 is not in 1 to 8, at byte 12"),
    (13, 9, "trustees 9 is not in 1 to 8, at byte 13"),
    (
        15,
        4,
        "the quorum 4 is above the 3 present seats, at byte 14",
    ),
    (
        14,
        2,
        "the quorum 4 is above the 3 present seats, at byte 14",
    ),
    (18, 0, "ordinary 0 is not in 1 to 30, at byte 18"),
    (18, 31, "ordinary 31 is not in 1 to 30, at byte 18"),
    (19, 0, "restart 0 is not in 1 to 30, at byte 19"),
    (19, 31, "restart 31 is not in 1 to 30, at byte 19"),
    (180, 17, "proposal count 17 is not in 0 to 16, at byte 180"),
    (182, 5, "the unused byte is 05, not 00, at byte 182"),
    (469, 65, "login count 65 is not in 0 to 64, at byte 469"),
    (1109, 255, "the unused byte is ff, not 00, at byte 1109"),
];

#[test]
fn checkpoints() {
    let first = compose(&first_checkpoint()).unwrap();
    let rows = cases(ROWS).into_iter().map(|(rows, why)| {
        let bytes = compose(&(first_checkpoint() + &rows)).unwrap();
        (bytes, why)
    });
    let changed = BYTES.iter().map(|(at, byte, why)| {
        let mut bytes = first.clone();
        bytes[*at] = *byte;
        (bytes, *why)
    });
    for (bytes, why) in rows.chain(changed) {
        assert!(!all_read_by_paper(&bytes), "{why}");
        let text = show(&bytes).text;
        let comment = format!("# malformed: {why} of these, ");
        assert!(text.contains(&comment), "{why}: {text}");
        assert_eq!(compose(&text), Ok(bytes));
    }
}
