//! The fields of rosters: well formed, and one step beside it.

use super::random::Random;
use super::values::{self, LAST_DATE};
use crate::paper::calendar;
use crate::paper::state::Day;

/// The contents of a line's three fields.
pub type Contents = [Vec<u8>; 3];

/// Logins at their ends, with leading zeros, and of each number of digits.
pub const LOGINS: &[&str] = &[
    "1",
    "4294967295",
    "0000000001",
    "0000000501",
    "01",
    "9",
    "10",
    "99",
    "999",
    "1000",
    "12345",
    "999999",
    "1000000",
    "12345678",
    "999999999",
    "1000000000",
    "4294967294",
];

/// The ends of the range, leap days and the ends of months.
pub const DATES: &[&str] = &[
    "1970-01-01",
    "1970-01-31",
    "1970-02-28",
    "1970-03-01",
    "1972-02-29",
    "1999-12-31",
    "2000-01-01",
    "2000-02-29",
    "2000-03-01",
    "2000-12-31",
    "2001-01-01",
    "2024-02-29",
    "2024-03-31",
    "2024-04-30",
    "2024-05-31",
    "2024-06-30",
    "2024-07-31",
    "2024-08-31",
    "2024-09-30",
    "2024-10-31",
    "2024-11-30",
    "2024-12-31",
    "2096-02-29",
    "2099-02-28",
    "2099-12-30",
    "2099-12-31",
];

pub const RIGHTS: &[&str] = &[
    "0001", "8000", "FFFF", "ffff", "aBcD", "0a0A", "00f0", "0F00", "1234", "9999",
];

/// Logins that are none.
pub const NO_LOGINS: &[&str] = &[
    "",
    "0",
    "0000000000",
    "00000000000",
    "00000000501",
    "4294967296",
    "4294967797",
    "8589935093",
    "9999999999",
    "42949672950",
    "10000000501",
    "18446744073709552117",
    " 501",
    "501 ",
    "5 01",
    "\t501",
    "+501",
    "-501",
    "501.",
    "501.0",
    "5e2",
    "0x1F5",
    "1F5",
    "501a",
    "login",
    "/",
    ":",
    "5'01",
    "50\u{661}",
    "5\"01",
    "\"501",
    "501\"",
    "\"",
    "5,01",
    "501,",
    ",501",
    "501\r\n",
    "\r\n501",
    "5\r\n01",
    "501\n",
    "501\r",
    "501\u{0}",
];

/// End dates that are none or out of range.
pub const NO_DATES: &[&str] = &[
    "",
    "1969-12-31",
    "1968-02-29",
    "1600-02-29",
    "0000-01-01",
    "2100-01-01",
    "2100-02-28",
    "2104-02-29",
    "9999-12-31",
    "1971-02-29",
    "2023-02-29",
    "2098-02-29",
    "2099-02-29",
    "1900-02-29",
    "2100-02-29",
    "2000-02-30",
    "2024-02-30",
    "2024-02-31",
    "2024-04-31",
    "2024-06-31",
    "2024-09-31",
    "2024-11-31",
    "2024-01-32",
    "2024-12-32",
    "2024-01-00",
    "2024-00-10",
    "2024-13-01",
    "2024-99-99",
    "2024-1-01",
    "2024-01-1",
    "2024-1-1",
    "24-01-01",
    "12024-01-01",
    "2024-01-011",
    "2024/01/01",
    "2024.01.01",
    "2024-01/01",
    "2024/01-01",
    "20240101",
    "31-12-2024",
    "12-31-2024",
    "31.12.2024",
    "2024-12-31T00:00",
    " 2024-12-31",
    "2024-12-31 ",
    "2024- 1- 1",
    "2O24-12-31",
    "2024-12-3:",
    "201:-10-10",
    "2024-0:-15",
    "2024-10-0:",
    "202/-12-31",
    "----------",
    "19723",
    "2024-12-31\r\n",
    "2024\"12\"31",
    "2024,12,31",
    "-024-12-31",
    "+024-12-31",
];

/// Rights that are none.
pub const NO_RIGHTS: &[&str] = &[
    "",
    "0000",
    "0",
    "1",
    "001",
    "00001",
    "10000",
    "0000001",
    "00G1",
    "00g1",
    "000:",
    "000@",
    "000`",
    "000/",
    "0x01",
    "0X1F",
    "001h",
    "-001",
    "+001",
    " 001",
    "001 ",
    " 0001",
    "0001 ",
    "00 01",
    "A---",
    "0001\r\n",
    "00\"01",
    "00,01",
    "0001\u{0}",
];

const NONE: [&[&str]; 3] = [NO_LOGINS, NO_DATES, NO_RIGHTS];

/// The contents of a well-formed line.
pub fn line(rng: &mut Random) -> Contents {
    [login(rng), date(rng), rights(rng)].map(String::into_bytes)
}

/// The contents of a line of which one field is malformed.
pub fn wrong_line(rng: &mut Random) -> Contents {
    let mut contents = line(rng);
    let place = rng.below(3);
    contents[place] = rng.pick(NONE[place]).into();
    contents
}

/// Of each number of digits, with and without zeros before it.
fn login(rng: &mut Random) -> String {
    match rng.below(6) {
        0 => rng.pick(LOGINS).to_string(),
        1 => rng.some32().to_string(),
        2 => values::any_login(rng).to_string(),
        3 => {
            let width = rng.within(1, 10) as usize;
            format!("{:0width$}", values::any_login(rng))
        }
        _ => {
            let most = 10u64.pow(rng.within(1, 10)).min(u64::from(u32::MAX));
            rng.within(1, most as u32).to_string()
        }
    }
}

fn date(rng: &mut Random) -> String {
    match rng.below(3) {
        0 => rng.pick(DATES).to_string(),
        _ => calendar::text(Day::new(rng.within(0, LAST_DATE))),
    }
}

fn rights(rng: &mut Random) -> String {
    let rights = values::any_rights(rng);
    match rng.below(4) {
        0 => rng.pick(RIGHTS).to_string(),
        1 => format!("{rights:04x}"),
        2 => format!("{rights:04x}").replace(['a', 'c'], "B"),
        _ => format!("{rights:04X}"),
    }
}

/// A field as it stands in a roster: between quotes where that is asked for or its content needs it.
pub fn written(content: &[u8], is_quoted: bool) -> Vec<u8> {
    let needs = |byte: &u8| matches!(byte, b'"' | b',' | b'\r' | b'\n');
    if !is_quoted && !content.iter().any(needs) {
        return content.to_vec();
    }
    let doubled = content.split(|byte| *byte == b'"');
    let inside = doubled.collect::<Vec<_>>().join(&b"\"\""[..]);
    [b"\"", inside.as_slice(), b"\""].concat()
}
