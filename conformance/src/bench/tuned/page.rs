//! The page (request A1): each line written where it stands in the output slice.

use super::image;
use super::state::{Login, State};

const LINE: usize = 47;
/// The characters of a date.
pub const DATE: usize = 10;
/// The last day that has one: 2099-12-31.
pub const LAST_DATE: u32 = 47_481;

/// The last word of a line, with the line feed.
type Word = [u8; 8];

const OPEN: Word = *b"open   \n";
const ENDED: Word = *b"ended  \n";
const SILENT: Word = *b"silent \n";

#[inline(never)]
pub fn node_page(image: &[u8], day: u32, out: &mut [u8]) -> u32 {
    let mut state = State::EMPTY;
    if image::read(image, &mut state).is_none() {
        return 1;
    }
    let rows = state.logins.used();
    if out.len() < LINE * rows.len() {
        return 23;
    }
    let t = day.max(state.day);
    // By whether the login has ended.
    let words = match t - state.day > state.silence.into() {
        true => [&SILENT, &SILENT],
        false => [&OPEN, &ENDED],
    };
    for (row, line) in rows.iter().zip(out.chunks_exact_mut(LINE)) {
        write_line(row, words[usize::from(t > row.end)], line);
    }
    (rows.len() as u32) << 8
}

#[inline]
fn write_line(row: &Login, word: &Word, line: &mut [u8]) {
    line[..11].copy_from_slice(&login(row.login));
    line[11..22].copy_from_slice(&date(row.end));
    line[22..39].copy_from_slice(&rights(row.rights));
    line[39..47].copy_from_slice(word);
}

/// Right-aligned, two digits at a time from the back; a space behind.
#[inline]
pub fn login(mut rest: u32) -> [u8; 11] {
    let mut text = [b' '; 11];
    let mut end = 10;
    while rest >= 10 {
        end -= 2;
        text[end..end + 2].copy_from_slice(&PAIRS[rest as usize % 100]);
        rest /= 100;
    }
    if rest > 0 {
        text[end - 1] = b'0' + rest as u8;
    }
    text
}

/// The date of a day up to 2099; a space behind. A year that begins in March has its leap day as its
/// last, so that the length of a month does not depend on the year. All are counted from 1968-03-01,
/// 671 days before 1970; every fourth year has a leap day.
#[inline]
pub fn date(end: u32) -> [u8; 11] {
    if end > LAST_DATE {
        return *b"---------- ";
    }
    let days = end + 671;
    let year = (4 * days + 3) / 1461;
    let day = days - 1461 * year / 4;
    // Five months from March on, and from August on, have 153 days.
    let month = (5 * day + 2) / 153;
    let day = day - (153 * month + 2) / 5 + 1;
    let is_next = u32::from(month >= 10);
    let year = 1968 + year + is_next;
    let [century, year, month, day] =
        [year / 100, year % 100, month + 3 - 12 * is_next, day].map(|n| PAIRS[n as usize]);
    let [[a, b], [c, d], [e, f], [g, h]] = [century, year, month, day];
    [a, b, c, d, b'-', e, f, b'-', g, h, b' ']
}

/// A letter for each right that is held; a space behind.
#[inline]
fn rights(held: u16) -> [u8; 17] {
    let mut text = [b' '; 17];
    for (bit, place) in text[..16].iter_mut().enumerate() {
        let letter = b'A' + bit as u8;
        *place = if held >> bit & 1 == 1 { letter } else { b'-' };
    }
    text
}

/// The numbers 0 to 99 in two digits.
const PAIRS: [[u8; 2]; 100] = pairs();

const fn pairs() -> [[u8; 2]; 100] {
    let mut pairs = [[b'0'; 2]; 100];
    let mut n = 0;
    while n < 100 {
        pairs[n] = [b'0' + (n / 10) as u8, b'0' + (n % 10) as u8];
        n += 1;
    }
    pairs
}
