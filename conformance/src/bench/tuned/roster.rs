//! Rosters (request A2): one pass over the text, into rows; the announcements are written where they
//! stand in the output slice once the last line is known to be well formed.

use super::bytes::{u16_at, u32_at, u64_at};
use super::page::{date, login, DATE, LAST_DATE};
use super::state::Login;

const LINES: usize = 64;
const ANNOUNCEMENT: usize = 24;
/// Length and kind of a grant.
const HEAD: u32 = 22 | 8 << 16;
/// The last cycle that a line may have.
const LAST_CYCLE: u64 = u32::MAX as u64 - 1;

/// What was read, and the text behind it.
type Read<'a, T> = Option<(T, &'a [u8])>;

#[inline(never)]
pub fn node_roster_import(roster: &[u8], cycle: u32, day: u32, out: &mut [u8]) -> u32 {
    let none = Login {
        login: 0,
        end: 0,
        rights: 0,
    };
    let (mut rows, mut count) = ([none; LINES], 0);
    let mut rest = roster;
    while !rest.is_empty() {
        let (Some(row), Some((read, behind))) = (rows.get_mut(count), read_line(rest)) else {
            return 24;
        };
        *row = read;
        rest = behind;
        count += 1;
    }
    if count > 0 && u64::from(cycle) + count as u64 - 1 > LAST_CYCLE {
        return 24;
    }
    if out.len() < ANNOUNCEMENT * count {
        return 25;
    }
    write_all(out, cycle, day, &rows[..count]);
    (count as u32) << 8
}

#[inline]
fn write_all(out: &mut [u8], cycle: u32, day: u32, rows: &[Login]) {
    let announcements = out.chunks_exact_mut(ANNOUNCEMENT).zip(rows);
    for ((announcement, row), cycle) in announcements.zip(cycle..) {
        write(announcement, cycle, day, row);
    }
}

#[inline]
fn write(out: &mut [u8], cycle: u32, day: u32, row: &Login) {
    let pair = |low: u32, high: u32| (u64::from(high) << 32 | u64::from(low)).to_le_bytes();
    out[..8].copy_from_slice(&pair(HEAD, cycle));
    out[8..16].copy_from_slice(&pair(day, row.login));
    out[16..24].copy_from_slice(&pair(row.end, row.rights.into()));
}

#[inline]
fn read_line(text: &[u8]) -> Read<'_, Login> {
    let (login, text) = read_login(text)?;
    let (end, text) = read_date(text)?;
    let (rights, text) = read_rights(text)?;
    let row = Login { login, end, rights };
    match text {
        [] => Some((row, text)),
        [b'\r', b'\n', rest @ ..] => Some((row, rest)),
        _ => None,
    }
}

/// Whether a quote opens the field, and the text behind it.
#[inline]
fn opened(text: &[u8]) -> (bool, &[u8]) {
    match text {
        [b'"', rest @ ..] => (true, rest),
        _ => (false, text),
    }
}

/// The text behind the quote that closes the field, where one opened it.
#[inline]
fn closed(text: &[u8], is_quoted: bool) -> Option<&[u8]> {
    match text {
        [b'"', rest @ ..] if is_quoted => Some(rest),
        _ => (!is_quoted).then_some(text),
    }
}

#[inline]
fn comma(text: &[u8]) -> Option<&[u8]> {
    text.strip_prefix(b",")
}

#[inline]
fn read_login(text: &[u8]) -> Read<'_, u32> {
    let (is_quoted, text) = opened(text);
    let (mut login, mut digits) = (0u64, 0);
    while let Some(digit) = text.get(digits).map(|byte| byte.wrapping_sub(b'0')) {
        if digit > 9 {
            break;
        }
        // An eleventh digit is refused below, and more can't undo that: the rest is not read.
        if digits == 10 {
            return None;
        }
        login = 10 * login + u64::from(digit);
        digits += 1;
    }
    let login = u32::try_from(login).ok().filter(|login| *login > 0)?;
    let text = comma(closed(&text[digits..], is_quoted)?)?;
    Some((login, text))
}

/// Zeros and hyphens as they stand in the first eight characters of a date.
const FORM: u64 = u64::from_le_bytes(*b"0000-00-");
/// What carries a byte above 0x7F where it differs from a hyphen, or by more than 9 from a zero.
const EXCESS: u64 = u64::from_le_bytes([0x76, 0x76, 0x76, 0x76, 0x7F, 0x76, 0x76, 0x7F]);
const HIGH_BITS: u64 = 0x8080_8080_8080_8080;

#[inline]
fn read_date(text: &[u8]) -> Read<'_, u32> {
    let (is_quoted, text) = opened(text);
    let (date, text) = text.split_at_checked(DATE)?;
    let digits = u64_at(date, 0) ^ FORM;
    if (digits | digits.wrapping_add(EXCESS)) & HIGH_BITS != 0 {
        return None;
    }
    let [a, b, c, d, _, e, f, _] = digits.to_le_bytes().map(u32::from);
    let [g, h] = [date[8], date[9]].map(|byte| u32::from(byte.wrapping_sub(b'0')));
    if g > 9 || h > 9 {
        return None;
    }
    let end = day_of(1000 * a + 100 * b + 10 * c + d, 10 * e + f, 10 * g + h)?;
    let text = comma(closed(text, is_quoted)?)?;
    Some((end, text))
}

/// From 1970 to 2099 every fourth year has a leap day.
#[inline]
fn day_of(year: u32, month: u32, day: u32) -> Option<u32> {
    let years = year.checked_sub(1970).filter(|years| *years < 130)?;
    let (before, size) = *MONTHS[usize::from(year.is_multiple_of(4))].get(month as usize)?;
    let is_date = day.wrapping_sub(1) < u32::from(size);
    is_date.then(|| 365 * years + (years + 1) / 4 + u32::from(before) + day - 1)
}

/// By month: the days of the year before it and its own; in other years, in leap years.
const MONTHS: [[(u16, u8); 13]; 2] = [months(28), months(29)];

const fn months(february: u8) -> [(u16, u8); 13] {
    let sizes = [0, 31, february, 31, 30, 31, 30, 31, 31, 30, 31, 30, 31];
    let mut months = [(0, 0); 13];
    let (mut before, mut month) = (0, 1);
    while month < 13 {
        months[month] = (before, sizes[month]);
        before += sizes[month] as u16;
        month += 1;
    }
    months
}

#[inline]
fn read_rights(text: &[u8]) -> Read<'_, u16> {
    let (is_quoted, text) = opened(text);
    let (digits, text) = text.split_first_chunk::<4>()?;
    let [a, b, c, d] = digits.map(|digit| DIGITS[usize::from(digit)]);
    let rights = u16::try_from(a << 12 | b << 8 | c << 4 | d).ok()?;
    (rights > 0).then_some((rights, closed(text, is_quoted)?))
}

/// By byte: the value of a hexadecimal digit, or a number that is above 16 bits wherever it stands.
const DIGITS: [u32; 256] = digits();

const fn digits() -> [u32; 256] {
    let mut digits = [0x1_0000; 256];
    let mut value = 0;
    while value < 16 {
        digits[b"0123456789ABCDEF"[value] as usize] = value as u32;
        digits[b"0123456789abcdef"[value] as usize] = value as u32;
        value += 1;
    }
    digits
}

/// The most of a line: login, comma, date, comma, rights, CR LF.
const LINE: usize = 28;

#[inline(never)]
pub fn node_roster_export(announcement: &[u8], out: &mut [u8]) -> u32 {
    let Some(row) = read_grant(announcement) else {
        return 24;
    };
    let (line, begin) = line_of(&row);
    let Some(front) = out.get_mut(..LINE - begin) else {
        return 25;
    };
    front.copy_from_slice(&line[begin..]);
    ((LINE - begin) as u32) << 8
}

#[inline]
fn read_grant(bytes: &[u8]) -> Option<Login> {
    if bytes.len() != ANNOUNCEMENT || u32_at(bytes, 0) != HEAD || u16_at(bytes, 22) != 0 {
        return None;
    }
    let row = Login {
        login: u32_at(bytes, 12),
        end: u32_at(bytes, 16),
        rights: u16_at(bytes, 20),
    };
    (row.login > 0 && row.rights > 0 && row.end <= LAST_DATE).then_some(row)
}

/// The line at the end of its bytes, and where it begins.
#[inline]
fn line_of(row: &Login) -> ([u8; LINE], usize) {
    let mut line = [0; LINE];
    line[..11].copy_from_slice(&login(row.login));
    line[11..22].copy_from_slice(&date(row.end));
    (line[10], line[21]) = (b',', b',');
    for (place, digit) in line[22..26].iter_mut().enumerate() {
        *digit = b"0123456789ABCDEF"[usize::from(row.rights >> (12 - 4 * place) & 15)];
    }
    line[26..].copy_from_slice(b"\r\n");
    let digits = row.login.ilog10() as usize + 1;
    (line, 10 - digits)
}
