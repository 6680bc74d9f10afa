//! The line of a page and that of a roster.

use super::{number_at, ANNOUNCEMENT_SIZE, ARGUMENTS, LOGIN, LOGINS};
use std::ops::Range;

/// A line of a page: "46 characters and a line feed" (request A1).
pub const LINE_SIZE: usize = 47;
/// The line of a roster for a grant (request A2) without its login: two commas, a date, four
/// hexadecimal digits, CR LF.
const ROSTER_LINE_SIZE: usize = 18;
/// Where the word of a line stands, padded.
pub const WORD: Range<usize> = 39..46;

/// The lines of an image's page: the number of its logins.
pub fn lines(image: &[u8]) -> usize {
    number_at(image, LOGINS.count_at(), 1) as usize
}

/// The bytes of the announcements for a roster: none of its fields has a line break.
pub fn announcements_size(roster: &[u8]) -> usize {
    ANNOUNCEMENT_SIZE * roster_lines(roster)
}

/// The lines of a roster: the last may lack its line end.
pub fn roster_lines(roster: &[u8]) -> usize {
    let ended = roster.windows(2).filter(|pair| pair == b"\r\n").count();
    ended + usize::from(!roster.is_empty() && !roster.ends_with(b"\r\n"))
}

/// The bytes of the line for a grant.
pub fn roster_line_size(announcement: &[u8]) -> usize {
    let login = number_at(announcement, ARGUMENTS, LOGIN[0].size);
    login.to_string().len() + ROSTER_LINE_SIZE
}
