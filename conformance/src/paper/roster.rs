//! Request A2: "Contractor rosters from the office." A passage in quotation marks is the request's
//! own.

use super::announcement::{Action, Announcement};
use super::bytes::{push_u16, push_u32};
use super::calendar;
use super::csv::{self, Broken, Field};
use super::image::{code, put};
use super::state::{Cycle, Day};
use super::Answer::Given;

/// A way for a roster to be malformed.
#[derive(Debug, Clone, Copy, PartialEq, Eq)]
pub enum Way {
    /// Not of RFC 4180.
    File(csv::Way),
    /// So many fields, and not three.
    Fields(usize),
    /// "more than 64 lines"
    Lines,
    /// "cycles running past 4294967294"
    Cycle,
    /// A login that is not 1 to 10 decimal digits.
    LoginForm,
    /// A login that is not from 1 to 4294967295.
    LoginRange,
    /// An end date that is not year-month-day in 10.
    DateForm,
    /// An end date that the calendar doesn't have.
    NoDate,
    /// An end date that is not from 1970-01-01 to 2099-12-31.
    DateRange,
    /// Rights that are not four hexadecimal digits.
    RightsForm,
    /// Rights 0000.
    NoRights,
}

/// Where a roster is malformed, and how.
#[derive(Debug, Clone, PartialEq, Eq)]
pub struct Malformed {
    /// From 1.
    pub line: usize,
    /// From 1; none where the line as a whole is malformed.
    pub field: Option<usize>,
    /// What stands in the field; empty where it was not read whole.
    pub content: Vec<u8>,
    pub way: Way,
}

type Read<T> = Result<T, Malformed>;

/// The three values of a line.
struct Grant {
    login: u32,
    end: Day,
    rights: u16,
}

/// "The node turns up to 64 lines into grant announcements, one per line in their order, for a given
/// day and cycles rising by one from a given one".
pub fn import(roster: &[u8], cycle: u32, day: u32) -> Read<Vec<Vec<u8>>> {
    let records = csv::read(roster).map_err(of_file)?;
    let mut cycle = Cycle::new(cycle);
    let mut announcements = Vec::new();
    for (line, record) in (1..).zip(&records) {
        if line > 64 {
            return of_line(line, Way::Lines);
        }
        let grant = read_line(line, record)?;
        if cycle >= Cycle::LAST {
            return of_line(line, Way::Cycle);
        }
        announcements.push(grant.announcement(cycle, Day::new(day)));
        cycle = cycle.next();
    }
    Ok(announcements)
}

fn of_file(broken: Broken) -> Malformed {
    Malformed {
        line: broken.line,
        field: Some(broken.field),
        content: Vec::new(),
        way: Way::File(broken.way),
    }
}

fn of_line<T>(line: usize, way: Way) -> Read<T> {
    Err(Malformed {
        line,
        field: None,
        content: Vec::new(),
        way,
    })
}

fn read_line(line: usize, record: &[Field]) -> Read<Grant> {
    let [login, end, rights] = record else {
        return of_line(line, Way::Fields(record.len()));
    };
    Ok(Grant {
        login: read_field(line, 1, login, read_login)?,
        end: read_field(line, 2, end, read_date)?,
        rights: read_field(line, 3, rights, read_rights)?,
    })
}

/// Quoted or not, a field is judged by its content.
fn read_field<T>(
    line: usize,
    number: usize,
    field: &Field,
    read: fn(&[u8]) -> Result<T, Way>,
) -> Read<T> {
    read(&field.content).map_err(|way| Malformed {
        line,
        field: Some(number),
        content: field.content.clone(),
        way,
    })
}

/// "login (1 to 10 decimal digits, from 1 to 4294967295)"
fn read_login(content: &[u8]) -> Result<u32, Way> {
    if !(1..=10).contains(&content.len()) || !is_decimal(content) {
        return Err(Way::LoginForm);
    }
    let login = decimal(content);
    if !(1..=4_294_967_295).contains(&login) {
        return Err(Way::LoginRange);
    }
    Ok(login as u32)
}

/// "end date from 1970-01-01 to 2099-12-31 as in A1"
pub fn read_date(content: &[u8]) -> Result<Day, Way> {
    let &[_, _, _, _, b'-', _, _, b'-', _, _] = content else {
        return Err(Way::DateForm);
    };
    let parts = [&content[..4], &content[5..7], &content[8..]];
    if !parts.iter().all(|part| is_decimal(part)) {
        return Err(Way::DateForm);
    }
    let [year, month, day] = parts.map(decimal);
    if !calendar::has(year, month, day) {
        return Err(Way::NoDate);
    }
    if !(1970..=2099).contains(&year) {
        return Err(Way::DateRange);
    }
    Ok(calendar::day_of(year, month, day))
}

/// "rights as four hexadecimal digits of either case, not zero"
fn read_rights(content: &[u8]) -> Result<u16, Way> {
    let digits = content.iter().map(|digit| char::from(*digit).to_digit(16));
    let Some(digits) = digits.collect::<Option<Vec<u32>>>() else {
        return Err(Way::RightsForm);
    };
    if digits.len() != 4 {
        return Err(Way::RightsForm);
    }
    let rights = digits.iter().fold(0, |rights, digit| 16 * rights + digit);
    if rights == 0 {
        return Err(Way::NoRights);
    }
    Ok(rights as u16)
}

fn is_decimal(text: &[u8]) -> bool {
    text.iter().all(u8::is_ascii_digit)
}

fn decimal(digits: &[u8]) -> i64 {
    let digits = digits.iter().map(|digit| i64::from(digit - b'0'));
    digits.fold(0, |number, digit| 10 * number + digit)
}

impl Grant {
    /// "length 22", kind 8, cycle, day, "login 4 (at least 1), end day 4, rights 2 (not 0)", two
    /// unused bytes (document 01).
    fn announcement(&self, cycle: Cycle, day: Day) -> Vec<u8> {
        let mut out = Vec::new();
        push_u16(&mut out, 22);
        push_u16(&mut out, 8);
        push_u32(&mut out, cycle.number());
        push_u32(&mut out, day.number());
        push_u32(&mut out, self.login);
        push_u32(&mut out, self.end.number());
        push_u16(&mut out, self.rights);
        push_u16(&mut out, 0);
        out
    }

    /// "one line, unquoted, login without leading zeros, capital hexadecimal, ended by CR LF"
    fn line(&self) -> String {
        let Grant { login, end, rights } = self;
        let date = calendar::text(*end);
        format!("{login},{date},{rights:04X}\r\n")
    }
}

/// The line of an announcement; none for "anything but a well-formed grant ending by 2099-12-31".
pub fn export(announcement: &[u8]) -> Option<String> {
    let announcement = Announcement::read(announcement).ok()?;
    let Action::Grant { login, end, rights } = announcement.action else {
        return None;
    };
    if end > Day::new(47_481) {
        return None;
    }
    let grant = Grant { login, end, rights };
    Some(grant.line())
}

/// The import as C gets it; it "gives their number".
pub fn node_roster_import(roster: &[u8], cycle: u32, day: u32, out: &mut [u8]) -> u32 {
    let Ok(announcements) = import(roster, cycle, day) else {
        return 24;
    };
    // "25, output slice shorter than 24 bytes times the lines"; "24 comes before 25".
    if out.len() < 24 * announcements.len() {
        return 25;
    }
    // "a longer one keeps its tail"
    put(&announcements.concat(), out);
    code(Given) | (announcements.len() as u32) << 8
}

/// The export as C gets it; it "gives its length".
pub fn node_roster_export(announcement: &[u8], out: &mut [u8]) -> u32 {
    let Some(line) = export(announcement) else {
        return 24;
    };
    // "or than the exported line"
    if out.len() < line.len() {
        return 25;
    }
    put(line.as_bytes(), out);
    code(Given) | (line.len() as u32) << 8
}
