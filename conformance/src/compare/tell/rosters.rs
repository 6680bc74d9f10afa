//! What the calls of rosters (request A2) met, each with its own count.

use super::marks::Counts;
use super::roster_marks::{Mark, DIGITS};
use crate::compare::call::{Outcome, Records, Request};
use crate::layout::{self, roster_lines, ANNOUNCEMENT_SIZE, ARGUMENTS, LOGIN};
use crate::paper::announcement::{Action, Announcement};
use crate::paper::csv::{self, Field, Record};
use crate::paper::roster::{import, Malformed, Way};
use std::collections::HashSet;
use std::ops::RangeInclusive;

pub type Rosters = Counts<Mark>;

impl Rosters {
    pub fn note(&mut self, request: &Request, outcome: &Outcome) {
        let (size, out) = (request.size(), request.out);
        match (&request.records, outcome.number) {
            (Records::Import { roster, cycle, day }, 0) => {
                let written = outcome.written.as_deref().unwrap_or_default();
                self.note_given(roster, *cycle);
                self.note_lines(roster, *day, written);
                self.note_room(out, size, Mark::ImportExact, Mark::ImportLonger);
                self.add(Mark::LinesBack, outcome.count.into());
                self.meet(Mark::RostersBack);
            }
            (Records::Import { roster, cycle, day }, 24) => {
                self.note_refused(roster, *cycle, *day);
                self.meet_if(&[(out < size, Mark::ImportBefore25)]);
            }
            (Records::Import { .. }, _) => {
                self.note_short(out, size, Mark::ImportShort, Mark::ImportNoSlice);
            }
            (Records::Export(announcement), 0) => {
                self.note_exported(announcement);
                self.note_room(out, size, Mark::ExportExact, Mark::ExportLonger);
                self.meet(Mark::ExportsBack);
            }
            (Records::Export(announcement), 24) => {
                self.note_not_exported(announcement);
                self.meet_if(&[(out < size, Mark::ExportBefore25)]);
            }
            (Records::Export(_), _) => {
                self.note_short(out, size, Mark::ExportShort, Mark::ExportNoSlice);
            }
            _ => {}
        }
    }

    fn note_room(&mut self, out: usize, size: usize, exact: Mark, longer: Mark) {
        self.meet_if(&[(out == size, exact), (out > size, longer)]);
    }

    fn note_short(&mut self, out: usize, size: usize, short: Mark, none: Mark) {
        self.meet_if(&[(out + 1 == size, short), (out == 0, none)]);
    }

    fn note_given(&mut self, roster: &[u8], cycle: u32) {
        let records = csv::read(roster).unwrap_or_default();
        let lines = records.len();
        // One more than the cycle of the last line.
        let next = u64::from(cycle) + lines as u64;
        let fields: Vec<&Field> = records.iter().flatten().collect();
        let quoted = fields.iter().filter(|field| field.is_escaped).count();
        let is_ended = roster.ends_with(b"\r\n");
        self.meet_if(&[
            (lines == 0, Mark::NoLine),
            (lines == 1, Mark::OneLine),
            (lines == 63, Mark::Lines63),
            (lines == 64, Mark::Lines64),
            (lines > 0 && quoted == 0, Mark::NotQuoted),
            (0 < quoted && quoted < fields.len(), Mark::SomeQuoted),
            (lines > 0 && quoted == fields.len(), Mark::AllQuoted),
            (lines > 0 && is_ended, Mark::LastEnd),
            (lines > 0 && !is_ended, Mark::NoLastEnd),
            (lines > 0 && cycle == 0, Mark::Cycle0),
            (lines > 0 && next == u64::from(u32::MAX), Mark::LastCycle),
            (lines == 0 && cycle == u32::MAX, Mark::EmptyLastCycle),
        ]);
    }

    /// The lines of a roster that was given, with their announcements.
    fn note_lines(&mut self, roster: &[u8], day: u32, written: &[u8]) {
        let records = csv::read(roster).unwrap_or_default();
        let mut logins = HashSet::new();
        for (record, announcement) in records.iter().zip(written.chunks(ANNOUNCEMENT_SIZE)) {
            let [login, end, _] = layout::read(&LOGIN, announcement, ARGUMENTS);
            self.note_line(record);
            self.meet_if(&[
                (!logins.insert(login), Mark::LoginTwice),
                (login == 1, Mark::Login1),
                (login == u32::MAX, Mark::LoginMost),
                (end < day, Mark::Over),
            ]);
        }
    }

    fn note_line(&mut self, record: &Record) {
        let text = |place: usize| String::from_utf8_lossy(&record[place].content);
        let (login, date, rights) = (text(0), text(1), text(2));
        let has = |digits: RangeInclusive<char>| rights.contains(|c| digits.contains(&c));
        self.meet_if(&[
            (login.starts_with('0'), Mark::LeadingZeros),
            (date == "1970-01-01", Mark::FirstDate),
            (date == "2099-12-31", Mark::LastDate),
            (date.ends_with("-02-29"), Mark::LeapDay),
            (date == "2000-02-29", Mark::LeapDay2000),
            (has('a'..='f'), Mark::SmallDigits),
            (has('A'..='F'), Mark::CapitalDigits),
            (rights == "0001", Mark::OneRight),
            (rights.to_uppercase() == "FFFF", Mark::AllRights),
        ]);
    }

    fn note_refused(&mut self, roster: &[u8], cycle: u32, day: u32) {
        let Err(malformed) = import(roster, cycle, day) else {
            return;
        };
        let last = u64::from(cycle) + roster_lines(roster) as u64 - 1;
        match malformed.way {
            Way::File(way) => self.meet(of_file(way)),
            Way::Fields(count) => self.note_fields(roster, malformed.line, count),
            Way::Lines => self.meet_if(&[(roster_lines(roster) == 65, Mark::Lines65)]),
            Way::Cycle => self.meet_if(&[(last == u64::from(u32::MAX), Mark::CycleBeyond)]),
            _ => self.note_field(&malformed),
        }
    }

    /// A line that has not three fields.
    fn note_fields(&mut self, roster: &[u8], line: usize, count: usize) {
        let records = csv::read(roster).unwrap_or_default();
        let is_empty = matches!(&records[line - 1][..], [only] if only.content.is_empty());
        let is_within = 1 < line && line < records.len();
        let is_last = 1 < line && line == records.len();
        self.meet_if(&[
            (count == 1, Mark::OneField),
            (count == 2, Mark::TwoFields),
            (count == 4, Mark::FourFields),
            (roster == b"\r\n", Mark::CrLfAlone),
            (is_empty && is_within, Mark::EmptyLineWithin),
            (is_empty && is_last, Mark::EmptyLineLast),
        ]);
    }

    /// A field that is malformed by its own rule.
    fn note_field(&mut self, malformed: &Malformed) {
        let content = String::from_utf8_lossy(&malformed.content);
        let digits = content.chars().filter(char::is_ascii_digit).count();
        self.meet_if(&[
            (malformed.way == Way::LoginForm, Mark::LoginForm),
            (malformed.way == Way::LoginRange, Mark::LoginRange),
            (malformed.way == Way::DateForm, Mark::DateForm),
            (malformed.way == Way::NoDate, Mark::NoDate),
            (malformed.way == Way::DateRange, Mark::DateRange),
            (malformed.way == Way::RightsForm, Mark::RightsForm),
            (malformed.way == Way::NoRights, Mark::NoRights),
            (digits == 11 && content.len() == 11, Mark::ElevenDigits),
            (content == "0", Mark::Login0),
            (content == "4294967296", Mark::LoginBeyond),
            (content.ends_with("-02-29"), Mark::NoLeapDay),
            (content == "1969-12-31", Mark::DateBefore),
            (content == "2100-01-01", Mark::DateBeyond),
            (content.starts_with(' '), Mark::SpaceBefore),
            (content.ends_with(' '), Mark::SpaceBehind),
            (content.contains('"'), Mark::QuoteInside),
            (content.contains(','), Mark::CommaInside),
            (content.contains("\r\n"), Mark::BreakInside),
        ]);
    }

    fn note_exported(&mut self, announcement: &[u8]) {
        let Ok(announcement) = Announcement::read(announcement) else {
            return;
        };
        if let Action::Grant { login, end, .. } = announcement.action {
            self.meet(DIGITS[login.ilog10() as usize]);
            self.meet_if(&[(end.number() == 47_481, Mark::ExportLastDay)]);
        }
    }

    fn note_not_exported(&mut self, announcement: &[u8]) {
        let Ok(announcement) = Announcement::read(announcement) else {
            return self.meet(Mark::ExportMalformed);
        };
        self.meet(match announcement.action {
            Action::Propose(_) => Mark::Propose,
            Action::Cancel(_) => Mark::Cancel,
            Action::Presents { .. } => Mark::Presents,
            Action::Certify { .. } => Mark::Certify,
            Action::Minima(..) => Mark::Minima,
            Action::Remove { .. } => Mark::Remove,
            Action::Rejoin { .. } => Mark::Rejoin,
            Action::End { .. } => Mark::End,
            Action::Grant { end, .. } if end.number() == 47_482 => Mark::ExportLater,
            Action::Grant { .. } => return,
        });
    }
}

fn of_file(way: csv::Way) -> Mark {
    match way {
        csv::Way::BareCr => Mark::BareCr,
        csv::Way::BareLf => Mark::BareLf,
        csv::Way::QuoteWithin => Mark::QuoteWithin,
        csv::Way::BehindQuote => Mark::BehindQuote,
        csv::Way::QuoteNotClosed => Mark::QuoteNotClosed,
        csv::Way::NotText => Mark::NotText,
    }
}
