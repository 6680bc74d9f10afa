//! The round trips of request A2 through the archive: "a grant so made, exported and read again, must
//! give the same three values".

use crate::archive;
use crate::compare::call::{answer_in, count_in, given, Outcome, Records};
use crate::layout::{announcements_size, roster_line_size, ANNOUNCEMENT_SIZE, ARGUMENTS};

/// What an import or an export wrote, read back. Each announcement of an import is exported, and all
/// their lines are imported as one roster too.
pub fn round_trip(records: &Records, outcome: &Outcome) -> Result<(), String> {
    let Some(written) = &outcome.written else {
        return Ok(());
    };
    match records {
        Records::Import { cycle, day, .. } => announcements_back(written, *cycle, *day),
        Records::Export(announcement) => values_back(announcement, written),
        _ => Ok(()),
    }
}

fn announcements_back(written: &[u8], cycle: u32, day: u32) -> Result<(), String> {
    let mut roster = Vec::new();
    for announcement in written.chunks(ANNOUNCEMENT_SIZE) {
        let line = export(announcement)?;
        values_back(announcement, &line)?;
        roster.extend(line);
    }
    match import(&roster, cycle, day)? == written {
        true => Ok(()),
        false => Err("the lines of the announcements give other announcements".to_string()),
    }
}

/// The line of an announcement gives its arguments again. Its cycle may be one that no line has.
fn values_back(announcement: &[u8], line: &[u8]) -> Result<(), String> {
    let again = import(line, 0, 0)?;
    match again.get(ARGUMENTS..) == announcement.get(ARGUMENTS..) {
        true => Ok(()),
        false => Err(format!(
            "the exported line \"{}\" gives other values",
            line.escape_ascii()
        )),
    }
}

fn export(announcement: &[u8]) -> Result<Vec<u8>, String> {
    let mut line = vec![0; roster_line_size(announcement)];
    let returned = archive::node_roster_export(announcement, &mut line);
    match returned == given(line.len()) {
        true => Ok(line),
        false => Err(format!(
            "an imported grant is not exported: answer {}, count {}",
            answer_in(returned),
            count_in(returned)
        )),
    }
}

fn import(roster: &[u8], cycle: u32, day: u32) -> Result<Vec<u8>, String> {
    let mut out = vec![0; announcements_size(roster)];
    let returned = archive::node_roster_import(roster, cycle, day, &mut out);
    match returned == given(out.len() / ANNOUNCEMENT_SIZE) {
        true => Ok(out),
        false => Err(format!(
            "an exported line is not imported: answer {}, count {}",
            answer_in(returned),
            count_in(returned)
        )),
    }
}
