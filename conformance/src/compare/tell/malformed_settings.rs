//! What was refused by 1 for a notice or for a checkpoint of kind 16 in an image (request A7), and for
//! nothing else.

use super::mended::is_mended;
use super::setting_marks::{
    Mark, ANNOUNCED, CHECKPOINT, CHECKPOINT_0, IMAGE, IMAGE_0, LISTED, PROPOSED,
};
use super::settings::Settings;
use crate::compare::call::{Records, Request};
use crate::layout::{self, kind_of, to_current, ANNOUNCEMENT_SIZE, ARGUMENTS, CHECKPOINT_KIND};
use crate::layout::{MINIMA, MINIMA_KIND, NOTICES, NOTICES_AT, OLD_CHECKPOINT_SIZE, PROPOSALS};
use crate::layout::{PROPOSAL, SUBJECT_KIND};
use std::borrow::Cow;

/// The input slices with notices.
#[derive(Clone, Copy)]
enum Slice {
    Image,
    Checkpoint,
    Announcement,
}

fn slice_of(request: &Request, slice: Slice) -> &[u8] {
    match (slice, &request.records) {
        (Slice::Image, _) => &request.image,
        (Slice::Checkpoint, Records::Start(checkpoint, _)) => checkpoint,
        (Slice::Announcement, Records::Deliver(announcement, _)) => announcement,
        _ => &[],
    }
}

fn slice_mut(request: &mut Request, slice: Slice) -> Option<&mut Vec<u8>> {
    match (slice, &mut request.records) {
        (Slice::Image, _) => Some(&mut request.image),
        (Slice::Checkpoint, Records::Start(checkpoint, _)) => Some(checkpoint),
        (Slice::Announcement, Records::Deliver(announcement, _)) => Some(announcement),
        _ => None,
    }
}

impl Settings {
    /// Takes up a call that was refused by 1.
    pub fn note_malformed(&mut self, request: &Request) {
        match &request.records {
            Records::Start(checkpoint, _) => self.note_checkpoint(request, checkpoint),
            Records::Deliver(announcement, _) => self.note_announcement(request, announcement),
            _ => {}
        }
        if kind_of(&request.image) == CHECKPOINT_KIND {
            self.note_notices(request, Slice::Image, NOTICES_AT, (IMAGE, Some(IMAGE_0)));
        }
        let front = request.image.get(..OLD_CHECKPOINT_SIZE).unwrap_or_default();
        if let Cow::Owned(current) = to_current(front) {
            let mend = |request: &mut Request| {
                request.image.splice(..OLD_CHECKPOINT_SIZE, current.clone());
            };
            self.marks
                .meet_if(&[(is_mended(request, mend), Mark::OldImage)]);
        }
    }

    fn note_checkpoint(&mut self, request: &Request, checkpoint: &[u8]) {
        let is_current = kind_of(checkpoint) == CHECKPOINT_KIND;
        if is_current {
            let marks = (CHECKPOINT, Some(CHECKPOINT_0));
            self.note_notices(request, Slice::Checkpoint, NOTICES_AT, marks);
        }
        // Without notices the rows stand so many bytes before.
        let shift = match is_current {
            true => 0,
            false => layout::size(&NOTICES),
        };
        let kind_at = layout::size(&PROPOSAL) - SUBJECT_KIND.size;
        for row in (0..PROPOSALS.most).map(|row| PROPOSALS.row(row) - shift) {
            let kind = layout::number_at(checkpoint, row + kind_at, SUBJECT_KIND.size);
            let at = row + layout::size(&PROPOSAL) + layout::size(&MINIMA);
            if kind == MINIMA_KIND.into() {
                self.note_notices(request, Slice::Checkpoint, at, (LISTED, None));
            }
        }
    }

    fn note_announcement(&mut self, request: &Request, announcement: &[u8]) {
        if announcement.len() != ANNOUNCEMENT_SIZE {
            return;
        }
        let subject = u16::from_le_bytes([announcement[ARGUMENTS], announcement[ARGUMENTS + 1]]);
        let (begin, marks) = match (kind_of(announcement), subject) {
            (MINIMA_KIND, _) => (ARGUMENTS, ANNOUNCED),
            (1, MINIMA_KIND) => (ARGUMENTS + SUBJECT_KIND.size, PROPOSED),
            _ => return,
        };
        let at = begin + layout::size(&MINIMA);
        self.note_notices(request, Slice::Announcement, at, (marks, None));
    }

    /// The two notices at a place: 31, and zero where that has marks.
    fn note_notices(
        &mut self,
        request: &Request,
        slice: Slice,
        at: usize,
        (above, zero): ([Mark; 2], Option<[Mark; 2]>),
    ) {
        let notices = slice_of(request, slice).get(at..at + 2);
        for (place, days) in notices.unwrap_or_default().iter().enumerate() {
            let mark = match (*days, zero) {
                (31, _) => above[place],
                (0, Some(zero)) => zero[place],
                _ => continue,
            };
            let mend = |request: &mut Request| {
                if let Some(bytes) = slice_mut(request, slice) {
                    bytes[at + place] = 1;
                }
            };
            self.marks.meet_if(&[(is_mended(request, mend), mark)]);
        }
    }
}
