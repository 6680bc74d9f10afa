//! What the calls met: answers by call, actions, both ends of every range, pages, rosters and shares at
//! their edges.

use super::doors::Doors;
use super::evictions::Evictions;
use super::notices::Notices;
use super::ranges::{Range, ANNOUNCED, ASKED, DATES, HEAD, OWN_MISSES, PERFORMED, RANGES};
use super::restarts::Restarts;
use super::rosters::Rosters;
use super::settings::Settings;
use super::shares::Shares;
use crate::compare::call::{Event, Outcome, Records, Request, CALLS, VOTED};
use crate::compare::fields::{self, Login, OwnFields, Seat, StateFields};
use crate::layout::{self, kind_of, query_fields, BODY, CHECKPOINT, CYCLE_AND_DAY, MASKS, ROW};
use crate::layout::{to_current, REJOIN, ROWS, ROW_SIZE, START};

pub struct Coverage {
    pub calls: u64,
    /// By call and answer, 0 to 28 and 128.
    pub answers: [[u64; 129]; CALLS.len()],
    pub performed: [u64; 10],
    pub voted: [u64; 10],
    /// By call: output slices one byte short, exact, longer.
    pub slices: [[u64; 3]; CALLS.len()],
    pub low: Vec<u64>,
    pub high: Vec<u64>,
    /// Of histories only.
    pub notices: Notices,
    pub restarts: Restarts,
    pub evictions: Evictions,
    /// Of histories, and what is refused by 1 of all calls.
    pub doors: Doors,
    /// The same, and accepted starts of all calls.
    pub settings: Settings,
    pub rosters: Rosters,
    pub shares: Shares,
}

impl Coverage {
    pub fn new() -> Coverage {
        let none = vec![0; RANGES.len()];
        Coverage {
            calls: 0,
            answers: [[0; 129]; CALLS.len()],
            performed: [0; 10],
            voted: [0; 10],
            slices: [[0; 3]; CALLS.len()],
            low: none.clone(),
            high: none,
            notices: Notices::new(),
            restarts: Restarts::new(),
            evictions: Evictions::new(),
            doors: Doors::new(),
            settings: Settings::new(),
            rosters: Rosters::new(),
            shares: Shares::new(),
        }
    }

    /// A new history begins.
    pub fn begin(&mut self) {
        self.restarts.begin();
        self.settings.begin();
        self.evictions.begin();
    }

    /// Takes up a call of a history, at a host that holds its node by value or through C.
    pub fn note_event(&mut self, event: &Event, by_value: bool) {
        let Event {
            request, outcome, ..
        } = event;
        self.note(request, outcome);
        self.notices.note(request, outcome);
        self.restarts.note(request, outcome);
        self.doors.note(request, outcome);
        self.settings.note(request, outcome);
        self.evictions.note(event, by_value);
    }

    pub fn note(&mut self, request: &Request, outcome: &Outcome) {
        let call = request.records.index();
        self.calls += 1;
        self.answers[call][outcome.number.min(128) as usize] += 1;
        let size = request.size();
        match request.out {
            out if out + 1 == size => self.slices[call][0] += 1,
            out if out == size => self.slices[call][1] += 1,
            out if out > size => self.slices[call][2] += 1,
            _ => {}
        }
        // Answer 1 leaves open which record is malformed, so nothing of them counts.
        match outcome.number {
            1 => {
                self.doors.note_malformed(request);
                self.settings.note_malformed(request);
            }
            _ => self.note_records(request, outcome),
        }
    }

    fn note_records(&mut self, request: &Request, outcome: &Outcome) {
        match &request.records {
            Records::Start(checkpoint, start) => {
                self.note_state(checkpoint);
                if outcome.number == 0 {
                    self.settings.note_start(checkpoint);
                }
                let values = layout::values(&START, start, BODY);
                self.meet_all(&[Range::StartSeat, Range::StartLife], &values);
                return;
            }
            Records::Deliver(announcement, sheet) => {
                self.note_announcement(announcement, outcome.number);
                if outcome.number != 2 {
                    self.note_sheet(sheet);
                }
            }
            Records::Query(query) => {
                let fields = query_fields(kind_of(query));
                self.meet_all(&ASKED, &layout::values(fields, query, BODY));
            }
            Records::Checkpoint => {}
            Records::Page(day) if outcome.number == 0 => self.note_page(request, *day),
            Records::Page(_) => {}
            Records::Import { .. } | Records::Export(_) => {
                return self.rosters.note(request, outcome);
            }
            Records::Split { .. } | Records::Merge { .. } | Records::Add(..) => {
                return self.shares.note(request, outcome);
            }
        }
        self.note_state(&request.image);
        self.note_own(&request.image);
    }

    fn meet(&mut self, range: Range, value: impl Into<u32>) {
        let value = value.into();
        let (_, (low, high)) = RANGES[range as usize];
        self.low[range as usize] += u64::from(value == low);
        self.high[range as usize] += u64::from(value == high);
    }

    fn meet_all(&mut self, ranges: &[Range], values: &[u32]) {
        for (range, value) in ranges.iter().zip(values) {
            self.meet(*range, *value);
        }
    }

    /// How far a number is beyond an edge; nothing before it.
    fn meet_beyond(&mut self, range: Range, value: u32, edge: u32) {
        if let Some(beyond) = value.checked_sub(edge) {
            self.meet(range, beyond);
        }
    }

    fn note_state(&mut self, checkpoint: &[u8]) {
        let Some(state) = StateFields::read(checkpoint) else {
            return;
        };
        let checkpoint = to_current(checkpoint);
        self.meet_all(&HEAD, &layout::values(&CHECKPOINT, &checkpoint, BODY));
        self.meet(Range::Present, state.present() as u32);
        self.meet(Range::Proposals, state.proposals.len() as u32);
        self.meet(Range::Logins, state.logins.len() as u32);
        state.seats.iter().for_each(|seat| self.note_seat(seat));
        state.proposals.iter().for_each(|row| {
            let ranges = [Range::ProposalCycle, Range::ProposalDay];
            self.meet_all(&ranges, &[row.cycle, row.day]);
        });
        state.logins.iter().for_each(|row| {
            let ranges = [Range::Login, Range::EndDay, Range::Rights];
            self.meet_all(&ranges, &[row.login, row.end, row.rights.into()]);
        });
    }

    fn note_seat(&mut self, seat: &Seat) {
        self.meet(Range::Standing, seat.standing);
        if *seat != Seat::FREE {
            self.meet(Range::Life, seat.life);
        }
    }

    fn note_own(&mut self, image: &[u8]) {
        let Some(own) = OwnFields::read(image) else {
            return;
        };
        self.meet(Range::OwnSeat, own.seat);
        self.meet(Range::OwnLife, own.life);
        self.meet(Range::Voted, u32::from(own.vote.is_some()));
        self.meet_all(&OWN_MISSES, &own.misses.map(u32::from));
    }

    /// A page that was given.
    fn note_page(&mut self, request: &Request, day: u32) {
        let image = &request.image;
        let (Some(state), Some(own)) = (StateFields::read(image), OwnFields::read(image)) else {
            return;
        };
        let lines = state.logins.len() as u32;
        let t = day.max(state.day);
        let (age, limit) = (t - state.day, u32::from(state.silence));
        match lines {
            0 => self.meet(Range::PageRoom, request.out as u32),
            _ => self.meet_beyond(Range::PageSilence, age, limit),
        }
        self.meet_all(&[Range::PageLines, Range::PageDay], &[lines, day]);
        self.meet(Range::PageDayBack, u32::from(day < state.day));
        self.meet(Range::PageHalted, u32::from(own.is_halted(&state)));
        let most = own.misses.into_iter().max();
        self.meet(Range::PageMisses, most.unwrap_or_default());
        for row in &state.logins {
            self.note_line(row, t, age > limit);
        }
    }

    fn note_line(&mut self, row: &Login, t: u32, is_silent: bool) {
        match is_silent {
            true => self.meet(Range::PageSilentEnded, u32::from(t > row.end)),
            false => self.meet_beyond(Range::PageEnded, t, row.end),
        }
        self.meet(Range::PageLogin, row.login);
        self.meet(Range::PageRights, row.rights.count_ones());
        for range in DATES {
            self.meet(range, row.end);
        }
    }

    fn note_sheet(&mut self, sheet: &[u8]) {
        let masks = layout::values(&MASKS, sheet, BODY);
        self.meet_all(&[Range::Mask1, Range::Mask2], &masks);
        self.meet(Range::Rows, sheet[layout::ROW_COUNT_AT]);
        for row in sheet[ROWS..].chunks_exact(ROW_SIZE) {
            let values = layout::values(&ROW, row, 0);
            self.meet_all(&[Range::RowSeat, Range::RowLife], &values);
        }
    }

    fn note_announcement(&mut self, bytes: &[u8], number: u32) {
        let kind = usize::from(kind_of(bytes));
        let [cycle, day] = layout::read(&CYCLE_AND_DAY, bytes, BODY);
        let arguments = layout::arguments(bytes);
        self.meet(Range::Kind, kind as u32);
        self.meet_all(&[Range::AnnouncedCycle, Range::AnnouncedDay], &[cycle, day]);
        self.meet_all(ANNOUNCED[kind], &arguments);
        if number == VOTED {
            self.voted[kind] += 1;
        }
        if number != 0 {
            return;
        }
        self.performed[kind] += 1;
        self.meet_all(&[Range::DoneCycle, Range::DoneDay], &[cycle, day]);
        self.meet_all(PERFORMED[kind], &arguments);
        let subject = layout::ARGUMENTS + layout::SUBJECT_KIND.size;
        match (kind, arguments[0]) {
            (1, 4) => self.meet(Range::DoneSubjectSeat, bytes[subject]),
            (1, 5) => {
                let named = fields::Notices::named(&bytes[subject..]);
                let ranges = [Range::DoneSubjectOrdinary, Range::DoneSubjectRestart];
                self.meet_all(&ranges, &[named.ordinary, named.restart]);
            }
            (1, 7) => {
                let ranges = [Range::DoneSubjectRejoin, Range::DoneSubjectLife];
                self.meet_all(&ranges, &layout::values(&REJOIN, bytes, subject));
            }
            _ => {}
        }
    }
}
