//! The fields of checkpoints and images, to look at the state that a call will meet. Nothing here
//! checks what it reads or writes: malformed checkpoints are made with it too.

mod logins;
mod proposals;

use crate::layout::{self, to_current, CHECKPOINT, CHECKPOINT_KIND, CHECKPOINT_SIZE, DOORS};
use crate::layout::{IMAGE_SIZE, LOGINS, MISSES, MISSES_AT, OWN, PROPOSALS, ROW, ROWS, ROW_SIZE};
use crate::layout::{SEATS, SEAT_ROW, VOTE, VOTED_AT};
pub use logins::{first_to_end, Login};
pub use proposals::{Notices, Proposal};

pub const FREE: u8 = 0;
pub const CERTIFIED: u8 = 1;
pub const PRESENT: u8 = 2;
pub const RETIRED: u8 = 3;

#[derive(Clone, Copy, PartialEq, Debug)]
pub struct Seat {
    pub standing: u8,
    pub life: u32,
}

impl Seat {
    pub const FREE: Seat = Seat {
        standing: FREE,
        life: 0,
    };
}

/// A checkpoint's fields; the tables hold used rows only.
#[derive(Clone, PartialEq, Debug)]
pub struct StateFields {
    pub cycle: u32,
    pub day: u32,
    pub levels: [u8; 2],
    pub margin: u8,
    pub least: u8,
    pub silence: u16,
    pub notices: Notices,
    pub seats: [Seat; SEATS.most],
    pub proposals: Vec<Proposal>,
    pub logins: Vec<Login>,
}

impl StateFields {
    /// The state of the printed run: three present seats of life 1, k = 2, S = 30, day 100, notices of
    /// 7 and 2 days.
    pub fn printed_run() -> StateFields {
        let present = Seat {
            standing: PRESENT,
            life: 1,
        };
        let mut seats = [Seat::FREE; SEATS.most];
        seats[..3].fill(present);
        StateFields {
            cycle: 1,
            day: 100,
            levels: [1, 1],
            margin: 0,
            least: 2,
            silence: 30,
            notices: Notices::OF_OLD,
            seats,
            proposals: Vec::new(),
            logins: Vec::new(),
        }
    }

    /// Reads a checkpoint of either kind or the checkpoint at the front of an image. None where it is
    /// too short.
    pub fn read(bytes: &[u8]) -> Option<StateFields> {
        let bytes = to_current(bytes);
        if bytes.len() < CHECKPOINT_SIZE {
            return None;
        }
        let [cycle, day, level_1, level_2, margin, least, silence, ordinary, restart] =
            layout::read(&CHECKPOINT, &bytes, layout::BODY);
        let used = |table: &layout::Table| {
            let rows = bytes[table.at..table.end()].chunks(table.size);
            rows.take(bytes[table.count_at()].into())
        };
        Some(StateFields {
            cycle,
            day,
            levels: [level_1 as u8, level_2 as u8],
            margin: margin as u8,
            least: least as u8,
            silence: silence as u16,
            notices: Notices::new(ordinary, restart),
            seats: std::array::from_fn(|i| Seat::read(&bytes[SEATS.row(i)..])),
            proposals: used(&PROPOSALS).map(Proposal::read).collect(),
            logins: used(&LOGINS).map(Login::read).collect(),
        })
    }

    /// The bytes of the checkpoint of kind 26; rows that a table has no room for are left out.
    pub fn write(&self) -> Vec<u8> {
        let mut bytes = layout::record(CHECKPOINT_KIND, &[0; CHECKPOINT_SIZE - layout::BODY]);
        let head = [
            self.cycle,
            self.day,
            self.levels[0].into(),
            self.levels[1].into(),
            self.margin.into(),
            self.least.into(),
            self.silence.into(),
            self.notices.ordinary,
            self.notices.restart,
        ];
        layout::put(&CHECKPOINT, &head, &mut bytes, layout::BODY);
        let seats = bytes[SEATS.at..].chunks_mut(SEATS.size).zip(&self.seats);
        seats.for_each(|(row, seat)| seat.write(row));
        bytes[PROPOSALS.count_at()] = self.proposals.len() as u8;
        let rows = bytes[PROPOSALS.at..PROPOSALS.end()].chunks_mut(PROPOSALS.size);
        rows.zip(&self.proposals)
            .for_each(|(row, used)| used.write(row));
        bytes[LOGINS.count_at()] = self.logins.len() as u8;
        let rows = bytes[LOGINS.at..LOGINS.end()].chunks_mut(LOGINS.size);
        rows.zip(&self.logins)
            .for_each(|(row, used)| used.write(row));
        bytes
    }

    /// The place of a login in the list.
    pub fn place_of(&self, login: u32) -> Option<usize> {
        self.logins.iter().position(|row| row.login == login)
    }

    pub fn seats_of(&self, standings: &[u8]) -> Vec<u8> {
        (0..SEATS.most as u8)
            .filter(|&i| standings.contains(&self.seats[usize::from(i)].standing))
            .collect()
    }

    pub fn present(&self) -> usize {
        let present = |seat: &&Seat| seat.standing == PRESENT;
        self.seats.iter().filter(present).count()
    }

    pub fn quorum(&self) -> usize {
        (self.present() / 2 + 1 + usize::from(self.margin)).max(usize::from(self.least))
    }

    /// The seats that count on a well-formed sheet, as bits.
    pub fn counted(&self, sheet: &[u8]) -> u32 {
        let rows = sheet.get(ROWS..).unwrap_or(&[]);
        let mut seats = 0;
        for row in rows.chunks_exact(ROW_SIZE) {
            let [seat, life] = layout::read(&ROW, row, 0);
            let seat = seat as usize % SEATS.most;
            let listed = self.seats[seat];
            if listed.standing == PRESENT && listed.life == life {
                seats |= 1 << seat;
            }
        }
        seats
    }
}

/// Writes over the bytes at a place.
pub fn put(bytes: &mut [u8], at: usize, new: &[u8]) {
    bytes[at..at + new.len()].copy_from_slice(new);
}

impl Seat {
    fn read(row: &[u8]) -> Seat {
        let [standing, life] = layout::read(&SEAT_ROW, row, 0);
        let standing = standing as u8;
        Seat { standing, life }
    }

    fn write(&self, row: &mut [u8]) {
        layout::put(&SEAT_ROW, &[self.standing.into(), self.life], row, 0);
    }
}

/// A node's own part: what an image holds behind its checkpoint.
#[derive(Clone, PartialEq, Debug)]
pub struct OwnFields {
    pub seat: u8,
    pub life: u32,
    pub vote: Option<Vec<u8>>,
    /// By door.
    pub misses: [u8; DOORS],
}

impl OwnFields {
    /// Reads the own part of an image. None where it is too short.
    pub fn read(image: &[u8]) -> Option<OwnFields> {
        if image.len() < IMAGE_SIZE {
            return None;
        }
        let [seat, life] = layout::read(&OWN, image, CHECKPOINT_SIZE);
        Some(OwnFields {
            seat: seat as u8,
            life,
            vote: (image[VOTED_AT] == 1).then(|| image[VOTE].to_vec()),
            misses: std::array::from_fn(|door| image[MISSES_AT + door]),
        })
    }

    /// Whether rule 17 applies at a door.
    pub fn is_locked(&self, door: usize) -> bool {
        u32::from(self.misses[door]) == MISSES.high
    }

    /// "A node whose own seat is retired is halted."
    pub fn is_halted(&self, state: &StateFields) -> bool {
        state.seats[usize::from(self.seat & 31)].standing == RETIRED
    }

    /// The image of a state with this own part.
    pub fn image(&self, state: &StateFields) -> Vec<u8> {
        let mut bytes = state.write();
        bytes.extend(layout::write(&OWN, &[self.seat.into(), self.life]));
        bytes.push(u8::from(self.vote.is_some()));
        match &self.vote {
            Some(vote) => bytes.extend(vote),
            None => bytes.resize(MISSES_AT, 0),
        }
        bytes.extend(self.misses);
        bytes
    }
}
