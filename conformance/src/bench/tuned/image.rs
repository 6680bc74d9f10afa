//! The checkpoint and the image, read and checked in one pass; the checkpoint written.

use super::announcement::{is_minima, is_subject, Announcement, MOST_NOTICE};
use super::bytes::{all_zero, is_record, u16_at, u32_at, u64_at};
use super::state::{quorum, Login, Proposal, Seat, State, FREE, PRESENT, RETIRED};

/// The bytes of a checkpoint of kind 26, and those of one of kind 16.
pub const CHECKPOINT: usize = 1110;
const OLD_CHECKPOINT: usize = 1108;
pub const IMAGE: usize = 1144;
/// Where the notices of kind 26 stand.
const NOTICES: usize = 18;
const SEATS: usize = 20;
const PROPOSALS: usize = 180;
const LOGINS: usize = 469;

/// The tables of either kind.
type Tables = [u8; CHECKPOINT - SEATS];

/// Of a size that the compiler knows, so that it leaves out the tests of places.
#[inline]
fn tables(bytes: &[u8]) -> &Tables {
    bytes.try_into().expect("a checkpoint has its size")
}

/// The length and the kind of the checkpoint that is written: 1,108 and 26.
const HEAD: [u8; 4] = [0x54, 0x04, 26, 0];

/// The place of the own part in an image and of its fields; the misses of each door have a byte.
pub const OWN: usize = CHECKPOINT;
pub const VOTED: usize = OWN + 5;
pub const VOTE: usize = OWN + 6;
pub const MISSES: usize = OWN + 30;

/// The own part; the vote and the misses stay in the image.
pub struct Own<'a> {
    pub seat: usize,
    pub life: u32,
    pub vote: Option<&'a [u8]>,
    pub misses: &'a [u8],
}

impl State {
    /// False where the bytes are not a well-formed checkpoint of either kind.
    pub fn read(&mut self, bytes: &[u8]) -> bool {
        if is_record(bytes, OLD_CHECKPOINT, 16) {
            return self.read_numbers(bytes, [7, 2]) && self.read_tables(tables(&bytes[NOTICES..]));
        }
        self.read_current(bytes)
    }

    /// The same for kind 26 alone, the one that an image holds.
    #[inline]
    fn read_current(&mut self, bytes: &[u8]) -> bool {
        if !is_record(bytes, CHECKPOINT, 26) {
            return false;
        }
        let notices = [bytes[NOTICES], bytes[NOTICES + 1]];
        self.read_numbers(bytes, notices) && self.read_tables(tables(&bytes[SEATS..]))
    }

    #[inline]
    fn read_numbers(&mut self, bytes: &[u8], notices: [u8; 2]) -> bool {
        self.cycle = u32_at(bytes, 4);
        self.day = u32_at(bytes, 8);
        self.trustees = [bytes[12], bytes[13]];
        self.margin = bytes[14];
        self.least = bytes[15];
        self.silence = u16_at(bytes, 16);
        [self.ordinary, self.restart] = notices;
        self.cycle >= 1
            && self.trustees.iter().all(|count| (1..=8).contains(count))
            && is_minima(self.margin, self.least, self.silence)
            && notices.iter().all(|days| (1..=MOST_NOTICE).contains(days))
    }

    #[inline]
    fn read_tables(&mut self, bytes: &Tables) -> bool {
        let (seats, bytes) = bytes.split_at(PROPOSALS - SEATS);
        let (proposals, logins) = bytes.split_at(LOGINS - PROPOSALS);
        self.read_seats(seats)
            && quorum(self.present, self.margin, self.least) <= self.present
            && self.read_proposals(proposals[0].into(), &proposals[1..])
            && self.read_logins(logins[0].into(), &logins[1..])
    }

    fn read_seats(&mut self, bytes: &[u8]) -> bool {
        let mut fit = true;
        for (seat, row) in self.seats.iter_mut().zip(bytes.chunks_exact(5)) {
            *seat = Seat {
                standing: row[0],
                life: u32_at(row, 1),
            };
            fit &= seat.standing <= RETIRED && (seat.standing == FREE) == (seat.life == 0);
            self.present += u8::from(seat.standing == PRESENT);
        }
        fit
    }

    fn read_proposals(&mut self, count: usize, bytes: &[u8]) -> bool {
        if count > 16 || !all_zero(&bytes[18 * count..]) {
            return false;
        }
        let mut least = 0;
        self.proposals.count = count;
        for (to, row) in self.proposals.rows[..count]
            .iter_mut()
            .zip(bytes.chunks_exact(18))
        {
            let proposal = Proposal {
                cycle: u32_at(row, 0),
                day: u32_at(row, 4),
                kind: u16_at(row, 8),
                arguments: u64_at(row, 10),
            };
            let fits = least <= u64::from(proposal.cycle)
                && proposal.cycle < self.cycle
                && proposal.day <= self.day
                && is_subject(proposal.kind, proposal.arguments);
            if !fits {
                return false;
            }
            least = u64::from(proposal.cycle) + 1;
            *to = proposal;
        }
        true
    }

    fn read_logins(&mut self, count: usize, bytes: &[u8]) -> bool {
        if count > 64 || !all_zero(&bytes[10 * count..]) {
            return false;
        }
        let mut last = 0;
        let mut fit = true;
        self.logins.count = count;
        for (to, row) in self.logins.rows[..count]
            .iter_mut()
            .zip(bytes.chunks_exact(10))
        {
            *to = Login {
                login: u32_at(row, 0),
                end: u32_at(row, 4),
                rights: u16_at(row, 8),
            };
            fit &= last < to.login && to.rights != 0;
            last = to.login;
        }
        fit
    }

    /// Writes the checkpoint to the front of a slice.
    pub fn write(&self, out: &mut [u8]) {
        let out = &mut out[..CHECKPOINT];
        out[..4].copy_from_slice(&HEAD);
        out[4..8].copy_from_slice(&self.cycle.to_le_bytes());
        out[8..12].copy_from_slice(&self.day.to_le_bytes());
        out[12..16].copy_from_slice(&[self.trustees[0], self.trustees[1], self.margin, self.least]);
        out[16..18].copy_from_slice(&self.silence.to_le_bytes());
        out[NOTICES..SEATS].copy_from_slice(&[self.ordinary, self.restart]);
        for (row, seat) in out[SEATS..PROPOSALS].chunks_exact_mut(5).zip(&self.seats) {
            row[0] = seat.standing;
            row[1..].copy_from_slice(&seat.life.to_le_bytes());
        }
        self.write_proposals(&mut out[PROPOSALS..LOGINS]);
        self.write_logins(&mut out[LOGINS..]);
    }

    fn write_proposals(&self, out: &mut [u8]) {
        let rows = self.proposals.used();
        out[0] = rows.len() as u8;
        for (to, row) in out[1..].chunks_exact_mut(18).zip(rows) {
            to[..4].copy_from_slice(&row.cycle.to_le_bytes());
            to[4..8].copy_from_slice(&row.day.to_le_bytes());
            to[8..10].copy_from_slice(&row.kind.to_le_bytes());
            to[10..].copy_from_slice(&row.arguments.to_le_bytes());
        }
        out[1 + 18 * rows.len()..].fill(0);
    }

    fn write_logins(&self, out: &mut [u8]) {
        let rows = self.logins.used();
        out[0] = rows.len() as u8;
        for (to, row) in out[1..].chunks_exact_mut(10).zip(rows) {
            to[..4].copy_from_slice(&row.login.to_le_bytes());
            to[4..8].copy_from_slice(&row.end.to_le_bytes());
            to[8..].copy_from_slice(&row.rights.to_le_bytes());
        }
        out[1 + 10 * rows.len()..].fill(0);
    }
}

/// Writes the checkpoint of kind 26 for a well-formed one of either kind.
pub fn copy(checkpoint: &[u8], out: &mut [u8]) {
    if checkpoint.len() == CHECKPOINT {
        out[..CHECKPOINT].copy_from_slice(checkpoint);
        return;
    }
    out[..4].copy_from_slice(&HEAD);
    out[4..NOTICES].copy_from_slice(&checkpoint[4..NOTICES]);
    out[NOTICES..SEATS].copy_from_slice(&[7, 2]);
    out[SEATS..CHECKPOINT].copy_from_slice(&checkpoint[NOTICES..]);
}

/// Reads an image: its state into `state`, and its own part.
pub fn read<'a>(image: &'a [u8], state: &mut State) -> Option<Own<'a>> {
    if image.len() != IMAGE || !state.read_current(&image[..CHECKPOINT]) {
        return None;
    }
    let own = Own {
        seat: image[OWN].into(),
        life: u32_at(image, OWN + 1),
        vote: (image[VOTED] == 1).then_some(&image[VOTE..MISSES]),
        misses: &image[MISSES..],
    };
    let fits = own.seat < 32
        && state.seats[own.seat].standing != FREE
        && own.life >= 1
        && own.misses.iter().all(|count| *count <= 10)
        && image[VOTED] <= 1
        && match own.vote {
            Some(vote) => Announcement::read(vote).is_some_and(|vote| vote.cycle == state.cycle),
            None => all_zero(&image[VOTE..MISSES]),
        };
    fits.then_some(own)
}
