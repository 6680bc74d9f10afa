//! The measured calls, on a full state and on a small one.

use crate::compare::call::{given, Records, VOTED};
use crate::compare::fields::{Login, Notices, OwnFields, Proposal, Seat, StateFields};
use crate::compare::fields::{FREE, PRESENT};
use crate::compare::make::records;
use crate::layout::{coefficients_size, roster_line_size, shares_size, to_old, KEY_SIZE};
use crate::layout::{LOGINS, MINIMA_KIND, SUBJECT_SIZE};

pub struct Case {
    pub name: &'static str,
    pub image: Vec<u8>,
    pub records: Records,
    /// What the call returns.
    pub returned: u32,
}

const CYCLE: u32 = 1_000;
const DAY: u32 = 20_000;
const LIFE: u32 = 7;

/// How much of the tables is used, the rows of a sheet with a quorum, k and n of a key's shares, and how
/// many shares are added.
pub struct Size {
    pub name: &'static str,
    seats: u8,
    margin: u8,
    proposals: u8,
    logins: u32,
    rows: u8,
    /// Of a key: the shares, and how many of them give it back.
    shares: u32,
    needed: u32,
    added: usize,
}

pub const FULL: Size = Size {
    name: "full",
    seats: 32,
    margin: 2,
    proposals: 16,
    logins: 64,
    rows: 64,
    shares: 16,
    needed: 16,
    added: 16,
};

pub const SMALL: Size = Size {
    name: "small",
    seats: 3,
    margin: 0,
    proposals: 3,
    logins: 2,
    rows: 2,
    shares: 3,
    needed: 2,
    added: 1,
};

impl Size {
    fn state(&self) -> StateFields {
        StateFields {
            cycle: CYCLE,
            day: DAY,
            levels: [8, 8],
            margin: self.margin,
            least: 2,
            silence: 30,
            notices: Notices::OF_OLD,
            seats: std::array::from_fn(|i| seat(i < self.seats.into())),
            proposals: (0..self.proposals).map(|i| self.proposal(i)).collect(),
            logins: (1..=self.logins).map(login).collect(),
        }
    }

    /// A proposal announced in good time: the third from the end of minima, the one before the last to
    /// rejoin a seat, the others to remove one.
    fn proposal(&self, i: u8) -> Proposal {
        let (kind, arguments) = match self.proposals - i {
            3 => (MINIMA_KIND, minima()),
            2 => (7, next_life(i)),
            _ => (6, records::subject(6, &[i.into()])),
        };
        Proposal {
            cycle: 900 + u32::from(i),
            day: DAY - 20,
            kind,
            arguments,
        }
    }

    /// The calls, each as often as it has another way to end.
    pub fn cases(&self) -> Vec<Case> {
        let lines = given(self.logins as usize);
        let grant = self.grant();
        let line_size = roster_line_size(&grant);
        let at_door_3 = Records::Query(records::door_query(500 * self.logins, DAY, 0, 3));
        let mut cases: Vec<Case> = self.starts().into();
        cases.extend(self.deliveries());
        cases.extend([
            self.case("query: open", query(500 * self.logins, DAY), 0),
            self.case("query: open at door 3", at_door_3, 0),
            self.case("query: no 19", query(7, DAY), 19),
            self.case("query: no 18", query(500, DAY + 31), 18),
            self.case("checkpoint", Records::Checkpoint, 0),
            self.case("page", Records::Page(DAY), lines),
            self.case("import", self.import(""), lines),
            self.case("import: quoted", self.import("\""), lines),
            self.case("export", Records::Export(grant), given(line_size)),
            self.case("split", self.split(), given(self.shares as usize)),
            self.case("merge", self.merge(), 0),
            self.case("add", self.add(), given(KEY_SIZE * self.added)),
        ]);
        cases
    }

    fn starts(&self) -> [Case; 2] {
        let checkpoint = self.state().write();
        let old = to_old(&checkpoint);
        let start = |checkpoint| Records::Start(checkpoint, records::start(0, LIFE));
        [
            self.case("start", start(checkpoint), 0),
            self.case("start: kind 16", start(old), 0),
        ]
    }

    fn deliveries(&self) -> Vec<Case> {
        let minima = announcement(MINIMA_KIND, records::arguments(&minima()));
        let remove = announcement(6, records::arguments(&[self.proposals - 1]));
        let rejoin = announcement(7, records::arguments(&next_life(self.proposals - 2)));
        let end = announcement(9, records::arguments(&500u32.to_le_bytes()));
        let late = announcement(9, records::arguments(&1u32.to_le_bytes()));
        let deliver = |announcement: &[u8]| self.deliver(announcement, self.rows);
        let voted = self.deliver(&self.grant(), 0);
        let mut cases = vec![
            self.case("deliver: propose done", deliver(&late_proposal()), 0),
            self.case("deliver: minima done", deliver(&minima), 0),
            self.case("deliver: remove done", deliver(&remove), 0),
            self.case("deliver: rejoin done", deliver(&rejoin), 0),
            self.case("deliver: grant done", deliver(&self.grant()), 0),
        ];
        cases.extend(self.eviction());
        cases.extend([
            self.case("deliver: end done", deliver(&end), 0),
            self.case("deliver: grant voted", voted, VOTED),
            self.case("deliver: end no 13", deliver(&late), 13),
        ]);
        cases
    }

    /// A grant to a full list that drops its first row and adds one behind the last: every row moves.
    fn eviction(&self) -> Option<Case> {
        let grant = announcement(8, records::grant(500 * self.logins + 1, DAY + 200, 3));
        let is_full = self.logins == LOGINS.most as u32;
        let records = self.deliver(&grant, self.rows);
        is_full.then(|| self.case("deliver: grant evicts", records, 0))
    }

    fn grant(&self) -> Vec<u8> {
        announcement(8, records::grant(500 * self.logins, DAY + 200, 3))
    }

    /// A roster of a line for each login, its fields between quotes where there is one.
    fn import(&self, quote: &str) -> Records {
        let line = |i: u32| {
            let fields = [(500 * i).to_string(), "2024-12-31".into(), "00ff".into()];
            let fields = fields.map(|field| format!("{quote}{field}{quote}"));
            fields.join(",") + "\r\n"
        };
        let roster: String = (1..=self.logins).map(line).collect();
        Records::Import {
            roster: roster.into_bytes(),
            cycle: CYCLE,
            day: DAY,
        }
    }

    fn split(&self) -> Records {
        Records::Split {
            key: some_bytes(KEY_SIZE),
            k: self.needed,
            n: self.shares,
            coefficients: some_bytes(coefficients_size(self.needed)),
        }
    }

    /// Of the last shares, the last first.
    fn merge(&self) -> Records {
        let numbers = (1..=self.shares as u8).rev();
        Records::Merge {
            k: self.needed,
            n: self.shares,
            numbers: numbers.take(self.needed as usize).collect(),
            shares: some_bytes(shares_size(self.needed)),
        }
    }

    fn add(&self) -> Records {
        let mut more = some_bytes(KEY_SIZE * self.added);
        let shares = more.clone();
        more.reverse();
        Records::Add(shares, more)
    }

    /// The image that every case begins with.
    pub fn image(&self) -> Vec<u8> {
        let own = OwnFields {
            seat: 0,
            life: LIFE,
            vote: None,
            misses: [3, 0, 10, 9],
        };
        own.image(&self.state())
    }

    fn case(&self, name: &'static str, records: Records, returned: u32) -> Case {
        Case {
            name,
            image: self.image(),
            records,
            returned,
        }
    }

    fn deliver(&self, announcement: &[u8], rows: u8) -> Records {
        let rows: Vec<(u8, u32)> = (0..rows).map(|i| (i % self.seats, LIFE)).collect();
        Records::Deliver(announcement.to_vec(), records::sheet([255, 255], &rows))
    }
}

/// Bytes of a key, of coefficients or of shares, one in 256 of them 0.
fn some_bytes(count: usize) -> Vec<u8> {
    (0..count).map(|place| (place * 151 + 87) as u8).collect()
}

fn seat(present: bool) -> Seat {
    match present {
        true => Seat {
            standing: PRESENT,
            life: LIFE,
        },
        false => Seat {
            standing: FREE,
            life: 0,
        },
    }
}

/// The arguments of minima that set the ordinary notice and keep the other.
fn minima() -> [u8; SUBJECT_SIZE] {
    records::subject(MINIMA_KIND, &[0, 1, 40, 14, 0])
}

/// The arguments of a rejoin under the next life.
fn next_life(seat: u8) -> [u8; SUBJECT_SIZE] {
    records::subject(7, &[seat.into(), LIFE + 1])
}

/// A login of the list; the first ended the day before.
fn login(i: u32) -> Login {
    Login {
        login: 500 * i,
        end: if i == 1 { DAY - 1 } else { DAY + 100 },
        rights: 1,
    }
}

fn announcement(kind: u16, arguments: [u8; 12]) -> Vec<u8> {
    records::announcement(kind, CYCLE, DAY, arguments)
}

/// A proposal on a day on which all that are listed have lapsed: a full table takes it.
fn late_proposal() -> Vec<u8> {
    let arguments = records::propose(6, records::subject(6, &[0]));
    records::announcement(1, CYCLE, DAY + 41, arguments)
}

fn query(login: u32, day: u32) -> Records {
    Records::Query(records::query(login, day, 0))
}
