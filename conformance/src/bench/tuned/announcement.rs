//! Announcements and the ranges of their arguments.

use super::bytes::{all_zero, is_record, u16_at, u32_at, u64_at};
use super::state::Login;

#[derive(Clone, Copy)]
pub struct Minima {
    pub margin: u8,
    pub least: u8,
    pub silence: u16,
    /// In days; zero keeps the one in force.
    pub ordinary: u8,
    pub restart: u8,
}

pub enum Action {
    Propose { kind: u16, arguments: u64 },
    Cancel { cycle: u32 },
    Presents { seat: usize, flag: bool },
    Certify { seat: usize, life: u32 },
    Minima(Minima),
    Remove { seat: usize },
    Rejoin { seat: usize, life: u32 },
    Grant(Login),
    End { login: u32 },
}

pub struct Announcement {
    pub kind: u16,
    pub cycle: u32,
    pub day: u32,
    /// The first 8 argument bytes, which a proposal has too.
    pub arguments: u64,
    pub action: Action,
}

/// In days.
pub const MOST_NOTICE: u8 = 30;

pub fn is_minima(margin: u8, least: u8, silence: u16) -> bool {
    margin <= 7 && (1..=32).contains(&least) && (1..=365).contains(&silence)
}

/// Arguments of kinds 4 to 7 as a little-endian number.
pub fn is_subject(kind: u16, arguments: u64) -> bool {
    match kind {
        4 => arguments as u8 <= 31 && arguments >> 8 != 0 && arguments >> 40 == 0,
        5 => {
            arguments >> 48 == 0
                && (arguments >> 32) as u8 <= MOST_NOTICE
                && (arguments >> 40) as u8 <= MOST_NOTICE
                && is_minima(
                    arguments as u8,
                    (arguments >> 8) as u8,
                    (arguments >> 16) as u16,
                )
        }
        6 => arguments <= 31,
        7 => arguments as u8 <= 31 && arguments >> 40 == 0,
        _ => false,
    }
}

impl Announcement {
    pub fn read(bytes: &[u8]) -> Option<Announcement> {
        if bytes.len() != 24 || u16_at(bytes, 0) != 22 {
            return None;
        }
        let kind = u16_at(bytes, 2);
        let action = read_action(kind, &bytes[12..])?;
        Some(Announcement {
            kind,
            cycle: u32_at(bytes, 4),
            day: u32_at(bytes, 8),
            arguments: u64_at(bytes, 12),
            action,
        })
    }
}

fn read_action(kind: u16, bytes: &[u8]) -> Option<Action> {
    let first = bytes[0];
    let (action, used) = match kind {
        1 => {
            let (kind, arguments) = (u16_at(bytes, 0), u64_at(bytes, 2));
            if !is_subject(kind, arguments) {
                return None;
            }
            (Action::Propose { kind, arguments }, 10)
        }
        2 => (
            Action::Cancel {
                cycle: u32_at(bytes, 0),
            },
            4,
        ),
        3 if first < 32 && bytes[1] <= 1 => (
            Action::Presents {
                seat: first.into(),
                flag: bytes[1] == 1,
            },
            2,
        ),
        4..=7 if is_subject(kind, u64_at(bytes, 0)) => (read_subject(kind, bytes), 8),
        8 => {
            let (login, rights) = (u32_at(bytes, 0), u16_at(bytes, 8));
            if login == 0 || rights == 0 {
                return None;
            }
            let end = u32_at(bytes, 4);
            (Action::Grant(Login { login, end, rights }), 10)
        }
        9 => (
            Action::End {
                login: u32_at(bytes, 0),
            },
            4,
        ),
        _ => return None,
    };
    all_zero(&bytes[used..]).then_some(action)
}

/// Kinds 4 to 7, whose arguments are a well-formed subject.
fn read_subject(kind: u16, bytes: &[u8]) -> Action {
    let (seat, life) = (usize::from(bytes[0]), u32_at(bytes, 1));
    match kind {
        4 => Action::Certify { seat, life },
        5 => Action::Minima(Minima {
            margin: bytes[0],
            least: bytes[1],
            silence: u16_at(bytes, 2),
            ordinary: bytes[4],
            restart: bytes[5],
        }),
        6 => Action::Remove { seat },
        _ => Action::Rejoin { seat, life },
    }
}

/// Whether the bytes are a well-formed sheet.
pub fn is_sheet(bytes: &[u8]) -> bool {
    bytes.len() >= 7
        && bytes[6] <= 64
        && is_record(bytes, 7 + 5 * usize::from(bytes[6]), 18)
        && bytes[7..].chunks_exact(5).all(|row| row[0] < 32)
}
