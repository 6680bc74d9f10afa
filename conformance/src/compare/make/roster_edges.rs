//! Rosters at their edges, one by one, and with every date.

use super::exports;
use super::records;
use super::roster_fields::{written, DATES, LOGINS, NO_DATES, NO_LOGINS, NO_RIGHTS, RIGHTS};
use super::rosters::request;
use super::values::LAST_DATE;
use crate::compare::call::{Records, Request};
use crate::layout::announcements_size;
use crate::paper::calendar;
use crate::paper::state::Day;

const CYCLE: u32 = 7;
const DAY: u32 = 20_000;
const LINE: &str = "501,2026-12-31,0001";
const MOST_LINES: usize = 64;

/// Whole rosters: how lines and fields end, quotes, and what other readers of such files let pass.
const ROSTERS: &[&str] = &[
    "",
    "501,2026-12-31,0001",
    "501,2026-12-31,0001\r\n",
    "501,2026-12-31,0001\r\n501,2027-12-31,0002",
    "501,2026-12-31,0001\r\n502,2026-12-31,0001\r\n",
    "\"501\",\"2026-12-31\",\"0001\"\r\n",
    "\"501\",\"2026-12-31\",\"0001\"",
    "\"501\",2026-12-31,0001\r\n\"502\",2026-12-31,\"00ff\"\r\n",
    // Line ends.
    "\r\n",
    "\n",
    "\r",
    "\r\n\r\n",
    "501,2026-12-31,0001\n",
    "501,2026-12-31,0001\r",
    "501,2026-12-31,0001\n\r",
    "501,2026-12-31,0001\r\r\n",
    "501,2026-12-31,0001\n502,2026-12-31,0001\n",
    "501,2026-12-31,0001\r502,2026-12-31,0001\r",
    "501,2026-12-31,0001\r\n502,2026-12-31,0001\n",
    "501,2026-12-31,0001\r\n502,2026-12-31,0001\r",
    "501,2026-12-31,0001\n502,2026-12-31,0001\r\n",
    "\"501\",\"2026-12-31\",\"0001\"\n",
    "\"501\",\"2026-12-31\",\"0001\"\r",
    "501,2026-12-31,0001\r\n\r\n",
    "\r\n501,2026-12-31,0001\r\n",
    "501,2026-12-31,0001\r\n\r\n502,2026-12-31,0001\r\n",
    "501,2026-12-31,0001\r\n \r\n502,2026-12-31,0001\r\n",
    "501,2026-12-31,0001\r\n\"\"\r\n",
    "501,2026-12-31,0001\r\n\r",
    "501,2026-12-31,0001\r\n\n",
    "501,2026-12-31,0001\r\n\x1A",
    "501,2026-12-31,0001\r\n\0",
    "501,2026-12-31,0001\0\r\n",
    "501,2026-12-31,0001\r\n# end\r\n",
    // Numbers of fields.
    "501",
    "501\r\n",
    "501,2026-12-31",
    "501,2026-12-31\r\n",
    "501,2026-12-31,",
    "501,2026-12-31,0001,",
    "501,2026-12-31,0001,\r\n",
    "501,2026-12-31,0001,0001\r\n",
    "501,2026-12-31,0001,x,y\r\n",
    ",501,2026-12-31,0001",
    ",,",
    ",,\r\n",
    ",",
    "501,,0001",
    ",2026-12-31,0001",
    "501;2026-12-31;0001\r\n",
    "501\t2026-12-31\t0001\r\n",
    "501 2026-12-31 0001\r\n",
    // Quotes.
    "\"",
    "\"\"",
    "\"\"\"",
    "\"501,2026-12-31,0001\r\n",
    "501,\"2026-12-31,0001\r\n",
    "501,2026-12-31,\"0001\r\n",
    "501,2026-12-31,\"0001",
    "501\",2026-12-31,0001\r\n",
    "5\"01,2026-12-31,0001\r\n",
    "5\"0\"1,2026-12-31,0001\r\n",
    "501,2026-12-31,0001\"\r\n",
    "\"50\"1,2026-12-31,0001\r\n",
    "\"501\" ,2026-12-31,0001\r\n",
    " \"501\",2026-12-31,0001\r\n",
    "501, \"2026-12-31\",0001\r\n",
    "\"501\"x,2026-12-31,0001\r\n",
    "\"501\"\"\",2026-12-31,0001\r\n",
    "\"501\"\",2026-12-31,0001\r\n",
    "\"\"501\"\",2026-12-31,0001\r\n",
    "\"\"\"501\"\"\",2026-12-31,0001\r\n",
    "\"5\"\"01\",2026-12-31,0001\r\n",
    "\"501,2026-12-31,0001\"\r\n",
    "\"501\",2026-12-31,\"0001\r\n\"",
    "\"501\",2026-12-31,\"00\r\n01\"",
    "\"\r\n501\",2026-12-31,0001\r\n",
    "\"501\r\n\",2026-12-31,0001\r\n",
    "\"501\n\",2026-12-31,0001\r\n",
    "501,\"2026-12-31\"\"\",0001\r\n",
    "501,2026-12-31,\"0001\"\"\"\r\n",
    "'501',2026-12-31,0001\r\n",
    "\"501\\\"\",2026-12-31,0001\r\n",
    // What other programs write.
    "\u{feff}501,2026-12-31,0001\r\n",
    "login,end,rights\r\n501,2026-12-31,0001\r\n",
    "#501,2026-12-31,0001\r\n",
    "sep=,\r\n501,2026-12-31,0001\r\n",
    "=501,2026-12-31,0001\r\n",
    // Spaces.
    " 501,2026-12-31,0001\r\n",
    "501 ,2026-12-31,0001\r\n",
    "501, 2026-12-31,0001\r\n",
    "501,2026-12-31 ,0001\r\n",
    "501,2026-12-31, 0001\r\n",
    "501,2026-12-31,0001 \r\n",
    "501,2026-12-31,0001\t\r\n",
    "\" 501\",2026-12-31,0001\r\n",
    "501,2026-12-31,\"0001 \"\r\n",
    " ",
    // Fields in another order.
    "2026-12-31,501,0001\r\n",
    "501,0001,2026-12-31\r\n",
];

fn import(roster: impl Into<Vec<u8>>, cycle: u32, day: u32) -> Records {
    let roster = roster.into();
    Records::Import { roster, cycle, day }
}

/// With room for what it gives.
fn fitting(records: Records) -> Request {
    let out = records.size(&[]);
    request(records, out)
}

/// Every edge once; few enough to be tried for each planted fault.
pub fn edges() -> Vec<Request> {
    let rosters = ROSTERS
        .iter()
        .map(|roster| fitting(import(*roster, CYCLE, DAY)));
    let mut edges: Vec<Request> = rosters.collect();
    edges.extend(fields());
    edges.extend(numbers());
    edges.extend(rooms());
    edges.extend(exports::edges());
    edges
}

/// Each content of a field, quoted and not, in a line whose other fields are good.
fn fields() -> Vec<Request> {
    let lists = [[LOGINS, NO_LOGINS], [DATES, NO_DATES], [RIGHTS, NO_RIGHTS]];
    let contents = lists.into_iter().enumerate().flat_map(|(place, lists)| {
        let contents = lists.concat().into_iter();
        contents.map(move |content| (place, content))
    });
    let lines = contents.flat_map(|(place, content)| {
        [false, true].map(|is_quoted| {
            let mut line: Vec<Vec<u8>> = LINE.split(',').map(Vec::from).collect();
            line[place] = written(content.as_bytes(), is_quoted);
            line.join(&b","[..])
        })
    });
    lines
        .map(|line| fitting(import(line, CYCLE, DAY)))
        .collect()
}

/// Rosters of so many lines.
fn repeated(lines: usize) -> String {
    format!("{LINE}\r\n").repeat(lines)
}

/// Numbers of lines and cycles on both sides of their limits, and given days.
fn numbers() -> Vec<Request> {
    let lines = [0, 1, 2, 31, 32, 63, 64, 65, 66, 128, 256, 257];
    let lines = lines.into_iter().flat_map(cycles);
    let days = [
        0,
        1,
        20_818,
        20_819,
        20_820,
        LAST_DATE,
        0x8000_0000,
        u32::MAX,
    ];
    let days = days.map(|day| import(LINE, CYCLE, day));
    let broken = import(repeated(MOST_LINES) + "x", CYCLE, DAY);
    lines.chain(days).chain([broken]).map(fitting).collect()
}

/// Cycles that end on both sides of the last one, and no last line end.
fn cycles(lines: usize) -> Vec<Records> {
    let last = u32::MAX.wrapping_sub(lines as u32);
    let cycles = [
        0,
        CYCLE,
        last - 1,
        last,
        last.wrapping_add(1),
        u32::MAX - 1,
        u32::MAX,
    ];
    let mut imports = cycles
        .map(|cycle| import(repeated(lines), cycle, DAY))
        .to_vec();
    imports.push(import(repeated(lines).trim_end(), CYCLE, DAY));
    imports
}

/// Output slices about what is needed; 24 comes before 25.
fn rooms() -> Vec<Request> {
    let about = |lines: usize| {
        let roster = repeated(lines);
        let size = announcements_size(roster.as_bytes());
        let rooms = [
            0,
            1,
            23,
            24,
            size.saturating_sub(1),
            size,
            size + 1,
            size + 24,
            4096,
        ];
        let good = import(roster.as_str(), CYCLE, DAY);
        let malformed = import(roster.clone() + "x", CYCLE, DAY);
        let beyond = import(roster, u32::MAX, DAY);
        let all = [good, malformed, beyond].into_iter();
        all.flat_map(move |records| rooms.map(|out| request(records.clone(), out)))
    };
    [0, 1, 2, 64, 65].into_iter().flat_map(about).collect()
}

/// Rosters of full length with every date, exports of every date, and of each month of each year
/// about the range the days that it may not have.
pub fn dates() -> impl Iterator<Item = Request> {
    let days: Vec<u32> = (0..=LAST_DATE).collect();
    let rosters = days.chunks(MOST_LINES).map(|days| {
        let line = |day: &u32| format!("{},{},0001\r\n", 1 + day, calendar::text(Day::new(*day)));
        fitting(import(
            days.iter().map(line).collect::<String>(),
            CYCLE,
            DAY,
        ))
    });
    let rosters: Vec<Request> = rosters.collect();
    let exports = (0..=LAST_DATE + 1).map(|end| {
        let arguments = records::grant(501, end, 1);
        fitting(Records::Export(records::announcement(
            8, CYCLE, DAY, arguments,
        )))
    });
    let months = (1968..=2101).flat_map(|year| (0..=13).map(move |month| (year, month)));
    let others = months.flat_map(|(year, month)| {
        [0, 28, 29, 30, 31, 32].map(|day| {
            let line = format!("501,{year}-{month:02}-{day:02},0001");
            fitting(import(line, CYCLE, DAY))
        })
    });
    rosters.into_iter().chain(exports).chain(others)
}
