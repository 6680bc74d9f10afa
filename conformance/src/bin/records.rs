//! Text to records and records to text, rosters to announcements and back, from standard input to
//! standard output.

use conformance::command_line::{print, Program};
use conformance::text::{compose_bytes, looks_like_text, show, show_image, warnings, Shown, USAGE};
use conformance::text::{read_day, read_roster, write_roster};
use std::io::{self, Read};
use std::process::ExitCode;

const PROGRAM: Program = Program {
    name: "records",
    usage: "usage: records compose < TEXT > RECORDS
       records show [--image] < RECORDS
       records roster read CYCLE DAY < ROSTER > ANNOUNCEMENTS
       records roster write < ANNOUNCEMENTS > ROSTER",
    help: USAGE,
};

fn main() -> ExitCode {
    run().unwrap_or_else(|status| status)
}

fn run() -> Result<ExitCode, ExitCode> {
    let words = PROGRAM.words()?;
    let words: Vec<&str> = words.iter().map(String::as_str).collect();
    match words[..] {
        [] => Ok(print(USAGE.as_bytes(), ExitCode::SUCCESS)),
        ["compose"] => Ok(compose(&input()?)),
        ["show"] => shown(show),
        ["show", "--image"] => shown(show_image),
        ["roster", "read", cycle, day] => roster_read(cycle, day),
        ["roster", "write"] => roster_write(),
        ["roster"] => Err(PROGRAM.wrong("read or write is expected behind roster")),
        ["roster", "read"] | ["roster", "read", _] => {
            Err(PROGRAM.wrong("CYCLE and DAY are expected behind roster read"))
        }
        ["roster", "read", _, _, word, ..]
        | ["roster", "write", word, ..]
        | ["roster", word, ..]
        | ["compose", word, ..]
        | ["show", "--image", word, ..]
        | ["show", word, ..]
        | [word, ..] => Err(PROGRAM.wrong(&format!("{word} is not understood"))),
    }
}

fn roster_read(cycle: &str, day: &str) -> Result<ExitCode, ExitCode> {
    let is_number = !cycle.is_empty() && cycle.bytes().all(|byte| byte.is_ascii_digit());
    let number = cycle.parse().ok().filter(|_| is_number);
    let Some(cycle) = number else {
        let what = format!("{cycle} is not a cycle: 0 to 4294967295 is expected");
        return Err(PROGRAM.wrong(&what));
    };
    let Some(day) = read_day(day) else {
        let expected = "0 to 4294967295, or a date from 1970-01-01 to 2099-12-31";
        return Err(PROGRAM.wrong(&format!("{day} is not a day: {expected} is expected")));
    };
    Ok(written(read_roster(&input()?, cycle, day)))
}

fn roster_write() -> Result<ExitCode, ExitCode> {
    let input = input()?;
    require_records(&input)?;
    Ok(written(write_roster(&input)))
}

/// Prints what was made, or says why nothing was.
fn written(made: Result<Vec<u8>, String>) -> ExitCode {
    match made {
        Ok(bytes) => print(&bytes, ExitCode::SUCCESS),
        Err(what) => {
            eprintln!("{what}");
            ExitCode::FAILURE
        }
    }
}

fn input() -> Result<Vec<u8>, ExitCode> {
    let mut input = Vec::new();
    let read = io::stdin().read_to_end(&mut input);
    read.map_err(|error| PROGRAM.failed(&format!("standard input: {error}")))?;
    Ok(input)
}

fn compose(text: &[u8]) -> ExitCode {
    match compose_bytes(text) {
        Ok(composed) => {
            for warning in warnings(&composed) {
                eprintln!("records: {warning}");
            }
            print(&composed.bytes, ExitCode::SUCCESS)
        }
        Err(error) => {
            eprintln!("{error}");
            ExitCode::FAILURE
        }
    }
}

fn shown(show: fn(&[u8]) -> Shown) -> Result<ExitCode, ExitCode> {
    let input = input()?;
    require_records(&input)?;
    let Shown { text, malformed } = show(&input);
    let status = match malformed {
        true => ExitCode::FAILURE,
        false => ExitCode::SUCCESS,
    };
    Ok(print(text.as_bytes(), status))
}

/// Says so where the input is a text.
fn require_records(input: &[u8]) -> Result<(), ExitCode> {
    if looks_like_text(input) {
        eprintln!(
            "records: the input looks like text: `records compose` makes the bytes of a text"
        );
        return Err(ExitCode::FAILURE);
    }
    Ok(())
}
