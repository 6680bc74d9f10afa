//! That text and bytes say the same, and that every message has its place.

mod demo;
mod image;
mod malformed;
mod messages;
mod rosters;
mod round_trip;

use super::{compose, show};

/// A file, from the directory of the package.
fn file(path: &str) -> Vec<u8> {
    let package = std::path::Path::new(env!("CARGO_MANIFEST_DIR"));
    std::fs::read(package.join(path)).unwrap()
}

/// The printed run of document 01.
const PRINTED_RUN: &str = "\
start seat 0 life 1
checkpoint cycle 1 day 100 trustees 1 1 m 0 k 2 S 30
  seat 0 present life 1
  seat 1 present life 1
  seat 2 present life 1
announce cycle 1 day 101 grant login 501 end 120 rights 0
sheet level-1 0 level-2 rows
announce cycle 1 day 101 grant login 501 end 120 rights 0
sheet level-1 0 level-2 rows 0:1 1:1
query login 501 day 120 right 0
query login 501 day 121 right 0
query login 501 day 132 right 0
";

/// The first lines of it: a checkpoint of kind 16.
fn old_checkpoint() -> String {
    let lines: Vec<&str> = PRINTED_RUN.lines().skip(1).take(4).collect();
    lines.join("\n") + "\n"
}

/// The checkpoint of kind 26 for the same state.
fn first_checkpoint() -> String {
    old_checkpoint().replacen("S 30\n", "S 30 ordinary 7 restart 2\n", 1)
}

/// Pairs of lines: a text, in which " / " ends a line, and what is expected of it.
fn cases(table: &'static str) -> Vec<(String, &'static str)> {
    let lines: Vec<&str> = table.lines().collect();
    let pairs = lines.chunks(2);
    pairs
        .map(|pair| (pair[0].replace(" / ", "\n"), pair[1].trim_start()))
        .collect()
}
