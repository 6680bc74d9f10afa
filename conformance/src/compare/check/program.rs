//! The program node-run on an input, compared with what the second implementation prints.

use super::second::Second;
use crate::layout::framed;
use std::io::Write;
use std::path::Path;
use std::process::{Command, Stdio};

/// What the program prints on an input.
pub fn printed(program: &Path, input: &[u8]) -> Result<Vec<u8>, String> {
    let failed = |error: std::io::Error| format!("{}: {error}", program.display());
    let mut child = Command::new(program)
        .stdin(Stdio::piped())
        .stdout(Stdio::piped())
        .spawn()
        .map_err(failed)?;
    let mut stdin = child.stdin.take().ok_or("no standard input")?;
    let bytes = input.to_vec();
    // Written apart, so that neither side waits for the other. A program that ends early closes the
    // pipe: no error.
    let writer = std::thread::spawn(move || drop(stdin.write_all(&bytes)));
    let output = child.wait_with_output().map_err(failed)?;
    writer.join().map_err(|_| "the writer panicked")?;
    match output.status.success() {
        true => Ok(output.stdout),
        false => Err(format!("{} ends with {}", program.display(), output.status)),
    }
}

/// Whether the path names a program that can be run, tried on no input.
pub fn require(program: &Path) -> Result<(), String> {
    printed(program, &[]).map(drop)
}

/// Printed bytes as lines in which nothing but text stands: a foreign program may print anything.
pub fn lines(printed: &[u8]) -> Vec<String> {
    let end = printed.strip_suffix(b"\n").unwrap_or(printed);
    let lines = end.split(|byte| *byte == b'\n');
    lines.map(|line| line.escape_ascii().to_string()).collect()
}

/// Compares two whole outputs, and names the first line that differs.
pub fn same(program: &[u8], second: &[u8]) -> Result<(), String> {
    if program == second {
        return Ok(());
    }
    let (one, other) = (lines(program), lines(second));
    let mut pairs = one.iter().zip(&other);
    match pairs.find(|(one, other)| one != other) {
        Some((one, other)) => Err(format!("node-run prints \"{one}\", paper \"{other}\"")),
        None => Err(format!(
            "node-run prints {} bytes, paper {}",
            program.len(),
            second.len()
        )),
    }
}

pub fn compare(second: &Second, program: &Path, input: &[u8]) -> Result<(), String> {
    same(&printed(program, input)?, &(second.node_run)(input))
}

/// A shorter stream that still differs: without its end, then without each record that is not
/// needed.
pub fn shorten(second: &Second, program: &Path, input: &[u8]) -> Vec<u8> {
    let differs = |records: &[Vec<u8>]| compare(second, program, &records.concat()).is_err();
    let mut records = records(input);
    while records.len() > 1 && differs(&records[..records.len() - 1]) {
        records.pop();
    }
    // Two at a time first: a request of two records is whole or out of its place.
    let records = thinned(thinned(records, 2, &differs), 1, &differs);
    records.concat()
}

/// Without each so many records in a row that are not needed for a difference.
fn thinned(
    mut records: Vec<Vec<u8>>,
    width: usize,
    differs: &dyn Fn(&[Vec<u8>]) -> bool,
) -> Vec<Vec<u8>> {
    for place in (0..records.len()).rev() {
        let end = records.len().min(place + width);
        let mut shorter = records.clone();
        shorter.drain(place.min(end)..end);
        if differs(&shorter) {
            records = shorter;
        }
    }
    records
}

/// The records of a stream; what does not fill its length is the last.
fn records(mut input: &[u8]) -> Vec<Vec<u8>> {
    let mut records = Vec::new();
    while !input.is_empty() {
        let (record, rest) = input.split_at(framed(input));
        records.push(record.to_vec());
        input = rest;
    }
    records
}
