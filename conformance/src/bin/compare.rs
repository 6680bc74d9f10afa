//! Compares the shipped archive and node-run with the second implementation.

use conformance::command_line::Program;
use conformance::compare::{program, replay, Case, Found, Random, Second, Stages, FAULTY, PAPER};
use conformance::faulty;
use std::fs::OpenOptions;
use std::io::{ErrorKind, Write};
use std::path::{Path, PathBuf};
use std::process::ExitCode;
use std::time::Instant;

const PROGRAM: Program = Program {
    name: "compare",
    usage: "usage: compare [--node-run PATH] [--fault NAME] SEED COUNT
       compare [--node-run PATH] [--fault NAME] --replay FILE
       compare --faults",
    help: "Compares the shipped archive with the second implementation on random histories of a park and
on damaged input, COUNT calls in all, then on rosters, a tenth as many, on shares of a key, a
twentieth, on every product of their field, on renewals of shares, on sums that are longer than
their count can tell, and on pages and rosters with every date; the same SEED gives the same calls. A
difference is shortened, shown and kept in a new file compare-failure-SEED.txt.

  --node-run PATH  compares the program node-run too
  --replay FILE    shows a kept case step by step
  --fault NAME     plants a fault in the second implementation, to see what a difference looks like
  --faults         lists the faults

Exit status: 0 no difference and everything met that must be met; 1 a difference; 2 wrong use, or
something needed is missing; 3 no difference, but not everything was met: take more calls.
",
};

const NOT_ALL_MET: u8 = 3;

struct Options {
    second: &'static Second,
    node_run: Option<PathBuf>,
    replay: Option<PathBuf>,
    /// SEED and COUNT.
    numbers: Vec<u64>,
}

/// The options, or what is wrong with the words.
fn options(words: Vec<String>) -> Result<Options, String> {
    let mut options = Options {
        second: &PAPER,
        node_run: None,
        replay: None,
        numbers: Vec::new(),
    };
    let mut words = words.into_iter();
    while let Some(word) = words.next() {
        let mut behind = || words.next().ok_or(format!("nothing stands behind {word}"));
        match word.as_str() {
            "--node-run" => options.node_run = Some(behind()?.into()),
            "--replay" => options.replay = Some(behind()?.into()),
            "--fault" => {
                let name = behind()?;
                let place = faulty::find(&name);
                let place =
                    place.ok_or(format!("no fault is called {name}: --faults lists them"))?;
                faulty::set(Some(place));
                options.second = &FAULTY;
            }
            number => match number.parse() {
                Ok(number) => options.numbers.push(number),
                Err(_) => return Err(format!("{number} is neither an option nor a number")),
            },
        }
    }
    match (&options.replay, options.numbers.len()) {
        (Some(_), 0) | (None, 2) => Ok(options),
        (Some(_), _) => Err("--replay takes no SEED and COUNT".to_string()),
        (None, _) => Err("SEED and COUNT are expected".to_string()),
    }
}

fn main() -> ExitCode {
    run().unwrap_or_else(|status| status)
}

fn run() -> Result<ExitCode, ExitCode> {
    let words = PROGRAM.words()?;
    if words == ["--faults"] {
        for fault in faulty::ALL {
            println!("{}: {}", fault.name, fault.shows);
        }
        return Ok(ExitCode::SUCCESS);
    }
    let options = options(words).map_err(|what| PROGRAM.wrong(&what))?;
    PROGRAM.require_archive()?;
    if let Some(program) = &options.node_run {
        let found = program::require(program);
        found.map_err(|what| PROGRAM.failed(&format!("--node-run {what}")))?;
    }
    match (&options.replay, options.numbers.as_slice()) {
        (Some(file), _) => replay_file(&options, file),
        (None, numbers) => Ok(compare(&options, numbers[0], numbers[1])),
    }
}

fn replay_file(options: &Options, file: &Path) -> Result<ExitCode, ExitCode> {
    let failed = |what: String| PROGRAM.failed(&format!("{}: {what}", file.display()));
    let text = std::fs::read_to_string(file).map_err(|error| failed(error.to_string()))?;
    let case = Case::read(&text).map_err(failed)?;
    let node_run = options.node_run.as_deref();
    if matches!(case, Case::Stream(_)) && node_run.is_none() {
        let what = "an input of node-run is kept in it: --node-run PATH is needed";
        return Err(failed(what.to_string()));
    }
    Ok(match replay::replay(options.second, &case, node_run) {
        true => ExitCode::SUCCESS,
        false => ExitCode::FAILURE,
    })
}

fn compare(options: &Options, seed: u64, count: u64) -> ExitCode {
    let begin = Instant::now();
    let mut stages = Stages::new(options.second, options.node_run.clone()).with_progress();
    let found = all_stages(&mut stages, &mut Random::new(seed), count);
    let (calls, seconds) = (stages.coverage.calls, begin.elapsed().as_secs_f64());
    let rate = calls as f64 / seconds;
    println!("{calls} calls in {seconds:.1} s, {rate:.0} calls per second");
    stages.summary().iter().for_each(|line| println!("{line}"));
    if let Err(found) = found {
        println!("DIFFERENCE: {}\nIt is shortened:\n", found.what);
        let node_run = options.node_run.as_deref();
        let found = found.shorten(options.second, node_run);
        replay::replay(options.second, &found.case, node_run);
        keep(seed, &found);
        return ExitCode::FAILURE;
    }
    let missing = stages.missing();
    missing
        .iter()
        .for_each(|line| println!("never met: {line}"));
    if missing.is_empty() {
        println!("no difference, all met");
        return ExitCode::SUCCESS;
    }
    println!("no difference, not all met");
    ExitCode::from(NOT_ALL_MET)
}

/// A fifth each of requests that stand alone and of damaged input, then histories, then rosters, shares
/// of keys, every product, renewals, long sums and every date.
fn all_stages(stages: &mut Stages, rng: &mut Random, count: u64) -> Result<(), Found> {
    stages.lone_requests(rng, count / 5)?;
    stages.damaged(rng, count / 5 * 2)?;
    stages.histories(rng, count)?;
    stages.damaged_rosters(rng)?;
    stages.rosters(rng, count + count / 10)?;
    stages.shares(rng, count + count / 10 + count / 20)?;
    stages.products()?;
    stages.renewals(rng)?;
    stages.long_sums()?;
    stages.dates()
}

/// Keeps a case in a file of its own; an earlier one stays.
fn keep(seed: u64, found: &Found) {
    let text = format!("# {}\n{}", found.what, found.case.write());
    for place in 1.. {
        let file = match place {
            1 => format!("compare-failure-{seed}.txt"),
            _ => format!("compare-failure-{seed}-{place}.txt"),
        };
        let opened = OpenOptions::new().write(true).create_new(true).open(&file);
        match opened.and_then(|mut opened| opened.write_all(text.as_bytes())) {
            Err(error) if error.kind() == ErrorKind::AlreadyExists => {}
            Ok(()) => {
                return println!(
                    "kept in {file}: --replay {file} for SEED and COUNT shows it again"
                )
            }
            Err(error) => return println!("{file} is not written: {error}\n{text}"),
        }
    }
}
