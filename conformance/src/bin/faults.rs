//! Shows that the comparison finds faults: switches on each planted fault of the second
//! implementation and searches for a difference.

use conformance::command_line::Program;
use conformance::compare::{program, random_history, streams, Found, Random, Stages, FAULTY};
use conformance::faulty;
use std::path::Path;
use std::process::ExitCode;
use std::time::Instant;

const PROGRAM: Program = Program {
    name: "faults",
    usage: "usage: faults --node-run PATH",
    help: "Switches on each planted fault of the second implementation (compare --faults lists them) and
searches for a difference from the archive and from the program node-run at PATH. It begins with
the same search without a fault: where that finds a difference, the archive or the program is
wrong, and no fault is tried.

Exit status: 0 every fault is found; 1 a fault is not found; 2 wrong use, or something needed is
missing; 4 the archive or the program differs without a fault.
",
};

const DIFFERS: u8 = 4;
const SEED: u64 = 2024;
/// No fault may need more calls.
const LIMIT: u64 = 400_000;
const STREAMS: usize = 600;

/// Input streams and what the program prints on them.
type Printed = Vec<(Vec<u8>, Vec<u8>)>;

fn main() -> ExitCode {
    run().unwrap_or_else(|status| status)
}

fn run() -> Result<ExitCode, ExitCode> {
    let words = PROGRAM.words()?;
    let words: Vec<&str> = words.iter().map(String::as_str).collect();
    let node_run = match words[..] {
        ["--node-run", path] => Path::new(path),
        [] | ["--node-run"] => {
            return Err(PROGRAM.wrong("--node-run PATH is needed for the faults of node-run"))
        }
        ["--node-run", _, word, ..] | [word, ..] => {
            return Err(PROGRAM.wrong(&format!("{word} is not understood")))
        }
    };
    PROGRAM.require_archive()?;
    program::require(node_run).map_err(|what| PROGRAM.failed(&format!("--node-run {what}")))?;
    let begin = Instant::now();
    println!("Without a fault, {LIMIT} calls and {STREAMS} streams, some seconds:");
    let printed = without_a_fault(node_run).map_err(|what| {
        eprintln!(
            "faults: without a fault there is a difference, so that no fault is tried: {what}"
        );
        ExitCode::from(DIFFERS)
    })?;
    println!("no difference");
    let found = each_fault(&printed);
    println!("{:.1} s", begin.elapsed().as_secs_f64());
    println!("{} faults, {found} found", faulty::ALL.len());
    Ok(match found == faulty::ALL.len() {
        true => ExitCode::SUCCESS,
        false => ExitCode::FAILURE,
    })
}

/// Every call and stream that the search for a fault may use, with none switched on.
fn without_a_fault(node_run: &Path) -> Result<Printed, String> {
    let printed = print_streams(node_run)?;
    for (input, output) in &printed {
        program::same(output, &(FAULTY.node_run)(input))?;
    }
    let mut stages = Stages::new(&FAULTY, None).with_progress();
    match all_stages(&mut stages, &printed) {
        Some(_) => Err(format!("at call {}", stages.coverage.calls + 1)),
        None => Ok(printed),
    }
}

/// How many faults are found.
fn each_fault(printed: &Printed) -> usize {
    // Panics of a faulty implementation count as found and need no trace.
    std::panic::set_hook(Box::new(|_| {}));
    let mut found = 0;
    for (place, fault) in faulty::ALL.iter().enumerate() {
        faulty::set(Some(place));
        let needed = all_stages(&mut Stages::new(&FAULTY, None), printed);
        faulty::set(None);
        found += usize::from(needed.is_some());
        let needed = needed.unwrap_or_else(|| "NOT FOUND".to_string());
        println!("{}: {needed}", fault.name);
    }
    found
}

/// Streams made without a fault, so that one set serves all.
fn print_streams(node_run: &Path) -> Result<Printed, String> {
    let mut rng = Random::new(SEED);
    let mut printed = Vec::new();
    while printed.len() < STREAMS {
        let history = random_history(&FAULTY, rng.number()).map_err(|found| found.what)?;
        for _ in 0..8 {
            let input = streams::of_history(&mut rng, &history);
            let output = program::printed(node_run, &input)?;
            printed.push((input, output));
        }
    }
    Ok(printed)
}

/// What was needed to find a difference.
fn all_stages(stages: &mut Stages, printed: &Printed) -> Option<String> {
    let mut rng = Random::new(SEED);
    let first = |stages: &mut Stages, rng: &mut Random| -> Result<(), Found> {
        stages.rosters(rng, 0)?;
        stages.lone_requests(rng, 4_000)?;
        stages.shares(rng, 0)?;
        stages.products()
    };
    if first(stages, &mut rng).is_err() {
        return Some(calls(stages));
    }
    if let Some(place) = printed.iter().position(differs) {
        return Some(format!("{} streams", place + 1));
    }
    let rest = |stages: &mut Stages, rng: &mut Random| -> Result<(), Found> {
        stages.long_sums()?;
        stages.histories(rng, 10_000)?;
        stages.lone_requests(rng, 40_000)?;
        stages.damaged(rng, 200_000)?;
        stages.histories(rng, 250_000)?;
        stages.lone_requests(rng, LIMIT)?;
        stages.damaged_rosters(rng)?;
        stages.rosters(rng, LIMIT + LIMIT / 10)?;
        stages.shares(rng, LIMIT + LIMIT / 10 + LIMIT / 20)
    };
    rest(stages, &mut rng).is_err().then(|| calls(stages))
}

fn differs((input, output): &(Vec<u8>, Vec<u8>)) -> bool {
    match std::panic::catch_unwind(|| (FAULTY.node_run)(input)) {
        Ok(second) => program::same(output, &second).is_err(),
        Err(_) => true,
    }
}

fn calls(stages: &Stages) -> String {
    format!("{} calls", stages.coverage.calls + 1)
}
