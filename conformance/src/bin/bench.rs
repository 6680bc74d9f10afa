//! Prints how long each call takes through C: by the archive, by the second implementation and by
//! the version written for speed, and the ratios.

use conformance::bench::cases::{Case, Size, FULL, SMALL};
use conformance::bench::measure::{copy, least, make, OUT_SIZE, VERSIONS};
use conformance::command_line::Program;
use std::process::ExitCode;

const PROGRAM: Program = Program {
    name: "bench",
    usage: "usage: bench
       bench SIZE CASE VERSION COUNT",
    help: "Prints how long each call takes through C, in ns: the least of 200 rounds of 500 calls, a line for
each case, about half a minute in all.

With words it makes one call COUNT times and prints nothing, for a profiler:
bench full 'query: open' archive 1000
SIZE is full or small, VERSION archive, paper or tuned, CASE the name of a line that bench prints:
start, start: kind 16
deliver: propose done, deliver: minima done, deliver: remove done, deliver: rejoin done
deliver: grant done, deliver: grant evicts (full only)
deliver: end done, deliver: grant voted, deliver: end no 13
query: open, query: open at door 3, query: no 19, query: no 18
checkpoint
page
import, import: quoted
export
split, merge (full: 16 of 16, small: 2 of 3)
add (full: 16 shares, small: 1)

Exit status: 0; 2 wrong use, or the archive is missing.
",
};

fn main() -> ExitCode {
    run().unwrap_or_else(|status| status)
}

fn run() -> Result<ExitCode, ExitCode> {
    let words = PROGRAM.words()?;
    let words: Vec<&str> = words.iter().map(String::as_str).collect();
    match words[..] {
        [] => {
            PROGRAM.require_archive()?;
            print_table();
        }
        [size, case, version, count] => {
            PROGRAM.require_archive()?;
            repeat(size, case, version, count).map_err(|word| {
                PROGRAM.wrong(&format!(
                    "{word} is not understood: bench --help lists the words"
                ))
            })?;
        }
        _ => return Err(PROGRAM.wrong("no word or four are expected")),
    }
    Ok(ExitCode::SUCCESS)
}

/// Makes the call; an error is the word that is wrong.
fn repeat<'a>(
    size: &'a str,
    case: &'a str,
    version: &'a str,
    count: &'a str,
) -> Result<(), &'a str> {
    let mut sizes = [FULL, SMALL].into_iter();
    let found = sizes.find(|known| known.name == size);
    let cases = found.ok_or(size)?.cases();
    let found = cases.iter().find(|known| known.name == case);
    let case = found.ok_or(case)?;
    let found = VERSIONS.iter().find(|known| known.name == version);
    let version = found.ok_or(version)?;
    let mut out = [0; OUT_SIZE];
    for _ in 0..count.parse::<u64>().map_err(|_| count)? {
        make(version, case, &mut out);
    }
    Ok(())
}

fn print_table() {
    println!(
        "{:<29}{:>9}{:>9}{:>9}{:>15}{:>15}",
        "ns per call", "archive", "paper", "tuned", "archive/tuned", "archive/paper"
    );
    for size in [FULL, SMALL] {
        size.cases().iter().for_each(|case| print_case(&size, case));
    }
    println!("{:<29}{:>9.0}", "image copied in and out", copy_time());
}

fn print_case(size: &Size, case: &Case) {
    let mut outs = [[0; OUT_SIZE]; 3];
    let [first, second, third] = &mut outs;
    let [archive, paper, tuned] = least([
        &mut || make(&VERSIONS[0], case, first),
        &mut || make(&VERSIONS[1], case, second),
        &mut || make(&VERSIONS[2], case, third),
    ]);
    assert!(outs[0] == outs[1] && outs[0] == outs[2], "{}", case.name);
    println!(
        "{:<7}{:<22}{archive:>9.0}{paper:>9.0}{tuned:>9.0}{:>15.2}{:>15.2}",
        size.name,
        case.name,
        archive / tuned,
        archive / paper
    );
}

fn copy_time() -> f64 {
    let image = FULL.image();
    let (mut between, mut out) = (image.clone(), image.clone());
    least([&mut || copy(&image, &mut between, &mut out)])[0]
}
