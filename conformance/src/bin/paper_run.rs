//! node-run by the second implementation: the same input and output as the proved program.

use conformance::command_line::{print, Program};
use conformance::paper::run::node_run;
use std::io::{self, Read};
use std::process::ExitCode;

const PROGRAM: Program = Program {
    name: "paper_run",
    usage: "usage: paper_run < RECORDS",
    help: "Does as the program node-run, by the second implementation: reads records from standard input and
prints a line for each request. `records compose` makes records of text.

Exit status: 0; 2 wrong use, or input or output that fails.
",
};

fn main() -> ExitCode {
    run().unwrap_or_else(|status| status)
}

fn run() -> Result<ExitCode, ExitCode> {
    if let Some(word) = PROGRAM.words()?.first() {
        return Err(PROGRAM.wrong(&format!("{word} is not understood: no word is expected")));
    }
    let mut input = Vec::new();
    let read = io::stdin().read_to_end(&mut input);
    read.map_err(|error| PROGRAM.failed(&format!("standard input: {error}")))?;
    Ok(print(&node_run(&input), ExitCode::SUCCESS))
}
