//! What all programs do alike with the words behind their names.

use crate::archive;
use std::io::{self, ErrorKind, Write};
use std::process::ExitCode;

/// Exit status for wrong use, and where something that the program needs is missing.
pub const WRONG_USE: u8 = 2;

pub struct Program {
    pub name: &'static str,
    /// One line for each way to call it.
    pub usage: &'static str,
    /// What follows the usage on the help page.
    pub help: &'static str,
}

impl Program {
    /// The words; where they ask for help it is printed, and the program ends with this status.
    pub fn words(&self) -> Result<Vec<String>, ExitCode> {
        end_quietly_where_nobody_reads();
        let words = std::env::args_os().skip(1);
        let words: Vec<String> = words.map(|w| w.to_string_lossy().into_owned()).collect();
        if words.iter().any(|word| word == "--help" || word == "-h") {
            let page = format!("{}\n\n{}", self.usage, self.help);
            return Err(print(page.as_bytes(), ExitCode::SUCCESS));
        }
        Ok(words)
    }

    /// Says what is wrong and how the program is called.
    pub fn wrong(&self, what: &str) -> ExitCode {
        eprintln!("{}: {what}\n{}", self.name, self.usage);
        ExitCode::from(WRONG_USE)
    }

    /// Says what is missing or failed, where the words are right.
    pub fn failed(&self, what: &str) -> ExitCode {
        eprintln!("{}: {what}", self.name);
        ExitCode::from(WRONG_USE)
    }

    /// For programs that call the archive.
    pub fn require_archive(&self) -> Result<(), ExitCode> {
        match archive::IS_LINKED {
            true => Ok(()),
            false => Err(self.failed(archive::MISSING)),
        }
    }
}

/// Exit status of a program that could not print its result, since nobody reads it: what a shell
/// gives for one that such a pipe ends. Not 0, which would say that all is well.
const NOT_READ: i32 = 141;

/// `println!` panics where whoever reads has closed the pipe.
fn end_quietly_where_nobody_reads() {
    let otherwise = std::panic::take_hook();
    std::panic::set_hook(Box::new(move |panic| {
        let message = panic.payload_as_str().unwrap_or_default();
        if message.starts_with("failed printing to stdout: Broken pipe") {
            std::process::exit(NOT_READ);
        }
        otherwise(panic);
    }));
}

/// Prints bytes and gives the status. Whoever reads them may close the pipe at any time.
pub fn print(bytes: &[u8], status: ExitCode) -> ExitCode {
    let mut out = io::stdout();
    match out.write_all(bytes).and_then(|()| out.flush()) {
        Err(error) if error.kind() != ErrorKind::BrokenPipe => {
            eprintln!("standard output: {error}");
            ExitCode::from(WRONG_USE)
        }
        _ => status,
    }
}
