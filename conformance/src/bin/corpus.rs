//! Runs the corpus through the archive, the second implementation and node-run. `corpus --help`
//! says how it is used.

use conformance::archive;
use conformance::command_line::{print, Program};
use conformance::corpus::check::Checker;
use conformance::corpus::export;
use conformance::corpus::file::{self, Run};
use conformance::corpus::walk::{Counts, Found};
use std::io::{self, Write};
use std::path::{Path, PathBuf};
use std::process::ExitCode;

const PROGRAM: Program = Program {
    name: "corpus",
    usage: "usage: corpus [--node-run PATH] [FILE..] | input FILE | answers FILE | calls [FILE..]",
    help: include_str!("../corpus/usage.txt"),
};

/// What ends the program before its work is done: a message, with the status for wrong use.
type Done = Result<ExitCode, String>;

fn main() -> ExitCode {
    begin().unwrap_or_else(|status| status)
}

fn begin() -> Result<ExitCode, ExitCode> {
    let words = PROGRAM.words()?;
    let words: Vec<&str> = words.iter().map(String::as_str).collect();
    let done = match words.as_slice() {
        ["input", path] => write(path, |runs| Ok(export::only_run(runs)?.input())),
        ["answers", path] => write(path, |runs| Ok(export::only_run(runs)?.lines())),
        [word @ ("input" | "answers"), ..] => {
            return Err(PROGRAM.wrong(&format!("{word} takes one file")))
        }
        ["calls", paths @ ..] => calls(paths),
        ["--node-run"] => return Err(PROGRAM.wrong("--node-run takes a path")),
        ["--node-run", program, paths @ ..] => run(program.into(), paths),
        paths => run(root().join("crates/node_run/out/node_run"), paths),
    };
    done.map_err(|message| PROGRAM.failed(&message))
}

/// The folder of the repository.
fn root() -> PathBuf {
    Path::new(env!("CARGO_MANIFEST_DIR")).join("..")
}

/// The files that are named, or all of the corpus and the demo; each with the name for messages.
fn files(paths: &[&str]) -> Result<Vec<(String, PathBuf)>, String> {
    if let Some(word) = paths.iter().find(|path| path.starts_with('-')) {
        return Err(format!(
            "{word} is not understood; corpus --help says how it is called"
        ));
    }
    if !paths.is_empty() {
        let named = paths.iter().map(|path| (path.to_string(), path.into()));
        return Ok(named.collect());
    }
    let folder = root().join("corpus");
    let failed = |error: io::Error| format!("{}: {error}", folder.display());
    let mut all = Vec::new();
    for entry in std::fs::read_dir(&folder).map_err(failed)? {
        let path = entry.map_err(failed)?.path();
        let name = path.file_name().unwrap_or_default().to_string_lossy();
        if name.ends_with(".txt") {
            all.push((format!("corpus/{name}"), path.clone()));
        }
    }
    all.sort();
    all.push(("examples/demo.txt".into(), root().join("examples/demo.txt")));
    Ok(all)
}

fn read(name: &str, path: &Path) -> Result<Vec<Run>, String> {
    let text = std::fs::read_to_string(path).map_err(|error| format!("{name}: {error}"))?;
    file::read(&text).map_err(|found| at(name, (found.line, found.what)))
}

fn at(name: &str, (line, what): Found) -> String {
    format!("{name}:{line}: {what}")
}

/// Writes what is made of one file.
fn write(name: &str, make: impl Fn(&[Run]) -> Result<Vec<u8>, Found>) -> Done {
    let runs = read(name, Path::new(name))?;
    let made = make(&runs).map_err(|found| at(name, found))?;
    Ok(print(&made, ExitCode::SUCCESS))
}

fn calls(paths: &[&str]) -> Done {
    let mut all = Vec::new();
    for (name, path) in files(paths)? {
        let runs = read(&name, &path)?;
        all.extend(export::calls(&runs).map_err(|found| at(&name, found))?);
    }
    Ok(print(&all, ExitCode::SUCCESS))
}

fn run(node_run: PathBuf, paths: &[&str]) -> Done {
    if !archive::IS_LINKED {
        return Err(archive::MISSING.to_string());
    }
    if !node_run.is_file() {
        return Err(format!("no node-run at {}", node_run.display()));
    }
    let mut checker = Checker::new(node_run).map_err(|error| error.to_string())?;
    let mut differ = 0;
    let files = files(paths)?;
    for (name, path) in &files {
        match checker.file(&read(name, path)?) {
            Ok(counts) => say(&format!("{name}: {}", summary(counts))),
            Err(found) => {
                differ += 1;
                say(&format!("DIFFERENCE: {}", at(name, found)));
            }
        }
    }
    Ok(conclude(&checker, files.len(), differ))
}

fn summary(counts: Counts) -> String {
    let Counts {
        requests,
        by_call,
        ending,
    } = counts;
    let mut parts = Vec::new();
    if by_call > 0 {
        parts.push(format!("{by_call} by call only"));
    }
    if ending > 0 {
        parts.push(format!("{ending} that end node-run's input"));
    }
    match parts.is_empty() {
        true => format!("{requests} requests, agree in all three"),
        false => format!("{requests} requests, of these {}, agree", parts.join(", ")),
    }
}

fn conclude(checker: &Checker, files: usize, differ: usize) -> ExitCode {
    let missing = checker.reached.missing();
    let reached = checker.reached.lines();
    reached.iter().for_each(|line| say(line));
    missing
        .iter()
        .for_each(|line| say(&format!("NOT REACHED: {line}")));
    let calls = checker.desk.calls;
    say(&format!(
        "{files} files, {differ} differ; {calls} calls on guarded slices"
    ));
    match (differ, missing.len()) {
        (0, 0) => ExitCode::SUCCESS,
        (0, _) => ExitCode::from(3),
        _ => ExitCode::FAILURE,
    }
}

/// A line on standard output. Whoever closed it doesn't read the rest; the exit status still says
/// all.
fn say(line: &str) {
    drop(writeln!(io::stdout(), "{line}"));
}
