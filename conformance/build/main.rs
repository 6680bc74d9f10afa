//! What is done before the package is compiled: the archive to link is named, and the copy of the
//! second implementation with the planted faults is made.

mod archive;
mod copy;
mod edits;

use std::path::{Path, PathBuf};
use std::process::ExitCode;

fn main() -> ExitCode {
    let package = Path::new(env!("CARGO_MANIFEST_DIR"));
    archive::link(package);
    match plant(package) {
        Ok(()) => ExitCode::SUCCESS,
        Err(message) => {
            // A message to cargo has one line.
            println!("cargo::error={}", message.replace('\n', " "));
            ExitCode::FAILURE
        }
    }
}

/// Writes the copy and the list of faults to where the module `faulty` includes them from.
fn plant(package: &Path) -> Result<(), String> {
    let (source, faults) = (package.join("src"), package.join("faults"));
    for path in ["build", "faults", "src/paper", "src/paper.rs"] {
        println!("cargo::rerun-if-changed={path}");
    }
    let faults = edits::read_folder(&faults)?;
    let out = std::env::var_os("OUT_DIR").ok_or("OUT_DIR is not set")?;
    let out = PathBuf::from(out);
    let write = |name: &str, text: String| {
        let path = out.join(name);
        std::fs::write(&path, text).map_err(|error| format!("{}: {error}", path.display()))
    };
    write("paper.rs", copy::with_switches(&source, &faults)?)?;
    write("faults.rs", edits::listed(&faults))
}
