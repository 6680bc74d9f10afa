//! What the corpus gives to others: node-run's input and output, and the calls for C.

use super::call::{self, Call, Numbers, Sort};
use super::file::Run;
use super::walk::{walk, Found};
use crate::compare::PAPER;

/// The only run of a file.
pub fn only_run(runs: &[Run]) -> Result<&Run, Found> {
    match runs {
        [run] => Ok(run),
        _ => Err((1, format!("the file has {} runs, and not one", runs.len()))),
    }
}

/// Every call of the runs: the number of the call from 0 (in the order of `SORTS`) and the lengths of
/// its slices, three, each in 4 bytes; then the slices. The day of a page stands as a second slice of
/// 4 bytes, the day and the cycle of a roster as one of 8, k and n of shares as a third of 8.
pub fn calls(runs: &[Run]) -> Result<Vec<u8>, Found> {
    let mut out = Vec::new();
    for run in runs {
        walk(run, &mut |_, call, room| {
            push(&mut out, call);
            Ok(image_after(call, room))
        })?;
    }
    Ok(out)
}

fn push(out: &mut Vec<u8>, call: &Call) {
    let mut slices = call.slices.clone();
    let Numbers { cycle, day, k, n } = call.numbers;
    match call.sort {
        Sort::Page => slices.push(day.to_le_bytes().to_vec()),
        Sort::Import => slices.push([day.to_le_bytes(), cycle.to_le_bytes()].concat()),
        Sort::Split | Sort::Merge => slices.push([k.to_le_bytes(), n.to_le_bytes()].concat()),
        _ => {}
    }
    let length = |place: usize| slices.get(place).map_or(0, Vec::len) as u32;
    for number in [call.sort as u32, length(0), length(1), length(2)] {
        out.extend(number.to_le_bytes());
    }
    out.extend(slices.concat());
}

/// What the second implementation writes.
fn image_after(call: &Call, room: usize) -> Option<Vec<u8>> {
    let mut image = vec![0; room];
    let slices: Vec<&[u8]> = call.slices.iter().map(Vec::as_slice).collect();
    let number = call::make(&PAPER.calls, call, &slices, &mut image);
    call.sort.writes(number).then_some(image)
}
