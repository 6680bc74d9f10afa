//! A kept case run again and shown step by step, in the words of `records`.

use super::kept_case::{hex, renewal_words, words_of, Case};
use crate::compare::call::{Event, History, Outcome, Records, Renewal, Request};
use crate::compare::check::second::Second;
use crate::compare::check::{one_call, program, renewals, rerun};
use crate::compare::fields::{OwnFields, StateFields};
use crate::layout::KEY_SIZE;
use crate::text::{show, show_image};
use std::path::Path;

/// Prints the case and how it ends; whether no difference shows.
pub fn replay(second: &'static Second, case: &Case, node_run: Option<&Path>) -> bool {
    let outcome = match case {
        Case::History(history) => replay_history(second, history),
        Case::Single(request) => replay_single(second, request),
        Case::Renewal(renewal) => replay_renewal(second, renewal),
        Case::Stream(input) => replay_stream(second, input, node_run),
    };
    match &outcome {
        Ok(()) => println!("no difference"),
        Err(what) => println!("DIFFERENCE: {what}"),
    }
    outcome.is_ok()
}

fn replay_history(second: &'static Second, history: &History) -> Result<(), String> {
    print!(
        "The park's first checkpoint:\n{}",
        show(&history.first).text
    );
    let title = |place: usize| {
        let call = &history.calls[place];
        let holds = match history.by_value[call.host] {
            true => "a node by value",
            false => "an image",
        };
        let (name, host, out) = (call.records.name(), call.host, call.out);
        let head = format!("\nCall {}: {name} at host {host}", place + 1);
        print!(
            "{head}, which holds {holds}; output slice of {out} bytes\n{}",
            words_of(&call.records)
        );
    };
    let mut show_call = |place: usize, event: Option<&Event>| {
        title(place);
        match event {
            Some(event) => println!("{}{}", answered(&event.outcome), left(event)),
            None => println!("Not made: the host holds no node"),
        }
    };
    let tally = rerun::again(second, history, &mut show_call).map_err(|(place, what)| {
        if place < history.calls.len() {
            title(place);
        }
        what
    })?;
    let within = if tally.within { "yes" } else { "no" };
    println!("\nThe starts are lawful and the bound on double voters is kept: {within}");
    Ok(())
}

/// The answer, and the count where there is one.
fn answered(outcome: &Outcome) -> String {
    match outcome.count {
        0 => format!("Answer {}", outcome.number),
        count => format!("Answer {}, count {count}", outcome.number),
    }
}

/// What a call left: what the node holds after it, or the checkpoint or page that it gave.
fn left(event: &Event) -> String {
    match event.request.records {
        Records::Page(_) => given(&event.request.records, &event.outcome),
        _ => held(event),
    }
}

/// The lines of a page, the announcements of a roster or the line of one, shares, their key or a sum of
/// them, if they were given.
fn given(records: &Records, outcome: &Outcome) -> String {
    let Some(written) = outcome.written.as_deref().filter(|bytes| !bytes.is_empty()) else {
        return String::new();
    };
    let lines = match records {
        Records::Page(_) => program::lines(written),
        Records::Import { .. } => show(written).text.lines().map(String::from).collect(),
        Records::Export(_) => vec![written.escape_ascii().to_string()],
        Records::Split { .. } | Records::Merge { .. } | Records::Add(..) => {
            written.chunks(KEY_SIZE).map(hex).collect()
        }
        _ => Vec::new(),
    };
    lines.iter().map(|line| format!("\n  {line}")).collect()
}

fn held(event: &Event) -> String {
    let after = event.outcome.written.as_ref();
    let image = after.unwrap_or(&event.request.image);
    match (StateFields::read(image), OwnFields::read(image)) {
        (Some(state), Some(own)) => {
            let StateFields { cycle, day, .. } = state;
            let misses = own.misses.map(|count| count.to_string()).join(" ");
            format!(", cycle {cycle}, day {day}, misses {misses}")
        }
        (Some(state), None) => format!(", checkpoint of cycle {}", state.cycle),
        _ => String::new(),
    }
}

fn replay_single(second: &Second, request: &Request) -> Result<(), String> {
    let (name, out) = (request.records.name(), request.out);
    println!("One call, {name}, with an output slice of {out} bytes");
    if !request.image.is_empty() {
        print!("The image:\n{}", show_image(&request.image).text);
    }
    print!("Handed to it:\n{}", words_of(&request.records));
    let outcome = one_call::compare_all(second, request)?;
    let given = given(&request.records, &outcome);
    println!("{}{given}", answered(&outcome));
    Ok(())
}

fn replay_renewal(second: &Second, renewal: &Renewal) -> Result<(), String> {
    print!("{}", renewal_words(renewal));
    let mut show_call = |request: &Request, outcome: &Outcome| {
        let given = given(&request.records, outcome);
        print!("\n{}", words_of(&request.records));
        println!("{}{given}", answered(outcome));
    };
    renewals::run(second, renewal, &mut show_call).map(drop)
}

fn replay_stream(second: &Second, input: &[u8], node_run: Option<&Path>) -> Result<(), String> {
    print!("The input of node-run:\n{}", show(input).text);
    let expected = (second.node_run)(input);
    print_lines("The second implementation prints:", &expected);
    let program = node_run.ok_or("--node-run PATH is needed to run the program again")?;
    let printed = program::printed(program, input)?;
    print_lines("node-run prints:", &printed);
    program::same(&printed, &expected)
}

fn print_lines(title: &str, printed: &[u8]) {
    println!("{title}");
    for line in program::lines(printed) {
        println!("  {line}");
    }
}
