//! The printed run and the demo input.

use super::{compose, file, show, PRINTED_RUN};
use crate::layout::ACTIONS;
use crate::paper::announcement::Announcement;
use crate::paper::{start, Answer, Node};
use crate::text::{compose_bytes, USAGE};

#[test]
fn the_printed_run() {
    let kept = file("../examples/printed-run.bin");
    assert_eq!(compose(PRINTED_RUN), Ok(kept.clone()));
    let shown = show(&kept);
    assert_eq!(shown.text, PRINTED_RUN);
    assert!(!shown.malformed);
}

fn demo() -> String {
    String::from_utf8(file("../examples/demo.txt")).unwrap()
}

#[test]
fn the_demo_begins_with_the_printed_run() {
    let input = compose(&demo()).unwrap();
    assert!(input.starts_with(&file("../examples/printed-run.bin")));
}

#[test]
fn the_demo_is_shown_back() {
    let input = compose(&demo()).unwrap();
    let shown = show(&input);
    assert_eq!(compose(&shown.text), Ok(input));
    let without_comments = |text: &str| -> Vec<String> {
        let lines = text.lines().filter(|l| !l.starts_with('#'));
        lines.filter(|l| !l.is_empty()).map(String::from).collect()
    };
    let (written, back) = (without_comments(&demo()), without_comments(&shown.text));
    let changed: Vec<_> = written.iter().zip(&back).filter(|(a, b)| a != b).collect();
    assert_eq!(written.len(), back.len());
    assert!(changed.iter().all(|(_, back)| back.starts_with("bytes ")));
    assert_eq!(changed.len(), 2);
}

/// The records of a well-formed input.
fn records(mut rest: &[u8]) -> Vec<&[u8]> {
    let mut records = Vec::new();
    while let [low, high, ..] = *rest {
        let size = 2 + usize::from(u16::from_le_bytes([low, high]));
        let (record, behind) = rest.split_at(size);
        records.push(record);
        rest = behind;
    }
    records
}

/// The restart is from what hub 1 would give, if it performs what the demo's hub performed.
#[test]
fn the_restart_is_from_a_checkpoint_of_the_park() {
    let demo = demo();
    let (run, restart) = demo.split_at(demo.rfind("start seat").unwrap());
    let run = compose(run).unwrap();
    let restart = compose(restart.split("# answer").next().unwrap()).unwrap();
    let records = records(&run);
    let seat_1 = compose("start seat 1 life 1").unwrap();
    let mut hub: Node = start(records[1], &seat_1).unwrap();
    let is_delivery = |pair: &&[&[u8]]| Announcement::read(pair[0]).is_ok();
    let pairs = records.windows(2).filter(is_delivery);
    let answers: Vec<Answer> = pairs.map(|pair| hub.deliver(pair[0], pair[1])).collect();
    let done = answers.iter().filter(|answer| **answer == Answer::Done);
    assert_eq!(done.count(), 5);
    assert_eq!(hub.checkpoint(), restart[9..]);
}

#[test]
fn the_usage_shows_each_action() {
    let is_action = |line: &&str| {
        let first = line.split_whitespace().next();
        line.starts_with("  ") && ACTIONS.iter().any(|(name, _)| first == Some(*name))
    };
    let shown: Vec<&str> = USAGE.lines().filter(is_action).collect();
    assert_eq!(shown.len(), 9);
    for (line, kind) in shown.iter().zip(1..) {
        let action = line.trim().split("   ").next().unwrap();
        let bytes = compose(&format!("announce cycle 1 day 101 {action}")).unwrap();
        assert_eq!(Announcement::read(&bytes).unwrap().kind, kind);
    }
}

#[test]
fn comments_blank_lines_and_layout() {
    let plain = compose(PRINTED_RUN).unwrap();
    let spaced = PRINTED_RUN
        .replace('\n', "  # why\r\n\r\n \t# more\n")
        .replace(' ', " \t");
    let composed = compose_bytes(spaced.as_bytes()).unwrap();
    assert_eq!(composed.bytes, plain);
    assert_eq!(compose(&PRINTED_RUN.replace("  seat", "seat")), Ok(plain));
    assert_eq!(compose(" # nothing\n\n"), Ok(Vec::new()));
}
