//! The programs as they are called: what they print, where, and their exit statuses.

use std::io::Write;
use std::path::{Path, PathBuf};
use std::process::{Command, Output, Stdio};

fn run(program: &str, arguments: &[&str], input: &[u8]) -> Output {
    let mut child = Command::new(program)
        .args(arguments)
        .stdin(Stdio::piped())
        .stdout(Stdio::piped())
        .stderr(Stdio::piped())
        .spawn()
        .unwrap();
    let mut stdin = child.stdin.take().unwrap();
    // Closed early where the program does not read it.
    let _ = stdin.write_all(input);
    drop(stdin);
    child.wait_with_output().unwrap()
}

/// Exit status, standard output and standard error.
fn printed(output: Output) -> (i32, String, String) {
    let text = |bytes| String::from_utf8(bytes).unwrap();
    let status = output.status.code().unwrap();
    (status, text(output.stdout), text(output.stderr))
}

fn records(arguments: &[&str], input: &[u8]) -> (i32, String, String) {
    printed(run(RECORDS, arguments, input))
}

const BENCH: &str = env!("CARGO_BIN_EXE_bench");
const COMPARE: &str = env!("CARGO_BIN_EXE_compare");
const FAULTS: &str = env!("CARGO_BIN_EXE_faults");
const PAPER_RUN: &str = env!("CARGO_BIN_EXE_paper_run");
const RECORDS: &str = env!("CARGO_BIN_EXE_records");

const START: &[u8] = &[7, 0, 19, 0, 5, 1, 0, 0, 0];

#[test]
fn help_is_printed_with_status_0() {
    for program in [BENCH, COMPARE, FAULTS, PAPER_RUN, RECORDS] {
        for word in ["--help", "-h"] {
            let (status, text, errors) = printed(run(program, &[word], b""));
            assert_eq!((status, errors.as_str()), (0, ""));
            assert!(text.starts_with("usage: "), "{text}");
        }
    }
}

/// Wrong words of each program, and what is said of them.
const WRONG: &[(&str, &[&str], &str)] = &[
    (BENCH, &["full"], "no word or four are expected"),
    (
        BENCH,
        &["big", "start", "paper", "1"],
        "big is not understood",
    ),
    (
        BENCH,
        &["full", "start", "paper", "x"],
        "x is not understood",
    ),
    (COMPARE, &[], "SEED and COUNT are expected"),
    (COMPARE, &["x", "1"], "x is neither an option nor a number"),
    (
        COMPARE,
        &["--fault", "nosuch", "1", "10"],
        "no fault is called nosuch",
    ),
    (
        COMPARE,
        &["1", "2", "--replay"],
        "nothing stands behind --replay",
    ),
    (
        COMPARE,
        &["1", "--replay", "file"],
        "--replay takes no SEED and COUNT",
    ),
    (
        FAULTS,
        &[],
        "--node-run PATH is needed for the faults of node-run",
    ),
    (
        FAULTS,
        &["--node-run"],
        "--node-run PATH is needed for the faults of node-run",
    ),
    (FAULTS, &["all"], "all is not understood"),
    (
        FAULTS,
        &["--node-run", "path", "more"],
        "more is not understood",
    ),
    (PAPER_RUN, &["file"], "file is not understood"),
    (RECORDS, &["print"], "print is not understood"),
    (RECORDS, &["compose", "file"], "file is not understood"),
    (
        RECORDS,
        &["show", "--picture"],
        "--picture is not understood",
    ),
    (
        RECORDS,
        &["roster"],
        "read or write is expected behind roster",
    ),
    (RECORDS, &["roster", "print"], "print is not understood"),
    (
        RECORDS,
        &["roster", "read", "10"],
        "CYCLE and DAY are expected behind roster read",
    ),
    (
        RECORDS,
        &["roster", "read", "10", "101", "more"],
        "more is not understood",
    ),
    (
        RECORDS,
        &["roster", "read", "4294967296", "101"],
        "4294967296 is not a cycle: 0 to 4294967295 is expected",
    ),
    (
        RECORDS,
        &["roster", "read", "+1", "101"],
        "+1 is not a cycle: 0 to 4294967295 is expected",
    ),
    (
        RECORDS,
        &["roster", "read", "10", "2026-02-29"],
        "2026-02-29 is not a day: 0 to 4294967295, or a date from 1970-01-01 to 2099-12-31",
    ),
    (
        RECORDS,
        &["roster", "write", "file"],
        "file is not understood",
    ),
];

#[test]
fn wrong_words_are_named_with_status_2() {
    for (program, words, message) in WRONG {
        let (status, text, errors) = printed(run(program, words, b""));
        assert_eq!((status, text.as_str()), (2, ""), "{words:?}");
        assert!(errors.contains(message), "{words:?}: {errors}");
        assert!(errors.contains("usage: "), "{words:?}: {errors}");
    }
}

#[test]
fn a_wrong_path_is_found_before_any_call() {
    for (program, words) in [
        (COMPARE, &["--node-run", "/no/such", "1", "1000000"][..]),
        (FAULTS, &["--node-run", "/no/such"]),
    ] {
        let (status, text, errors) = printed(run(program, words, b""));
        assert_eq!((status, text.as_str()), (2, ""));
        assert!(errors.contains("--node-run /no/such: "), "{errors}");
    }
}

/// A folder of its own for a test that keeps cases.
fn folder(name: &str) -> PathBuf {
    let name = format!("conformance-{}-{name}", std::process::id());
    let folder = std::env::temp_dir().join(name);
    std::fs::create_dir_all(&folder).unwrap();
    folder
}

fn compare_in(folder: &Path, words: &[&str]) -> (i32, String, String) {
    let mut compare = Command::new(COMPARE);
    printed(compare.args(words).current_dir(folder).output().unwrap())
}

#[test]
fn a_difference_has_status_1_and_is_kept_apart() {
    let folder = folder("kept");
    for file in ["compare-failure-1.txt", "compare-failure-1-2.txt"] {
        let (status, text, _) = compare_in(&folder, &["--fault", "StartWithMiss", "1", "1000"]);
        assert_eq!(status, 1);
        assert!(text.contains(&format!("kept in {file}: ")), "{text}");
        assert!(text.contains("\nstart seat "), "{text}");
        let (status, again, _) = compare_in(&folder, &["--replay", file]);
        assert_eq!(status, 0, "{again}");
        let words = ["--fault", "StartWithMiss", "--replay", file];
        let (status, again, _) = compare_in(&folder, &words);
        assert_eq!(status, 1, "{again}");
        assert!(again.contains("DIFFERENCE: "), "{again}");
    }
    std::fs::write(folder.join("bad"), "# why\njunk\n").unwrap();
    let (status, _, errors) = compare_in(&folder, &["--replay", "bad"]);
    assert_eq!(status, 2);
    assert_eq!(errors, "compare: bad: line 2: not a line of a case: junk\n");
    std::fs::remove_dir_all(&folder).unwrap();
}

#[test]
fn a_program_that_prints_anything_is_escaped() {
    let folder = folder("escaped");
    let words = ["--node-run", "/bin/cat", "3", "60000"];
    let (status, text, _) = compare_in(&folder, &words);
    assert_eq!(status, 1);
    let is_plain = |c: char| !c.is_control() || c == '\n';
    assert!(text.chars().all(is_plain), "{text:?}");
    let (status, _, errors) = compare_in(&folder, &["--replay", "compare-failure-3.txt"]);
    assert_eq!(status, 2, "{errors}");
    std::fs::remove_dir_all(&folder).unwrap();
}

#[test]
fn faults_refuses_a_program_that_differs_by_itself() {
    let (status, _, errors) = printed(run(FAULTS, &["--node-run", "/bin/cat"], b""));
    assert_eq!(status, 4);
    assert!(
        errors.contains("without a fault there is a difference"),
        "{errors}"
    );
}

#[test]
fn too_few_calls_have_status_3() {
    let (status, text, _) = printed(run(COMPARE, &["1", "1000"], b""));
    assert_eq!(status, 3);
    assert!(text.ends_with("no difference, not all met\n"), "{text}");
}

#[test]
fn faults_are_listed() {
    let (status, text, _) = printed(run(COMPARE, &["--faults"], b""));
    assert_eq!((status, text.lines().count()), (0, 1191));
    assert!(text.contains("\nMargin8: m may be 8\n"));
}

#[test]
fn compose_writes_bytes() {
    let (status, text, errors) = printed(run(
        RECORDS,
        &["compose"],
        b"\xef\xbb\xbfstart seat 5 life 1\n",
    ));
    assert_eq!((status, text.as_bytes(), errors.as_str()), (0, START, ""));
}

#[test]
fn compose_writes_nothing_where_a_word_is_not_understood() {
    let text = b"start seat 5 life 1\nstart seat 300 life 1\n";
    let message = "line 2, column 12: seat 300 does not fit: 0 to 255\n";
    let expected = (1, String::new(), message.to_string());
    assert_eq!(records(&["compose"], text), expected);
}

#[test]
fn compose_warns_of_what_is_malformed() {
    let text = "start seat 0 life 1\n\
        checkpoint cycle 1 day 100 trustees 1 1 m 0 k 1 S 30\n\
        seat 0 present life 1\nlogin 9 end 120 rights 0\nlogin 3 end 120 rights 0\n\
        query login 9 day 100 right 0\nsheet level-1 level-2 rows 32:1\n";
    let output = run(RECORDS, &["compose"], text.as_bytes());
    assert_eq!(output.status.code(), Some(0));
    assert_eq!(output.stdout.len(), 9 + 1108 + 13 + 12);
    let warnings =
        "records: line 2: malformed, its call answers 1: login 3 does not rise above 9, \
        at byte 478 of it\n\
        records: line 7: malformed, its call answers 2: seat 32 is not in 0 to 31, \
        at byte 7 of it\n";
    assert_eq!(String::from_utf8(output.stderr).unwrap(), warnings);
}

#[test]
fn show_prints_text() {
    let expected = (0, "start seat 5 life 1\n".to_string(), String::new());
    assert_eq!(records(&["show"], START), expected);
}

#[test]
fn show_ends_with_1_where_a_record_is_malformed() {
    let input = [START, &START[..8]].concat();
    let text = "start seat 5 life 1\n\
        # malformed: the input ends within a record of 9 bytes, \
        at byte 8 of these, 17 of the input\n\
        bytes 07 00 13 00 05 01 00 00\n";
    let expected = (1, text.to_string(), String::new());
    assert_eq!(records(&["show"], &input), expected);
    assert_eq!(records(&["show", "--image"], START).0, 1);
}

#[test]
fn show_of_text_says_so() {
    let (status, text, errors) = records(&["show"], b"start seat 5 life 1\n");
    assert_eq!((status, text.as_str()), (1, ""));
    assert!(
        errors.contains("looks like text: `records compose`"),
        "{errors}"
    );
}

#[test]
fn a_roster_is_read_and_written_back() {
    let roster = b"501,2026-12-31,00ff\r\n";
    let read = run(RECORDS, &["roster", "read", "10", "1970-04-12"], roster);
    assert_eq!((read.status.code(), read.stderr), (Some(0), Vec::new()));
    let shown = "announce cycle 10 day 101 grant login 501 end 20818 rights 0 1 2 3 4 5 6 7\n";
    assert_eq!(records(&["show"], &read.stdout).1, shown);
    let again = run(RECORDS, &["roster", "read", "10", "101"], roster);
    assert_eq!(again.stdout, read.stdout);
    let written = records(&["roster", "write"], &read.stdout);
    let expected = "501,2026-12-31,00FF\r\n".to_string();
    assert_eq!(written, (0, expected, String::new()));
}

#[test]
fn a_malformed_roster_ends_it_with_1() {
    let roster = b"501,2026-12-31,0001\r\n502,2026-13-31,0001\r\n";
    let message = "line 2, field 2 (end date): \"2026-13-31\" is not in the calendar\n";
    let expected = (1, String::new(), message.to_string());
    assert_eq!(records(&["roster", "read", "10", "101"], roster), expected);
    let message = "record 1, at byte 0: `start seat 5 life 1` is no grant\n";
    let expected = (1, String::new(), message.to_string());
    assert_eq!(records(&["roster", "write"], START), expected);
    let (status, _, errors) = records(&["roster", "write"], roster);
    assert_eq!(status, 1);
    assert!(errors.contains("looks like text: `records compose`"));
}

#[test]
fn a_closed_pipe_ends_it_quietly() {
    let text = "query login 1 day 1 right 0\n".repeat(100_000);
    let mut child = Command::new(RECORDS)
        .arg("compose")
        .stdin(Stdio::piped())
        .stdout(Stdio::piped())
        .stderr(Stdio::piped())
        .spawn()
        .unwrap();
    drop(child.stdout.take());
    child
        .stdin
        .take()
        .unwrap()
        .write_all(text.as_bytes())
        .unwrap();
    let output = child.wait_with_output().unwrap();
    assert_eq!((output.status.code(), output.stderr), (Some(0), Vec::new()));
}

#[test]
fn a_result_that_nobody_reads_is_no_success() {
    let mut child = Command::new(COMPARE)
        .args(["1", "1000"])
        .stdout(Stdio::piped())
        .stderr(Stdio::piped())
        .spawn()
        .unwrap();
    drop(child.stdout.take());
    let output = child.wait_with_output().unwrap();
    assert_eq!(
        (output.status.code(), output.stderr),
        (Some(141), Vec::new())
    );
}

#[test]
fn records_without_words_prints_the_page() {
    let (status, text, errors) = records(&[], b"");
    assert_eq!((status, errors.as_str()), (0, ""));
    assert!(text.starts_with("records: "));
}

#[test]
fn paper_run_prints_the_printed_run() {
    let package = Path::new(env!("CARGO_MANIFEST_DIR"));
    let input = std::fs::read(package.join("../examples/printed-run.bin")).unwrap();
    let lines = "1 started 1\n2 voted 1\n3 done 2\n4 open 2\n5 no 20 2\n6 no 18 2\n";
    let expected = (0, lines.to_string(), String::new());
    assert_eq!(printed(run(PAPER_RUN, &[], &input)), expected);
}
