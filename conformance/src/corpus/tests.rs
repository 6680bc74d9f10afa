//! That the text is read as corpus/README.md says, and that a wrong answer is found.

use super::answer::Answer;
use super::check::Checker;
use super::export;
use super::file::read;
use super::walk::Found;
use crate::text;
use std::path::{Path, PathBuf};

fn folder() -> PathBuf {
    Path::new(env!("CARGO_MANIFEST_DIR")).join("../corpus")
}

fn text(name: &str) -> String {
    std::fs::read_to_string(folder().join(name)).unwrap()
}

/// The bytes of the only record of a text, and of its only request by call.
fn bytes(text: &str) -> Vec<u8> {
    let runs = read(&format!("call query\n{text}\n# answer: no 1\n")).unwrap();
    runs[0].requests[0].items[0].bytes.clone()
}

/// The line and the message of a text that is not understood.
fn message(text: &str) -> (usize, String) {
    let found = read(text).unwrap_err();
    (found.line, found.what)
}

const QUERY: &str = "query login 501 day 120 right 0";

#[test]
fn changes_of_a_record() {
    let whole = bytes(QUERY);
    assert_eq!(bytes(&format!("{QUERY}\n size 4")), whole[..4]);
    assert_eq!(bytes(&format!("{QUERY}\n size 14"))[13..], [0]);
    let changed = bytes(&format!("{QUERY}\n at 2 bytes 13 01 # the kind"));
    assert_eq!(changed[..4], [11, 0, 0x13, 1]);
    assert_eq!(changed[4..], whole[4..]);
    let longer = bytes("bytes 01 02\n more bytes 03\n size 4\n more bytes 05 06");
    assert_eq!(longer, [1, 2, 3, 0, 5, 6]);
}

#[test]
fn a_name_stands_for_a_record() {
    let named = bytes(&format!("let asked\n{QUERY}\n at 12 bytes 0f\nsame asked"));
    assert_eq!(named, bytes("query login 501 day 120 right 15"));
    let image =
        "let park\ncheckpoint cycle 1 day 1 trustees 1 1 m 0 k 1 S 1 ordinary 7 restart 2\n \
                 seat 0 present life 1\nsame park\nown seat 0 life 1 misses 3";
    assert_eq!(bytes(image).len(), 1144);
    assert_eq!(bytes(image)[1140..], [3, 0, 0, 0]);
}

#[test]
fn each_of_several_bytes() {
    let text = format!("call query\n{QUERY}\n each 4 to 6 bytes 09\n# answer: no 1\n");
    let runs = read(&text).unwrap();
    let all = runs[0].requests[0].items[0].all();
    let places: Vec<usize> = (0..13)
        .filter(|at| all.iter().any(|b| b[*at] == 9))
        .collect();
    assert_eq!((all.len(), places), (3, vec![4, 5, 6]));
}

const GIVEN_1: &str = "call page day 1\n# answer: given 1\n# page: x";
const GIVES_1: &str = "call import cycle 1 day 1\ntext |x|\n# answer: given 1\n# gives: announce x";
const OTHER_1: &str = "call import cycle 1 day 1\ntext |x|\n# answer: given 1\n# page: |x|";

#[test]
fn a_text_is_one_slice() {
    let lines = "text |501,\\x00\\\\|\ntext |# |\ntext |\\r\\n|";
    assert_eq!(bytes(lines), b"501,\0\\# \r\n");
    assert_eq!(bytes("text ||"), b"");
    assert_eq!(
        bytes("let two\ntext |a|\ntext |b|\nsame two\ntext |c|"),
        b"abc"
    );
    assert_eq!(bytes("text |abc|\n at 1 bytes 78\n size 2"), b"ax");
}

#[test]
fn messages_have_their_line() {
    for (text, line, what) in [
        ("start seat x life 1", 1, "a number (seat)"),
        ("\nsame park", 2, "nothing above is named `park`"),
        ("bytes 00\nrun", 2, "has no answer"),
        ("bytes 00\ncall query", 2, "has no answer"),
        ("bytes 00\n", 1, "has no answer"),
        ("bytes 00\n# answer: 2 no 1 0", 2, "the ordinal is 1"),
        ("bytes 00\n# answer: open", 2, "an ordinal, an answer"),
        ("bytes 00\n# answer: 1 shut 1", 2, "is expected"),
        ("call query\n# answer: 1 open 1", 2, "is expected"),
        ("call frobnicate", 1, "start, deliver, query, checkpoint"),
        ("call page", 1, "day N is expected"),
        ("call page day 4294967296", 1, "has 32 bits"),
        ("call import day 1", 1, "cycle N day N is expected"),
        ("call import cycle 4294967296 day 1", 1, "has 32 bits"),
        ("call page day 1\n# answer: given", 2, "given and a number"),
        ("call export\n# answer: given", 2, "given and a number"),
        ("call export\n# answer: given 9\nrun", 2, "are missing"),
        (GIVES_1, 4, "`cycle` is expected"),
        (OTHER_1, 4, "gives no such line"),
        ("text x", 1, "between two bars"),
        ("text |\\y|", 1, "\\xNN is expected"),
        ("text |\\x4g|", 1, "two hexadecimal digits"),
        ("call page day 1\n# answer: given 1\nrun", 2, "are missing"),
        ("call page day 1\n# answer: given 1", 2, "are missing"),
        (GIVEN_1, 3, "between two bars"),
        ("# page: |x|", 1, "gives no such line"),
        ("call checkpoint\n# answer: given 1", 2, "is expected"),
        ("call query rooms 3", 1, "room N"),
        ("bytes 00\n at 1 bytes 00", 2, "the bytes before it are 1"),
        ("bytes 00\n at 0 bytes 0", 2, "two hexadecimal digits"),
        ("at 0 bytes 00", 1, "is expected"),
    ] {
        require_message(text, line, what);
    }
}

fn require_message(text: &str, line: usize, what: &str) {
    let found = message(text);
    assert_eq!(found.0, line, "{text}: {}", found.1);
    assert!(found.1.contains(what), "{text}: {}", found.1);
}

#[test]
fn messages_about_shares_have_their_line() {
    let (split, merge) = ("call split k 2 n 2\n", "call merge k 2 n 2\n");
    for (text, line, what) in [
        ("call split n 3".to_string(), 1, "k N n N is expected"),
        ("call merge k 2".to_string(), 1, "k N n N is expected"),
        ("call merge k 2 n 4294967296".to_string(), 1, "has 32 bits"),
        (format!("{split}# answer: given"), 2, "given and a number"),
        (format!("{split}# answer: given 2\nrun"), 2, "are missing"),
        (format!("{merge}# answer: given 1"), 2, "given or no N is"),
        (format!("{merge}# answer: given\nrun"), 2, "are missing"),
        (
            format!("{split}# answer: given 2\n# share: 0"),
            3,
            "two hexadecimal digits",
        ),
        (
            format!("{split}# answer: given 2\n# key: 00"),
            3,
            "gives no such line",
        ),
        ("bytes 00\n more 00".to_string(), 2, "more bytes .."),
    ] {
        require_message(&text, line, what);
    }
}

#[test]
fn messages_about_sums_have_their_line() {
    for (answer, line, what) in [
        ("given", 4, "given and a number"),
        ("given 33\n# sum: 00", 4, "are missing"),
        ("given 1\n# share: 00", 5, "gives no such line"),
        ("given 0\n# sum: 00", 5, "gives no such line"),
    ] {
        require_message(&format!("{ADD}# answer: {answer}"), line, what);
    }
    require_message("call add k 2 n 3", 1, "room N");
}

fn names() -> Vec<String> {
    let entries = std::fs::read_dir(folder()).unwrap();
    let names = entries.map(|entry| entry.unwrap().file_name().into_string().unwrap());
    names.filter(|name| name.ends_with(".txt")).collect()
}

/// Those of rules, formats and hazards, with the printed run, the quorums, the pages and node-run's
/// input.
#[test]
fn every_file_is_read() {
    for name in names() {
        assert!(read(&text(&name)).is_ok(), "{name}");
    }
    assert_eq!(names().len(), 28 + 10 + 10 + 4);
}

#[test]
fn each_rule_has_a_file_that_reaches_it() {
    for rule in 1..=28 {
        let runs = read(&text(&format!("rule-{rule:02}.txt"))).unwrap();
        let mut requests = runs.iter().flat_map(|run| &run.requests);
        let met = requests.any(|request| request.answer == Answer::No(rule));
        assert!(met, "rule {rule}");
    }
}

/// A file without words of its own is a text of `records`.
#[test]
fn hazards_and_the_printed_run_compose() {
    let plain = |name: &&String| name.starts_with("hazard") || name.starts_with("printed");
    for name in names().iter().filter(plain) {
        let runs = read(&text(name)).unwrap();
        let run = export::only_run(&runs).unwrap();
        assert_eq!(text::compose(&text(name)), Ok(run.input()), "{name}");
    }
}

/// What the archive and the second implementation find in a text. There is no node-run here: a run
/// that is as it should be ends with that message.
fn found(text: &str) -> Found {
    let mut checker = Checker::new("no node-run".into()).unwrap();
    checker.file(&read(text).unwrap()).unwrap_err()
}

#[test]
fn each_changed_answer_is_found_at_its_line() {
    let text = text("rule-16.txt");
    assert!(found(&text).1.contains("no node-run"));
    let lines: Vec<&str> = text.lines().collect();
    let is_answer = |line: &usize| lines[*line].starts_with("# answer:");
    for line in (0..lines.len()).filter(is_answer) {
        let other = if lines[line].contains("no 18") {
            "no 8"
        } else {
            "no 18"
        };
        let changed = changed(&lines, line, other);
        assert_eq!(found(&changed).0, line + 1);
    }
}

/// The text with another answer on a line; the ordinal and the cycle stay.
fn changed(lines: &[&str], line: usize, answer: &str) -> String {
    let words: Vec<&str> = lines[line].split_whitespace().collect();
    let other = format!("# answer: {} {answer} {}", words[2], words[words.len() - 1]);
    let mut lines = lines.to_vec();
    lines[line] = &other;
    lines.join("\n") + "\n"
}

/// The line of the page in request A1.
const PAGE: &str = "# page: |       501 1970-05-01 A--------------- open   |";

/// page.txt up to the first page of this line, with another answer and another page. Gives the line
/// of the answer too.
fn example(answer: &str, page: &str) -> (usize, String) {
    let text = text("page.txt");
    let line = text.lines().position(|line| line == PAGE).unwrap();
    let before: Vec<&str> = text.lines().take(line - 1).collect();
    let changed = format!("{}\n# answer: {answer}\n{page}\n", before.join("\n"));
    (line, changed)
}

#[test]
fn each_changed_character_of_a_page_is_found() {
    let (_, same) = example("given 1", PAGE);
    assert!(found(&same).1.contains("no node-run"));
    let begin = "# page: |".len();
    for place in begin..begin + 46 {
        let mut other = PAGE.to_string();
        other.replace_range(place..=place, "x");
        let (line, changed) = example("given 1", &other);
        assert_eq!(found(&changed).0, line, "{other}");
    }
}

#[test]
fn a_changed_number_of_lines_is_found() {
    let twice = "# page: |x|\n# page: |x|";
    for (answer, page, wanted) in [
        ("given 0", "", 0),
        ("given 2", twice, 512),
        ("no 23", "", 23),
    ] {
        let what = format!("archive returns 256, wanted {wanted}");
        let (line, changed) = example(answer, page);
        assert_eq!(found(&changed), (line, what));
    }
}

#[test]
fn a_changed_cycle_is_found() {
    let text = text("printed-run.txt").replace("3 done 2", "3 done 3");
    assert!(found(&text).1.contains("the node's cycle is 2, wanted 3"));
}

#[test]
fn nothing_follows_the_end_of_a_run() {
    let text = "bytes 00\n# answer: 1 no 1 0\nbytes 00\n# answer: 2 no 1 0\n";
    assert_eq!(found(text), (4, "the run ended above".to_string()));
    let text = "bytes 00\n# answer: 1 open 0\n";
    assert!(found(text).1.contains("it ends the run"));
}

const ROSTER: &str = "call import cycle 10 day 101\ntext |501,1970-05-01,0001|\n";
const GRANT: &str = "announce cycle 10 day 101 grant login 501 end 120 rights 0";
const EXPORT: &str = "call export\nannounce cycle 1 day 1 grant login 501 end 120 rights 0\n";

#[test]
fn a_changed_announcement_is_found() {
    let import = |given: &str| found(&format!("{ROSTER}# answer: given 1\n# gives: {given}\n"));
    assert!(import(GRANT).1.contains("no node-run"));
    for (old, new) in [
        ("cycle 10", "cycle 11"),
        ("day 101", "day 102"),
        ("login 501", "login 502"),
        ("end 120", "end 121"),
        ("rights 0", "rights 1"),
    ] {
        let other = GRANT.replace(old, new);
        let what = format!("it writes `{GRANT}`, wanted `{other}`");
        assert_eq!(import(&other), (3, what));
    }
    let what = "archive returns 256, wanted 24".to_string();
    assert_eq!(found(&format!("{ROSTER}# answer: no 24\n")), (3, what));
}

#[test]
fn a_changed_line_of_a_roster_is_found() {
    let export = |line: &str| {
        let size = line.replace("\\r\\n", "--").len();
        found(&format!(
            "{EXPORT}# answer: given {size}\n# line: |{line}|\n"
        ))
    };
    let line = "501,1970-05-01,0001\\r\\n";
    assert!(export(line).1.contains("no node-run"));
    let what = format!("it writes |{line}|, wanted |501,1970-05-02,0001\\r\\n|");
    assert_eq!(export("501,1970-05-02,0001\\r\\n"), (3, what));
    let what = "archive returns 5376, wanted 4864".to_string();
    assert_eq!(export("501,1970-05-01,0001"), (3, what));
}

const SPLIT: &str = "call split k 2 n 3\nbytes 07\n size 32\nbytes 01\n size 32\n";
const MERGE: &str =
    "call merge k 2 n 3\nbytes 03 01\nbytes 04\n size 32\n more bytes 06\n size 64\n";

const ADD: &str = "call add\nbytes 06 00 ff\nbytes 02 00 01\n";

/// A byte as the first of 32, the others 0.
fn first_of_32(byte: &str) -> String {
    format!("{byte}{}", " 00".repeat(31))
}

#[test]
fn a_changed_share_is_found() {
    let split = |bytes: [&str; 3]| {
        let shares = bytes.map(|byte| format!("# share: {}\n", first_of_32(byte)));
        found(&format!("{SPLIT}# answer: given 3\n{}", shares.concat()))
    };
    assert!(split(["06", "05", "04"]).1.contains("no node-run"));
    let (written, wanted) = (first_of_32("05"), first_of_32("04"));
    let what = format!("it writes {written}, wanted {wanted}");
    assert_eq!(split(["06", "04", "05"]), (6, what));
    let what = "archive returns 768, wanted 28".to_string();
    assert_eq!(found(&format!("{SPLIT}# answer: no 28\n")), (6, what));
}

#[test]
fn a_changed_key_is_found() {
    let merge = |byte: &str| {
        let key = first_of_32(byte);
        found(&format!("{MERGE}# answer: given\n# key: {key}\n"))
    };
    assert!(merge("07").1.contains("no node-run"));
    let (written, wanted) = (first_of_32("07"), first_of_32("08"));
    let what = format!("it writes {written}, wanted {wanted}");
    assert_eq!(merge("08"), (7, what));
}

#[test]
fn a_changed_sum_is_found() {
    let add = |count: usize, sum: &str| {
        let text = format!("{ADD}# answer: given {count}\n# sum: {sum}\n");
        found(&text)
    };
    assert!(add(3, "04 00 fe").1.contains("no node-run"));
    let what = "it writes 04 00 fe, wanted 04 00 00".to_string();
    assert_eq!(add(3, "04 00 00"), (4, what));
    let what = "it writes 1 bytes more".to_string();
    assert_eq!(add(3, "04 00"), (4, what));
    let what = "archive returns 768, wanted 512".to_string();
    assert_eq!(add(2, "04 00"), (4, what));
    let what = "archive returns 768, wanted 28".to_string();
    assert_eq!(found(&format!("{ADD}# answer: no 28\n")), (4, what));
}

/// The calls of a text: a head of 16 bytes, then the slices.
#[test]
fn calls_for_c() {
    let runs = read(&text("printed-run.txt")).unwrap();
    let calls = export::calls(&runs).unwrap();
    assert_eq!(
        calls[..16],
        [0, 0, 0, 0, 84, 4, 0, 0, 9, 0, 0, 0, 0, 0, 0, 0]
    );
    let sizes = 1108 + 9 + (1144 + 24 + 7) + (1144 + 24 + 17) + 3 * (1144 + 13);
    assert_eq!(calls.len(), 6 * 16 + sizes);
}

/// The day of a page stands behind its image.
#[test]
fn a_page_for_c() {
    let runs = read(&example("given 0", "").1).unwrap();
    let calls = export::calls(&runs).unwrap();
    let page = &calls[calls.len() - (16 + 1144 + 4)..];
    assert_eq!(
        page[..16],
        [4, 0, 0, 0, 120, 4, 0, 0, 4, 0, 0, 0, 0, 0, 0, 0]
    );
    assert_eq!(page[16 + 1144..], [120, 0, 0, 0]);
}

/// The day and the cycle of a roster stand behind it.
#[test]
fn a_roster_for_c() {
    let runs = read(&format!(
        "{ROSTER}# answer: no 24\n{EXPORT}# answer: no 24\n"
    ))
    .unwrap();
    let calls = export::calls(&runs).unwrap();
    assert_eq!(
        calls[..16],
        [5, 0, 0, 0, 19, 0, 0, 0, 8, 0, 0, 0, 0, 0, 0, 0]
    );
    assert_eq!(calls[35..43], [101, 0, 0, 0, 10, 0, 0, 0]);
    let export = &calls[43..];
    assert_eq!(
        export[..16],
        [6, 0, 0, 0, 24, 0, 0, 0, 0, 0, 0, 0, 0, 0, 0, 0]
    );
    assert_eq!(export.len(), 16 + 24);
}

/// k and n of shares stand behind both slices; a sum has none.
#[test]
fn shares_for_c() {
    let text = [SPLIT, MERGE, ADD].map(|call| format!("{call}# answer: no 28\n"));
    let calls = export::calls(&read(&text.concat()).unwrap()).unwrap();
    let (split, others) = calls.split_at(16 + 32 + 32 + 8);
    let (merge, add) = others.split_at(16 + 2 + 64 + 8);
    assert_eq!(
        split[..16],
        [7, 0, 0, 0, 32, 0, 0, 0, 32, 0, 0, 0, 8, 0, 0, 0]
    );
    assert_eq!(split[80..], [2, 0, 0, 0, 3, 0, 0, 0]);
    assert_eq!(
        merge[..16],
        [8, 0, 0, 0, 2, 0, 0, 0, 64, 0, 0, 0, 8, 0, 0, 0]
    );
    assert_eq!(merge[16..18], [3, 1]);
    assert_eq!(merge[82..], [2, 0, 0, 0, 3, 0, 0, 0]);
    assert_eq!(add[..16], [9, 0, 0, 0, 3, 0, 0, 0, 3, 0, 0, 0, 0, 0, 0, 0]);
    assert_eq!(add[16..], [6, 0, 255, 2, 0, 1]);
}
