//! The planted faults as the build reads and applies them: an edit that does not fit is named.

#[path = "../build/copy.rs"]
mod copy;
#[path = "../build/edits.rs"]
mod edits;

use std::path::Path;

/// The copy of src/paper with the faults of a text, or the message that the build would fail with.
fn copied(text: &str) -> Result<String, String> {
    let faults = edits::read("some.edits", text)?;
    let source = Path::new(env!("CARGO_MANIFEST_DIR")).join("src");
    copy::with_switches(&source, &faults)
}

const MARGIN: &str = "old: require(margin <= 7)?;\nnew: require(margin <= 8)?;\n";

#[test]
fn an_edit_gets_a_body_of_its_own() {
    let text = format!("# Eight: m may be 8\nfile: announcement.rs\n{MARGIN}");
    let copy = copied(&text).unwrap();
    assert_eq!(copy.matches("require(margin <= 7)?;").count(), 1);
    assert_eq!(copy.matches("require(margin <= 8)?;").count(), 1);
    assert_eq!(copy.matches("match crate::faulty::number()").count(), 1);
    assert!(!copy.contains("mod tests"));
}

#[test]
fn an_edit_that_does_not_fit_is_named() {
    let begin = "faults/some.edits, line 1: Eight: ";
    let fault = |edit: &str| {
        copied(&format!("# Eight: m may be 8\n{edit}"))
            .err()
            .unwrap()
    };
    let missing = fault(&format!("file: minima.rs\n{MARGIN}"));
    assert_eq!(missing, format!("{begin}src/paper has no module minima.rs"));
    let gone = fault("file: announcement.rs\nold: require(margin <= 9)?;\nnew:\n");
    let what = "old occurs 0 times in announcement.rs, not once: require(margin <= 9)?;";
    assert_eq!(gone, format!("{begin}{what}"));
    let twice = fault("file: announcement.rs\nold: let seat = reader.seat()?;\nnew:\n");
    let what = "old occurs 3 times in announcement.rs, not once: let seat = reader.seat()?;";
    assert_eq!(twice, format!("{begin}{what}"));
    let outside = fault("file: image.rs\nold: pub const SIZE: usize = 1144;\nnew:\n");
    let what = "old stands outside a function of image.rs: pub const SIZE: usize = 1144;";
    assert_eq!(outside, format!("{begin}{what}"));
}

#[test]
fn a_line_that_is_not_understood_is_named() {
    let message = |text: &str| copied(text).err().unwrap();
    let line = |number: usize, what: &str| format!("faults/some.edits, line {number}: {what}");
    assert_eq!(message("old: x\n"), line(1, "no `# NAME: ..` is above"));
    assert_eq!(message("# A: b\nnew: x\n"), line(2, "no old: is above"));
    assert_eq!(
        message("# A: b\nnow: x\n"),
        line(2, "`now:` is not #, file:, old: or new:")
    );
    assert_eq!(message("# A\n"), line(1, "`# NAME: ..` is expected"));
    let whole = "A has no pair of old and new";
    assert_eq!(message("# A: b\nfile: run.rs\nold: x\n"), line(1, whole));
}

#[test]
fn names_are_not_given_twice() {
    let faults = Path::new(env!("CARGO_MANIFEST_DIR")).join("faults");
    let faults = edits::read_folder(&faults).unwrap();
    assert_eq!(edits::listed(&faults).lines().count(), 2 + faults.len());
}
