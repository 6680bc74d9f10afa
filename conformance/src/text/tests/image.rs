//! Images as text.

use super::{cases, compose, first_checkpoint, old_checkpoint, show};
use crate::paper::{start, Answer};
use crate::text::{compose_bytes, show_image, warnings};

/// An image of the second implementation: after a vote and three bad queries at two doors.
fn voted() -> Vec<u8> {
    let bytes = |text: &str| compose(text).unwrap();
    let first = bytes(&first_checkpoint());
    let mut node = start(&first, &bytes("start seat 0 life 1")).unwrap();
    let announcement =
        bytes("announce cycle 1 day 101 propose minima m 0 k 3 S 40 ordinary 0 restart 5");
    let sheet = bytes("sheet level-1 0 level-2 rows");
    assert_eq!(node.deliver(&announcement, &sheet), Answer::Voted);
    let query = bytes("query login 777 day 100 right 0");
    assert_eq!(node.query(&query), Answer::No(19));
    assert_eq!(node.query(&query), Answer::No(19));
    let at_door_3 = bytes("query login 777 day 100 right 0 door 3");
    assert_eq!(node.query(&at_door_3), Answer::No(19));
    node.image()
}

#[test]
fn an_image_of_the_second_implementation() {
    let expected = first_checkpoint()
        + "own seat 0 life 1 misses 2 0 0 1\n"
        + "  voted announce cycle 1 day 101 propose minima m 0 k 3 S 40 ordinary 0 restart 5\n";
    let image = voted();
    for shown in [show(&image), show_image(&image)] {
        assert_eq!(shown.text, expected);
        assert!(!shown.malformed);
    }
    assert_eq!(compose(&expected), Ok(image));
}

#[test]
fn an_image_without_a_vote() {
    let text = first_checkpoint() + "own seat 2 life 4294967295 misses 10 9 0 1\n";
    let image = compose(&text).unwrap();
    assert_eq!(image.len(), 1144);
    assert_eq!(image[1140..], [10, 9, 0, 1]);
    assert_eq!(show(&image).text, text);
}

#[test]
fn misses_that_are_left_out_are_0() {
    for (misses, counts) in [
        ("4", [4, 0, 0, 0]),
        ("4 3", [4, 3, 0, 0]),
        ("4 3 2", [4, 3, 2, 0]),
    ] {
        let text = format!("{}own seat 0 life 1 misses {misses}", first_checkpoint());
        assert_eq!(compose(&text).unwrap()[1140..], counts);
    }
}

/// OwnFields parts that are malformed, and the comment that follows their bytes.
const MALFORMED: &str = "\
own seat 32 life 1 misses 0
  seat 32 is not in 0 to 31, at byte 0 of these, 1110
own seat 5 life 1 misses 0
  seat 5 is free, at byte 0 of these, 1110
own seat 0 life 0 misses 0
  life 0 is below 1, at byte 1 of these, 1111
own seat 0 life 1 misses 11
  misses 11 is not in 0 to 10, at byte 30 of these, 1140
own seat 0 life 1 misses 10 11
  misses 11 is not in 0 to 10, at byte 31 of these, 1141
own seat 0 life 1 misses 10 10 11
  misses 11 is not in 0 to 10, at byte 32 of these, 1142
own seat 0 life 1 misses 0 0 0 255
  misses 255 is not in 0 to 10, at byte 33 of these, 1143
own seat 0 life 1 misses 0 / voted announce cycle 2 day 101 end login 5
  the vote is of cycle 2, the checkpoint of 1, at byte 10 of these, 1120
own seat 0 life 1 misses 0 / voted announce cycle 1 day 101 remove seat 32
  seat 32 is not in 0 to 31, at byte 18 of these, 1128
";

#[test]
fn malformed_own_parts() {
    for (own, why) in cases(MALFORMED) {
        let image = compose(&(first_checkpoint() + &own)).unwrap();
        let shown = show(&image);
        let (checkpoint, own) = shown.text.split_at(first_checkpoint().len());
        assert_eq!(checkpoint, first_checkpoint());
        let comment = format!("# malformed: {why} of the input\nbytes ");
        assert!(own.starts_with(&comment), "{own}");
        assert!(shown.malformed);
    }
}

#[test]
fn a_malformed_checkpoint_of_an_image() {
    let mut image = voted();
    image[4] = 0;
    let text = show(&image).text;
    let comment = "# malformed: cycle 0 is below 1, at byte 4 of these, 4 of the input\n";
    assert!(text.starts_with(&format!("{comment}bytes 54 04 1a 00 00 00")));
    // The vote is not of that cycle either.
    assert!(text.contains("of 0, at byte 10 of these, 1120 of the input\nbytes "));
    assert_eq!(compose(&text), Ok(image));
}

/// The checkpoint is shown, and what stands behind it is named as what it is not.
#[test]
fn an_own_part_behind_a_checkpoint_of_kind_16() {
    let text = old_checkpoint() + "own seat 0 life 1 misses 3 0 0 0\n";
    let composed = compose_bytes(text.as_bytes()).unwrap();
    assert_eq!(composed.bytes.len(), 1142);
    let why = "an image has a checkpoint of kind 26, and the one above is of kind 16";
    let warning = format!("line 5: malformed, its call answers 1: {why}, at byte 0 of it");
    assert_eq!(warnings(&composed), [warning]);
    for shown in [show(&composed.bytes), show_image(&composed.bytes)] {
        let (checkpoint, own) = shown.text.split_at(old_checkpoint().len());
        assert_eq!(checkpoint, old_checkpoint());
        let comment =
            format!("# malformed: {why}, at byte 0 of these, 1108 of the input\nbytes 00");
        assert!(own.starts_with(&comment), "{own}");
        assert!(shown.malformed);
        assert_eq!(compose(&shown.text).as_ref(), Ok(&composed.bytes));
    }
}

/// Records behind a checkpoint of kind 16, of the bytes that an own part has.
#[test]
fn records_of_the_size_of_an_image_of_kind_16() {
    let text = old_checkpoint()
        + "sheet level-1 level-2 rows\nquery login 501 day 120 right 0\n\
           query login 501 day 120 right 0 door 3\n";
    let input = compose(&text).unwrap();
    assert_eq!(input.len(), 1142);
    assert_eq!(show(&input).text, text);
}

/// An image whose checkpoint is named kind 16 and nothing else.
#[test]
fn an_image_of_the_right_size_and_kind_16() {
    let mut image = voted();
    image[2] = 16;
    let shown = show_image(&image);
    let comment = "# malformed: kind 16 does not belong here, at byte 2 of these, 2 of the input\n";
    assert!(shown.text.starts_with(comment), "{}", shown.text);
    assert_eq!(compose(&shown.text), Ok(image));
}

#[test]
fn images_of_other_sizes() {
    let image = voted();
    // 1,141 bytes are those of an image without the misses of doors 1 to 3.
    for input in [
        &image[..1141],
        &image[..1142],
        &image[..1143],
        &[&image[..], &[0]].concat(),
        &[],
    ] {
        let shown = show_image(input);
        let why = format!("# malformed: an image has 1144 bytes, not {}", input.len());
        assert!(shown.text.contains(&why));
        assert!(shown.malformed);
        assert_eq!(compose(&shown.text).as_deref(), Ok(input));
    }
}

#[test]
fn records_of_the_size_of_an_image() {
    let sheet = "sheet level-1 level-2 rows\n";
    let queries = "query login 501 day 120 right 0\nquery login 501 day 120 right 0 door 3\n";
    let text = first_checkpoint() + sheet + queries;
    let input = compose(&text).unwrap();
    assert_eq!(input.len(), 1144);
    assert_eq!(show(&input).text, text);
    let text = sheet.to_string() + &first_checkpoint() + queries;
    let input = compose(&text).unwrap();
    assert_eq!(input.len(), 1144);
    assert_eq!(show(&input).text, text);
    assert!(show_image(&input).malformed);
}
