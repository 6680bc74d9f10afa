//! Every message of compose has its place.

use super::{cases, compose, first_checkpoint};
use crate::text::{compose_bytes, Error, Place};

fn error(line: usize, column: usize, what: &str) -> Error {
    Place { line, column }.error(what)
}

/// Texts of one line, each with the column of its message and the message. A column is a character,
/// whatever its bytes.
const LINES: &str = "\
strat seat 0
  1: `strat` is not understood: start, checkpoint, announce, sheet, query, own or bytes is expected
start seat 256 life 1
  12: seat 256 does not fit: 0 to 255
start seat 0
  13: the line ends: `life` is expected
start seat 0 life  # 1
  18: the line ends: a number (life) is expected
start seat x life 1
  12: `x` is not understood: a number (seat) is expected
start seat -1 life 1
  12: `-1` is not understood: a number (seat) is expected
start seat +1 life 1
  12: `+1` is not understood: a number (seat) is expected
start life 0 seat 1
  7: `life` is not understood: `seat` is expected
start seat 0 life 1 now
  21: `now` is not understood: the end of the line is expected
start seat 0 life 4294967296
  19: life 4294967296 does not fit: 0 to 4294967295
start seat 99999999999999999999 life 1
  12: seat 99999999999999999999 does not fit: 0 to 255
query login 1 day 2 right 256
  27: right 256 does not fit: 0 to 255
query login 1 day 2 right 0 door
  33: the line ends: a number (door) is expected
query login 1 day 2 right 0 door 256
  34: door 256 does not fit: 0 to 255
query login 1 day 2 door 0
  21: `door` is not understood: `right` is expected
query login 1 day 2 right 0 door 1 2
  36: `2` is not understood: the end of the line is expected
announce cycle 1 day 2
  23: the line ends: one of the nine actions (`records` lists them) is expected
announce cycle 1 day 2 granted
  24: `granted` is not understood: one of the nine actions (`records` lists them) is expected
announce cycle 1 day 2 grant login 5 end 6 rights 0 16
  53: rights 16 does not fit: 0 to 15
announce cycle 1 day 2 grant login 5 end 6 rights 3 3
  53: rights 3 is named twice
announce cycle 1 day 2 grant login 5 end 6 rights 0,3
  51: `0,3` is not understood: a number (rights) is expected
announce cycle 1 day 2 minima m 0 k 1 S 65536
  41: S 65536 does not fit: 0 to 65535
announce cycle 1 day 2 minima m 0 k 1 S 30 ordinary 256 restart 0
  53: ordinary 256 does not fit: 0 to 255
announce cycle 1 day 2 minima m 0 k 1 S 30 ordinary 5
  54: the line ends: `restart` is expected
announce cycle 1 day 2 minima m 0 k 1 S 30 restart 5
  44: `restart` is not understood: the end of the line is expected
announce cycle 1 day 2 propose
  31: the line ends: certify, minima, remove or rejoin is expected
announce cycle 1 day 2 propose grant login 5 end 6 rights 0
  32: `grant` has 10 argument bytes, a subject 8
announce cycle 1 day 2 propose propose remove seat 1
  32: `propose` is not understood: certify, minima, remove or rejoin is expected
sheet level-1 8 level-2 rows
  15: level-1 8 does not fit: 0 to 7
sheet level-1 0 level-2 1 1 rows
  27: level-2 1 is named twice
sheet level-1 level-2
  22: the line ends: `rows` is expected
sheet level-1 0 rows
  17: `rows` is not understood: `level-2` is expected
sheet level-1 level-2 rows 0
  28: `0` is not understood: a row seat:life is expected
sheet level-1 level-2 rows 0:1 256:1
  32: seat 256 does not fit: 0 to 255
sheet level-1 level-2 rows 12:x
  31: `x` is not understood: a number (life) is expected
sheet level-1 level-2 rows 12:
  31: nothing stands here: a number (life) is expected
sheet level-1 level-2 rows 1:1 x
  32: `x` is not understood: the end of the line is expected
bytes
  6: the line ends: a byte is expected
bytes 16 0
  10: `0` is not understood: a byte of two hexadecimal digits is expected
bytes 16 +1
  10: `+1` is not understood: a byte of two hexadecimal digits is expected
bytes \u{e9}
  7: `\u{e9}` is not understood: a byte of two hexadecimal digits is expected
\u{a0}strat \u{e9}
  2: `strat` is not understood: start, checkpoint, announce, sheet, query, own or bytes is expected
seat 0 present life 1
  1: `seat` is a line of a checkpoint, and none is above it
login 5 end 6 rights 0
  1: `login` is a line of a checkpoint, and none is above it
voted announce cycle 1
  1: `voted` is a line of `own`, and none is above it
end login 5
  1: `end` is an action: `announce cycle .. day ..` comes first
checkpoint cycle 1 day 100 trustees 1 m 0 k 2 S 30
  39: `m` is not understood: a number (trustees) is expected
checkpoint cycle 1 day 100 trustees 1 1 m 0 k 2 S 30 ordinary 7
  64: the line ends: `restart` is expected
checkpoint cycle 1 day 100 trustees 1 1 m 0 k 2 S 30 restart 2
  54: `restart` is not understood: the end of the line is expected
checkpoint cycle 1 day 100 trustees 1 1 m 0 k 2 S 30 ordinary 7 restart 256
  73: restart 256 does not fit: 0 to 255
own seat 0 life 1 misses 0
  1: `own` makes an image of one checkpoint (1110 bytes) above it: 0 bytes are above it
";

#[test]
fn lines() {
    for (text, expected) in cases(LINES) {
        let (column, what) = expected.split_once(": ").unwrap();
        let column = column.parse().unwrap();
        assert_eq!(compose(&text), Err(error(1, column, what)), "{text}");
        let later = format!("# one\nstart seat 0 life 1\n\n{text}\nstart\n");
        let found = compose(&later).unwrap_err();
        assert_eq!(found.place, Place { line: 4, column });
    }
}

/// Lines below the four of a checkpoint, with line and column of the message and the message.
const BLOCKS: &str = "\
own seat 0 life 1
  5:18: the line ends: `misses` is expected
  seat 32 present life 1
  5:8: seat 32 does not fit: 0 to 31
  seat 2 free life 0
  5:8: seat 2 is named twice
  seat
  5:7: the line ends: a seat is expected
  seat 3
  5:9: the line ends: a standing is expected
  seat 3 here life 1
  5:10: `here` is not understood: free, certified, present, retired or `standing` and a number is expected
  seat 3 standing 256 life 1
  5:19: standing 256 does not fit: 0 to 255
  seat 3 free life 0 0
  5:22: `0` is not understood: the end of the line is expected
  proposal cycle 0 day 90 end
  5:30: the line ends: `login` is expected
  login 5 rights 0
  5:11: `rights` is not understood: `end` is expected
own seat 0 life 1 misses 256
  5:26: misses 256 does not fit: 0 to 255
own seat 0 life 1 misses 0 256
  5:28: misses 256 does not fit: 0 to 255
own seat 0 life 1 misses 0 0 0 0 0
  5:34: `0` is not understood: the end of the line is expected
own seat 0 life 1 misses 0 / voted start
  6:7: `start` is not understood: `announce` is expected
own seat 0 life 1 misses 0 /  / start seat 0 life 1
  7:1: an image ends with its own part
start seat 0 life 1 /  own seat 0 life 1 misses 0
  6:2: `own` makes an image of one checkpoint (1110 bytes) above it: 1119 bytes are above it
";

#[test]
fn blocks() {
    for (rows, expected) in cases(BLOCKS) {
        let Error { place, what } = compose(&(first_checkpoint() + &rows)).unwrap_err();
        let found = format!("{}:{}: {what}", place.line, place.column);
        assert_eq!(found, expected, "{rows}");
    }
}

#[test]
fn tables_that_are_full() {
    let proposals = "proposal cycle 1 day 1 remove seat 0\n".repeat(17);
    let found = compose(&(first_checkpoint() + &proposals));
    let what = "no row is left: a checkpoint has 16 for `proposal`";
    assert_eq!(found, Err(error(21, 1, what)));
    let logins = "login 1 end 1 rights 0\n".repeat(65);
    let found = compose(&(first_checkpoint() + &logins));
    let what = "no row is left: a checkpoint has 64 for `login`";
    assert_eq!(found, Err(error(69, 1, what)));
    let sheet = |rows| format!("sheet level-1 level-2 rows{}", " 0:1".repeat(rows));
    assert_eq!(compose(&sheet(255)).unwrap().len(), 7 + 5 * 255);
    let what = "the row count does not fit: 0 to 255";
    assert_eq!(compose(&sheet(256)), Err(error(1, 28 + 4 * 255, what)));
}

#[test]
fn not_text() {
    let found = compose_bytes(b"start seat 0 life 1\n\xc3\xa9 \xff");
    assert_eq!(found, Err(error(2, 3, "the input is not text in UTF-8")));
    let shown = compose("start\nstart").unwrap_err().to_string();
    assert_eq!(shown, "line 1, column 6: the line ends: `seat` is expected");
}
