//! That keys which do not come back are seen (request A9), and sums that are none (request A10).

use crate::compare::call::{Outcome, Records, Renewal};
use crate::compare::check::renewals::{run, same_key, same_shares};
use crate::compare::check::shares::{merged_alike, round_trip};
use crate::compare::make::random::Random;
use crate::compare::make::renewals::{all, arrangements};
use crate::compare::{FAULTY, PAPER};
use crate::faulty;
use crate::layout::KEY_SIZE;

fn outcome(written: Vec<u8>) -> Outcome {
    Outcome {
        number: 0,
        count: 0,
        written: Some(written),
    }
}

/// What comes of a split and a merge of 2 of 3, each with the bytes that it wrote. The key and the
/// shares are of one byte, 32 times.
fn shares_back(shares: [u8; 3], key: u8) -> [Result<(), String>; 2] {
    let shares = shares.map(|byte| [byte; KEY_SIZE]);
    let split = Records::Split {
        key: vec![key; KEY_SIZE],
        k: 2,
        n: 3,
        coefficients: Vec::new(),
    };
    let merge = Records::Merge {
        k: 2,
        n: 3,
        numbers: vec![3, 1],
        shares: [shares[2], shares[0]].concat(),
    };
    [
        round_trip(&split, &outcome(shares.concat())),
        round_trip(&merge, &outcome(vec![key; KEY_SIZE])),
    ]
}

#[test]
fn keys_that_do_not_come_back_are_seen() {
    assert_eq!(shares_back([6, 5, 4], 7), [Ok(()), Ok(())]);
    let [split, merge] = shares_back([6, 5, 4], 8);
    let what = "the shares give another key back";
    assert_eq!(split, Err(what.to_string()));
    let what = "the shares in another order give another key";
    assert_eq!(merge, Err(what.to_string()));
}

#[test]
fn sums_that_are_none_are_seen() {
    let run = |byte: u8, size: usize| vec![byte; size];
    let back = |sum: Vec<u8>| {
        let size = sum.len();
        round_trip(&Records::Add(run(6, size), run(5, size)), &outcome(sum))
    };
    for size in [0, 1, 32, 64, 512, 600] {
        assert_eq!(back(run(3, size)), Ok(()));
    }
    let mut other = run(3, 64);
    other[63] = 2;
    let what = "the sum with its second run is not the first one";
    assert_eq!(back(other), Err(what.to_string()));
}

#[test]
fn sums_that_are_merged_to_another_key_are_seen() {
    let bytes: Vec<u8> = (0..64).collect();
    let merged = |sum: &[u8]| merged_alike(&bytes, &[7; 64], sum);
    let mut sum: Vec<u8> = bytes.iter().map(|byte| byte ^ 7).collect();
    assert_eq!(merged(&sum), Ok(()));
    sum[40] ^= 1;
    let what = "the sum is merged to another key than the sum of both";
    assert_eq!(merged(&sum), Err(what.to_string()));
}

#[test]
fn a_renewal_that_gives_another_key_is_seen() {
    assert_eq!(same_key(&[1, 2], &[1, 2]), Ok(()));
    let what = "the shares of the sum give another key than the keys' sum";
    assert_eq!(same_key(&[1, 2], &[1, 3]), Err(what.to_string()));
    assert_eq!(same_shares(&[1, 2], &[1, 2]), Ok(()));
    let what = "the sum is no shares of the keys' sum";
    assert_eq!(same_shares(&[1, 2], &[1, 3]), Err(what.to_string()));
}

/// Keys 7, 0 and 5 with coefficients 1, 0 and 2, each byte 32 times: the first round changes nothing.
fn renewal() -> Renewal {
    let splits = [(7, 1), (0, 0), (5, 2)];
    Renewal {
        k: 2,
        n: 3,
        numbers: vec![3, 1],
        splits: splits
            .map(|(key, byte)| (vec![key; KEY_SIZE], vec![byte; KEY_SIZE]))
            .into(),
    }
}

#[test]
fn a_renewal_is_run_call_by_call() {
    let (mut names, mut first_bytes) = (Vec::new(), Vec::new());
    let others = run(&PAPER, &renewal(), &mut |request, outcome| {
        names.push(request.records.name());
        first_bytes.extend(outcome.written.iter().map(|written| written[0]));
    });
    let round = ["split", "add", "split", "merge", "merge"];
    let all = [&["split", "merge"], &round[..], &round[..]].concat();
    assert_eq!(names, all);
    // Share 1 of the first key is 6, of the others 0 and 7. The second round leaves key 2; with a share of
    // before it another key comes out.
    assert_eq!(first_bytes[..7], [6, 7, 0, 6, 6, 7, 7]);
    assert_eq!(first_bytes[7..11], [7, 1, 1, 2]);
    assert_eq!(others, Ok(1));
}

#[test]
fn a_wrong_sum_in_a_renewal_is_seen() {
    faulty::set(faulty::find("AddFirst"));
    let found = run(&FAULTY, &renewal(), &mut |_, _| {});
    faulty::set(None);
    let what = "answer 0: output byte 0 is 1 from archive, 6 from paper";
    assert_eq!(found, Err(what.to_string()));
}

#[test]
fn every_choice_of_share_numbers() {
    assert_eq!(
        arrangements(2, 3),
        [[1, 2], [1, 3], [2, 1], [2, 3], [3, 1], [3, 2]]
    );
    assert_eq!(arrangements(4, 6).len(), 6 * 5 * 4 * 3);
    let renewals = all(&mut Random::new(1));
    assert_eq!(renewals.len(), 120 * 4 + 6 + 12 + 24 + 60 + 360);
}
