//! The version written for speed answers and writes as the second implementation does.

use crate::bench::measure::TUNED;
use crate::compare::call::{Calls, Request};
use crate::compare::make::random::Random;
use crate::compare::make::{evictions, lone_requests, rosters, settings, shares, sweeps};
use crate::compare::PAPER;

fn outcome(calls: &Calls, request: &Request) -> (u32, Vec<u8>) {
    let mut out = vec![0xa5; request.out];
    let number = calls.make(&request.image, &request.records, &mut out);
    (number, out)
}

fn compare(request: &Request) -> Result<(), String> {
    let (tuned, paper) = (outcome(&TUNED, request), outcome(&PAPER.calls, request));
    if tuned == paper {
        return Ok(());
    }
    Err(format!("{} for {}: {request:?}", tuned.0, paper.0))
}

#[test]
fn answers_as_the_second_implementation() {
    let mut rng = Random::new(1);
    let edges = [lone_requests::ends(), settings::edges(), evictions::edges()];
    for request in edges.iter().flatten() {
        compare(request).unwrap();
    }
    for _ in 0..20_000 {
        for request in lone_requests::requests(&mut rng) {
            compare(&request).unwrap();
        }
    }
}

#[test]
fn gives_every_date() {
    for request in lone_requests::dates().chain(rosters::dates()) {
        compare(&request).unwrap();
    }
}

#[test]
fn reads_and_writes_rosters() {
    let mut rng = Random::new(3);
    for request in rosters::edges() {
        compare(&request).unwrap();
    }
    for _ in 0..20_000 {
        compare(&rosters::any(&mut rng)).unwrap();
    }
    for base in rosters::bases(&mut rng) {
        rosters::damage(&base, &mut compare).unwrap();
        rosters::cuts(&base, &mut compare).unwrap();
        rosters::rooms(&base, &mut compare).unwrap();
    }
}

#[test]
fn splits_merges_and_adds_shares() {
    let mut rng = Random::new(4);
    for request in shares::edges().chain(shares::products()) {
        compare(&request).unwrap();
    }
    for _ in 0..20_000 {
        compare(&shares::any(&mut rng)).unwrap();
    }
}

#[test]
fn answers_so_on_damaged_input() {
    let mut rng = Random::new(2);
    for base in sweeps::bases(&mut rng) {
        sweeps::sweep(&mut rng, &base, &mut compare).unwrap();
    }
}
