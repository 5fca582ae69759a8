//! Adding to a tally.

use crate::memory::Memory;
use crate::{Run, Test};
use meltusk::{tally_add, Seen};
use second::random::Random;
use second::types::TALLY_LIMIT;

const KINDS: [&str; 5] = [
    "tally: 10 by rr alone",
    "tally: 10 by sr alone",
    "tally: 10 by rw alone",
    "tally: 10^12 itself",
    "tally: a sum past 64 bits",
];

/// Small, near the limit, or near the end of the word.
fn number(r: &mut Random) -> u64 {
    match r.below(8) {
        0 => 0,
        1 => TALLY_LIMIT,
        2 => TALLY_LIMIT + 1 + r.below(3) as u64,
        3 => TALLY_LIMIT - r.below(5) as u64,
        4 => u64::MAX - r.below(3) as u64,
        5 => r.next(),
        _ => r.next() % (TALLY_LIMIT / 4),
    }
}

/// What brings `t` to the limit or past it by one, or any number.
fn more(r: &mut Random, t: u64) -> u64 {
    match r.below(4) {
        0 => TALLY_LIMIT.wrapping_sub(t),
        1 => TALLY_LIMIT.wrapping_sub(t).wrapping_add(1),
        2 => number(r),
        _ => r.below(1000) as u64,
    }
}

fn one(run: &mut Run, old: [u64; 3], report: [u64; 3]) -> Result<u32, String> {
    let mut tally = second::Tally {
        rr: old[0],
        sr: old[1],
        rw: old[2],
    };
    let counts = second::Counts::new(report[0], report[1], report[2]);
    let expected = second::tally_add(&mut tally, &counts);
    // Of its own seed: the numbers of a case do not depend on its guards.
    let guards = &mut Random::new(run.seen.calls);
    let mut ours = Memory::new(guards, &[&old[..1], &old[1..2], &old[2..]]);
    let mut theirs = ours.clone();
    let answer =
        ours.lend(|[rr, sr, rw]| tally_add(&mut rr[0], &mut sr[0], &mut rw[0], &counts.into()));
    theirs.lend(|[rr, sr, rw]| [rr[0], sr[0], rw[0]] = [tally.rr, tally.sr, tally.rw]);
    if answer != expected || !ours.equals(&theirs) {
        let numbers = ours.compared(&theirs, &["rr", "sr", "rw"]);
        return Err(format!(
            "{old:?} and {report:?}: {answer}, expected {expected} {tally:?}; {numbers}"
        ));
    }
    note(&mut run.seen, old, report, answer);
    Ok(answer)
}

fn note(seen: &mut Seen, old: [u64; 3], report: [u64; 3], answer: u32) {
    seen.answer("tally_add", answer);
    let sums: [Option<u64>; 3] = std::array::from_fn(|i| old[i].checked_add(report[i]));
    let over = sums.map(|sum| sum.is_none_or(|s| s > TALLY_LIMIT));
    for i in 0..3 {
        seen.kind((0..3).all(|j| over[j] == (i == j)), KINDS[i]);
    }
    let reached = answer == 0 && sums.contains(&Some(TALLY_LIMIT));
    seen.kind(reached, KINDS[3]);
    seen.kind(sums.contains(&None), KINDS[4]);
}

fn single(run: &mut Run) -> Result<(), String> {
    run.cases(60, 200_000, |run, r| {
        let old = [number(r), number(r), number(r)];
        let report = [more(r, old[0]), more(r, old[1]), more(r, old[2])];
        one(run, old, report).map(|_| ())
    })
}

/// One number alone is out of range.
fn alone(run: &mut Run) -> Result<(), String> {
    run.cases(61, 30_000, |run, r| {
        let mut old = [0; 3].map(|_| r.next() % (TALLY_LIMIT / 2));
        let mut report = [0; 3].map(|_| r.next() % (TALLY_LIMIT / 2));
        let i = r.below(3);
        old[i] = number(r);
        report[i] = more(r, old[i]);
        one(run, old, report).map(|_| ())
    })
}

/// Many reports into one tally, until it is full.
fn lists(run: &mut Run) -> Result<(), String> {
    run.cases(62, 200, |run, r| {
        let mut tally = [0u64; 3];
        for _ in 0..100 {
            let report = [0; 3].map(|_| r.next() % (TALLY_LIMIT / 50));
            if one(run, tally, report)? == 0 {
                tally = std::array::from_fn(|i| tally[i] + report[i]);
            }
        }
        Ok(())
    })
}

fn every_answer(run: &mut Run) -> Result<(), String> {
    run.seen.complete(&[("tally_add", &[0, 10])], &KINDS)
}

pub const TESTS: &[(&str, Test)] = &[
    ("tally: any numbers", single),
    ("tally: one number alone out of range", alone),
    ("tally: lists of reports", lists),
    ("tally: every answer has occurred", every_answer),
];
