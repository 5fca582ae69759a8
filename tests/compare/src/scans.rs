//! Scans where partitions are empty: an empty one has no block, the first block
//! read is the random read, wherever it is, and no block is no read.

use crate::calls::{Asked, Outcome, Pair};
use crate::inputs;
use crate::{Run, Test};
use meltusk::{Call, Column, Counts, Library, Slots, Step};
use second::random::Random;
use second::{Delivery, DIRECTORY_LEN, FENCES, LENGTHS};

/// Growers of partition p: above the fence before it, up to its own.
const GROWERS: u32 = 10;

fn fence(p: usize) -> u32 {
    GROWERS * (p as u32 + 1)
}

/// A sound column of at most 64 partitions, about one of two empty.
fn gapped(r: &mut Random) -> Column {
    let most = r.pick(&[1, 2, 3, 4, 6, 64]);
    let k = r.within(1, most);
    let mut column = Column {
        directory: vec![0; DIRECTORY_LEN],
        growers: Vec::new(),
        weights: Vec::new(),
        yields: Vec::new(),
        days: Vec::new(),
    };
    column.directory[..2].copy_from_slice(&[r.within(1, 4) as u32, k as u32]);
    for p in 0..k {
        let n = if r.one_in(2) { 0 } else { r.within(1, 9) };
        column.directory[LENGTHS + p] = n as u32;
        column.directory[FENCES + p] = fence(p);
        for _ in 0..n {
            let below = r.below(GROWERS as usize) as u32;
            column.growers.push(fence(p) - below);
            column.weights.push(inputs::weight(r));
            column.yields.push(inputs::oil_yield(r));
            column.days.push(inputs::day(r));
        }
    }
    let slots = column.growers.len() + r.within(1, 3);
    column.resize(slots);
    column
}

/// The block length, and the lengths of the partitions.
fn shape(pair: &Pair) -> (u32, Vec<u32>) {
    let view = pair.view();
    let lengths = (0..view.partitions()).map(|p| view.length(p) as u32);
    (view.directory[0], lengths.collect())
}

/// The reads of partitions of these lengths, their blocks counted off.
fn reads(lengths: &[u32], block: u32) -> Counts {
    let of = |n: u32| (0..n).step_by(block as usize).count() as u64;
    let blocks: u64 = lengths.iter().map(|&n| of(n)).sum();
    Counts {
        rr: u64::from(blocks > 0),
        sr: blocks.saturating_sub(1),
        rw: 0,
    }
}

/// Asks both implementations, and requires this refusal and these counts.
fn ask(
    run: &mut Run,
    library: &Library,
    pair: &mut Pair,
    asked: impl Into<Asked>,
    expected: (u32, Counts),
) -> Result<(), String> {
    let asked = asked.into();
    let outcome = pair.ask(&mut run.seen, library, asked)?;
    let answered = match outcome {
        Outcome::Answer(a) => (a.refusal, a.counts),
        Outcome::Stepped(a) => (a.refusal, a.counts),
        Outcome::Partition(_) => return Err(format!("{asked:?} is no scan")),
    };
    if answered != expected {
        return Err(format!("{asked:?}: {outcome:?}, not {expected:?}"));
    }
    Ok(())
}

/// The counts of what is read from each partition to each later one.
fn ranges(run: &mut Run, library: &Library, pair: &mut Pair) -> Result<(), String> {
    let (block, lengths) = shape(pair);
    for p in 0..lengths.len() {
        for q in p..lengths.len() {
            let call = match p == q {
                true => Call::Find(fence(p)),
                false => Call::Range(fence(p), fence(q)),
            };
            let counts = reads(&lengths[p..=q], block);
            ask(run, library, pair, call, (0, counts))?;
        }
    }
    Ok(())
}

/// A delete and a move of a delivery that no partition holds: 13, and the reads
/// of its partition.
fn misses(run: &mut Run, library: &Library, pair: &mut Pair) -> Result<(), String> {
    let (block, lengths) = shape(pair);
    let weights = pair.view().weights.to_vec();
    let absent = (0..).find(|w| !weights.contains(w));
    let absent = absent.expect("a weight that no slot has");
    for (p, &n) in lengths.iter().enumerate() {
        let d = Delivery::new(fence(p), absent, 0);
        let counts = reads(&[n], block);
        for call in [Call::Delete(d), Call::Move(d, fence(0))] {
            ask(run, library, pair, call, (13, counts))?;
        }
    }
    Ok(())
}

/// A step from each partition's first grower up and from its fence down: all
/// partitions up to the first that holds a record are scanned.
fn steps(run: &mut Run, library: &Library, pair: &mut Pair) -> Result<(), String> {
    let (block, lengths) = shape(pair);
    let last = lengths.len() - 1;
    for p in 0..=last {
        let above = (p..=last).find(|&q| lengths[q] > 0).unwrap_or(last);
        let below = (0..=p).rev().find(|&q| lengths[q] > 0).unwrap_or(0);
        let first = fence(p) - (GROWERS - 1);
        let ways = [
            (Step::Next(first), p..=above),
            (Step::Previous(fence(p)), below..=p),
        ];
        for (step, scanned) in ways {
            let counts = reads(&lengths[scanned], block);
            ask(run, library, pair, step, (0, counts))?;
        }
    }
    Ok(())
}

fn empty_partitions(run: &mut Run) -> Result<(), String> {
    run.cases(120, 3_000, |run, r| {
        let library = inputs::library(r);
        let column = gapped(r);
        let mut pair = Pair::new(r, &column);
        ranges(run, &library, &mut pair)?;
        misses(run, &library, &mut pair)?;
        steps(run, &library, &mut pair)
    })
}

pub const TESTS: &[(&str, Test)] = &[("scans: empty partitions", empty_partitions)];
