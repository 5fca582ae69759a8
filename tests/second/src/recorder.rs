//! The recorder: enters calls into the ten histograms.
//!
//! Every call is checked by 2 3 4 5 7 8 19 9 10, as far as it concerns what the
//! call was given. A refused call leaves the histograms untouched.

use crate::check::{self, ensure, Checked};
use crate::types::*;
use crate::unlaid::UnlaidSet;

/// Order of the histograms in the slice.
pub const PQ: usize = 0;
pub const RS: usize = 1;
pub const RE: usize = 2;
pub const SC: usize = 3;
pub const DE: usize = 4;
pub const IN: usize = 5;
pub const UDF: usize = 6;
pub const UTF: usize = 7;
pub const UDB: usize = 8;
pub const UTB: usize = 9;

/// Index of the count of `block` in histogram `h`.
pub const fn count_index(h: usize, block: usize) -> usize {
    h * BLOCK_LIMIT + block
}

/// The counts one call raises, at most one per block and two for the ends.
struct Raises {
    index: [usize; BLOCK_LIMIT + 2],
    len: usize,
}

impl Raises {
    fn new() -> Raises {
        Raises {
            index: [0; BLOCK_LIMIT + 2],
            len: 0,
        }
    }

    fn add(&mut self, h: usize, block: usize) {
        self.index[self.len] = count_index(h, block);
        self.len += 1;
    }

    /// Check 10, then each count is raised by one. All are distinct.
    fn enter(&self, histograms: &mut [u32]) -> Checked<()> {
        let index = &self.index[..self.len];
        ensure(
            index.iter().all(|&i| histograms[i] < COUNT_LIMIT),
            check::OVERFLOW,
        )?;
        for &i in index {
            histograms[i] += 1;
        }
        Ok(())
    }
}

/// Checks 2 3 4 5, then 7 (`ordered`), 8 of the set and of what is offered
/// (`offered`), 19 of both and of the days named (`span`), 9.
fn check_all(
    set: &UnlaidSet,
    histograms: &[u32],
    ordered: bool,
    offered: Option<&Delivery>,
    span: &Span,
) -> Checked<()> {
    set.check_order()?;
    ensure(ordered, check::RANGE)?;
    set.check_values()?;
    ensure(offered.is_none_or(Delivery::in_range), check::VALUES)?;
    set.check_days()?;
    ensure(offered.is_none_or(Delivery::day_in_range), check::DAYS)?;
    ensure(span.in_range(), check::DAYS)?;
    check::histograms(histograms)
}

fn refusal(outcome: Checked<()>) -> u32 {
    outcome.err().unwrap_or(check::ACCEPTED)
}

/// find g: pq at the block of `g`.
pub fn record_find(set: &UnlaidSet, histograms: &mut [u32], g: u32) -> u32 {
    refusal(
        check_all(set, histograms, true, None, &Span::ALL).and_then(|()| {
            let mut raises = Raises::new();
            raises.add(PQ, set.block_of(g));
            raises.enter(histograms)
        }),
    )
}

/// range: rs and re at the two end blocks and sc between; one shared block
/// raises pq only.
pub fn record_range(set: &UnlaidSet, histograms: &mut [u32], lo: u32, hi: u32) -> u32 {
    record_range_days(set, histograms, (lo, hi), Span::ALL)
}

/// A range over days is recorded as any range, whatever the days.
pub fn record_range_days(
    set: &UnlaidSet,
    histograms: &mut [u32],
    (lo, hi): (u32, u32),
    span: Span,
) -> u32 {
    refusal(
        check_all(set, histograms, lo <= hi, None, &span).and_then(|()| {
            let (first, last) = (set.block_of(lo), set.block_of(hi));
            let mut raises = Raises::new();
            if first == last {
                raises.add(PQ, first);
            } else {
                raises.add(RS, first);
                raises.add(RE, last);
                for i in first + 1..last {
                    raises.add(SC, i);
                }
            }
            raises.enter(histograms)
        }),
    )
}

/// insert: in at the grower's block.
pub fn record_insert(set: &UnlaidSet, histograms: &mut [u32], d: Delivery) -> u32 {
    refusal(
        check_all(set, histograms, true, Some(&d), &Span::ALL).and_then(|()| {
            let mut raises = Raises::new();
            raises.add(IN, set.block_of(d.grower));
            raises.enter(histograms)
        }),
    )
}

/// delete: de at the grower's block, or pq if the set has no such delivery.
pub fn record_delete(set: &UnlaidSet, histograms: &mut [u32], d: Delivery) -> u32 {
    refusal(
        check_all(set, histograms, true, Some(&d), &Span::ALL).and_then(|()| {
            let h = if set.contains(&d) { DE } else { PQ };
            let mut raises = Raises::new();
            raises.add(h, set.block_of(d.grower));
            raises.enter(histograms)
        }),
    )
}

/// move: udf and utf if the new grower is not smaller, else udb and utb; pq
/// at the old block if the set has no such delivery.
pub fn record_move(set: &UnlaidSet, histograms: &mut [u32], d: Delivery, new_grower: u32) -> u32 {
    refusal(
        check_all(set, histograms, true, Some(&d), &Span::ALL).and_then(|()| {
            let old = set.block_of(d.grower);
            let new = set.block_of(new_grower);
            let mut raises = Raises::new();
            if !set.contains(&d) {
                raises.add(PQ, old);
            } else if new_grower >= d.grower {
                raises.add(UDF, old);
                raises.add(UTF, new);
            } else {
                raises.add(UDB, old);
                raises.add(UTB, new);
            }
            raises.enter(histograms)
        }),
    )
}
