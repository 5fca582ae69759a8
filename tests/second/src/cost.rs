//! The cost (bill) of a given layout.

use crate::check::{self, Checked};
use crate::recorder::*;
use crate::types::*;
use crate::unlaid::UnlaidSet;

/// Priced counts of block `i` of a partition `first..=last`, `t` partitions
/// from its own to the last, its own included.
fn block_cost(
    card: &PriceCard,
    histograms: &[u32],
    i: usize,
    first: usize,
    last: usize,
    t: usize,
) -> i128 {
    let count = |h: usize| i128::from(histograms[count_index(h, i)]);
    let (rr, sr, rw) = (
        i128::from(card.rr),
        i128::from(card.sr),
        i128::from(card.rw),
    );
    let b = (i - first) as i128;
    let f = (last - i) as i128;
    let trail = (rr + rw) * t as i128;
    let pq = rr + sr * (b + f);
    let taken = pq + rr + 2 * rw;
    count(PQ) * pq
        + count(RS) * (rr + sr * b)
        + count(RE) * (sr * (1 + f))
        + count(SC) * sr
        + count(IN) * ((rr + rw) + trail)
        + count(DE) * (pq + rw + trail)
        + count(UDF) * (taken + trail)
        - count(UTF) * trail
        + count(UDB) * (taken - trail)
        + count(UTB) * trail
}

/// The bill of a layout that has passed check 6.
pub(crate) fn layout_cost(card: &PriceCard, histograms: &[u32], ends: &[u32]) -> i128 {
    let mut total = 0;
    let mut first = 0;
    for (p, &end) in ends.iter().enumerate() {
        let last = end as usize;
        for i in first..=last {
            total += block_cost(card, histograms, i, first, last, ends.len() - p);
        }
        first = last + 1;
    }
    total
}

/// A bill is far below the 64-bit limit: 640 counts of at most 10^6, each at
/// a price below 10^6.
pub(crate) fn to_bill(total: i128) -> i64 {
    i64::try_from(total).expect("a bill fits 64 bits")
}

fn try_cost(card: &PriceCard, set: &UnlaidSet, histograms: &[u32], ends: &[u32]) -> Checked<i64> {
    check::prices(card)?;
    set.check_order()?;
    set.check_layout(ends)?;
    set.check_values()?;
    set.check_days()?;
    check::histograms(histograms)?;
    Ok(to_bill(layout_cost(card, histograms, ends)))
}

/// Checks 1 (prices) 2 3 4 5 6 8 19 9, then the bill.
pub fn cost(card: &PriceCard, set: &UnlaidSet, histograms: &[u32], ends: &[u32]) -> CostAnswer {
    match try_cost(card, set, histograms, ends) {
        Ok(bill) => CostAnswer {
            refusal: check::ACCEPTED,
            bill,
        },
        Err(refusal) => CostAnswer { refusal, bill: 0 },
    }
}
