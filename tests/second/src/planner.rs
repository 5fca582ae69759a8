//! The planner, twice: by listing every layout and by a table.
//!
//! Both return the cheapest permitted layout; of equal bills the fewest
//! partitions; then the smaller end at the first difference.

use crate::check::{self, ensure, Checked};
use crate::cost::{layout_cost, to_bill};
use crate::recorder::*;
use crate::types::*;
use crate::unlaid::UnlaidSet;

/// Most blocks for which every layout is listed.
pub const LISTING_LIMIT: usize = 20;

/// Most partitions that the insert limit permits; 0 means none is permitted.
pub fn most_partitions(card: &PriceCard, limits: &Limits) -> usize {
    let opened = limits.insert / (card.rr + card.rw);
    opened.saturating_sub(1) as usize
}

/// Longest partition in blocks that the read limit permits, which it may meet
/// exactly (02, Slip 2); 0 means none is permitted.
pub fn longest_partition(card: &PriceCard, limits: &Limits) -> usize {
    if limits.read < card.rr {
        0
    } else {
        ((limits.read - card.rr) / card.sr) as usize + 1
    }
}

/// Checks 1 2 3 4 5 8 19 9.
pub(crate) fn check_all(
    card: &PriceCard,
    limits: &Limits,
    set: &UnlaidSet,
    histograms: &[u32],
) -> Checked<()> {
    check::prices_and_limits(card, limits)?;
    set.check_order()?;
    set.check_values()?;
    set.check_days()?;
    check::histograms(histograms)
}

/// Checks 11 and 15, then the ends are written.
fn answer(best: Option<(i128, Vec<u32>)>, out: &mut [u32]) -> Checked<PlanAnswer> {
    let (bill, ends) = best.ok_or(check::NO_LAYOUT)?;
    ensure(ends.len() <= out.len(), check::ROOM)?;
    out[..ends.len()].copy_from_slice(&ends);
    Ok(PlanAnswer {
        refusal: check::ACCEPTED,
        count: ends.len(),
        bill: to_bill(bill),
    })
}

/// Whether the limits and the equal growers permit a layout.
pub fn permitted(card: &PriceCard, limits: &Limits, set: &UnlaidSet, ends: &[u32]) -> bool {
    let longest = longest_partition(card, limits);
    let mut first = 0;
    let mut short_enough = true;
    for &end in ends {
        short_enough &= end as usize + 1 - first <= longest;
        first = end as usize + 1;
    }
    let parted = ends[..ends.len() - 1]
        .iter()
        .any(|&e| set.separates_equal(e as usize));
    short_enough && !parted && ends.len() <= most_partitions(card, limits)
}

/// The ends named by the set bits of `inner`, and the last block.
pub fn layout_of_bits(inner: u32, blocks: usize) -> Vec<u32> {
    let mut ends: Vec<u32> = (0..blocks as u32 - 1)
        .filter(|&i| inner >> i & 1 == 1)
        .collect();
    ends.push(blocks as u32 - 1);
    ends
}

fn best_by_listing(
    card: &PriceCard,
    limits: &Limits,
    set: &UnlaidSet,
    histograms: &[u32],
) -> Option<(i128, Vec<u32>)> {
    let n = set.blocks();
    let mut best: Option<(i128, Vec<u32>)> = None;
    for inner in 0..1u32 << (n - 1) {
        let ends = layout_of_bits(inner, n);
        if !permitted(card, limits, set, &ends) {
            continue;
        }
        let bill = layout_cost(card, histograms, &ends);
        let better = match &best {
            None => true,
            Some((least, held)) => (bill, ends.len(), &ends) < (*least, held.len(), held),
        };
        if better {
            best = Some((bill, ends));
        }
    }
    best
}

/// The planner by listing every layout. `None` if the set passes its checks
/// but has more than `LISTING_LIMIT` blocks.
pub fn plan_by_listing(
    card: &PriceCard,
    limits: &Limits,
    set: &UnlaidSet,
    histograms: &[u32],
    out: &mut [u32],
) -> Option<PlanAnswer> {
    if let Err(number) = check_all(card, limits, set, histograms) {
        return Some(PlanAnswer::refused(number));
    }
    if set.blocks() > LISTING_LIMIT {
        return None;
    }
    let best = best_by_listing(card, limits, set, histograms);
    Some(answer(best, out).unwrap_or_else(PlanAnswer::refused))
}

/// Running sums over the blocks, by 002's equation 17: a partition's price
/// follows from six differences.
struct Sums {
    /// Parts that no layout changes.
    fixed: Vec<i128>,
    /// Price of one block read behind, and the same times the block number.
    back: Vec<i128>,
    back_i: Vec<i128>,
    /// Price of one block read in front, and the same times the block number.
    front: Vec<i128>,
    front_i: Vec<i128>,
    /// Price of one partition from the block's own to the last.
    trail: Vec<i128>,
}

impl Sums {
    fn new(card: &PriceCard, histograms: &[u32], n: usize) -> Sums {
        let (rr, sr, rw) = (
            i128::from(card.rr),
            i128::from(card.sr),
            i128::from(card.rw),
        );
        let zero = || vec![0i128; n + 1];
        let mut s = Sums {
            fixed: zero(),
            back: zero(),
            back_i: zero(),
            front: zero(),
            front_i: zero(),
            trail: zero(),
        };
        for i in 0..n {
            let c = |h: usize| i128::from(histograms[count_index(h, i)]);
            let scans = c(PQ) + c(DE) + c(UDF) + c(UDB);
            let moved = c(UDF) + c(UDB);
            let fixed = rr * (scans + c(RS) + c(IN) + moved)
                + sr * (c(RE) + c(SC))
                + rw * (c(IN) + c(DE) + 2 * moved);
            let back = sr * (scans + c(RS));
            let front = sr * (scans + c(RE));
            let trail = (rr + rw) * (c(IN) + c(DE) + c(UDF) - c(UTF) - c(UDB) + c(UTB));
            s.fixed[i + 1] = s.fixed[i] + fixed;
            s.back[i + 1] = s.back[i] + back;
            s.back_i[i + 1] = s.back_i[i] + back * i as i128;
            s.front[i + 1] = s.front[i] + front;
            s.front_i[i + 1] = s.front_i[i] + front * i as i128;
            s.trail[i + 1] = s.trail[i] + trail;
        }
        s
    }

    /// Price of the partition `first..=last` with `t` partitions from it to
    /// the end.
    fn partition(&self, first: usize, last: usize, t: usize) -> i128 {
        let over = |v: &Vec<i128>| v[last + 1] - v[first];
        over(&self.fixed)
            + (over(&self.back_i) - over(&self.back) * first as i128)
            + (over(&self.front) * last as i128 - over(&self.front_i))
            + over(&self.trail) * t as i128
    }
}

fn best_by_table(
    card: &PriceCard,
    limits: &Limits,
    set: &UnlaidSet,
    histograms: &[u32],
) -> Option<(i128, Vec<u32>)> {
    let n = set.blocks();
    let most = most_partitions(card, limits).min(n);
    let longest = longest_partition(card, limits);
    let sums = Sums::new(card, histograms, n);
    // table[k][s]: least price of blocks s..n in exactly k partitions, and
    // the end of the first of them. The first partition has t = k.
    let mut table: Vec<Vec<Option<(i128, usize)>>> = vec![vec![None; n + 1]; most + 1];
    table[0][n] = Some((0, n));
    for k in 1..=most {
        for s in 0..n {
            let mut least: Option<(i128, usize)> = None;
            for end in s..n.min(s + longest) {
                if end + 1 < n && set.separates_equal(end) {
                    continue;
                }
                let Some((rest, _)) = table[k - 1][end + 1] else {
                    continue;
                };
                let price = sums.partition(s, end, k) + rest;
                // Of equal prices the smaller end stays.
                if least.is_none_or(|(held, _)| price < held) {
                    least = Some((price, end));
                }
            }
            table[k][s] = least;
        }
    }
    // Of equal bills the smaller k stays.
    let mut best: Option<(i128, usize)> = None;
    for (k, row) in table.iter().enumerate().skip(1) {
        if let Some((price, _)) = row[0] {
            if best.is_none_or(|(held, _)| price < held) {
                best = Some((price, k));
            }
        }
    }
    let (bill, count) = best?;
    let mut ends = Vec::with_capacity(count);
    let mut s = 0;
    for k in (1..=count).rev() {
        let (_, end) = table[k][s].expect("the row that gave the price has its ends");
        ends.push(end as u32);
        s = end + 1;
    }
    Some((bill, ends))
}

/// The planner by a table, for every permitted number of blocks.
pub fn plan_by_table(
    card: &PriceCard,
    limits: &Limits,
    set: &UnlaidSet,
    histograms: &[u32],
    out: &mut [u32],
) -> PlanAnswer {
    check_all(card, limits, set, histograms)
        .and_then(|()| answer(best_by_table(card, limits, set, histograms), out))
        .unwrap_or_else(PlanAnswer::refused)
}
