//! What the limits permit, by the compiled library's own counts.

use super::calls::Case;
use super::{case, seen};
use crate::{inputs, Run};
use meltusk::{Call, Column, Library, Planned, Seen};
use second::planner::{layout_of_bits, permitted};
use second::{Delivery, PriceCard, BLOCK_LIMIT};

/// The priced counts of a call made alone on a column.
fn price(library: &Library, card: &PriceCard, fresh: &Column, call: &Call) -> u64 {
    let counts = library.call(&mut fresh.clone().lend(), call).counts;
    u64::from(card.rr) * counts.rr + u64::from(card.sr) * counts.sr + u64::from(card.rw) * counts.rw
}

fn insert(grower: u32) -> Call {
    Call::Insert(Delivery::new(grower, 0, 0))
}

/// The cheapest of the layouts that laying accepts and on whose column, freshly
/// laid, no find costs more than R and no insert more than U, with its cost and
/// count; an error if those are not the permitted ones.
fn cheapest(
    seen: &mut Seen,
    library: &Library,
    case: &Case,
) -> Result<Option<(i64, usize, Vec<u32>)>, String> {
    let (card, limits, set) = (&case.card, &case.limits, case.set.view());
    let growers = [&set.growers[..set.m], &[0, u32::MAX]].concat();
    let mut best = None;
    for inner in 0..1u32 << (set.blocks() - 1) {
        let ends = layout_of_bits(inner, set.blocks());
        let applied = library.apply_layout(&set, &ends);
        let fresh = case.set.clone().laid(&applied);
        let dearest = |call: fn(u32) -> Call| {
            let prices = growers
                .iter()
                .map(|&g| price(library, card, &fresh, &call(g)));
            prices.max().unwrap_or(0)
        };
        let (find, insert) = (dearest(Call::Find), dearest(insert));
        let (read_limit, insert_limit) = (u64::from(limits.read), u64::from(limits.insert));
        let within = applied.refusal == 0 && find <= read_limit && insert <= insert_limit;
        if within != permitted(card, limits, &set, &ends) {
            return Err(format!(
                "{ends:?}: a find costs {find}, an insert {insert}; {card:?}, {limits:?}, {set:?}"
            ));
        }
        if within {
            seen::note_limits(seen, find == read_limit, insert == insert_limit);
            let costed = library.cost(card, &set, &ends, &case.histograms);
            let key = (costed.cost, ends.len(), ends);
            if best.as_ref().is_none_or(|held| key < *held) {
                best = Some(key);
            }
        }
    }
    Ok(best)
}

/// Every layout of a small set with a free slot: the limits permit those that
/// they mean, and the planner answers the cheapest of these.
pub fn by_counts(run: &mut Run) -> Result<(), String> {
    run.cases(49, 400, |run, r| {
        let library = inputs::library(r);
        let case = case(r, 7);
        let (refusal, cost, ends) = match cheapest(&mut run.seen, &library, &case)? {
            None => (11, 0, Vec::new()),
            Some((cost, _, ends)) => (0, cost, ends),
        };
        let expected = Planned {
            refusal,
            count: ends.len() as u32,
            cost,
        };
        let (card, limits, set) = (&case.card, &case.limits, case.set.view());
        let mut out = [0; BLOCK_LIMIT];
        let planned = library.plan(card, limits, &set, &case.histograms, &mut out);
        seen::note_plan(&mut run.seen, &planned);
        if planned != expected || out[..ends.len()] != ends {
            return Err(format!(
                "{planned:?} with {out:?}, not {expected:?} with {ends:?}; {card:?}, {limits:?}, {set:?}"
            ));
        }
        Ok(())
    })
}
