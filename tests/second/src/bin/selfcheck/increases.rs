//! Calls added to a recorded list, and what they do to bills.

use crate::groups::{main_set, Outcome};
use crate::random;
use crate::require;
use crate::subject::*;
use second::planner::{layout_of_bits, permitted};
use second::random::Random;
use second::*;
use std::collections::BTreeSet;

/// The histograms of a list; an error if one of its calls is refused.
fn recorded_all(s: &dyn Subject, set: &Set, calls: &[Call]) -> Result<Vec<u32>, String> {
    let mut h = vec![0; HISTOGRAM_LEN];
    for call in calls {
        let refusal = s.record(&set.view(), &mut h, call);
        require!(refusal == 0, "{call:?} is refused by {refusal}");
    }
    Ok(h)
}

/// The planner's answer and its ends.
fn planned(
    s: &dyn Subject,
    card: &PriceCard,
    limits: &Limits,
    set: &Set,
    h: &[u32],
) -> (PlanAnswer, Vec<u32>) {
    let mut out = [0; BLOCK_LIMIT];
    let a = s.plan(card, limits, &set.view(), h, &mut out);
    (a, out[..a.count].to_vec())
}

/// Where the bounds are met: a find adds RR, a delete the most on four
/// blocks, an insert the whole bound on one, a delete the most where reads
/// are dear; a refused call adds nothing.
pub fn increase_examples(s: &dyn Subject, _: u64) -> Outcome {
    let four = main_set();
    let one = Set {
        b: 8,
        ..four.clone()
    };
    let factory = PriceCard::FACTORY;
    let dear = PriceCard::new(1, 1_000, 1);
    let d = |grower| Delivery::new(grower, 100, 2_000);
    let main = [&[Call::Find(30); 5][..], &[Call::Insert(d(15))]].concat();
    let finds = [10, 30, 50, 70].map(|g| [Call::Find(g); 3]).concat();
    let delete = Call::Delete(d(10));
    // Set, card, limits, list, added in front, the least bill before and after.
    let cases = [
        (&four, factory, [100, 100], &main, Call::Find(10), 35, 38),
        (&four, factory, [100, 100], &finds, delete, 36, 61),
        (
            &one,
            factory,
            [100, 100],
            &main,
            Call::Insert(d(15)),
            25,
            35,
        ),
        (&four, dear, [1_000_000, 5], &Vec::new(), delete, 0, 3_004),
    ];
    for (set, card, [read, insert], list, call, old, new) in cases {
        let limits = Limits::new(read, insert);
        let longer = [&[call], &list[..]].concat();
        for (calls, bill) in [(list, old), (&longer, new)] {
            let h = recorded_all(s, set, calls)?;
            let (a, _) = planned(s, &card, &limits, set, &h);
            require!(a.refusal == 0 && a.bill == bill, "{calls:?}: {a:?}");
        }
    }
    let mut h = recorded_all(s, &four, &main)?;
    let before = h.clone();
    let refusal = s.record(&four.view(), &mut h, &Call::Range(5, 4));
    require!(refusal == 7 && h == before, "refused by {refusal}");
    Ok(())
}

/// A call that the recorder accepts; often one that costs much.
fn accepted_call(r: &mut Random, set: &Set) -> Call {
    let held = set.records();
    if r.one_in(4) {
        return Call::Delete(held[0]);
    }
    loop {
        let call = random::call(r, &held);
        if library_record(&set.view(), &mut [0; HISTOGRAM_LEN], &call) == 0 {
            return call;
        }
    }
}

/// Limits that permit one partition alone, a partition a block alone, or others.
fn limits(r: &mut Random, card: &PriceCard, blocks: usize) -> Limits {
    match r.below(4) {
        0 => Limits::new(1_000_000, 2 * (card.rr + card.rw)),
        1 => Limits::new(card.rr, 1_000_000),
        _ => random::limits(r, card, blocks),
    }
}

/// Random lists, with and without a free slot, and some calls added anywhere: each
/// permitted layout's own bill and the least bill keep within both pairs of bounds,
/// and the old plan within their difference of the new one.
pub fn increase_bounds(s: &dyn Subject, cases: u64) -> Outcome {
    let r = &mut Random::new(60);
    let mut seen = BTreeSet::new();
    for _ in 0..cases {
        let (most_blocks, free) = (r.pick(&[1, 2, 7]), r.below(2));
        let set = random::set(r, most_blocks, free);
        let view = set.view();
        let blocks = view.blocks();
        let card = match r.below(4) {
            0 => PriceCard::new(1, 1_000, 1),
            _ => random::card(r),
        };
        let limits = limits(r, &card, blocks);
        let mut calls: Vec<Call> = (0..r.pick(&[0, 3, 15]))
            .map(|_| accepted_call(r, &set))
            .collect();
        let old = recorded_all(s, &set, &calls)?;
        let added = r.below(4);
        for _ in 0..added {
            let place = r.within(0, calls.len());
            calls.insert(place, accepted_call(r, &set));
        }
        let new = recorded_all(s, &set, &calls)?;
        let increase = |old: i64, new: i64| Increase {
            card,
            blocks,
            added,
            old,
            new,
        };
        for inner in 0..1u32 << (blocks - 1) {
            let ends = layout_of_bits(inner, blocks);
            if permitted(&card, &limits, &view, &ends) {
                let [a, b] = [&old, &new].map(|h| s.cost(&card, &view, h, &ends));
                require!(a.refusal == 0 && b.refusal == 0, "{ends:?} is refused");
                increase(a.bill, b.bill)
                    .check()
                    .map_err(|why| format!("{ends:?}: {why}; {calls:?} {set:?}"))?;
            }
        }
        let [(a, ends), (b, _)] = [&old, &new].map(|h| planned(s, &card, &limits, &set, h));
        require!(a.refusal == b.refusal, "planner {a:?}, then {b:?}");
        if a.refusal == 0 {
            let least = increase(a.bill, b.bill);
            let kept = s.cost(&card, &view, &new, &ends).bill;
            least
                .check()
                .and_then(|()| least.check_kept(kept))
                .map_err(|why| format!("{limits:?}: {why}; {calls:?} {set:?}"))?;
            let occurred = Increase::KINDS.into_iter().zip(least.occurred());
            seen.extend(occurred.filter(|kind| kind.1).map(|kind| kind.0));
        }
    }
    let missing = Increase::KINDS.iter().find(|kind| !seen.contains(*kind));
    require!(
        missing.is_none() || cases < 500,
        "never occurred: {missing:?}"
    );
    Ok(())
}
