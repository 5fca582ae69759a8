//! Calls added to a recorded list, and what they do to the compiled library's
//! bills.

use super::calls::{cost, plan, By, Case, Recorder};
use super::{card, limits, one_a_block, proper_call, seen};
use crate::{inputs, Run};
use meltusk::{Call, Library, Set};
use second::random::Random;
use second::{Increase, Limits, PriceCard, BLOCK_LIMIT, HISTOGRAM_LEN, LIMIT_LIMIT};

/// The histograms of a list of which every call is accepted.
fn recorded(
    run: &mut Run,
    r: &mut Random,
    library: &Library,
    set: &Set,
    calls: &[Call],
) -> Result<Vec<u32>, String> {
    let mut recorder = Recorder::new(r, set, &[0; HISTOGRAM_LEN]);
    for call in calls {
        let refusal = recorder.record(&mut run.seen, library, call)?;
        if refusal != 0 {
            return Err(format!("{call:?}: refusal {refusal}"));
        }
    }
    Ok(recorder.histograms().to_vec())
}

/// Any call, or a delete of the first delivery, which passes all partitions.
fn accepted_call(r: &mut Random, set: &Set) -> Call {
    match r.below(8) {
        which @ 0..=5 => proper_call(r, set, which),
        _ => Call::Delete(set.slot(0)),
    }
}

/// A card and limits; often sequential reads are dear, and often one partition
/// or a partition a block is all that is permitted.
fn prices(r: &mut Random, blocks: usize) -> (PriceCard, Limits) {
    let card = match r.below(4) {
        0 => PriceCard::new(1, 1_000, 1),
        _ => card(r),
    };
    let limits = match r.below(4) {
        0 => Limits::new(LIMIT_LIMIT, 2 * (card.rr + card.rw)),
        1 => Limits::new(card.rr, LIMIT_LIMIT),
        _ => limits(r, &card, blocks),
    };
    (card, limits)
}

/// The least bill and the bill of one layout, with and without some calls added
/// anywhere, keep within both pairs of bounds; so does the old plan beside the new.
pub fn bounded(run: &mut Run) -> Result<(), String> {
    run.cases(51, 2_000, |run, r| {
        let library = inputs::library(r);
        let most_blocks = r.pick(&[1, 3, 12, BLOCK_LIMIT]);
        let set = match r.below(3) {
            0 => one_a_block(r.within(1, most_blocks)),
            free => inputs::set(r, most_blocks, free - 1),
        };
        let blocks = set.view().blocks();
        let (card, limits) = prices(r, blocks);
        let mut calls: Vec<Call> = (0..r.pick(&[0, 3, 30]))
            .map(|_| accepted_call(r, &set))
            .collect();
        let mut case = Case {
            card,
            limits,
            ends: inputs::layout(r, &set.view()),
            histograms: recorded(run, r, &library, &set, &calls)?,
            room: vec![0; blocks],
            text: 0,
            call: Call::Find(0),
            set,
        };
        let (old, ends) = plan(r, &mut run.seen, &library, &case, By::Table)?;
        let kept = old.refusal == 0 && r.one_in(2);
        if kept {
            case.ends = ends;
        }
        let own_old = cost(r, &mut run.seen, &library, &case)?;
        let added = r.pick(&[0, 1, 1, 2, 3]);
        for _ in 0..added {
            let place = r.within(0, calls.len());
            calls.insert(place, accepted_call(r, &case.set));
        }
        case.histograms = recorded(run, r, &library, &case.set, &calls)?;
        let (new, _) = plan(r, &mut run.seen, &library, &case, By::Table)?;
        let own_new = cost(r, &mut run.seen, &library, &case)?;
        let refusals = [old.refusal, own_old.refusal, new.refusal, own_new.refusal];
        if refusals != [0; 4] && refusals != [11, 0, 11, 0] {
            return Err(format!("{old:?}, {own_old:?}, then {new:?}, {own_new:?}"));
        }
        let increase = |old: i64, new: i64| Increase {
            card,
            blocks,
            added,
            old,
            new,
        };
        let own = increase(own_old.cost, own_new.cost);
        let least = increase(old.cost, new.cost);
        let mut checked = own.check();
        if old.refusal == 0 {
            seen::note_increase(&mut run.seen, &least);
            checked = checked.and_then(|()| least.check());
        }
        if kept {
            checked = checked.and_then(|()| least.check_kept(own_new.cost));
        }
        checked.map_err(|why| format!("{why}; {limits:?}, {calls:?}"))
    })
}
