//! The whole planner against the second implementation's table.

use crate::columns::LIBRARY;
use crate::timing::{timed, Times, REPETITIONS, ROUNDS};
use meltusk::{Planned, Set};
use second::random::{case_seed, Random};
use second::{Limits, PriceCard, HISTOGRAM_LEN, LIMIT_LIMIT};

const BLOCK: usize = 16;
/// Plans of a batch.
const PLANS: usize = 4;

/// Limits that permit every layout of a set without equal growers.
pub const LIMITS: Limits = Limits::new(LIMIT_LIMIT, LIMIT_LIMIT);

/// A set of so many whole blocks without equal growers.
pub fn set(blocks: usize) -> Set {
    let used = BLOCK * blocks;
    Set {
        block: BLOCK as u32,
        used: used as u32,
        growers: (0..used as u32).map(|i| 10 * i).collect(),
        weights: vec![100; used],
        yields: vec![2_000; used],
        days: vec![0; used],
    }
}

/// Histograms drawn anew, one for each call of a batch.
pub fn histograms(r: &mut Random, batch: usize) -> Vec<Vec<u32>> {
    (0..batch)
        .map(|_| (0..HISTOGRAM_LEN).map(|_| r.below(100) as u32).collect())
        .collect()
}

pub fn run(blocks: usize) {
    let mut r = Random::new(case_seed(101, blocks as u64));
    let set = set(blocks);
    let set = set.view();
    let card = PriceCard::FACTORY;
    let limits = LIMITS;
    let mut times = Times::default();
    for _ in 0..REPETITIONS {
        for round in 0..ROUNDS {
            let all = histograms(&mut r, PLANS);
            let mut answers: [Vec<(Planned, [u32; 64])>; 2] = Default::default();
            for side in [round % 2, 1 - round % 2] {
                let (nanoseconds, given) = timed(PLANS, || {
                    all.iter()
                        .map(|histograms| {
                            let mut ends = [0; 64];
                            let planned = if side == 0 {
                                LIBRARY.plan(&card, &limits, &set, histograms, &mut ends)
                            } else {
                                let ends = &mut ends;
                                second::plan_by_table(&card, &limits, &set, histograms, ends).into()
                            };
                            (planned, ends)
                        })
                        .collect()
                });
                times.add(side, nanoseconds);
                answers[side] = given;
            }
            assert!(answers[0] == answers[1], "the plans differ");
            assert!(
                answers[0].iter().all(|(a, _)| a.refusal == 0),
                "a plan is refused"
            );
        }
        times.close();
    }
    times.print("plan", blocks);
}
