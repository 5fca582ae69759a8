//! Plans with prices and counts at their least and most, from one block to the
//! block limit.

use super::calls::{By, Case};
use super::{limits, one_a_block, planned_and_costed};
use crate::{inputs, Run};
use meltusk::Call;
use second::random::Random;
use second::{PriceCard, COUNT_LIMIT, HISTOGRAM_LEN};

/// Either side of each power of two up to the block limit.
const BLOCKS: [usize; 16] = [1, 2, 3, 4, 5, 7, 8, 9, 15, 16, 17, 31, 32, 33, 63, 64];

/// The most at every place, at those that raise a cost, at those that lower it,
/// at every other block, or at drawn places; otherwise 0.
pub fn histograms(r: &mut Random) -> Vec<u32> {
    let kind = r.below(5);
    (0..HISTOGRAM_LEN)
        .map(|at| {
            let lowers = at / 64 == 7 || at / 64 == 8;
            let most = match kind {
                0 => true,
                1 => !lowers,
                2 => lowers,
                3 => at % 2 == 0,
                _ => r.one_in(2),
            };
            if most {
                COUNT_LIMIT
            } else {
                0
            }
        })
        .collect()
}

pub fn planned(run: &mut Run) -> Result<(), String> {
    run.cases(50, 1_000, |run, r| {
        let library = inputs::library(r);
        let blocks = r.pick(&BLOCKS);
        let card = PriceCard::new(
            r.pick(&[1, 1_000]),
            r.pick(&[1, 1_000]),
            r.pick(&[1, 1_000]),
        );
        let limits = limits(r, &card, blocks);
        let set = one_a_block(blocks);
        let mut case = Case {
            card,
            limits,
            ends: vec![blocks as u32 - 1],
            histograms: histograms(r),
            room: vec![0; blocks],
            text: 0,
            call: Call::Find(0),
            set,
        };
        planned_and_costed(run, r, &library, &mut case, By::Table)
    })
}
