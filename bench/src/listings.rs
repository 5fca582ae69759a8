//! Listings of every layout of a set, beside the second implementation's.

use crate::columns::{LIBRARY, OURS, SECOND};
use crate::plans::{histograms, set, LIMITS};
use crate::timing::{timed, Times, REPETITIONS, ROUNDS};
use meltusk::Listed;
use second::random::{case_seed, Random};
use second::{list_layouts, listing_size, permitted_layouts, PriceCard};

/// Listings of a batch.
const LISTINGS: usize = 4;

pub fn run(blocks: usize) {
    let mut r = Random::new(case_seed(110, blocks as u64));
    let set = set(blocks);
    let set = set.view();
    let card = PriceCard::FACTORY;
    let layouts = permitted_layouts(&card, &LIMITS, &set);
    let bytes = listing_size(&layouts);
    let listed = Listed {
        refusal: 0,
        layouts: 1 << (blocks - 1),
        bytes: bytes as u64,
    };
    // Exchanged after each repetition.
    let mut texts = [0; 2].map(|byte| vec![vec![byte; bytes]; LISTINGS]);
    let mut times = Times::default();
    for _ in 0..REPETITIONS {
        for round in 0..ROUNDS {
            let all = histograms(&mut r, LISTINGS);
            for side in [round % 2, 1 - round % 2] {
                let list = |(counts, text): (&Vec<u32>, &mut Vec<u8>)| match side {
                    OURS => LIBRARY.list_layouts(&card, &LIMITS, &set, counts, text),
                    _ => list_layouts(&card, &LIMITS, &set, counts, text).into(),
                };
                let lent = all.iter().zip(&mut texts[side]);
                let (nanoseconds, answers) =
                    timed(LISTINGS, || lent.map(list).collect::<Vec<Listed>>());
                times.add(side, nanoseconds);
                assert!(answers == [listed; LISTINGS], "a listing is refused");
            }
            assert!(texts[OURS] == texts[SECOND], "the listings differ");
        }
        times.close();
        texts.swap(OURS, SECOND);
    }
    times.print_rate("list", blocks, bytes);
}
