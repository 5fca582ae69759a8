//! Find beside a loop written by hand (`sse2.c`) over the same partition.

use crate::columns::{laid, LIBRARY};
use crate::timing::{timed, Times, REPETITIONS, ROUNDS};
use meltusk::Column;
use second::random::{case_seed, Random};
use second::{DAY_LIMIT, LENGTHS, SLOT_LIMIT, WEIGHT_LIMIT, YIELD_LIMIT};

/// Finds of a batch.
const READS: usize = 8;

extern "C" {
    fn sse2_count(
        growers: *const u32,
        weights: *const u32,
        yields: *const u32,
        count: usize,
        grower: u32,
        most_weight: u32,
        most_yield: u32,
    ) -> i64;

    fn sse2_count_days(
        growers: *const u32,
        weights: *const u32,
        yields: *const u32,
        days: *const u32,
        count: usize,
        grower: u32,
        most_weight: u32,
        most_yield: u32,
        most_day: u32,
    ) -> i64;
}

/// A grower and the slots of its partition.
struct Wanted {
    grower: u32,
    start: usize,
    count: usize,
}

fn drawn(r: &mut Random, sorted: &[u32], lengths: &[u32]) -> Wanted {
    let slot = r.below(sorted.len());
    let (mut start, mut count) = (0, 0);
    for &length in lengths {
        start += count;
        count = length as usize;
        if slot < start + count {
            break;
        }
    }
    Wanted {
        grower: sorted[slot],
        start,
        count,
    }
}

/// The loop over the four slices is handed the partition: it looks for none.
fn counted_days(c: &Column, w: &Wanted) -> i64 {
    let [growers, weights, yields, days] = [&c.growers, &c.weights, &c.yields, &c.days]
        .map(|s| s[w.start..w.start + w.count].as_ptr());
    let (most_weight, most_yield, most_day) = (WEIGHT_LIMIT, YIELD_LIMIT, DAY_LIMIT);
    // SAFETY: each pointer is to `count` numbers.
    unsafe {
        sse2_count_days(
            growers,
            weights,
            yields,
            days,
            w.count,
            w.grower,
            most_weight,
            most_yield,
            most_day,
        )
    }
}

/// The loop without the days.
fn counted(c: &Column, w: &Wanted) -> i64 {
    let [growers, weights, yields] =
        [&c.growers, &c.weights, &c.yields].map(|s| s[w.start..w.start + w.count].as_ptr());
    let (most_weight, most_yield) = (WEIGHT_LIMIT, YIELD_LIMIT);
    // SAFETY: each pointer is to `count` numbers.
    unsafe {
        sse2_count(
            growers,
            weights,
            yields,
            w.count,
            w.grower,
            most_weight,
            most_yield,
        )
    }
}

fn found(c: &Column, w: &Wanted) -> i64 {
    LIBRARY.find(&c.view(), w.grower).totals.records as i64
}

/// One grower's records of a partition.
type Count = fn(&Column, &Wanted) -> i64;

/// Find beside the loop over four slices, and that loop beside the one over
/// three: what judging the days costs.
pub fn run(partitions: usize) {
    time("find", partitions, [found, counted_days]);
    time("loop, 4 and 3", partitions, [counted_days, counted]);
}

fn time(name: &str, partitions: usize, counts: [Count; 2]) {
    let mut r = Random::new(case_seed(107, partitions as u64));
    let column = laid(&mut r, partitions, SLOT_LIMIT);
    let sorted = column.growers.clone();
    let lengths = column.directory[LENGTHS..][..partitions].to_vec();
    let mut columns = [column.clone(), column];
    let mut find = Times::default();
    for _ in 0..REPETITIONS {
        for round in 0..ROUNDS {
            for side in [round % 2, 1 - round % 2] {
                // Drawn anew for each side, so that neither finds in the cache
                // what the other has just read.
                let wanted: Vec<Wanted> = (0..READS)
                    .map(|_| drawn(&mut r, &sorted, &lengths))
                    .collect();
                let (column, count) = (&columns[side], counts[side]);
                let (ns, found): (f64, Vec<i64>) =
                    timed(READS, || wanted.iter().map(|w| count(column, w)).collect());
                find.add(side, ns);
                // Growers are spread so that no two records have the same.
                assert!(found.iter().all(|&n| n == 1), "another count");
            }
        }
        find.close();
        columns.swap(0, 1);
    }
    find.print(name, partitions);
}
