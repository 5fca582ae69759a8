//! Random lists of calls, and 01's examples.

use crate::broken;
use crate::calls::{apply, Asked, Outcome, Pair};
use crate::inputs::{self, Kind, MIXES};
use crate::{Run, Test};
use meltusk::{
    even_ends, spread_growers, Answer, Call, Column, Counts, Empty, Library, PartitionSlice, Set,
    Slots, Totals,
};
use second::random::Random;
use second::{Delivery, DIRECTORY_LEN, FENCES, LENGTHS};

/// Calls of a list.
const CALLS: usize = 50;

/// Applies a random layout to the slots of a column as they are.
fn apply_to(run: &mut Run, r: &mut Random, library: &Library, pair: &Pair) -> Result<(), String> {
    let column = pair.column();
    let used = column.view().used();
    let most = column.growers.len();
    let block = r.pick(&[1, 2, 3, column.directory[0]]);
    let any = r.edge(0, most + 1);
    let used = r.pick(&[used, any, 1, 2]);
    let set = Set {
        block,
        used: used as u32,
        growers: column.growers,
        weights: column.weights,
        yields: column.yields,
        days: column.days,
    };
    let blocks = used.div_ceil(block as usize).max(1);
    let ends = inputs::any_ends(r, blocks);
    apply(r, &mut run.seen, library, &set, &ends).map(|_| ())
}

/// A list of calls on one column. Some calls of it are made on a copy that
/// is broken; they do not change the column.
fn list(
    run: &mut Run,
    r: &mut Random,
    library: &Library,
    column: &Column,
    calls: usize,
) -> Result<(), String> {
    let mut pair = Pair::new(r, column);
    let mix = r.pick(&MIXES);
    for i in 0..calls {
        let asked = inputs::asked(r, &pair.view(), &mix);
        let small = pair.view().growers.len() <= 200;
        let outcome = match r.below(24) {
            0 | 1 if small => broken::on_copy(run, r, library, &pair.column(), asked),
            2 if small => apply_to(run, r, library, &pair),
            _ => pair.ask(&mut run.seen, library, asked).map(|_| ()),
        };
        outcome.map_err(|why| format!("call {i}: {why}"))?;
    }
    Ok(())
}

fn lists(run: &mut Run, test: u64, count: u64, kind: Kind) -> Result<(), String> {
    run.cases(test, count, |run, r| {
        let library = inputs::library(r);
        let column = inputs::column(r, kind);
        list(run, r, &library, &column, CALLS)
    })
}

fn sound(run: &mut Run) -> Result<(), String> {
    lists(run, 1, 7_000, Kind::Sound)
}

fn unsound(run: &mut Run) -> Result<(), String> {
    lists(run, 2, 4_000, Kind::Unsound)
}

fn full(run: &mut Run) -> Result<(), String> {
    lists(run, 3, 2_000, Kind::Full)
}

fn large(run: &mut Run) -> Result<(), String> {
    lists(run, 4, 1_000, Kind::Large)
}

/// A column whose directory comes from the compiled library itself.
pub fn laid_column(run: &mut Run, r: &mut Random, library: &Library) -> Result<Column, String> {
    let most_blocks = r.pick(&[2, 10, 10, 64]);
    let free = r.below(4);
    let set = inputs::set(r, most_blocks, free);
    let ends = inputs::layout(r, &set.view());
    let applied = apply(r, &mut run.seen, library, &set, &ends)?;
    match applied.refusal {
        0 => Ok(set.laid(&applied)),
        number => Err(format!("a layout is refused by {number}")),
    }
}

fn laid(run: &mut Run) -> Result<(), String> {
    run.cases(5, 6_000, |run, r| {
        let library = inputs::library(r);
        let column = laid_column(run, r, &library)?;
        list(run, r, &library, &column, CALLS)
    })
}

/// 262,144 slots: laid with 1, 8 and 64 partitions, and a column with empty
/// partitions; all weights and yields the largest in one of two.
fn largest(run: &mut Run) -> Result<(), String> {
    run.cases(6, 8, |run, r| {
        let library = inputs::library(r);
        let slots = second::SLOT_LIMIT;
        let free = r.pick(&[0, 1, 100]);
        let used = slots - free;
        let heavy = r.one_in(2);
        let mut set = Set {
            block: 4_096,
            used: used as u32,
            growers: spread_growers(r, used),
            weights: (0..used)
                .map(|_| if heavy { 100_000 } else { inputs::weight(r) })
                .collect(),
            yields: (0..used)
                .map(|_| if heavy { 10_000 } else { inputs::oil_yield(r) })
                .collect(),
            days: (0..used).map(|_| inputs::day(r)).collect(),
        };
        set.resize(slots);
        let count = r.pick(&[1, 8, 64]);
        let applied = apply(r, &mut run.seen, &library, &set, &even_ends(count))?;
        let mut column = set.laid(&applied);
        if count == 8 && r.one_in(2) {
            // Partition 3 takes the records of 4 and 5; 4 and 5 are empty.
            let d = &mut column.directory;
            d[0] = 1;
            d[LENGTHS + 3] += d[LENGTHS + 4] + d[LENGTHS + 5];
            d[LENGTHS + 4] = 0;
            d[LENGTHS + 5] = 0;
        }
        let all = Call::Range(0, u32::MAX);
        Pair::new(r, &column).ask(&mut run.seen, &library, all)?;
        list(run, r, &library, &column, 60)
    })
}

/// The column of the main case.
pub fn main_column() -> Column {
    let mut directory = vec![0; DIRECTORY_LEN];
    directory[..2].copy_from_slice(&[2, 2]);
    directory[LENGTHS..LENGTHS + 2].copy_from_slice(&[4, 4]);
    directory[FENCES..FENCES + 2].copy_from_slice(&[40, 80]);
    let mut column = Column {
        directory,
        growers: (1..=8).map(|i| 10 * i).collect(),
        weights: vec![100; 8],
        yields: vec![2_000; 8],
        days: vec![0; 8],
    };
    column.resize(9);
    column
}

/// The answers that 01 states of the main case's column.
fn examples(run: &mut Run) -> Result<(), String> {
    let library = Library { empty: Empty::Null };
    let mut r = Random::new(0);
    let column = main_column();
    let set = Set {
        block: 2,
        used: 8,
        growers: column.growers.clone(),
        weights: column.weights.clone(),
        yields: column.yields.clone(),
        days: column.days.clone(),
    };
    let applied = apply(&mut r, &mut run.seen, &library, &set, &[1, 3])?;
    if applied.refusal != 0 || applied.directory[..] != column.directory[..] {
        return Err(format!("directory {:?}", applied.directory));
    }
    let d = |grower| Delivery::new(grower, 100, 2_000);
    let as_laid: &[u32] = &[10, 20, 30, 40, 50, 60, 70, 80, 0];
    // Call, records, rr, sr, rw, growers after it.
    let stated: [(Call, u64, [u64; 3], &[u32]); 8] = [
        (Call::Find(30), 1, [1, 1, 0], as_laid),
        (Call::Find(99), 0, [1, 1, 0], as_laid),
        (Call::Range(40, 50), 2, [1, 3, 0], as_laid),
        (
            Call::Insert(d(15)),
            0,
            [3, 0, 3],
            &[10, 20, 30, 40, 15, 60, 70, 80, 50],
        ),
        (
            Call::Delete(d(30)),
            0,
            [3, 1, 3],
            &[10, 20, 40, 80, 50, 60, 70, 0, 0],
        ),
        (
            Call::Move(d(20), 70),
            0,
            [3, 1, 3],
            &[10, 40, 30, 70, 50, 60, 70, 80, 0],
        ),
        (
            Call::Move(d(70), 20),
            0,
            [3, 1, 3],
            &[10, 20, 30, 40, 20, 60, 50, 80, 0],
        ),
        (
            Call::Move(d(20), 25),
            0,
            [2, 1, 2],
            &[10, 40, 30, 25, 50, 60, 70, 80, 0],
        ),
    ];
    for (call, records, [rr, sr, rw], growers) in stated {
        let mut pair = Pair::new(&mut r, &column);
        let outcome = pair.ask(&mut run.seen, &library, call)?;
        let answer = Outcome::Answer(Answer {
            refusal: 0,
            totals: Totals {
                records,
                weight: 100 * records,
                oil: 200_000 * records,
            },
            counts: Counts { rr, sr, rw },
        });
        if outcome != answer || pair.view().growers != growers {
            let after = pair.view().growers;
            return Err(format!("{call:?}: {outcome:?}, growers {after:?}"));
        }
    }
    let mut pair = Pair::new(&mut r, &column);
    let outcome = pair.ask(&mut run.seen, &library, Asked::Partition(50))?;
    let answer = Outcome::Partition(PartitionSlice {
        refusal: 0,
        start: 4,
        count: 4,
    });
    if outcome != answer {
        return Err(format!("partition of 50: {outcome:?}"));
    }
    Ok(())
}

pub const TESTS: &[(&str, Test)] = &[
    ("examples of 01", examples),
    ("lists of calls, sound columns", sound),
    ("lists of calls, laid columns", laid),
    ("lists of calls, unsound columns", unsound),
    ("lists of calls, full columns", full),
    ("lists of calls, columns of some thousand slots", large),
    ("lists of calls, 262,144 slots", largest),
];
