//! The calls on a column of 262,144 slots.

use crate::allocator::together;
use crate::sets::{delivery, drawn, Layouts, HARVEST};
use crate::timing::{timed, Times, REPETITIONS, ROUNDS};
use meltusk::{call_second, even_ends, spread_growers, Answer, Call, Column, Empty, Library};
use second::random::{case_seed, Random};
use second::{Delivery, Span, BLOCK_LENGTH_LIMIT, BLOCK_LIMIT, SLOT_LIMIT};

/// Slots left free.
const FREE: usize = 256;
pub const USED: usize = SLOT_LIMIT - FREE;
/// Inserts of a batch, and then deletes; as many moves there and back.
const WRITES: usize = 32;
/// Finds and ranges of a batch.
const READS: usize = 8;
/// Pairs of columns on which inserts alone are timed. The second cache takes its
/// sets by physical pages, and which of these a column gets is drawn by the system.
const PAIRS: usize = 8;

pub const LIBRARY: Library = Library {
    empty: Empty::Place,
};

/// The two sides; each has its own column, exchanged after each repetition.
pub const OURS: usize = 0;
pub const SECOND: usize = 1;

/// Makes a list of calls on the column of one side.
pub fn make(side: usize, c: &mut Column, calls: &[Call], answers: &mut Vec<Answer>) {
    answers.clear();
    let mut column = c.lend();
    if side == SECOND {
        answers.extend(calls.iter().map(|call| call_second(&mut column, call)));
    } else {
        answers.extend(calls.iter().map(|call| LIBRARY.call(&mut column, call)));
    }
}

/// Growers spread evenly over all numbers, in the order of the unpartitioned
/// set, laid in partitions of equal blocks.
fn laid_in(r: &mut Random, block: u32, partitions: usize, used: usize) -> Column {
    let growers = spread_growers(r, used);
    drawn(r, block, growers, SLOT_LIMIT).column(&even_ends(partitions))
}

/// The same in the longest blocks.
pub fn laid(r: &mut Random, partitions: usize, used: usize) -> Column {
    laid_in(r, BLOCK_LENGTH_LIMIT, partitions, used)
}

/// A column for each side, and the answers to its last batch.
struct Bench<A> {
    columns: [Column; 2],
    answers: [Vec<A>; 2],
}

impl<A: PartialEq> Bench<A> {
    /// For batches of so many questions at most.
    fn new(column: Column, most: usize) -> Bench<A> {
        Bench {
            columns: [column.clone(), column],
            answers: [0; 2].map(|_| Vec::with_capacity(most)),
        }
    }

    /// One batch of each side, one after the other. Both answer the same, each
    /// answer as is asked.
    fn batch<Q>(
        &mut self,
        first: usize,
        questions: &[Q],
        times: &mut Times,
        make: impl Fn(usize, &mut Column, &[Q], &mut Vec<A>),
        is_right: impl Fn(&A) -> bool,
    ) {
        for side in [first, 1 - first] {
            let (column, answers) = (&mut self.columns[side], &mut self.answers[side]);
            let (ns, ()) = timed(questions.len(), || make(side, column, questions, answers));
            times.add(side, ns);
        }
        let [ours, second] = &self.answers;
        assert!(ours == second, "the answers differ");
        assert!(ours.iter().all(is_right), "not what is timed");
    }

    /// Times N kinds of batches; `round` makes one of each, beginning with a side.
    fn repeat<const N: usize>(
        &mut self,
        times: &mut [Times; N],
        mut round: impl FnMut(&mut Bench<A>, usize, &mut [Times; N]),
    ) {
        for _ in 0..REPETITIONS {
            for i in 0..ROUNDS {
                round(self, i % 2, times);
            }
            let [ours, second] = &self.columns;
            assert!(ours == second, "the columns differ");
            times.iter_mut().for_each(Times::close);
            // The columns are equal and lie elsewhere in memory. Each side is
            // timed on both, so that no side has the better place.
            self.columns.swap(OURS, SECOND);
        }
    }
}

/// Times drawn questions, so many a batch, on two equal columns that they do not
/// change. Both sides answer the same, each answer as is asked.
pub fn time<Q, A: PartialEq>(
    (name, partitions, batch): (&str, usize, usize),
    column: &Column,
    mut drawn: impl FnMut() -> Q,
    make: impl Fn(usize, &mut Column, &[Q], &mut Vec<A>),
    is_right: impl Fn(&A) -> bool,
) {
    let mut times = [Times::default()];
    Bench::new(column.clone(), batch).repeat(&mut times, |bench, first, [times]| {
        let questions: Vec<Q> = (0..batch).map(|_| drawn()).collect();
        bench.batch(first, &questions, times, &make, &is_right);
    });
    times[0].print(name, partitions);
}

impl Bench<Answer> {
    /// A batch of calls that are accepted.
    fn calls(&mut self, first: usize, calls: &[Call], times: &mut Times) {
        self.batch(first, calls, times, make, |a| a.refusal == 0);
    }

    fn reads(&mut self, first: usize, times: &mut Times, mut drawn: impl FnMut() -> Call) {
        let calls: Vec<Call> = (0..READS).map(|_| drawn()).collect();
        self.calls(first, &calls, times);
    }

    /// The deliveries of a batch are inserted, then deleted.
    fn inserts(&mut self, first: usize, r: &mut Random, insert: &mut Times, delete: &mut Times) {
        let new: Vec<Delivery> = (0..WRITES)
            .map(|_| {
                let grower = r.next() as u32;
                delivery(r, grower)
            })
            .collect();
        let inserts: Vec<Call> = new.iter().map(|&d| Call::Insert(d)).collect();
        let deletes: Vec<Call> = new.iter().map(|&d| Call::Delete(d)).collect();
        self.calls(first, &inserts, insert);
        self.calls(first, &deletes, delete);
    }

    /// Each delivery is moved to a random grower, and back.
    fn moves(&mut self, first: usize, r: &mut Random, times: &mut Times) {
        let held = self.columns[SECOND].view();
        let moves: Vec<Call> = (0..WRITES / 2)
            .flat_map(|_| {
                let (d, grower) = (held.slot(r.below(USED)), r.next() as u32);
                let back = Delivery { grower, ..d };
                [Call::Move(d, grower), Call::Move(back, d.grower)]
            })
            .collect();
        self.calls(first, &moves, times);
    }
}

pub fn run(partitions: usize) {
    let r = &mut Random::new(case_seed(100, partitions as u64));
    let mut bench = Bench::new(laid(r, partitions, USED), WRITES);
    let sorted: Vec<u32> = bench.columns[OURS].growers[..USED].to_vec();
    // The first term of the harvest: a sixth of the records.
    let term = Span::new(HARVEST.first, HARVEST.first + 14);
    // An eighth of the growers.
    let eighth = |r: &mut Random| {
        let lo = r.below(USED - USED / 8);
        (sorted[lo], sorted[lo + USED / 8 - 1])
    };
    let mut times: [Times; 7] = Default::default();
    bench.repeat(&mut times, |bench, first, times| {
        let [find, range, of_term, all_days, insert, delete, moved] = times;
        bench.reads(first, find, || Call::Find(sorted[r.below(USED)]));
        bench.reads(first, range, || {
            let (lo, hi) = eighth(r);
            Call::Range(lo, hi)
        });
        for (span, times) in [(term, of_term), (Span::ALL, all_days)] {
            bench.reads(first, times, || {
                let (lo, hi) = eighth(r);
                Call::RangeDays(lo, hi, span)
            });
        }
        bench.inserts(first, r, insert, delete);
        bench.moves(first, r, moved);
    });
    let names = [
        "find",
        "range 1/8",
        "term, 1/8",
        "all days, 1/8",
        "insert",
        "delete",
        "move",
    ];
    for (times, name) in times.iter().zip(names) {
        times.print(name, partitions);
    }
}

/// Inserts at 64 partitions, with a column's four slices at different places of a
/// page and with all at the same.
pub fn inserts(block: u32) {
    let r = &mut Random::new(case_seed(110, u64::from(block)));
    let used = BLOCK_LIMIT * block as usize - FREE;
    let column = laid_in(r, block, BLOCK_LIMIT, used);
    let pairs = || -> Vec<Bench<Answer>> {
        let pair = |_| Bench::new(column.clone(), WRITES);
        (0..PAIRS).map(pair).collect()
    };
    for (name, pairs) in [("apart", pairs()), ("together", together(pairs))] {
        let mut times: [Times; 2] = Default::default();
        for mut bench in pairs {
            bench.repeat(&mut times, |bench, first, [insert, delete]| {
                bench.inserts(first, r, insert, delete);
            });
        }
        times[0].print(name, block as usize);
    }
}
