//! Settlement sheets of 250,000 deliveries of 6,000 growers.

use crate::columns::{LIBRARY, OURS, SECOND};
use crate::sets::{drawn, Layouts, HARVEST};
use crate::timing::{timed, Times, REPETITIONS};
use meltusk::{even_ends, sheet_second, spread_growers, Column, Slots};
use second::random::{case_seed, Random};
use second::{sheet_size, BLOCK_LIMIT, SLOT_LIMIT};

const RECORDS: usize = 250_000;
const GROWERS: usize = 6_000;
/// The shortest blocks that the set can have.
const BLOCK: usize = RECORDS.div_ceil(BLOCK_LIMIT);
/// Rounds of a repetition: a call takes milliseconds.
const ROUNDS: usize = 3;
/// What weeks of calls do to a partition: so many first records go to its end,
/// and so many pairs are exchanged.
const ROTATED: usize = 500;
const EXCHANGED: usize = 100;

/// A laid column. Each block has its own growers, so that every end is permitted;
/// each grower has one record at least.
fn laid(r: &mut Random, partitions: usize) -> Column {
    let growers = spread_growers(r, GROWERS);
    let mut held = Vec::with_capacity(RECORDS);
    for block in 0..BLOCK_LIMIT {
        let first = block * GROWERS / BLOCK_LIMIT;
        let own = &growers[first..(block + 1) * GROWERS / BLOCK_LIMIT];
        let more = BLOCK.min(RECORDS - held.len()) - own.len();
        held.extend_from_slice(own);
        held.extend((0..more).map(|_| r.pick(own)));
    }
    held.sort_unstable();
    let set = drawn(r, BLOCK as u32, held, SLOT_LIMIT);
    set.column(&even_ends(partitions))
}

/// The first slot and the records of each partition.
fn parts(c: &Column) -> Vec<(usize, usize)> {
    let view = c.view();
    let all = 0..view.partitions();
    all.map(|p| (view.start(p), view.length(p))).collect()
}

fn exchange(c: &mut Column, x: usize, y: usize) {
    c.slices().into_iter().for_each(|slice| slice.swap(x, y));
}

/// In no order inside each partition.
fn shuffled(r: &mut Random, mut c: Column) -> Column {
    for (start, count) in parts(&c) {
        for i in (1..count).rev() {
            exchange(&mut c, start + i, start + r.below(i + 1));
        }
    }
    c
}

/// As inserts, deletes and moves leave a column.
fn rotated(r: &mut Random, mut c: Column) -> Column {
    for (start, count) in parts(&c) {
        for slice in c.slices() {
            slice[start..start + count].rotate_left(ROTATED.min(count));
        }
        for _ in 0..EXCHANGED {
            let (x, y) = (start + r.below(count), start + r.below(count));
            exchange(&mut c, x, y);
        }
    }
    c
}

/// What one side writes to; exchanged after each repetition.
struct Side {
    text: Vec<u8>,
    order: Vec<u32>,
    work: Vec<u32>,
}

impl Side {
    fn new(bytes: usize) -> Side {
        Side {
            text: vec![0; bytes],
            order: vec![0; SLOT_LIMIT],
            work: vec![0; SLOT_LIMIT],
        }
    }

    /// The refusal of the whole sheet, or of that of a day's term.
    fn write(&mut self, side: usize, c: &Column, day: Option<u32>) -> u32 {
        let Side { text, order, work } = self;
        let a = match side {
            OURS => LIBRARY.sheet(&c.view(), day, text, order, work),
            _ => sheet_second(&c.view(), day, text, order, work),
        };
        a.refusal
    }
}

/// Times the sheet of a column, or that of a term, in a text of so many bytes.
fn time(name: &str, partitions: usize, column: &Column, bytes: usize, day: Option<u32>) {
    let mut sides = [Side::new(bytes), Side::new(bytes)];
    let mut times = Times::default();
    for _ in 0..REPETITIONS {
        for round in 0..ROUNDS {
            for side in [round % 2, 1 - round % 2] {
                let (ns, refusal) = timed(1, || sides[side].write(side, column, day));
                assert_eq!(refusal, 0, "the sheet is refused");
                times.add(side, ns);
            }
            let [ours, second] = &sides;
            let same = ours.text == second.text && ours.order == second.order;
            assert!(same && ours.work == second.work, "the sheets differ");
        }
        times.close();
        sides.swap(OURS, SECOND);
    }
    times.print(name, partitions);
}

pub fn run(partitions: usize) {
    let r = &mut Random::new(case_seed(109, partitions as u64));
    let fresh = laid(r, partitions);
    let [mixed, worked] = [shuffled(r, fresh.clone()), rotated(r, fresh.clone())];
    for (column, names) in [
        (&fresh, ["laid", "laid, exact", "laid, a term"]),
        (&mixed, ["shuffled", "shuffled, exact", "shuffled, term"]),
        (&worked, ["rotated", "rotated, exact", "rotated, a term"]),
    ] {
        // Room for a line a slot, and for the lines that there are.
        let [all, exact] = [SLOT_LIMIT, GROWERS].map(sheet_size);
        time(names[0], partitions, column, all, None);
        time(names[1], partitions, column, exact, None);
        // A sixth of the records.
        time(names[2], partitions, column, all, Some(HARVEST.first));
    }
}
