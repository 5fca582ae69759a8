//! The next and the previous grower on a column of 262,144 slots.

use crate::columns::{self, laid, LIBRARY, SECOND, USED};
use meltusk::{step_second, Column, Slots, Step, Stepped};
use second::random::{case_seed, Random};
use second::{FENCES, LENGTHS, SLOT_LIMIT};

/// Steps of a batch.
const STEPS: usize = 8;

/// Makes a list of steps on the column of one side.
pub fn make(side: usize, c: &mut Column, steps: &[Step], answers: &mut Vec<Stepped>) {
    answers.clear();
    let view = c.view();
    if side == SECOND {
        answers.extend(steps.iter().map(|step| step_second(&view, step)));
    } else {
        answers.extend(steps.iter().map(|step| LIBRARY.step(&view, step)));
    }
}

/// Times drawn steps, each of which finds a grower.
fn time(
    r: &mut Random,
    name: &str,
    partitions: usize,
    column: &Column,
    drawn: impl Fn(&mut Random) -> Step,
) {
    let what = (name, partitions, STEPS);
    columns::time(what, column, || drawn(r), make, |a| a.records > 0);
}

/// The column as deletes leave it, if only the records of one partition stay.
fn emptied(column: &Column, partition: usize) -> Column {
    let (start, count) = (
        column.view().start(partition),
        column.view().length(partition),
    );
    let mut c = column.clone();
    for slice in c.slices() {
        slice.copy_within(start..start + count, 0);
        slice.truncate(count);
    }
    c.resize(SLOT_LIMIT);
    c.directory[LENGTHS..FENCES].fill(0);
    c.directory[LENGTHS + partition] = count as u32;
    c
}

pub fn run(partitions: usize) {
    let r = &mut Random::new(case_seed(108, partitions as u64));
    let column = laid(r, partitions, USED);
    let sorted: Vec<u32> = column.growers[..USED].to_vec();
    // A grower who has a record.
    let held = |r: &mut Random| sorted[r.below(USED)];
    time(r, "next", partitions, &column, |r| Step::Next(held(r)));
    time(r, "previous", partitions, &column, |r| {
        Step::Previous(held(r))
    });
    if partitions == 1 {
        return;
    }
    // From the other end of the column.
    let last = partitions - 1;
    let (near, far) = (column.view().start(1), column.view().start(last));
    time(r, "next, far", partitions, &emptied(&column, last), |r| {
        Step::Next(sorted[r.below(near)])
    });
    time(r, "previous, far", partitions, &emptied(&column, 0), |r| {
        Step::Previous(sorted[r.within(far, USED - 1)])
    });
}
