//! Scans of a column of which all records were deleted.

use crate::columns::{self, laid, USED};
use crate::growers;
use meltusk::{Call, Column, Slots, Step};
use second::random::{case_seed, Random};
use second::{Delivery, FENCES, LENGTHS};

/// Calls of a batch; each takes some tens of nanoseconds.
const CALLS: usize = 256;

struct Bench {
    partitions: usize,
    column: Column,
}

impl Bench {
    fn call(&self, name: &str, refusal: u32, drawn: impl FnMut() -> Call) {
        let (what, make) = ((name, self.partitions, CALLS), columns::make);
        columns::time(what, &self.column, drawn, make, |a| a.refusal == refusal);
    }

    fn step(&self, name: &str, drawn: impl FnMut() -> Step) {
        let (what, make) = ((name, self.partitions, CALLS), growers::make);
        columns::time(what, &self.column, drawn, make, |a| a.refusal == 0);
    }
}

pub fn run(partitions: usize) {
    let r = &mut Random::new(case_seed(109, partitions as u64));
    let mut column = laid(r, partitions, USED);
    column.directory[LENGTHS..FENCES].fill(0);
    for slice in column.slices() {
        slice.fill(0);
    }
    let bench = Bench { partitions, column };
    bench.call("find", 0, || Call::Find(r.next() as u32));
    bench.call("range, all", 0, || Call::Range(0, u32::MAX));
    bench.call("delete, 13", 13, || {
        Call::Delete(Delivery::new(r.next() as u32, 1, 1))
    });
    bench.step("next", || Step::Next(0));
    bench.step("previous", || Step::Previous(u32::MAX));
}
