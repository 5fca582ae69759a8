//! Weighbridge files: deliveries imported from comma-separated text, and
//! exported.

mod calls;
mod damage;
mod exporting;
mod file;
mod importing;
pub mod seen;

use crate::{Run, Test};

fn every_answer(run: &mut Run) -> Result<(), String> {
    seen::complete(&run.seen)?;
    run.files.complete()?;
    run.files.enough(&run.seen, run.scale)
}

pub const TESTS: &[(&str, Test)] = &[
    ("files: examples/weighbridge.csv", importing::example),
    ("files: imported, whole", importing::whole),
    ("files: imported, each damage alone", importing::alone),
    ("files: imported, two damages", importing::pairs),
    ("files: imported, every place", importing::every_place),
    (
        "files: imported, every byte in every kind of place",
        importing::every_byte,
    ),
    (
        "files: imported, some bytes replaced",
        importing::some_bytes,
    ),
    (
        "files: imported, numbers at their limits",
        importing::numbers,
    ),
    (
        "files: imported, long fields and many columns",
        importing::long,
    ),
    ("files: imported, slice lengths", importing::slice_lengths),
    (
        "files: imported, each slice at the edge counts",
        importing::edge_counts,
    ),
    ("files: exported and imported", exporting::round_trip),
    ("files: exported, each fault and two", exporting::faults),
    (
        "files: exported, 19 beside 8, each slot",
        exporting::every_slot,
    ),
    (
        "files: exported, each slice at the edge counts",
        exporting::edge_counts,
    ),
    ("files: 262,144 deliveries", exporting::largest),
    (
        "files: every answer and every damage has occurred",
        every_answer,
    ),
];
