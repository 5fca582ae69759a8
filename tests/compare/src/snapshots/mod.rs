//! Snapshots: a column written as a text, and a text read as a column.

mod calls;
mod damage;
mod reading;
pub mod seen;
pub mod writing;

use crate::{Run, Test};

fn every_answer(run: &mut Run) -> Result<(), String> {
    seen::complete(&run.seen)?;
    run.damages.complete()?;
    run.damages.enough(&run.seen, run.scale)
}

pub const TESTS: &[(&str, Test)] = &[
    ("snapshots: the main column's text", writing::main_text),
    ("snapshots: written, sound columns", writing::sound),
    (
        "snapshots: written, laid columns after calls",
        writing::laid,
    ),
    ("snapshots: written, each fault alone", writing::alone),
    ("snapshots: written, two faults", writing::pairs),
    ("snapshots: written, any column", writing::any),
    ("snapshots: written, columns with days", writing::dated),
    (
        "snapshots: written, each slice at the edge counts",
        writing::edge_counts,
    ),
    ("snapshots: columns of one slot", writing::one_slot),
    ("snapshots: read, whole texts", reading::whole),
    ("snapshots: read, each damage alone", reading::alone),
    ("snapshots: read, two damages", reading::pairs),
    ("snapshots: read, every byte replaced", reading::every_byte),
    ("snapshots: read, some bytes replaced", reading::some_bytes),
    ("snapshots: read, line 1 at its limits", reading::line1),
    ("snapshots: read, slice lengths", reading::slice_lengths),
    (
        "snapshots: read, each slice at the edge counts",
        reading::edge_counts,
    ),
    ("snapshots: 262,144 deliveries", reading::largest),
    (
        "snapshots: every answer and every damage has occurred",
        every_answer,
    ),
];
