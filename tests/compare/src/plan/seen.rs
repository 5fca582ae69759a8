//! What the compared calls of recorder, cost, planner and listing answered.

use super::listings;
use meltusk::{Call, Costed, Planned, Seen};
use second::Increase;

/// The refusals of each call, 0 for accepted.
const ANSWERS: [(&str, &[u32]); 9] = [
    ("record_find", &[0, 2, 3, 4, 5, 8, 9, 10, 19]),
    ("record_range", &[0, 2, 3, 4, 5, 7, 8, 9, 10, 19]),
    ("record_range_days", &[0, 2, 3, 4, 5, 7, 8, 9, 10, 19]),
    ("record_insert", &[0, 2, 3, 4, 5, 8, 9, 10, 19]),
    ("record_delete", &[0, 2, 3, 4, 5, 8, 9, 10, 19]),
    ("record_move", &[0, 2, 3, 4, 5, 8, 9, 10, 19]),
    ("cost", &[0, 1, 2, 3, 4, 5, 6, 8, 9, 19]),
    ("plan", &[0, 1, 2, 3, 4, 5, 8, 9, 11, 15, 19]),
    ("list_layouts", &[0, 1, 2, 3, 4, 5, 8, 9, 11, 15, 19, 23]),
];

const KINDS: [&str; 5] = [
    "cost below zero",
    "plan below zero",
    "plan of several partitions",
    "find that meets the read limit",
    "insert that meets the insert limit",
];

/// The name of a recorded call.
pub fn recorded(call: &Call) -> &'static str {
    match call {
        Call::Find(_) => "record_find",
        Call::Range(..) => "record_range",
        Call::RangeDays(..) => "record_range_days",
        Call::Insert(_) => "record_insert",
        Call::Delete(_) => "record_delete",
        Call::Move(..) => "record_move",
    }
}

pub fn note_cost(seen: &mut Seen, answer: &Costed) {
    seen.answer("cost", answer.refusal);
    seen.kind(answer.cost < 0, KINDS[0]);
}

pub fn note_plan(seen: &mut Seen, answer: &Planned) {
    seen.answer("plan", answer.refusal);
    seen.kind(answer.cost < 0, KINDS[1]);
    seen.kind(answer.count > 1, KINDS[2]);
}

/// Notes a permitted layout by whether its dearest calls cost as much as the
/// limits.
pub fn note_limits(seen: &mut Seen, find_meets: bool, insert_meets: bool) {
    seen.kind(find_meets, KINDS[3]);
    seen.kind(insert_meets, KINDS[4]);
}

/// Notes which bounds a least bill met, and which wrong ones it contradicts.
pub fn note_increase(seen: &mut Seen, increase: &Increase) {
    for (kind, there) in Increase::KINDS.into_iter().zip(increase.occurred()) {
        seen.kind(there, kind);
    }
}

/// An error if an answer or a kind of answer has not occurred.
pub fn complete(seen: &Seen) -> Result<(), String> {
    seen.complete(&ANSWERS, &KINDS)?;
    seen.complete(&[], &listings::KINDS)?;
    seen.complete(&[], &Increase::KINDS)
}
