//! What the calls on columns were: every answer, every kind of move and of
//! scan.

use crate::calls::Asked;
use meltusk::{Call, Seen, Step};
use second::{Span, DAY_LIMIT, FENCES, LENGTHS};
use std::collections::BTreeSet;

/// The refusals of each call, 0 for accepted.
const ANSWERS: [(&str, &[u32]); 10] = [
    ("find", &[0, 2, 3, 6, 8, 19]),
    ("range", &[0, 2, 3, 6, 7, 8, 19]),
    ("range_days", &[0, 2, 3, 6, 7, 8, 19]),
    ("insert", &[0, 2, 3, 6, 8, 12, 19]),
    ("delete", &[0, 2, 3, 6, 8, 13, 19]),
    ("move", &[0, 2, 3, 6, 8, 13, 19]),
    ("next_grower", &[0, 2, 3, 6, 8, 19]),
    ("previous_grower", &[0, 2, 3, 6, 8, 19]),
    ("partition", &[0, 2, 3, 6]),
    ("apply_layout", &[0, 2, 3, 4, 5, 6, 8, 19]),
];

const MOVES: [&str; 8] = [
    "insert past an empty partition",
    "insert past records",
    "delete past an empty partition",
    "delete past records",
    "move within a partition",
    "move forward past an empty partition",
    "move backward past an empty partition",
    "move past records",
];

/// Records of a partition that the library looks at together.
const STRIDE: usize = 64;

const SCANS: [&str; 4] = [
    "stride without a match",
    "stride with some matches",
    "stride of matches alone",
    "match past the last whole stride",
];

/// The same of a range over days, where some of the growers' records are on them
/// and some are not.
const DATED_SCANS: [&str; 4] = [
    "range over days: stride without a match",
    "range over days: stride with some matches",
    "range over days: stride of matches alone",
    "range over days: match past the last whole stride",
];

/// What is scanned where partitions are empty.
const GAPS: [&str; 6] = [
    "scan of empty partitions alone",
    "scan of an empty partition ahead of records",
    "scan of an empty partition between records",
    "scan of an empty partition past records",
    "delete refused by 13 in an empty partition",
    "move refused by 13 in an empty partition",
];

/// What a range over days met.
const DAYS: [&str; 7] = [
    "range over days: the last earlier than the first",
    "range over days: one day, with a record",
    "range over days: every day",
    "range over days: some of the growers' records, not all",
    "range over days: a record on the first day",
    "range over days: a record on the last day",
    "range over days: days of several terms",
];

pub fn name(asked: &Asked) -> &'static str {
    match asked {
        Asked::Call(Call::Find(_)) => "find",
        Asked::Call(Call::Range(..)) => "range",
        Asked::Call(Call::RangeDays(..)) => "range_days",
        Asked::Call(Call::Insert(_)) => "insert",
        Asked::Call(Call::Delete(_)) => "delete",
        Asked::Call(Call::Move(..)) => "move",
        Asked::Step(Step::Next(_)) => "next_grower",
        Asked::Step(Step::Previous(_)) => "previous_grower",
        Asked::Partition(_) => "partition",
    }
}

/// Notes the strides of partitions of these lengths; `matches` says it of the
/// slots from the first partition's first on.
fn note_scans(seen: &mut Seen, kinds: &[&'static str; 4], lengths: &[u32], matches: &[bool]) {
    let mut rest = matches;
    for &n in lengths {
        let (part, later) = rest.split_at(n as usize);
        for stride in part.chunks(STRIDE) {
            let matches = stride.iter().filter(|&&is| is).count();
            match (stride.len() == STRIDE, matches) {
                (true, 0) => seen.kind(true, kinds[0]),
                (true, STRIDE) => seen.kind(true, kinds[2]),
                (true, _) => seen.kind(true, kinds[1]),
                (false, n) => seen.kind(n > 0 && part.len() > STRIDE, kinds[3]),
            }
        }
        rest = later;
    }
}

/// Notes the empty partitions among those scanned.
fn note_gaps(seen: &mut Seen, lengths: &[u32]) {
    let first = lengths.iter().position(|&n| n > 0);
    let last = lengths.iter().rposition(|&n| n > 0);
    let (Some(first), Some(last)) = (first, last) else {
        return seen.kind(true, GAPS[0]);
    };
    seen.kind(first > 0, GAPS[1]);
    seen.kind(lengths[first..=last].contains(&0), GAPS[2]);
    seen.kind(last + 1 < lengths.len(), GAPS[3]);
}

/// Notes the days of the records of the growers lo to hi.
fn note_days(seen: &mut Seen, held: &[u32], span: Span) {
    let inside = held.iter().filter(|&&day| span.holds(day));
    let count = inside.clone().count();
    let terms = inside.map(|&day| second::term_of(day).first);
    let there = [
        span.last < span.first,
        span.last == span.first && count > 0,
        span == Span::ALL,
        0 < count && count < held.len(),
        span.first > 0 && span.first <= span.last && held.contains(&span.first),
        span.last < DAY_LIMIT && span.first <= span.last && held.contains(&span.last),
        terms.collect::<BTreeSet<u32>>().len() > 1,
    ];
    for (kind, there) in DAYS.iter().zip(there) {
        seen.kind(there, kind);
    }
}

/// Notes the scan of a range over the days of a span, or over every day.
fn note_range(
    seen: &mut Seen,
    (growers, days): (&[u32], &[u32]),
    directory: &[u32],
    (lo, hi): (u32, u32),
    span: Option<Span>,
) {
    let k = directory[1] as usize;
    let lengths = &directory[LENGTHS..LENGTHS + k];
    let partition = |g: u32| partition_of(directory, g);
    let start = |p: usize| lengths[..p].iter().map(|&n| n as usize).sum::<usize>();
    let scanned = &lengths[partition(lo)..=partition(hi)];
    let slots = start(partition(lo))..start(partition(hi) + 1);
    let is_own = |&i: &usize| lo <= growers[i] && growers[i] <= hi;
    note_gaps(seen, scanned);
    let Some(span) = span else {
        let matches: Vec<bool> = slots.map(|i| is_own(&i)).collect();
        return note_scans(seen, &SCANS, scanned, &matches);
    };
    let held: Vec<u32> = slots.clone().filter(is_own).map(|i| days[i]).collect();
    note_days(seen, &held, span);
    if held
        .iter()
        .any(|&day| span.holds(day) != span.holds(held[0]))
    {
        let is_match = |i: usize| is_own(&i) && span.holds(days[i]);
        let matches: Vec<bool> = slots.map(is_match).collect();
        note_scans(seen, &DATED_SCANS, scanned, &matches);
    }
}

fn partition_of(directory: &[u32], g: u32) -> usize {
    let k = directory[1] as usize;
    let fences = &directory[FENCES..FENCES + k];
    fences.partition_point(|&f| f < g).min(k - 1)
}

/// Notes what was asked and its refusal; the slots' growers and days and the
/// directory are those before the call.
pub fn note(
    seen: &mut Seen,
    asked: &Asked,
    refusal: u32,
    slots: (&[u32], &[u32]),
    directory: &[u32],
) {
    seen.answer(name(asked), refusal);
    let Asked::Call(call) = asked else { return };
    if refusal != 0 && refusal != 13 {
        return;
    }
    let k = directory[1] as usize;
    let lengths = &directory[LENGTHS..LENGTHS + k];
    let partition = |g: u32| partition_of(directory, g);
    if refusal == 13 {
        match call {
            Call::Delete(d) => seen.kind(lengths[partition(d.grower)] == 0, GAPS[4]),
            Call::Move(d, _) => seen.kind(lengths[partition(d.grower)] == 0, GAPS[5]),
            _ => {}
        }
        return;
    }
    let past = |seen: &mut Seen, lengths: &[u32], empty: usize, records: usize| {
        seen.kind(lengths.contains(&0), MOVES[empty]);
        seen.kind(lengths.iter().any(|&n| n > 0), MOVES[records]);
    };
    match *call {
        Call::Find(g) => note_range(seen, slots, directory, (g, g), None),
        Call::Range(lo, hi) => note_range(seen, slots, directory, (lo, hi), None),
        Call::RangeDays(lo, hi, span) => {
            note_range(seen, slots, directory, (lo, hi), Some(span));
        }
        Call::Insert(d) => past(seen, &lengths[partition(d.grower) + 1..], 0, 1),
        Call::Delete(d) => past(seen, &lengths[partition(d.grower) + 1..], 2, 3),
        Call::Move(d, g) => {
            let (from, to) = (partition(d.grower), partition(g));
            if from == to {
                seen.kind(true, MOVES[4]);
            } else if from < to {
                past(seen, &lengths[from + 1..to], 5, 7);
            } else {
                past(seen, &lengths[to + 1..from], 6, 7);
            }
        }
    }
}

/// An error if an answer or a kind of move or scan has not occurred.
pub fn complete(seen: &Seen) -> Result<(), String> {
    let kinds = [&MOVES[..], &SCANS, &DATED_SCANS, &GAPS, &DAYS].concat();
    seen.complete(&ANSWERS, &kinds)
}
