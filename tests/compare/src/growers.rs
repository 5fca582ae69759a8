//! The next and the previous grower: columns after lists of calls, beside the
//! ledger too; whole columns stepped through; values out of range that are
//! scanned and that are not.

use crate::bad::Bad;
use crate::broken::{self, stepped_over};
use crate::calls::{Asked, Outcome, Pair};
use crate::inputs::{self, Kind, MIXES};
use crate::lists;
use crate::{Run, Test};
use meltusk::{Call, Column, Counts, Library, Seen, Slots, Step, Stepped, Totals, View};
use second::random::Random;
use second::{Ledger, DIRECTORY_LEN, FENCES, LENGTHS};
use std::collections::BTreeMap;

/// Steps from drawn growers, up and down, on each column.
const STEPS: usize = 12;
/// Columns whose partitions are emptied have at most so many slots.
const SMALL: usize = 200;

/// What has to occur, of next and of previous.
const KINDS: [[&str; 11]; 2] = [
    [
        "next: hit in the first partition scanned",
        "next: hit in the last partition after empty ones",
        "next: hit after partitions with smaller growers",
        "next: none",
        "next: 8 in a partition scanned ahead of the last",
        "next: 8 in the partition of a hit alone",
        "next: a value out of range that is not scanned",
        "next: from past every fence",
        "next: grower 0",
        "next: grower 4,294,967,295",
        "next: records more than 64 slots apart",
    ],
    [
        "previous: hit in the first partition scanned",
        "previous: hit in the first partition after empty ones",
        "previous: hit after partitions with larger growers",
        "previous: none",
        "previous: 8 in a partition scanned ahead of the last",
        "previous: 8 in the partition of a hit alone",
        "previous: a value out of range that is not scanned",
        "previous: from past every fence",
        "previous: grower 0",
        "previous: grower 4,294,967,295",
        "previous: records more than 64 slots apart",
    ],
];

/// Notes what a step met; 8 and 19 are its only refusals.
fn note(seen: &mut Seen, view: &View, step: &Step, a: &Stepped) {
    let (low, high) = stepped_over(step, view);
    let last = view.partitions() - 1;
    let slots = |p: usize| view.start(p)..view.start(p) + view.length(p);
    let is_bad = |p: usize| slots(p).any(|i| !view.slot(i).in_range());
    let (names, end, is_far) = match step {
        Step::Next(_) => (&KINDS[0], high, high == last),
        Step::Previous(_) => (&KINDS[1], low, low == 0),
    };
    let ahead = || (low..=high).filter(|&p| p != end);
    let is_hit = a.records > 0;
    let is_later = is_hit && low < high;
    let elsewhere = || (0..=last).filter(|p| !(low..=high).contains(p));
    let holds_hit = slots(end).any(|i| step.reaches(view.growers[i]));
    let of_grower = || slots(end).filter(|&i| view.growers[i] == a.grower);
    let apart = match (of_grower().next(), of_grower().last()) {
        (Some(first), Some(last)) => last - first,
        _ => 0,
    };
    let there = [
        is_hit && low == high,
        is_later && is_far && ahead().all(|p| view.length(p) == 0),
        is_later && ahead().all(|p| view.length(p) > 0),
        a.refusal == 0 && !is_hit,
        a.refusal == 8 && ahead().any(is_bad),
        a.refusal == 8 && holds_hit && is_bad(end) && !ahead().any(is_bad),
        is_hit && elsewhere().any(is_bad),
        step.grower() > view.fence(last),
        is_hit && a.grower == 0,
        is_hit && a.grower == u32::MAX,
        is_hit && apart > 64,
    ];
    for (name, there) in names.iter().zip(there) {
        seen.kind(there, name);
    }
}

/// A step by both implementations on a column of proper shape.
fn step(run: &mut Run, library: &Library, pair: &mut Pair, step: Step) -> Result<Stepped, String> {
    match pair.ask(&mut run.seen, library, step)? {
        Outcome::Stepped(a) => {
            note(&mut run.seen, &pair.view(), &step, &a);
            Ok(a)
        }
        other => Err(format!("{step:?}: {other:?}")),
    }
}

/// Asks the column, and the ledger too if it has the call.
fn ask(
    run: &mut Run,
    library: &Library,
    pair: &mut Pair,
    ledger: &mut Ledger,
    asked: Asked,
) -> Result<(), String> {
    let outcome = pair.ask(&mut run.seen, library, asked)?;
    let (Asked::Call(call), Outcome::Answer(a)) = (asked, outcome) else {
        return Ok(());
    };
    let (refusal, totals) = match call {
        Call::Find(g) => ledger.find(g),
        Call::Range(lo, hi) => ledger.range(lo, hi),
        Call::RangeDays(lo, hi, span) => ledger.range_days(lo, hi, span),
        Call::Insert(d) => (ledger.insert(d), second::Totals::ZERO),
        Call::Delete(d) => (ledger.delete(d), second::Totals::ZERO),
        Call::Move(d, g) => (ledger.move_delivery(d, g), second::Totals::ZERO),
    };
    if (a.refusal, a.totals) != (refusal, Totals::from(totals)) {
        return Err(format!("{call:?}: {a:?}, ledger {refusal} {totals:?}"));
    }
    Ok(())
}

/// A sound column after a list of calls, and the ledger after the same list.
/// Of small columns some partitions are emptied by deletes.
fn worked(run: &mut Run, r: &mut Random, library: &Library) -> Result<(Pair, Ledger), String> {
    let column = match r.below(12) {
        0 => inputs::clean_column(r, Kind::Large),
        1 | 2 => inputs::clean_column(r, Kind::Full),
        3..=5 => lists::laid_column(run, r, library)?,
        _ => inputs::clean_column(r, Kind::Sound),
    };
    let view = column.view();
    let held = (0..view.used()).map(|i| view.slot(i)).collect();
    let mut ledger = Ledger::holding(column.growers.len(), held);
    let mut pair = Pair::new(r, &column);
    let mix = r.pick(&MIXES);
    for _ in 0..r.below(30) {
        let asked = inputs::asked(r, &pair.view(), &mix);
        ask(run, library, &mut pair, &mut ledger, asked)?;
    }
    if column.growers.len() <= SMALL {
        let often = r.within(1, 4);
        for p in 0..view.partitions() {
            if r.one_in(often) {
                continue;
            }
            while pair.view().length(p) > 0 {
                let d = pair.view().slot(pair.view().start(p));
                ask(run, library, &mut pair, &mut ledger, Call::Delete(d).into())?;
            }
        }
    }
    Ok((pair, ledger))
}

/// Steps from growers at, just below and just above fences and growers held,
/// and from both ends.
fn beside_ledger(run: &mut Run) -> Result<(), String> {
    run.cases(110, 4_000, |run, r| {
        let library = inputs::library(r);
        let (mut pair, ledger) = worked(run, r, &library)?;
        let used = pair.view().used();
        let mut asked = vec![0, u32::MAX];
        asked.extend((0..STEPS).map(|_| inputs::near(r, &pair.view(), used)));
        for g in asked {
            let expected = [ledger.next_grower(g), ledger.previous_grower(g)];
            for (way, expected) in Step::both(g).into_iter().zip(expected) {
                let a = step(run, &library, &mut pair, way)?;
                if (a.refusal, (a.grower, a.records)) != (0, expected) {
                    return Err(format!("{way:?}: {a:?}, ledger {expected:?}"));
                }
            }
        }
        Ok(())
    })
}

/// Each grower and his records, in the order in which a screen shows them.
fn shown(
    run: &mut Run,
    library: &Library,
    pair: &mut Pair,
    first: Step,
) -> Result<Vec<(u32, u64)>, String> {
    let mut all = Vec::new();
    let mut next = Some(first);
    while let Some(way) = next {
        let a = step(run, library, pair, way)?;
        if a.refusal != 0 || all.len() > pair.view().used() {
            return Err(format!("{way:?}: {a:?} after {} growers", all.len()));
        }
        if a.records == 0 {
            break;
        }
        all.push((a.grower, a.records));
        next = match way {
            Step::Next(_) => a.grower.checked_add(1).map(Step::Next),
            Step::Previous(_) => a.grower.checked_sub(1).map(Step::Previous),
        };
    }
    Ok(all)
}

/// Up and down through a whole column: each grower once, in order, with his
/// records.
fn stepping(run: &mut Run) -> Result<(), String> {
    run.cases(111, 2_000, |run, r| {
        let library = inputs::library(r);
        let (mut pair, ledger) = worked(run, r, &library)?;
        let mut held: BTreeMap<u32, u64> = BTreeMap::new();
        for d in ledger.records() {
            *held.entry(d.grower).or_default() += 1;
        }
        let mut expected: Vec<(u32, u64)> = held.into_iter().collect();
        let up = shown(run, &library, &mut pair, Step::Next(0))?;
        if up != expected {
            return Err(format!("up {up:?}, held {expected:?}"));
        }
        expected.reverse();
        let down = shown(run, &library, &mut pair, Step::Previous(u32::MAX))?;
        if down != expected {
            return Err(format!("down {down:?}, held {expected:?}"));
        }
        Ok(())
    })
}

/// Columns that are not sound, in some a weight or a yield out of range.
fn unsound(run: &mut Run) -> Result<(), String> {
    run.cases(112, 6_000, |run, r| {
        let library = inputs::library(r);
        let column = inputs::column(r, Kind::Unsound);
        let mut pair = Pair::new(r, &column);
        let used = column.view().used();
        for _ in 0..STEPS {
            for way in Step::both(inputs::near(r, &column.view(), used)) {
                step(run, &library, &mut pair, way)?;
            }
        }
        Ok(())
    })
}

/// A value out of range: 8, or 19 of a day, if its partition is scanned, whether
/// it holds a hit or not, and else the answer as without it.
fn values(run: &mut Run) -> Result<(), String> {
    run.cases(113, 6_000, |run, r| {
        let library = inputs::library(r);
        let clean = broken::base(r);
        let view = clean.view();
        let used = view.used();
        for way in Step::both(inputs::near(r, &view, used)) {
            let right = step(run, &library, &mut Pair::new(r, &clean), way)?;
            let (low, high) = stepped_over(&way, &view);
            let scanned = view.start(low)..view.start(high + 1);
            let at = r.below(used);
            let mut c = clean.clone();
            let bad = Bad::one(r, at);
            bad.put(r, c.slices());
            let a = step(run, &library, &mut Pair::new(r, &c), way)?;
            let good = match bad.refusal(&scanned) {
                0 => a == right,
                number => a.refusal == number,
            };
            if !good {
                return Err(format!("{way:?}, slot {at} of {scanned:?}: {a:?}"));
            }
        }
        Ok(())
    })
}

/// Sixty-four partitions of which one has the only record, and a step from each
/// fence: one block is read where he is found, and else none.
fn one_record(run: &mut Run) -> Result<(), String> {
    run.cases(114, 1, |run, r| {
        let library = inputs::library(r);
        let fences: Vec<u32> = (1..=64).map(|p| 10 * p).collect();
        for (at, &grower) in fences.iter().enumerate() {
            let mut column = Column {
                directory: vec![0; DIRECTORY_LEN],
                growers: vec![grower, 5],
                weights: vec![inputs::weight(r), u32::MAX],
                yields: vec![inputs::oil_yield(r), u32::MAX],
                days: vec![inputs::day(r), u32::MAX],
            };
            column.directory[..2].copy_from_slice(&[1, 64]);
            column.directory[LENGTHS + at] = 1;
            column.directory[FENCES..].copy_from_slice(&fences);
            let mut pair = Pair::new(r, &column);
            for &g in &fences {
                for way in Step::both(g) {
                    let is_hit = way.reaches(grower);
                    let expected = Stepped {
                        refusal: 0,
                        grower: if is_hit { grower } else { 0 },
                        records: u64::from(is_hit),
                        counts: Counts {
                            rr: u64::from(is_hit),
                            sr: 0,
                            rw: 0,
                        },
                    };
                    let a = step(run, &library, &mut pair, way)?;
                    if a != expected {
                        return Err(format!("{way:?}, record of {grower}: {a:?}"));
                    }
                }
            }
        }
        Ok(())
    })
}

fn every_case(run: &mut Run) -> Result<(), String> {
    run.seen.complete(&[], &KINDS.concat())
}

pub const TESTS: &[(&str, Test)] = &[
    (
        "growers: after lists of calls, beside the ledger",
        beside_ledger,
    ),
    ("growers: whole columns stepped through", stepping),
    ("growers: unsound columns", unsound),
    ("growers: values out of range, scanned and not", values),
    ("growers: one record in 64 partitions", one_record),
    ("growers: every case has occurred", every_case),
];
