//! The next and the previous grower: examples, random columns against plain
//! models, and whole columns stepped through.

use crate::groups::{main_column, Outcome};
use crate::model::*;
use crate::random;
use crate::require;
use crate::subject::*;
use second::random::Random;
use second::*;
use std::collections::BTreeMap;

fn found(grower: u32, records: u64, [rr, sr]: [u64; 2]) -> GrowerAnswer {
    GrowerAnswer {
        refusal: 0,
        grower,
        records,
        counts: Counts::new(rr, sr, 0),
    }
}

/// The column of the main case, whole and with its second partition empty.
pub fn grower_examples(s: &dyn Subject, _: u64) -> Outcome {
    let mut c = main_column(s);
    let whole = [
        (Step::Next(0), found(10, 1, [1, 1])),
        (Step::Next(20), found(20, 1, [1, 1])),
        (Step::Next(21), found(30, 1, [1, 1])),
        (Step::Next(41), found(50, 1, [1, 1])),
        (Step::Next(81), found(0, 0, [1, 1])),
        (Step::Next(u32::MAX), found(0, 0, [1, 1])),
        (Step::Previous(u32::MAX), found(80, 1, [1, 1])),
        (Step::Previous(60), found(60, 1, [1, 1])),
        (Step::Previous(59), found(50, 1, [1, 1])),
        // The partition of 49 is the second, which begins with 50.
        (Step::Previous(49), found(40, 1, [1, 3])),
        (Step::Previous(9), found(0, 0, [1, 1])),
        (Step::Previous(0), found(0, 0, [1, 1])),
    ];
    for (step, expected) in whole {
        let a = s.step(&c, &step);
        require!(a == expected, "{step:?}: {a:?}");
    }
    // Growers 20, 10, 20, 20 and then an empty partition.
    c.growers[..4].copy_from_slice(&[20, 10, 20, 20]);
    c.directory[LENGTHS + 1] = 0;
    let emptied = [
        (Step::Next(11), found(20, 3, [1, 1])),
        (Step::Next(21), found(0, 0, [1, 1])),
        (Step::Next(41), found(0, 0, [0, 0])),
        (Step::Previous(19), found(10, 1, [1, 1])),
        (Step::Previous(80), found(20, 3, [1, 1])),
        (Step::Previous(0), found(0, 0, [1, 1])),
    ];
    for (step, expected) in emptied {
        let a = s.step(&c, &step);
        require!(a == expected, "{step:?}: {a:?}");
    }
    Ok(())
}

pub fn sound_column(r: &mut Random) -> Column {
    match r.below(20) {
        0 => random::long_column(r),
        1..=6 => random::laid_column(r),
        _ => random::column(r),
    }
}

/// A column of any kind: unsound in one of three, a weight or a yield out of
/// range in one of three, and a day in one of four.
pub fn any_column(r: &mut Random) -> Column {
    let mut c = sound_column(r);
    let used = c.used();
    if used > 0 && r.one_in(3) {
        for _ in 0..r.within(1, 3) {
            let at = r.below(used);
            c.growers[at] = random::asked(r, &c);
        }
    }
    if used > 0 && r.one_in(3) {
        let at = r.below(used);
        if r.one_in(2) {
            c.weights[at] = 100_001;
        } else {
            c.yields[at] = u32::MAX;
        }
    }
    if used > 0 && r.one_in(4) {
        let at = r.below(used);
        c.days[at] = r.pick(&[36_525, u32::MAX]);
    }
    c
}

/// Whether a record outside these partitions has a bad weight or yield.
fn is_bad_elsewhere(c: &Column, scanned: &[usize]) -> bool {
    let mut past = 0;
    c.lengths().into_iter().enumerate().any(|(p, n)| {
        past += n;
        !scanned.contains(&p) && (past - n..past).any(|at| !c.slot(at).in_range())
    })
}

/// Both steps against the slot model, and their counts against those of a range
/// over the same partitions.
pub fn grower_slots(s: &dyn Subject, cases: u64) -> Outcome {
    let r = &mut Random::new(16);
    // Hit at once, hit later, none, refused by 8, bad values elsewhere alone.
    let mut met = [0u32; 5];
    for _ in 0..cases {
        let mut c = any_column(r);
        let model = SlotModel::new(&c);
        let g = random::asked(r, &c);
        for step in Step::both(g) {
            let before = c.clone();
            let (a, expected) = (s.step(&c, &step), model.step(&step));
            require!(a == expected, "{step:?}: {a:?}, not {expected:?}; {c:?}");
            let scanned = model.scanned(&step);
            let ends = [scanned[0], scanned[scanned.len() - 1]];
            let [x, y] = ends.map(|p| c.directory[FENCES + p]);
            let range = s.call(&mut c, &Call::Range(x.min(y), x.max(y)));
            require!(
                (a.refusal, a.counts) == (range.refusal, range.counts),
                "{step:?}: {a:?}, but the range {range:?}; {c:?}"
            );
            require!(c == before, "{step:?}: the column changed");
            let is_hit = a.records > 0;
            met[0] += u32::from(is_hit && scanned.len() == 1);
            met[1] += u32::from(is_hit && scanned.len() > 1);
            met[2] += u32::from(a.refusal == 0 && !is_hit);
            met[3] += u32::from(a.refusal == 8);
            met[4] += u32::from(is_hit && is_bad_elsewhere(&c, &scanned));
        }
    }
    let every = met.iter().all(|&n| n > 0);
    require!(every || cases < 500, "not every outcome was met: {met:?}");
    Ok(())
}

/// Both steps against the ledger after each call of a list.
pub fn grower_ledger(s: &dyn Subject, cases: u64) -> Outcome {
    let r = &mut Random::new(17);
    for _ in 0..cases {
        let mut c = sound_column(r);
        let mut ledger = Ledger::holding(c.growers.len(), c.records());
        for _ in 0..12 {
            let call = random::call(r, ledger.records());
            s.call(&mut c, &call);
            ledger_call(&mut ledger, &call);
            for step in Step::both(random::asked(r, &c)) {
                let a = s.step(&c, &step);
                let (grower, records) = ledger_step(&ledger, &step);
                require!(
                    (a.refusal, a.grower, a.records) == (0, grower, records),
                    "{step:?}: column {a:?}, ledger {grower} {records}; {c:?}"
                );
            }
        }
    }
    Ok(())
}

/// Each grower with his records, in the order in which a screen shows them.
fn stepped(s: &dyn Subject, c: &Column, first: Step) -> Result<Vec<(u32, u64)>, String> {
    let mut shown = Vec::new();
    let mut step = Some(first);
    while let Some(asked) = step {
        let a = s.step(c, &asked);
        require!(a.refusal == 0, "{asked:?}: {a:?}; {c:?}");
        if a.records == 0 {
            break;
        }
        shown.push((a.grower, a.records));
        require!(
            shown.len() <= c.used(),
            "{first:?}: more growers than records; {c:?}"
        );
        step = match asked {
            Step::Next(_) => a.grower.checked_add(1).map(Step::Next),
            Step::Previous(_) => a.grower.checked_sub(1).map(Step::Previous),
        };
    }
    Ok(shown)
}

/// Stepping up and down through a sound column shows each grower once, in
/// order, with his records.
pub fn grower_stepping(s: &dyn Subject, cases: u64) -> Outcome {
    let r = &mut Random::new(18);
    for _ in 0..cases {
        let c = sound_column(r);
        let mut held: BTreeMap<u32, u64> = BTreeMap::new();
        for d in c.records() {
            *held.entry(d.grower).or_default() += 1;
        }
        let mut expected: Vec<(u32, u64)> = held.into_iter().collect();
        let up = stepped(s, &c, Step::Next(0))?;
        require!(up == expected, "up: {up:?}, not {expected:?}; {c:?}");
        expected.reverse();
        let down = stepped(s, &c, Step::Previous(u32::MAX))?;
        require!(down == expected, "down: {down:?}, not {expected:?}; {c:?}");
    }
    Ok(())
}

/// One record behind or ahead of 63 empty partitions, growers at both ends of
/// their range, and 262,144 slots.
pub fn grower_edges(s: &dyn Subject, _: u64) -> Outcome {
    for (at, grower) in [(0, 0), (0, 9), (40, 400), (63, 639), (63, u32::MAX)] {
        let mut c = Column {
            growers: vec![grower, 1],
            weights: vec![100, u32::MAX],
            yields: vec![2_000, u32::MAX],
            days: vec![36_524, u32::MAX],
            directory: vec![0; DIRECTORY_LEN],
        };
        c.directory[..2].copy_from_slice(&[1, 64]);
        c.directory[LENGTHS + at] = 1;
        for p in 0..64 {
            c.directory[FENCES + p] = 10 * p as u32 + 9;
        }
        for step in [Step::Next(0), Step::Previous(u32::MAX)] {
            let a = s.step(&c, &step);
            require!(a == found(grower, 1, [1, 0]), "{grower}, {step:?}: {a:?}");
        }
        c.directory[LENGTHS + at] = 0;
        for step in [Step::Next(0), Step::Previous(u32::MAX)] {
            let a = s.step(&c, &step);
            require!(a == found(0, 0, [0, 0]), "empty, {step:?}: {a:?}");
        }
    }
    let m = SLOT_LIMIT as u32;
    let mut c = Column {
        // Each grower twice, and in no order.
        growers: (0..m).map(|i| i * 129 % m / 2 * 2).collect(),
        weights: vec![100_000; SLOT_LIMIT],
        yields: vec![10_000; SLOT_LIMIT],
        days: vec![36_524; SLOT_LIMIT],
        directory: vec![0; DIRECTORY_LEN],
    };
    c.directory[..3].copy_from_slice(&[4_096, 1, m]);
    for (g, next) in [(0, 0), (1, 2), (100_001, 100_002), (m - 2, m - 2)] {
        let a = s.step(&c, &Step::Next(g));
        require!(a == found(next, 2, [1, 63]), "next of {g}: {a:?}");
    }
    for (g, previous) in [(u32::MAX, m - 2), (100_001, 100_000), (1, 0), (0, 0)] {
        let a = s.step(&c, &Step::Previous(g));
        require!(a == found(previous, 2, [1, 63]), "previous of {g}: {a:?}");
    }
    let a = s.step(&c, &Step::Next(m - 1));
    require!(a == found(0, 0, [1, 63]), "next of {}: {a:?}", m - 1);
    Ok(())
}
