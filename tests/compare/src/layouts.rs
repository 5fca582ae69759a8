//! Layouts applied to unpartitioned sets, good and bad.

use crate::calls::apply;
use crate::inputs::{self, EDGE_COUNTS};
use crate::{Run, Test};
use meltusk::{Set, Slots, LIBRARIES};
use second::random::Random;
use second::{BLOCK_LIMIT, DAY_LIMIT, SLOT_LIMIT, WEIGHT_LIMIT, YIELD_LIMIT};

/// One change of a set or of the ends of a layout.
#[derive(Clone, Copy, Debug, PartialEq, Eq)]
pub enum Fault {
    Weight(u32),
    Yield(u32),
    Day(u32),
    FreeSlot,
    GrowersFall,
    /// Equal growers on both sides of an end.
    EqualGrowers,
    Used(u32),
    UsedPastSlices,
    UsedPastBlocks,
    Shorter(usize),
    Longer(usize),
    Length(usize),
    Block(u32),
    NoEnd,
    EndsEqual,
    EndsFall,
    LastEndShort,
    LastEndPast,
    LastEnd(u32),
    ManyEnds,
}

use Fault::*;

/// Those of the set; later ones can be put after earlier ones.
pub const SET_FAULTS: &[Fault] = &[
    Weight(WEIGHT_LIMIT + 1),
    Weight(u32::MAX),
    Yield(YIELD_LIMIT + 1),
    Yield(u32::MAX),
    Day(DAY_LIMIT + 1),
    Day(u32::MAX),
    FreeSlot,
    GrowersFall,
    UsedPastBlocks,
    UsedPastSlices,
    Used(0),
    Used(u32::MAX),
    Shorter(0),
    Shorter(1),
    Shorter(2),
    Shorter(3),
    Longer(0),
    Longer(1),
    Longer(2),
    Longer(3),
    Length(0),
    Length(SLOT_LIMIT + 1),
    Block(0),
    Block(4_097),
    Block(u32::MAX),
];

/// Those of the ends; they can be put after any of the set.
pub const END_FAULTS: &[Fault] = &[
    EqualGrowers,
    NoEnd,
    EndsEqual,
    EndsFall,
    LastEndShort,
    LastEndPast,
    LastEnd(u32::MAX),
    ManyEnds,
];

impl Fault {
    pub fn is_large(self) -> bool {
        matches!(self, Length(n) if n > 1_000)
    }

    /// Puts the fault; false if it cannot be put here.
    pub fn put(self, r: &mut Random, s: &mut Set, ends: &mut Vec<u32>) -> bool {
        let used = s.used as usize;
        match self {
            Weight(w) => {
                let i = r.edge(0, used - 1);
                s.weights[i] = w;
            }
            Yield(y) => {
                let i = r.edge(0, used - 1);
                s.yields[i] = y;
            }
            Day(n) => {
                let i = r.edge(0, used - 1);
                s.days[i] = n;
            }
            FreeSlot => {
                if used >= s.growers.len() {
                    return false;
                }
                s.growers[used] = 0;
                s.weights[used] = u32::MAX;
                s.yields[used] = u32::MAX;
                s.days[used] = u32::MAX;
            }
            GrowersFall => {
                if used < 2 {
                    return false;
                }
                let i = r.edge(1, used - 1);
                match s.growers[i - 1] {
                    0 => s.growers[i - 1] = s.growers[i].max(1),
                    g => s.growers[i] = g - 1,
                }
                return s.growers[i] < s.growers[i - 1];
            }
            EqualGrowers => {
                let block = s.block as usize;
                let Some(&end) = ends.iter().rev().nth(1) else {
                    return false;
                };
                let Some(next) = (end as usize + 1).checked_mul(block) else {
                    return false;
                };
                if block == 0 || next >= used.min(s.growers.len()) {
                    return false;
                }
                s.growers[next - 1] = s.growers[next];
            }
            Used(m) => s.used = m,
            UsedPastSlices => s.used = s.growers.len() as u32 + 1,
            UsedPastBlocks => {
                let most = BLOCK_LIMIT * s.block as usize;
                s.used = most as u32 + 1;
                let grower = s.growers.last().map_or(0, |&g| g);
                s.resize(most + 2);
                for g in &mut s.growers[used..] {
                    *g = grower;
                }
            }
            Shorter(i) => return s.slices()[i].pop().is_some(),
            Longer(i) => s.slices()[i].push(0),
            Length(n) => s.resize(n),
            Block(b) => s.block = b,
            NoEnd => ends.clear(),
            EndsEqual => match ends.last() {
                Some(&last) => ends.push(last),
                None => return false,
            },
            EndsFall => {
                if ends.len() < 2 {
                    return false;
                }
                let i = r.below(ends.len() - 1);
                ends.swap(i, i + 1);
            }
            LastEndShort => {
                if ends.len() < 2 {
                    return false;
                }
                ends.pop();
            }
            LastEndPast => match ends.last_mut() {
                Some(last) => *last = last.wrapping_add(1),
                None => return false,
            },
            LastEnd(n) => match ends.last_mut() {
                Some(last) => *last = n,
                None => return false,
            },
            ManyEnds => *ends = (0..BLOCK_LIMIT as u32 + 1).collect(),
        }
        true
    }

    /// The refusal of an else accepted call with this fault alone.
    pub fn expected(self) -> u32 {
        match self {
            Weight(_) | Yield(_) => 8,
            Day(_) => 19,
            FreeSlot => 0,
            GrowersFall => 5,
            Used(_) | UsedPastSlices | UsedPastBlocks => 4,
            Shorter(_) | Longer(_) | Length(_) => 3,
            Block(_) => 2,
            _ => 6,
        }
    }
}

/// A proper set with a free slot.
pub fn base(r: &mut Random) -> Set {
    let most_blocks = r.pick(&[3, 10, 64]);
    let free = r.within(1, 3);
    inputs::set(r, most_blocks, free)
}

fn faults() -> Vec<Fault> {
    [SET_FAULTS, END_FAULTS].concat()
}

fn good(run: &mut Run) -> Result<(), String> {
    run.cases(20, 10_000, |run, r| {
        let library = inputs::library(r);
        let most_blocks = r.pick(&[3, 10, 64]);
        let free = r.below(3);
        let set = inputs::set(r, most_blocks, free);
        let ends = inputs::layout(r, &set.view());
        let applied = apply(r, &mut run.seen, &library, &set, &ends)?;
        match applied.refusal {
            0 => Ok(()),
            number => Err(format!("a layout is refused by {number}")),
        }
    })
}

fn any(run: &mut Run) -> Result<(), String> {
    run.cases(21, 20_000, |run, r| {
        let library = inputs::library(r);
        let mut set = base(r);
        let blocks = set.used.div_ceil(set.block) as usize;
        let mut ends = inputs::any_ends(r, blocks);
        if r.one_in(3) {
            let fault = r.pick(SET_FAULTS);
            if !fault.is_large() {
                fault.put(r, &mut set, &mut ends);
            }
        }
        if r.one_in(4) && !set.growers.is_empty() {
            let i = r.below(set.growers.len());
            set.growers[i] = r.next() as u32;
        }
        apply(r, &mut run.seen, &library, &set, &ends).map(|_| ())
    })
}

fn alone(run: &mut Run) -> Result<(), String> {
    run.cases(22, 100, |run, r| {
        let library = inputs::library(r);
        for fault in faults() {
            let mut set = base(r);
            let mut ends = inputs::layout(r, &set.view());
            if fault.is_large() && !r.one_in(8) || !fault.put(r, &mut set, &mut ends) {
                continue;
            }
            let with = |why| format!("{fault:?}: {why}");
            let applied = apply(r, &mut run.seen, &library, &set, &ends).map_err(with)?;
            if applied.refusal != fault.expected() {
                return Err(format!("{fault:?}: refusal {}", applied.refusal));
            }
        }
        Ok(())
    })
}

fn pairs(run: &mut Run) -> Result<(), String> {
    let faults = faults();
    run.cases(23, 20, |run, r| {
        let library = inputs::library(r);
        for (i, first) in faults.iter().enumerate() {
            for second in &faults[i + 1..] {
                if (first.is_large() || second.is_large()) && !r.one_in(8) {
                    continue;
                }
                let mut set = base(r);
                let mut ends = inputs::layout(r, &set.view());
                first.put(r, &mut set, &mut ends);
                second.put(r, &mut set, &mut ends);
                let with = |why| format!("{first:?} and {second:?}: {why}");
                apply(r, &mut run.seen, &library, &set, &ends).map_err(with)?;
            }
        }
        Ok(())
    })
}

/// Blocks of the largest length, and 262,144 slots in blocks of one.
fn largest(run: &mut Run) -> Result<(), String> {
    run.cases(24, 2, |run, r| {
        for library in LIBRARIES {
            for (block, used, slots) in [
                (4_096, SLOT_LIMIT, SLOT_LIMIT),
                (4_096, SLOT_LIMIT - 4_096, SLOT_LIMIT),
                (4_096, SLOT_LIMIT - 4_095, SLOT_LIMIT),
                (4_096, 1, SLOT_LIMIT),
                (4_095, 64 * 4_095, SLOT_LIMIT),
                (4_095, 64 * 4_095 + 1, SLOT_LIMIT),
                (1, 64, SLOT_LIMIT),
                (1, 65, SLOT_LIMIT),
                (4_096, SLOT_LIMIT + 1, SLOT_LIMIT),
                (4_096, SLOT_LIMIT, SLOT_LIMIT + 1),
            ] {
                let mut set = Set {
                    block: block as u32,
                    used: used as u32,
                    growers: (0..slots as u32).map(|i| i.wrapping_mul(16_000)).collect(),
                    weights: vec![WEIGHT_LIMIT; slots],
                    yields: vec![YIELD_LIMIT; slots],
                    days: vec![DAY_LIMIT; slots],
                };
                set.growers[used.min(slots) - 1] = u32::MAX;
                let blocks = used.div_ceil(block) as u32;
                let parts = r.pick(&[1, 2, blocks]).min(blocks);
                let mut ends: Vec<u32> = (0..parts - 1).collect();
                ends.push(blocks - 1);
                apply(r, &mut run.seen, &library, &set, &ends)?;
                apply(r, &mut run.seen, &library, &set, &[])?;
            }
        }
        Ok(())
    })
}

/// Growers, weights, yields, days and ends, each alone at the edge counts; then
/// nothing lent.
fn edge_counts(run: &mut Run) -> Result<(), String> {
    run.cases(25, 4, |run, r| {
        for library in LIBRARIES {
            for lent in 0..5 {
                for n in EDGE_COUNTS {
                    let mut set = base(r);
                    let last = set.used.div_ceil(set.block) - 1;
                    let mut ends = inputs::layout(r, &set.view());
                    let expected = match (lent, n) {
                        (4, 1) => 0,
                        (4, _) => 6,
                        _ => 3,
                    };
                    match lent {
                        // The only end is the last block.
                        4 => ends = (0..n as u32).map(|i| last + i).collect(),
                        i => set.slices()[i].resize(n, u32::MAX),
                    }
                    let applied = apply(r, &mut run.seen, &library, &set, &ends)?;
                    if applied.refusal != expected {
                        return Err(format!("slice {lent} of {n}: {}", applied.refusal));
                    }
                }
            }
            let mut set = base(r);
            set.resize(0);
            let applied = apply(r, &mut run.seen, &library, &set, &[])?;
            if applied.refusal != 3 {
                return Err(format!("nothing lent: {}", applied.refusal));
            }
        }
        Ok(())
    })
}

/// A set of one slot, and whether its used slots and its ends are proper.
fn one_slot(run: &mut Run) -> Result<(), String> {
    run.cases(26, 20, |run, r| {
        let library = inputs::library(r);
        let stated: [(u32, &[u32], u32); 6] = [
            (1, &[0], 0),
            (0, &[0], 4),
            (2, &[0], 4),
            (1, &[], 6),
            (1, &[1], 6),
            (1, &[0, 1], 6),
        ];
        for block in [1, 2, 4_096] {
            for (used, ends, refusal) in stated {
                let set = inputs::one_delivery(r, block, used);
                let applied = apply(r, &mut run.seen, &library, &set, ends)?;
                if applied.refusal != refusal {
                    return Err(format!("{set:?}, ends {ends:?}: {}", applied.refusal));
                }
            }
        }
        Ok(())
    })
}

pub const TESTS: &[(&str, Test)] = &[
    ("apply_layout, proper sets and layouts", good),
    ("apply_layout, any set and ends", any),
    ("apply_layout, each fault alone", alone),
    ("apply_layout, two faults", pairs),
    ("apply_layout, 262,144 slots", largest),
    ("apply_layout, each slice at the edge counts", edge_counts),
    ("apply_layout, one slot", one_slot),
];
