//! Single calls on broken input: each fault alone, in pairs, and at random.

use crate::calls::{Asked, Pair};
use crate::inputs::{self, Kind, EDGE_COUNTS, MIXES};
use crate::{Run, Test};
use meltusk::{Call, Column, Library, Slots, Step, View, LIBRARIES};
use second::random::Random;
use second::{
    Delivery, Span, BLOCK_LIMIT, DAY_LIMIT, FENCES, LENGTHS, SLOT_LIMIT, WEIGHT_LIMIT, YIELD_LIMIT,
};

/// One change of a column or of a call on it.
#[derive(Clone, Copy, Debug, PartialEq, Eq)]
pub enum Fault {
    /// Weight, yield or day of a record that the call scans.
    ScannedWeight(u32),
    ScannedYield(u32),
    ScannedDay(u32),
    /// Weight, yield or day of a record that the call does not scan.
    OtherWeight,
    OtherYield,
    OtherDay,
    FreeSlot,
    /// Weight, yield or day of the delivery that the call is offered.
    OfferedWeight(u32),
    OfferedYield(u32),
    OfferedDay(u32),
    /// The first or the last of the days that a range names.
    FirstDay(u32),
    LastDay(u32),
    /// The last of them earlier than the first; no fault at all.
    DaysFall,
    RangeFalls,
    Absent,
    /// Absent but for its day.
    AbsentDay,
    Full,
    /// One slice of the four.
    Shorter(usize),
    Longer(usize),
    /// All four slices.
    Length(usize),
    FencesEqual,
    FencesFall,
    LengthsOver,
    /// Lengths whose sum exceeds 32 bits by little.
    LengthsWrap,
    LengthMost,
    UnusedLength,
    UnusedFence,
    Block(u32),
    Count(u32),
    DirectoryLength(usize),
}

use Fault::*;

/// Later ones can be put after earlier ones.
pub const FAULTS: &[Fault] = &[
    ScannedWeight(WEIGHT_LIMIT + 1),
    ScannedWeight(u32::MAX),
    ScannedYield(YIELD_LIMIT + 1),
    ScannedYield(u32::MAX),
    ScannedDay(DAY_LIMIT + 1),
    ScannedDay(u32::MAX),
    OtherWeight,
    OtherYield,
    OtherDay,
    FreeSlot,
    OfferedWeight(WEIGHT_LIMIT + 1),
    OfferedWeight(u32::MAX),
    OfferedYield(YIELD_LIMIT + 1),
    OfferedYield(u32::MAX),
    OfferedDay(DAY_LIMIT + 1),
    OfferedDay(u32::MAX),
    DaysFall,
    FirstDay(DAY_LIMIT + 1),
    FirstDay(u32::MAX),
    LastDay(DAY_LIMIT + 1),
    LastDay(u32::MAX),
    RangeFalls,
    Absent,
    AbsentDay,
    Full,
    Shorter(0),
    Shorter(1),
    Shorter(2),
    Shorter(3),
    Longer(0),
    Longer(1),
    Longer(2),
    Longer(3),
    Length(0),
    Length(SLOT_LIMIT + 1),
    FencesEqual,
    FencesFall,
    LengthsOver,
    LengthsWrap,
    LengthMost,
    UnusedLength,
    UnusedFence,
    Block(0),
    Block(4_097),
    Block(u32::MAX),
    Count(0),
    Count(65),
    Count(u32::MAX),
    DirectoryLength(0),
    DirectoryLength(129),
    DirectoryLength(131),
];

/// The partitions that a step scans, lowest and highest: from the grower's own
/// to the first that holds a grower it may answer.
pub fn stepped_over(step: &Step, view: &View) -> (usize, usize) {
    let own = view.partition_of(step.grower());
    let last = view.partitions() - 1;
    let holds = |&p: &usize| {
        let growers = &view.growers[view.start(p)..][..view.length(p)];
        growers.iter().any(|&g| step.reaches(g))
    };
    match step {
        Step::Next(_) => (own, (own..=last).find(holds).unwrap_or(last)),
        Step::Previous(_) => ((0..=own).rev().find(holds).unwrap_or(0), own),
    }
}

/// The partitions that a call scans, first and last.
pub fn scanned(asked: &Asked, c: &Column) -> Option<(usize, usize)> {
    let view = c.view();
    let call = match asked {
        Asked::Call(call) => *call,
        Asked::Step(step) => return Some(stepped_over(step, &view)),
        Asked::Partition(_) => return None,
    };
    match call {
        Call::Find(g) => Some((view.partition_of(g), view.partition_of(g))),
        Call::Range(lo, hi) | Call::RangeDays(lo, hi, _) => {
            Some((view.partition_of(lo), view.partition_of(hi)))
        }
        Call::Delete(d) | Call::Move(d, _) => {
            let p = view.partition_of(d.grower);
            Some((p, p))
        }
        Call::Insert(_) => None,
    }
}

fn offered(asked: &mut Asked) -> Option<&mut Delivery> {
    match asked {
        Asked::Call(call) => call.offered(),
        Asked::Step(_) | Asked::Partition(_) => None,
    }
}

impl Fault {
    pub fn is_large(self) -> bool {
        matches!(self, Length(n) if n > 1_000)
    }

    /// Whether it changes the call and leaves the column.
    pub fn is_of_call(self) -> bool {
        matches!(
            self,
            OfferedWeight(_)
                | OfferedYield(_)
                | OfferedDay(_)
                | FirstDay(_)
                | LastDay(_)
                | DaysFall
                | RangeFalls
                | Absent
                | AbsentDay
        )
    }

    /// Puts the fault; false if it cannot be put here.
    pub fn put(self, r: &mut Random, c: &mut Column, asked: &mut Asked) -> bool {
        let k = c.directory[1] as usize;
        match self {
            ScannedWeight(_) | ScannedYield(_) | ScannedDay(_) | OtherWeight | OtherYield
            | OtherDay => {
                let range = scanned(asked, c);
                let inside = matches!(self, ScannedWeight(_) | ScannedYield(_) | ScannedDay(_));
                let view = c.view();
                let slots: Vec<usize> = (0..k)
                    .filter(|&p| range.is_some_and(|(a, z)| a <= p && p <= z) == inside)
                    .flat_map(|p| view.start(p)..view.start(p) + view.length(p))
                    .collect();
                if slots.is_empty() {
                    return false;
                }
                let i = r.pick(&slots);
                match self {
                    ScannedWeight(w) => c.weights[i] = w,
                    ScannedYield(y) => c.yields[i] = y,
                    ScannedDay(n) => c.days[i] = n,
                    OtherWeight => c.weights[i] = inputs::weight_out(r),
                    OtherYield => c.yields[i] = inputs::oil_yield_out(r),
                    _ => c.days[i] = inputs::day_out(r),
                }
            }
            FreeSlot => {
                let used = c.view().used();
                if used == c.growers.len() {
                    return false;
                }
                c.weights[used] = u32::MAX;
                c.yields[used] = u32::MAX;
                c.days[used] = u32::MAX;
            }
            OfferedWeight(w) => match offered(asked) {
                Some(d) => d.weight = w,
                None => return false,
            },
            OfferedYield(y) => match offered(asked) {
                Some(d) => d.oil_yield = y,
                None => return false,
            },
            OfferedDay(n) => match offered(asked) {
                Some(d) => d.day = n,
                None => return false,
            },
            FirstDay(_) | LastDay(_) | DaysFall => match asked {
                Asked::Call(Call::RangeDays(_, _, span)) => match self {
                    FirstDay(n) => span.first = n,
                    LastDay(n) => span.last = n,
                    _ => *span = Span::new(r.within(1, 36_524) as u32, 0),
                },
                _ => return false,
            },
            RangeFalls => match asked {
                Asked::Call(Call::Range(lo, hi) | Call::RangeDays(lo, hi, _)) => {
                    let x = *hi;
                    *hi = if *lo == 0 { 0 } else { *lo - 1 };
                    *lo = x.max(*hi + 1);
                }
                _ => return false,
            },
            // No random delivery has this weight.
            Absent => match offered(asked) {
                Some(d) if d.weight <= WEIGHT_LIMIT => d.weight = 54_321,
                _ => return false,
            },
            // No random delivery has this day.
            AbsentDay => match offered(asked) {
                Some(d) if d.day <= DAY_LIMIT => d.day = 12_321,
                _ => return false,
            },
            Full => {
                let used = c.view().used();
                for slice in c.slices() {
                    slice.truncate(used);
                }
            }
            Shorter(i) => return c.slices()[i].pop().is_some(),
            Longer(i) => c.slices()[i].push(0),
            Length(n) => c.resize(n),
            FencesEqual | FencesFall => {
                if k < 2 {
                    return false;
                }
                let at = FENCES + r.edge(1, k - 1);
                let before = c.directory[at - 1];
                if self == FencesEqual {
                    c.directory[at] = before;
                } else if before == 0 {
                    return false;
                } else {
                    c.directory[at] = before - 1;
                }
            }
            LengthsOver => {
                let room = c.growers.len().saturating_sub(c.view().used()) as u32;
                let at = LENGTHS + r.below(k);
                c.directory[at] = c.directory[at].saturating_add(room + 1);
            }
            LengthsWrap => {
                if k < 2 {
                    return false;
                }
                let first = r.below(k - 1);
                for p in [first, r.within(first + 1, k - 1)] {
                    let at = LENGTHS + p;
                    c.directory[at] = c.directory[at].wrapping_add(1 << 31);
                }
            }
            LengthMost => c.directory[LENGTHS + r.below(k)] = u32::MAX,
            UnusedLength | UnusedFence => {
                if k == BLOCK_LIMIT {
                    return false;
                }
                let p = r.edge(k, BLOCK_LIMIT - 1);
                let first = if self == UnusedLength {
                    LENGTHS
                } else {
                    FENCES
                };
                c.directory[first + p] = r.pick(&[1, 1, u32::MAX]);
            }
            Block(b) => c.directory[0] = b,
            Count(n) => c.directory[1] = n,
            DirectoryLength(n) => c.directory.resize(n, 0),
        }
        true
    }

    /// The refusal of an else accepted call with this fault alone.
    pub fn expected(self, asked: &Asked) -> u32 {
        let on = |yes: bool, number: u32| if yes { number } else { 0 };
        let partition = matches!(asked, Asked::Partition(_));
        let insert = matches!(asked, Asked::Call(Call::Insert(_)));
        let removes = matches!(asked, Asked::Call(Call::Delete(_) | Call::Move(..)));
        match self {
            ScannedWeight(_) | ScannedYield(_) => 8,
            ScannedDay(_) => 19,
            OtherWeight | OtherYield | OtherDay | FreeSlot | DaysFall => 0,
            OfferedWeight(_) | OfferedYield(_) => 8,
            OfferedDay(_) | FirstDay(_) | LastDay(_) => 19,
            RangeFalls => 7,
            Absent | AbsentDay => on(removes, 13),
            Full => on(insert, 12),
            Shorter(_) | Longer(_) => on(!partition, 3),
            Length(_) => 3,
            Block(_) => 2,
            _ => 6,
        }
    }
}

/// A sound column with records and a free slot.
pub fn base(r: &mut Random) -> Column {
    loop {
        let c = inputs::clean_column(r, Kind::Sound);
        let used = c.view().used();
        if used > 0 && used < c.growers.len() {
            return c;
        }
    }
}

/// Of two refusals, 0 for none, the one whose check is put first: they are in the
/// order of their numbers, but 19 comes just after 8.
pub fn asked_first(a: u32, b: u32) -> u32 {
    let place = |number: u32| match number {
        0 => u32::MAX,
        19 => 17,
        n => 2 * n,
    };
    std::cmp::min_by_key(a, b, |&n| place(n))
}

/// What `about` can ask.
const CALLS: usize = 9;

/// One of the calls, about a delivery and a range of growers. A move goes to a
/// grower near the first `used` slots.
fn about(
    r: &mut Random,
    c: &Column,
    used: usize,
    d: Delivery,
    (lo, hi): (u32, u32),
    which: usize,
) -> Asked {
    let call = match which {
        0 => Call::Find(d.grower),
        1 => Call::Range(lo, hi),
        2 => Call::Insert(d),
        3 => Call::Delete(d),
        4 => Call::Move(d, inputs::near(r, &c.view(), used)),
        5 => return Asked::Partition(d.grower),
        6 => return Step::Next(d.grower).into(),
        7 => return Step::Previous(d.grower).into(),
        _ => {
            let (x, y) = (inputs::day(r), inputs::day(r));
            Call::RangeDays(lo, hi, Span::new(x, y))
        }
    };
    call.into()
}

/// What a column of `base` accepts.
fn accepted(r: &mut Random, c: &Column, which: usize) -> Asked {
    let view = c.view();
    let used = view.used();
    let mut d = view.slot(r.below(used));
    let other = view.slot(r.below(used)).grower;
    let range = (d.grower.min(other), d.grower.max(other));
    if which == 2 {
        d.grower = inputs::near(r, &view, used);
    }
    about(r, c, used, d, range, which)
}

fn single(
    run: &mut Run,
    r: &mut Random,
    library: &Library,
    c: &Column,
    asked: &Asked,
) -> Result<u32, String> {
    let outcome = Pair::new(r, c).ask(&mut run.seen, library, *asked)?;
    Ok(outcome.refusal())
}

/// A call with one or two faults on a copy of a column of proper shape.
pub fn on_copy(
    run: &mut Run,
    r: &mut Random,
    library: &Library,
    column: &Column,
    asked: Asked,
) -> Result<(), String> {
    let (mut c, mut asked) = (column.clone(), asked);
    let mut first = 0;
    for _ in 0..r.within(1, 2) {
        let i = r.within(first, FAULTS.len() - 1);
        if !FAULTS[i].is_large() && c.directory.len() > 1 {
            FAULTS[i].put(r, &mut c, &mut asked);
        }
        first = i;
    }
    single(run, r, library, &c, &asked).map(|_| ())
}

/// Each fault alone, with the refusal that it must give.
fn alone(run: &mut Run) -> Result<(), String> {
    run.cases(10, 20, |run, r| {
        let library = inputs::library(r);
        for fault in FAULTS {
            for which in 0..CALLS {
                let mut c = base(r);
                let mut asked = accepted(r, &c, which);
                if !fault.put(r, &mut c, &mut asked) {
                    continue;
                }
                let with = |why| format!("{fault:?}: {why}");
                let refusal = single(run, r, &library, &c, &asked).map_err(with)?;
                if refusal != fault.expected(&asked) {
                    return Err(format!("{fault:?}, {asked:?}: refusal {refusal}"));
                }
            }
        }
        Ok(())
    })
}

/// Each two faults together.
fn pairs(run: &mut Run) -> Result<(), String> {
    run.cases(11, 4, |run, r| {
        let library = inputs::library(r);
        for (i, first) in FAULTS.iter().enumerate() {
            for second in &FAULTS[i + 1..] {
                for which in 0..CALLS {
                    let large = first.is_large() || second.is_large();
                    if large && !r.one_in(4) {
                        continue;
                    }
                    let mut c = base(r);
                    let mut asked = accepted(r, &c, which);
                    if first.put(r, &mut c, &mut asked) {
                        if c.directory.len() > 1 {
                            second.put(r, &mut c, &mut asked);
                        }
                        let with = |why| format!("{first:?} and {second:?}: {why}");
                        single(run, r, &library, &c, &asked).map_err(with)?;
                    }
                }
            }
        }
        Ok(())
    })
}

/// Directories in which one to three numbers are replaced.
fn any_directory(run: &mut Run) -> Result<(), String> {
    run.cases(12, 30_000, |run, r| {
        let library = inputs::library(r);
        let mut c = inputs::column(r, Kind::Unsound);
        let asked = inputs::asked(r, &c.view(), &MIXES[0]);
        let slots = c.growers.len() as u32;
        for _ in 0..r.within(1, 3) {
            let k = c.directory[1].clamp(1, 64) as usize;
            let at = match r.below(6) {
                0 => 0,
                1 => 1,
                2 => LENGTHS + r.below(k),
                3 => FENCES + r.below(k),
                _ => r.below(c.directory.len()),
            };
            let old = c.directory[at];
            c.directory[at] = match r.below(10) {
                0 => 0,
                1 => r.pick(&[1, 2, 63, 64, 65, 4_095, 4_096, 4_097]),
                2 => slots,
                3 => slots + 1,
                4 => u32::MAX,
                5 => r.next() as u32,
                6 | 7 => old.wrapping_add(1),
                _ => old.wrapping_sub(1),
            };
        }
        single(run, r, &library, &c, &asked).map(|_| ())
    })
}

/// Weights, yields and days on both sides of their limits, offered and held.
fn values(run: &mut Run) -> Result<(), String> {
    run.cases(13, 20, |run, r| {
        let library = inputs::library(r);
        for weight in [
            0,
            WEIGHT_LIMIT - 1,
            WEIGHT_LIMIT,
            WEIGHT_LIMIT + 1,
            u32::MAX,
        ] {
            for (oil_yield, day) in [
                (0, 0),
                (YIELD_LIMIT - 1, DAY_LIMIT - 1),
                (YIELD_LIMIT, DAY_LIMIT),
                (YIELD_LIMIT, DAY_LIMIT + 1),
                (0, u32::MAX),
                (YIELD_LIMIT + 1, 0),
                (u32::MAX, DAY_LIMIT),
                (YIELD_LIMIT + 1, DAY_LIMIT + 1),
            ] {
                for which in 0..CALLS {
                    let mut c = base(r);
                    let i = r.below(c.view().used());
                    c.weights[i] = weight;
                    c.yields[i] = oil_yield;
                    c.days[i] = day;
                    let d = c.view().slot(i);
                    let asked = about(r, &c, i + 1, d, (d.grower, d.grower), which);
                    let refusal = single(run, r, &library, &c, &asked)?;
                    let expected = match () {
                        () if which == 5 => 0,
                        () if !d.in_range() => 8,
                        () if !d.day_in_range() => 19,
                        () => 0,
                    };
                    if refusal != expected {
                        return Err(format!("{asked:?}, record {d:?}: refusal {refusal}"));
                    }
                }
            }
        }
        Ok(())
    })
}

/// Slices of the same and of different lengths, at the limits of length.
fn slice_lengths(run: &mut Run) -> Result<(), String> {
    let limit = SLOT_LIMIT;
    let same = [1, limit - 1, limit, limit + 1, limit + 8, 2 * limit].map(|n| [n; 4]);
    let different = [
        [0, 0, 0, 1],
        [0, 0, 1, 0],
        [0, 1, 0, 0],
        [1, 0, 0, 0],
        [1, 1, 1, 0],
        [1, 1, 0, 1],
        [1, 0, 1, 1],
        [0, 1, 1, 1],
        [limit, limit, limit, limit + 1],
        [limit, limit, limit, limit - 1],
        [limit, limit, limit + 1, limit],
        [limit, limit + 1, limit, limit],
        [limit + 1, limit, limit, limit],
        [limit - 1, limit, limit, limit],
        [0, limit, limit, limit],
        [limit, limit, limit, 0],
    ];
    let none = [[0; 4]];
    run.cases(14, 2, |run, r| {
        for lengths in none.iter().chain(&same).chain(&different) {
            for library in LIBRARIES {
                for which in 0..CALLS {
                    let mut c = base(r);
                    let asked = accepted(r, &c, which);
                    let used = c.view().used();
                    for (i, &n) in lengths.iter().enumerate() {
                        c.slices()[i].resize(n, 0);
                    }
                    let refusal = single(run, r, &library, &c, &asked)?;
                    let lent = if which == 5 {
                        &lengths[..1]
                    } else {
                        &lengths[..]
                    };
                    let good = (1..=limit).contains(&lent[0]) && lent.iter().all(|&n| n == lent[0]);
                    let expected = match good {
                        false => 3,
                        true if used > lent[0] => 6,
                        true if which == 2 && used == lent[0] => 12,
                        true => 0,
                    };
                    if refusal != expected {
                        return Err(format!("{asked:?}, lengths {lengths:?}: refusal {refusal}"));
                    }
                }
            }
        }
        Ok(())
    })
}

/// Every slice empty, with null pointers and without.
fn nothing_lent(run: &mut Run) -> Result<(), String> {
    run.cases(15, 1, |run, r| {
        for library in LIBRARIES {
            for which in 0..CALLS {
                let mut c = base(r);
                let asked = accepted(r, &c, which);
                c.resize(0);
                for directory in [c.directory.clone(), Vec::new()] {
                    c.directory = directory;
                    let refusal = single(run, r, &library, &c, &asked)?;
                    if refusal != 3 {
                        return Err(format!("{asked:?}: refusal {refusal}"));
                    }
                }
            }
        }
        Ok(())
    })
}

/// Directory, growers, weights, yields and days, each alone at the edge counts.
fn edge_counts(run: &mut Run) -> Result<(), String> {
    run.cases(16, 1, |run, r| {
        for library in LIBRARIES {
            for which in 0..CALLS {
                for lent in 0..5 {
                    for n in EDGE_COUNTS {
                        let mut c = base(r);
                        let asked = accepted(r, &c, which);
                        let used = c.view().used();
                        match lent {
                            4 => c.directory.resize(n, 0),
                            i => c.slices()[i].resize(n, 0),
                        }
                        let expected = match (lent, which) {
                            (4, _) => 6,
                            // A partition is asked of the growers alone.
                            (1..=3, 5) => 0,
                            (0, 5) if n == 1 && used == 1 => 0,
                            (0, 5) if n == 1 => 6,
                            _ => 3,
                        };
                        let refusal = single(run, r, &library, &c, &asked)?;
                        if refusal != expected {
                            return Err(format!("{asked:?}, slice {lent} of {n}: {refusal}"));
                        }
                    }
                }
            }
        }
        Ok(())
    })
}

/// Columns of one slot, used or free.
fn one_slot(run: &mut Run) -> Result<(), String> {
    run.cases(17, 100, |run, r| {
        let library = inputs::library(r);
        for is_used in [false, true] {
            for which in 0..CALLS {
                let c = inputs::one_slot(r, is_used);
                let d = c.view().slot(0);
                let asked = about(r, &c, 0, d, (0, u32::MAX), which);
                let expected = match which {
                    2 if is_used => 12,
                    3 | 4 if !is_used => 13,
                    _ => 0,
                };
                let refusal = single(run, r, &library, &c, &asked)?;
                if refusal != expected {
                    return Err(format!("{asked:?} of {c:?}: refusal {refusal}"));
                }
            }
        }
        Ok(())
    })
}

pub const TESTS: &[(&str, Test)] = &[
    ("broken input, each fault alone", alone),
    ("broken input, two faults", pairs),
    ("broken input, any directory", any_directory),
    (
        "broken input, weights, yields and days at their limits",
        values,
    ),
    ("broken input, slice lengths", slice_lengths),
    ("broken input, nothing lent", nothing_lent),
    ("broken input, each slice at the edge counts", edge_counts),
    ("columns of one slot", one_slot),
];
