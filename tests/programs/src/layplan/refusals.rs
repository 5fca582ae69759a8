//! Inputs of good form that recorder or planner refuse.

use crate::input::{self, Input, BLOCKS, DELETE, INSERT, MOVE, RANGE};
use programs::damage::Input as _;
use programs::run::{Run, Test};
use second::random::Random;

/// One number, or one call, that is refused.
#[derive(Clone, Copy, Debug, PartialEq, Eq)]
enum Fault {
    Price(usize),
    Limit(usize),
    BlockLength,
    TooManyBlocks,
    GrowersFall,
    RangeFalls,
    SetWeight,
    SetYield,
    OfferedWeight,
    OfferedYield,
    NoRead,
    NoInsert,
    OneGrower,
}
use Fault::*;

const FAULTS: &[Fault] = &[
    Price(0),
    Price(1),
    Price(2),
    Limit(0),
    Limit(1),
    BlockLength,
    TooManyBlocks,
    GrowersFall,
    RangeFalls,
    SetWeight,
    SetYield,
    OfferedWeight,
    OfferedYield,
    NoRead,
    NoInsert,
    OneGrower,
];

/// Asked by the planner alone.
const PLANNED: &[Fault] = &[
    Price(0),
    Price(1),
    Price(2),
    Limit(0),
    Limit(1),
    NoRead,
    NoInsert,
];

/// Asked by the recorder; those of the set by the planner too.
const RECORDED: &[Fault] = &[
    BlockLength,
    TooManyBlocks,
    GrowersFall,
    RangeFalls,
    SetWeight,
    SetYield,
    OfferedWeight,
    OfferedYield,
];

fn over(r: &mut Random, limit: u32) -> u32 {
    r.pick(&[limit + 1, limit + 1, u32::MAX])
}

/// A call that offers a delivery out of range, by its weight or its yield.
fn bad_offer(r: &mut Random, input: &Input, by_weight: bool) -> [u32; 5] {
    let kind = r.pick(&[INSERT, DELETE, MOVE]);
    let mut call = input::call(r, &input.deliveries, kind);
    match by_weight {
        true => call[2] = over(r, 100_000),
        false => call[3] = over(r, 10_000),
    }
    call
}

fn falling_range(r: &mut Random) -> [u32; 5] {
    let lo = (r.next() as u32 >> r.below(32)).max(1);
    [RANGE, lo, r.edge(0, lo as usize - 1) as u32, 0, 0]
}

impl Fault {
    /// The refusal of an input that has this fault alone.
    fn number(self) -> u32 {
        match self {
            Price(_) | Limit(_) => 1,
            BlockLength => 2,
            TooManyBlocks => 4,
            GrowersFall => 5,
            RangeFalls => 7,
            SetWeight | SetYield | OfferedWeight | OfferedYield => 8,
            NoRead | NoInsert | OneGrower => 11,
        }
    }

    fn is_of_a_call(self) -> bool {
        matches!(self, RangeFalls | OfferedWeight | OfferedYield)
    }

    /// Puts the fault into an accepted input. False if it has no place there.
    fn put(self, r: &mut Random, input: &mut Input) -> bool {
        let [rr, sr, rw] = input.prices;
        let count = input.deliveries.len();
        if self.is_of_a_call() && input.calls.is_empty() {
            return false;
        }
        match self {
            Price(i) => input.prices[i] = r.pick(&[0, 1_001, u32::MAX]),
            Limit(i) => input.limits[i] = over(r, 1_000_000),
            BlockLength => input.block = r.pick(&[0, 4_097, u32::MAX]),
            TooManyBlocks => {
                if count <= BLOCKS {
                    return false;
                }
                input.block = r.edge(1, (count - 1) / BLOCKS) as u32;
            }
            GrowersFall => {
                let rises: Vec<usize> = (1..count)
                    .filter(|&i| input.deliveries[i - 1][0] < input.deliveries[i][0])
                    .collect();
                if rises.is_empty() {
                    return false;
                }
                let i = r.pick(&rises);
                input.deliveries.swap(i - 1, i);
            }
            SetWeight => input.deliveries[r.edge(0, count - 1)][1] = over(r, 100_000),
            SetYield => input.deliveries[r.edge(0, count - 1)][2] = over(r, 10_000),
            RangeFalls | OfferedWeight | OfferedYield => {
                let at = r.edge(0, input.calls.len() - 1);
                input.calls[at] = match self {
                    RangeFalls => falling_range(r),
                    _ => bad_offer(r, input, self == OfferedWeight),
                };
            }
            // The longest partition permitted has no block.
            NoRead => input.limits[0] = r.edge(0, (rr - 1) as usize) as u32,
            // No partition is permitted.
            NoInsert => input.limits[1] = r.edge(0, (2 * (rr + rw) - 1) as usize) as u32,
            // One partition only, and that is too long.
            OneGrower => {
                let blocks = input.blocks() as u32;
                if blocks < 2 {
                    return false;
                }
                let [g, ..] = r.pick(&input.deliveries);
                for delivery in &mut input.deliveries {
                    delivery[0] = g;
                }
                input.limits[0] = rr + sr * (blocks - 2) + r.below(sr as usize) as u32;
            }
        }
        true
    }
}

/// Puts one to three faults, so far as they have a place.
pub fn put_some(r: &mut Random, input: &mut Input) {
    for _ in 0..r.within(1, 3) {
        let fault = r.pick(FAULTS);
        // These take prices and blocks as good, and another fault may have come
        // first.
        let counts = matches!(fault, OneGrower | NoRead | NoInsert);
        let sound = input.block > 0 && input.prices.iter().all(|p| (1..=1_000).contains(p));
        if sound || !counts {
            fault.put(r, input);
        }
    }
}

/// An accepted input with at least one call, or with none.
fn base(r: &mut Random, calls: bool) -> Input {
    loop {
        let mut input = input::any(r);
        if !calls {
            input.calls.clear();
        }
        if calls != input.calls.is_empty() {
            return input;
        }
    }
}

/// An input with all these faults, and with calls or without. None if one has
/// no place.
fn faulty(r: &mut Random, faults: &[Fault], calls: bool) -> Option<Input> {
    if !calls && faults.iter().any(|fault| fault.is_of_a_call()) {
        return None;
    }
    loop {
        let mut input = base(r, calls);
        if faults.iter().all(|fault| fault.put(r, &mut input)) {
            return Some(input);
        }
    }
}

/// Each fault alone, with its number, with calls and without.
fn alone(run: &mut Run) -> Result<(), String> {
    run.cases(10, 10, |run, r| {
        for &fault in FAULTS {
            for calls in [true, false] {
                if let Some(input) = faulty(r, &[fault], calls) {
                    run.refused(r, &input.text(), fault.number())
                        .map_err(|why| format!("{fault:?}, calls {calls}: {why}"))?;
                }
            }
        }
        Ok(())
    })
}

/// The recorder refuses ahead of the planner, but only if there is a call.
fn recorder_first(run: &mut Run) -> Result<(), String> {
    run.cases(11, 2, |run, r| {
        for &planned in PLANNED {
            for &recorded in RECORDED {
                for calls in [true, false] {
                    let Some(input) = faulty(r, &[planned, recorded], calls) else {
                        continue;
                    };
                    let number = match calls {
                        true => recorded.number(),
                        false => planned.number().min(recorded.number()),
                    };
                    run.refused(r, &input.text(), number)
                        .map_err(|why| format!("{planned:?}, {recorded:?}: {why}"))?;
                }
            }
        }
        Ok(())
    })
}

/// Of two refused calls the first gives the number.
fn first_call(run: &mut Run) -> Result<(), String> {
    run.cases(12, 60, |run, r| {
        let mut input = loop {
            let input = base(r, true);
            if input.calls.len() > 1 {
                break input;
            }
        };
        let last = input.calls.len() - 1;
        let later = r.edge(1, last);
        let earlier = r.edge(0, later - 1);
        let by_weight = r.one_in(2);
        let offer = bad_offer(r, &input, by_weight);
        let (calls, number) = match r.one_in(2) {
            true => ([offer, falling_range(r)], 8),
            false => ([falling_range(r), offer], 7),
        };
        input.calls[earlier] = calls[0];
        input.calls[later] = calls[1];
        run.refused(r, &input.text(), number)
    })
}

/// Several faults, some of which hide others.
fn several(run: &mut Run) -> Result<(), String> {
    run.cases(13, 200, |run, r| {
        let mut input = input::any(r);
        put_some(r, &mut input);
        run.compare(r, &input.text()).map(|_| ())
    })
}

pub const TESTS: &[(&str, Test)] = &[
    ("refusals, each alone", alone),
    (
        "refusals, the recorder's ahead of the planner's",
        recorder_first,
    ),
    ("refusals, the first refused call's", first_call),
    ("refusals, several", several),
];
