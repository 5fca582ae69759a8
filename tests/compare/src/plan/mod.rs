//! Recorder, cost, planner and listing.

mod bounds;
mod calls;
mod days;
mod increases;
mod limits;
mod listings;
mod seen;

use crate::inputs::{self, EDGE_COUNTS};
use crate::layouts::{self, Fault, END_FAULTS, SET_FAULTS};
use crate::{Run, Test};
use calls::{cost, list, plan, By, Case, Recorder};
use meltusk::{record_second, Call, Empty, Library, Set, Slots, LIBRARIES};
use second::random::Random;
use second::recorder::count_index;
use second::{
    Delivery, Limits, PriceCard, Span, COUNT_LIMIT, DAY_LIMIT, HISTOGRAMS, HISTOGRAM_LEN,
    LIMIT_LIMIT, LISTED_BLOCK_LIMIT,
};

fn card(r: &mut Random) -> PriceCard {
    match r.below(5) {
        0 => PriceCard::FACTORY,
        1 => PriceCard::new(1, 1, 1),
        2 => PriceCard::new(1_000, 1_000, 1_000),
        3 => PriceCard::new(
            r.edge(1, 1_000) as u32,
            r.edge(1, 1_000) as u32,
            r.edge(1, 1_000) as u32,
        ),
        _ => PriceCard::new(
            r.within(1, 12) as u32,
            r.within(1, 6) as u32,
            r.within(1, 12) as u32,
        ),
    }
}

/// Limits around those at which they begin to bind.
fn limits(r: &mut Random, card: &PriceCard, blocks: usize) -> Limits {
    let read = match r.below(4) {
        0 | 1 => LIMIT_LIMIT,
        2 => card.rr + r.below(card.sr as usize * (blocks + 2)) as u32,
        _ => card.rr + card.sr * r.below(blocks) as u32 - r.below(2) as u32,
    };
    let insert = match r.below(4) {
        0 | 1 => LIMIT_LIMIT,
        2 => r.below((card.rr + card.rw) as usize * (blocks + 3)) as u32,
        _ => (card.rr + card.rw) * r.within(2, blocks + 1) as u32 - r.below(2) as u32,
    };
    Limits::new(read.min(LIMIT_LIMIT), insert.min(LIMIT_LIMIT))
}

/// A grower by those of the set, or one of the ends.
fn near(r: &mut Random, set: &Set) -> u32 {
    match r.below(6) {
        0 => r.pick(&[0, u32::MAX]),
        1 => r.next() as u32,
        n => {
            let g = set.growers[r.below(set.used as usize)];
            match n {
                2 => g.wrapping_add(1),
                3 => g.wrapping_sub(1),
                _ => g,
            }
        }
    }
}

fn delivery(r: &mut Random, set: &Set) -> Delivery {
    let i = r.below(set.used as usize);
    let mut d = set.slot(i);
    match r.below(20) {
        0 => d.grower = near(r, set),
        1 => d.weight = inputs::weight(r),
        2 => d.oil_yield = inputs::oil_yield(r),
        3 => d.day = inputs::day(r),
        _ => {}
    }
    d
}

/// One of the calls, weights, yields and days in range, lo at most hi.
fn proper_call(r: &mut Random, set: &Set, which: usize) -> Call {
    match which {
        0 => Call::Find(near(r, set)),
        1 | 5 => {
            let (x, y) = (near(r, set), near(r, set));
            let (lo, hi) = (x.min(y), x.max(y));
            match which {
                1 => Call::Range(lo, hi),
                _ => Call::RangeDays(lo, hi, Span::new(inputs::day(r), inputs::day(r))),
            }
        }
        2 => Call::Insert(Delivery {
            grower: near(r, set),
            ..delivery(r, set)
        }),
        3 => Call::Delete(delivery(r, set)),
        _ => Call::Move(delivery(r, set), near(r, set)),
    }
}

fn any_call(r: &mut Random, set: &Set) -> Call {
    let which = r.below(6);
    let mut call = proper_call(r, set, which);
    if !r.one_in(12) {
        return call;
    }
    let fault = r.below(4);
    match call.offered() {
        Some(d) if fault == 0 => d.weight = inputs::weight_out(r),
        Some(d) if fault == 1 => d.oil_yield = inputs::oil_yield_out(r),
        Some(d) if fault == 2 => d.day = inputs::day_out(r),
        Some(d) => (d.weight, d.day) = (inputs::weight_out(r), inputs::day_out(r)),
        None => match &mut call {
            Call::RangeDays(_, _, span) if fault > 1 => *span = inputs::span(r),
            Call::Range(lo, hi) | Call::RangeDays(lo, hi, _) => std::mem::swap(lo, hi),
            _ => {}
        },
    }
    call
}

/// Histograms of a list of calls.
fn recorded_histograms(r: &mut Random, set: &Set) -> Vec<u32> {
    let mut histograms = vec![0; HISTOGRAM_LEN];
    for _ in 0..r.pick(&[0, 3, 20, 100]) {
        let call = any_call(r, set);
        record_second(&mut histograms, &set.view(), &call);
    }
    histograms
}

/// Histograms that no list made; small counts so that costs tie.
fn raw_histograms(r: &mut Random) -> Vec<u32> {
    let most = r.pick(&[0, 1, 1, 3, COUNT_LIMIT as usize]);
    let rare = r.within(1, 6);
    // In some, only the histograms that lower a cost.
    let lowering = r.one_in(4);
    (0..HISTOGRAM_LEN)
        .map(|i| {
            let kept = !lowering || i / 64 == 7 || i / 64 == 8;
            if kept && r.one_in(rare) {
                r.edge(0, most) as u32
            } else {
                0
            }
        })
        .collect()
}

fn histograms(r: &mut Random, set: &Set) -> Vec<u32> {
    if r.one_in(2) {
        recorded_histograms(r, set)
    } else {
        raw_histograms(r)
    }
}

/// Counts at which the limit is near.
fn high_histograms(r: &mut Random) -> Vec<u32> {
    (0..HISTOGRAM_LEN)
        .map(|_| COUNT_LIMIT - r.below(6) as u32)
        .collect()
}

/// The output slice: exact, longer or, in few, too short.
fn room(r: &mut Random, blocks: usize) -> Vec<u32> {
    let length = match r.below(12) {
        0 => r.below(blocks + 1),
        1 => 0,
        2..=5 => blocks,
        _ => r.pick(&[64, 65, 70]),
    };
    (0..length).map(|_| r.next() as u32).collect()
}

/// A record a block, growers 0, 1 and so on: every layout parts no equal ones.
fn one_a_block(blocks: usize) -> Set {
    Set {
        block: 1,
        used: blocks as u32,
        growers: (0..blocks as u32).collect(),
        weights: vec![1; blocks],
        yields: vec![0; blocks],
        days: vec![0; blocks],
    }
}

fn case(r: &mut Random, most_blocks: usize) -> Case {
    let free = r.within(1, 3);
    let set = inputs::set(r, most_blocks, free);
    let blocks = set.view().blocks();
    let card = card(r);
    let which = r.below(6);
    Case {
        limits: limits(r, &card, blocks),
        card,
        ends: inputs::layout(r, &set.view()),
        histograms: histograms(r, &set),
        room: room(r, blocks),
        text: 0,
        call: proper_call(r, &set, which),
        set,
    }
}

fn recorder(run: &mut Run) -> Result<(), String> {
    run.cases(40, 5_000, |run, r| {
        let library = inputs::library(r);
        let most_blocks = r.pick(&[3, 10, 64]);
        let free = r.below(3);
        let set = inputs::set(r, most_blocks, free);
        let first = match r.below(4) {
            0 => raw_histograms(r),
            1 => high_histograms(r),
            _ => vec![0; HISTOGRAM_LEN],
        };
        let mut recorder = Recorder::new(r, &set, &first);
        for i in 0..30 {
            let call = any_call(r, &set);
            recorder
                .record(&mut run.seen, &library, &call)
                .map_err(|why| format!("call {i}: {why}"))?;
        }
        Ok(())
    })
}

fn costs(run: &mut Run) -> Result<(), String> {
    run.cases(41, 10_000, |run, r| {
        let library = inputs::library(r);
        let most_blocks = r.pick(&[3, 12, 64]);
        let mut case = case(r, most_blocks);
        if r.one_in(4) {
            case.ends = inputs::any_ends(r, case.set.view().blocks());
        }
        cost(r, &mut run.seen, &library, &case).map(|_| ())
    })
}

/// A plan, and the cost of the ends that it gives.
fn planned_and_costed(
    run: &mut Run,
    r: &mut Random,
    library: &Library,
    case: &mut Case,
    by: By,
) -> Result<(), String> {
    let (planned, ends) = plan(r, &mut run.seen, library, case, by)?;
    if planned.refusal == 0 {
        case.ends = ends;
        let costed = cost(r, &mut run.seen, library, case)?;
        if costed.refusal != 0 || costed.cost != planned.cost {
            return Err(format!("{planned:?}, but {costed:?} for {:?}", case.ends));
        }
    }
    Ok(())
}

fn plans(run: &mut Run, test: u64, count: u64, most_blocks: usize, by: By) -> Result<(), String> {
    run.cases(test, count, |run, r| {
        let library = inputs::library(r);
        let mut case = case(r, most_blocks);
        planned_and_costed(run, r, &library, &mut case, by)
    })
}

fn plans_by_listing(run: &mut Run) -> Result<(), String> {
    plans(run, 42, 3_000, 12, By::Listing)
}

fn plans_by_table(run: &mut Run) -> Result<(), String> {
    plans(run, 43, 2_000, 64, By::Table)
}

/// One change of what the calls are given.
#[derive(Clone, Copy, Debug, PartialEq, Eq)]
enum CaseFault {
    Price(usize, u32),
    Limit(usize, u32),
    /// Limits that permit no layout.
    ReadBelow,
    InsertBelow,
    Room(usize),
    /// Room for all of a listing but its last byte.
    TextShort,
    /// A set of so many blocks.
    Blocks(usize),
    RangeFalls,
    OfferedWeight(u32),
    OfferedYield(u32),
    OfferedDay(u32),
    /// The first or the last of the days that a range names.
    FirstDay(u32),
    LastDay(u32),
    /// Every count at its limit.
    CountsAtLimit,
    CountOver(u32),
    HistogramLength(usize),
    OfSet(Fault),
    OfEnds(Fault),
}

use CaseFault::*;

/// Those of the set come last: a call is made from a proper set. A listing is
/// measured before all else.
fn case_faults() -> Vec<CaseFault> {
    let mut all = vec![
        TextShort,
        Blocks(LISTED_BLOCK_LIMIT + 1),
        Blocks(64),
        ReadBelow,
        InsertBelow,
        Limit(0, LIMIT_LIMIT + 1),
        Limit(1, LIMIT_LIMIT + 1),
        Limit(0, u32::MAX),
        Limit(1, u32::MAX),
        Room(0),
        RangeFalls,
        OfferedWeight(100_001),
        OfferedWeight(u32::MAX),
        OfferedYield(10_001),
        OfferedYield(u32::MAX),
        OfferedDay(DAY_LIMIT + 1),
        OfferedDay(u32::MAX),
        FirstDay(DAY_LIMIT + 1),
        FirstDay(u32::MAX),
        LastDay(DAY_LIMIT + 1),
        LastDay(u32::MAX),
        CountsAtLimit,
        CountOver(COUNT_LIMIT + 1),
        CountOver(u32::MAX),
        HistogramLength(0),
        HistogramLength(639),
        HistogramLength(641),
    ];
    for which in 0..3 {
        all.extend([0, 1_001, u32::MAX].map(|price| Price(which, price)));
    }
    all.extend(SET_FAULTS.iter().map(|&fault| OfSet(fault)));
    all.extend(END_FAULTS.iter().map(|&fault| OfEnds(fault)));
    all
}

/// The call that is made of a case.
#[derive(Clone, Copy, PartialEq, Eq)]
enum Target {
    Record,
    Cost,
    Plan,
    List,
}

impl CaseFault {
    fn is_large(self) -> bool {
        matches!(self, OfSet(fault) if fault.is_large())
    }

    fn put(self, r: &mut Random, case: &mut Case) -> bool {
        match self {
            Price(0, price) => case.card.rr = price,
            Price(1, price) => case.card.sr = price,
            Price(_, price) => case.card.rw = price,
            Limit(0, limit) => case.limits.read = limit,
            Limit(_, limit) => case.limits.insert = limit,
            ReadBelow => case.limits.read = case.card.rr - 1,
            InsertBelow => case.limits.insert = 2 * (case.card.rr + case.card.rw) - 1,
            Room(n) => {
                case.room.truncate(n);
                case.text = case.text.min(n);
            }
            // Only a listing is lent a text.
            TextShort => match case.text {
                0 => return false,
                _ => case.text = listings::size(case) - 1,
            },
            Blocks(n) => {
                case.set = one_a_block(n);
                case.ends = vec![n as u32 - 1];
            }
            RangeFalls => match &mut case.call {
                Call::Range(lo, hi) | Call::RangeDays(lo, hi, _) if *lo < *hi => {
                    std::mem::swap(lo, hi)
                }
                _ => return false,
            },
            OfferedWeight(weight) => match case.call.offered() {
                Some(d) => d.weight = weight,
                None => return false,
            },
            OfferedYield(oil_yield) => match case.call.offered() {
                Some(d) => d.oil_yield = oil_yield,
                None => return false,
            },
            OfferedDay(day) => match case.call.offered() {
                Some(d) => d.day = day,
                None => return false,
            },
            FirstDay(day) => match &mut case.call {
                Call::RangeDays(_, _, span) => span.first = day,
                _ => return false,
            },
            LastDay(day) => match &mut case.call {
                Call::RangeDays(_, _, span) => span.last = day,
                _ => return false,
            },
            CountsAtLimit => case.histograms.fill(COUNT_LIMIT),
            // In a used block or a later one.
            CountOver(count) => {
                let at = count_index(r.below(HISTOGRAMS), r.edge(0, 63));
                case.histograms[at] = count;
            }
            HistogramLength(n) => case.histograms.resize(n, 0),
            OfSet(fault) | OfEnds(fault) => {
                return fault.put(r, &mut case.set, &mut case.ends);
            }
        }
        true
    }

    /// The refusal of an else accepted call with this fault alone.
    fn expected(self, target: Target) -> u32 {
        let on = |yes: bool, number: u32| if yes { number } else { 0 };
        let limited = matches!(target, Target::Plan | Target::List);
        match self {
            Price(..) => on(target != Target::Record, 1),
            Limit(..) => on(limited, 1),
            ReadBelow | InsertBelow => on(limited, 11),
            Room(_) => on(limited, 15),
            TextShort => on(target == Target::List, 15),
            Blocks(_) => on(target == Target::List, 23),
            RangeFalls => on(target == Target::Record, 7),
            OfferedWeight(_) | OfferedYield(_) => on(target == Target::Record, 8),
            OfferedDay(_) | FirstDay(_) | LastDay(_) => on(target == Target::Record, 19),
            CountsAtLimit => on(target == Target::Record, 10),
            CountOver(_) | HistogramLength(_) => 9,
            OfSet(fault) => fault.expected(),
            OfEnds(fault) => on(target == Target::Cost, fault.expected()),
        }
    }
}

/// A case that its target accepts.
fn accepted(r: &mut Random, target: Target, which: usize) -> Case {
    let mut set = layouts::base(r);
    while target == Target::List && set.view().blocks() > LISTED_BLOCK_LIMIT {
        set = layouts::base(r);
    }
    let card = card(r);
    let mut case = Case {
        limits: Limits::new(LIMIT_LIMIT, LIMIT_LIMIT),
        card,
        ends: inputs::layout(r, &set.view()),
        histograms: recorded_histograms(r, &set),
        room: vec![7; 64],
        text: 0,
        call: proper_call(r, &set, which),
        set,
    };
    if target == Target::List {
        case.text = listings::size(&case) + r.pick(&[0, 1, 500]);
    }
    case
}

fn made(
    run: &mut Run,
    r: &mut Random,
    library: &Library,
    case: &Case,
    target: Target,
) -> Result<u32, String> {
    let seen = &mut run.seen;
    match target {
        Target::Record => {
            Recorder::new(r, &case.set, &case.histograms).record(seen, library, &case.call)
        }
        Target::Cost => cost(r, seen, library, case).map(|a| a.refusal),
        Target::Plan => plan(r, seen, library, case, By::Table).map(|(a, _)| a.refusal),
        Target::List => list(r, seen, library, case).map(|(a, _)| a.refusal),
    }
}

/// The recorded calls, the cost, the plan and the listing.
const TARGETS: [(Target, usize); 9] = [
    (Target::Record, 0),
    (Target::Record, 1),
    (Target::Record, 2),
    (Target::Record, 3),
    (Target::Record, 4),
    (Target::Record, 5),
    (Target::Cost, 0),
    (Target::Plan, 0),
    (Target::List, 0),
];

fn alone(run: &mut Run) -> Result<(), String> {
    let faults = case_faults();
    run.cases(44, 20, |run, r| {
        let library = inputs::library(r);
        for fault in &faults {
            for (target, which) in TARGETS {
                let mut case = accepted(r, target, which);
                if fault.is_large() && !r.one_in(4) || !fault.put(r, &mut case) {
                    continue;
                }
                let with = |why| format!("{fault:?}: {why}");
                let refusal = made(run, r, &library, &case, target).map_err(with)?;
                if refusal != fault.expected(target) {
                    return Err(format!("{fault:?}, {:?}: refusal {refusal}", case.call));
                }
            }
        }
        Ok(())
    })
}

fn pairs(run: &mut Run) -> Result<(), String> {
    let faults = case_faults();
    run.cases(45, 3, |run, r| {
        let library = inputs::library(r);
        for (i, first) in faults.iter().enumerate() {
            for second in &faults[i + 1..] {
                for (target, which) in TARGETS {
                    if (first.is_large() || second.is_large()) && !r.one_in(8) {
                        continue;
                    }
                    let mut case = accepted(r, target, which);
                    first.put(r, &mut case);
                    second.put(r, &mut case);
                    let with = |why| format!("{first:?} and {second:?}: {why}");
                    made(run, r, &library, &case, target).map_err(with)?;
                }
            }
        }
        Ok(())
    })
}

/// Growers, weights, yields, days, histograms, ends, room and text, each alone
/// at the edge counts.
fn edge_counts(run: &mut Run) -> Result<(), String> {
    run.cases(46, 1, |run, r| {
        for library in LIBRARIES {
            for (target, which) in TARGETS {
                for lent in 0..8 {
                    for n in EDGE_COUNTS {
                        let mut case = accepted(r, target, which);
                        let last = case.set.view().blocks() as u32 - 1;
                        match lent {
                            4 => case.histograms.resize(n, 0),
                            // The only end is the last block.
                            5 => case.ends = (0..n as u32).map(|i| last + i).collect(),
                            6 => {
                                // Of all limits the least that permits a layout: one partition.
                                case.limits.insert = 2 * (case.card.rr + case.card.rw);
                                case.room = vec![7; n];
                            }
                            7 => case.text = n,
                            i => case.set.slices()[i].resize(n, u32::MAX),
                        }
                        let expected = match (lent, target) {
                            (4, _) => 9,
                            (5, Target::Cost) if n != 1 => 6,
                            (6, Target::Plan) if n == 0 => 15,
                            (7, Target::List) if n <= 1 => 15,
                            (5..=7, _) => 0,
                            _ => 3,
                        };
                        let refusal = made(run, r, &library, &case, target)?;
                        if refusal != expected {
                            let call = case.call;
                            return Err(format!("{call:?}, slice {lent} of {n}: {refusal}"));
                        }
                    }
                }
            }
        }
        Ok(())
    })
}

/// Every slice empty, with null pointers and without.
fn nothing_lent(run: &mut Run) -> Result<(), String> {
    run.cases(47, 1, |run, r| {
        for library in LIBRARIES {
            for (target, which) in TARGETS {
                let mut case = accepted(r, target, which);
                case.set.resize(0);
                case.histograms.clear();
                case.ends.clear();
                case.room.clear();
                case.text = 0;
                let refusal = made(run, r, &library, &case, target)?;
                if refusal != 3 {
                    return Err(format!("{:?}: refusal {refusal}", case.call));
                }
            }
        }
        Ok(())
    })
}

/// A set of one slot, one end and room for one end or for its line.
fn one_slot(run: &mut Run) -> Result<(), String> {
    run.cases(48, 20, |run, r| {
        let library = inputs::library(r);
        for (target, which) in TARGETS {
            let mut case = accepted(r, target, which);
            let block = r.pick(&[1, 2, 4_096]);
            case.set = inputs::one_delivery(r, block, 1);
            case.call = proper_call(r, &case.set, which);
            case.ends = vec![0];
            case.room = vec![7];
            case.text = 43;
            let refusal = made(run, r, &library, &case, target)?;
            if refusal != 0 {
                return Err(format!("{case:?}: refusal {refusal}"));
            }
        }
        Ok(())
    })
}

/// 01's main case: five finds and an insert, recorded by both.
fn main_case(run: &mut Run, r: &mut Random, library: &Library) -> Result<Case, String> {
    let mut set = Set {
        block: 2,
        used: 8,
        growers: (1..=8).map(|i| 10 * i).collect(),
        weights: vec![100; 8],
        yields: vec![2_000; 8],
        days: vec![0; 8],
    };
    set.resize(9);
    let mut recorder = Recorder::new(r, &set, &[0; HISTOGRAM_LEN]);
    let insert = Call::Insert(Delivery::new(15, 100, 2_000));
    for call in [Call::Find(30); 5].iter().chain(&[insert]) {
        let refusal = recorder.record(&mut run.seen, library, call)?;
        if refusal != 0 {
            return Err(format!("{call:?}: refusal {refusal}"));
        }
    }
    Ok(Case {
        card: PriceCard::FACTORY,
        limits: Limits::new(100, 100),
        ends: Vec::new(),
        histograms: recorder.histograms().to_vec(),
        room: vec![9; 4],
        text: 0,
        call: insert,
        set,
    })
}

/// The answers that 01 states of the main case.
fn examples(run: &mut Run) -> Result<(), String> {
    let library = Library { empty: Empty::Null };
    let mut r = Random::new(0);
    let mut case = main_case(run, &mut r, &library)?;
    // Read limit, insert limit, refusal, cost, ends.
    let stated: [(u32, u32, u32, i64, &[u32]); 8] = [
        (100, 100, 0, 35, &[1, 3]),
        (100, 15, 0, 35, &[1, 3]),
        (100, 14, 0, 40, &[3]),
        (4, 100, 0, 35, &[1, 3]),
        (4, 20, 0, 35, &[1, 3]),
        (3, 100, 0, 40, &[0, 1, 2, 3]),
        (3, 20, 11, 0, &[]),
        (2, 100, 11, 0, &[]),
    ];
    for (read, insert, refusal, cost, ends) in stated {
        case.limits = Limits::new(read, insert);
        let (a, given) = plan(&mut r, &mut run.seen, &library, &case, By::Listing)?;
        if (a.refusal, a.cost, &given[..]) != (refusal, cost, ends) {
            return Err(format!("limits {read} and {insert}: {a:?}, ends {given:?}"));
        }
    }
    for (ends, stated) in [(&[3][..], 40), (&[1, 3], 35), (&[0, 1, 3], 35)] {
        case.ends = ends.to_vec();
        let a = cost(&mut r, &mut run.seen, &library, &case)?;
        if a.refusal != 0 || a.cost != stated {
            return Err(format!("cost of {ends:?}: {a:?}"));
        }
    }
    Ok(())
}

fn every_answer(run: &mut Run) -> Result<(), String> {
    seen::complete(&run.seen)
}

pub const TESTS: &[(&str, Test)] = &[
    ("plan: examples of 01 and 02", examples),
    ("plan: recorder, lists of calls", recorder),
    ("plan: cost, sets, layouts and histograms", costs),
    (
        "plan: planner against every layout, N to 12",
        plans_by_listing,
    ),
    ("plan: planner against the table, N to 64", plans_by_table),
    (
        "plan: planner with prices and counts at their least and most",
        bounds::planned,
    ),
    (
        "plan: limits against the counts of finds and inserts, N to 7",
        limits::by_counts,
    ),
    ("plan: listings of 01's main case", listings::examples),
    (
        "plan: listings against every layout and the plan, N to 12",
        listings::every_layout,
    ),
    (
        "plan: listings of all layouts of 12 blocks",
        listings::largest,
    ),
    ("plan: listings, N past 12", listings::too_many_blocks),
    (
        "plan: calls added to a list against their bounds",
        increases::bounded,
    ),
    (
        "plan: 19 beside 8, offered and in every record",
        days::every_place,
    ),
    ("plan: 19 beside 8, layouts applied", days::applied),
    ("plan: ranges over days recorded as ranges", days::spans),
    ("plan: equal but for the day, recorded", days::another_day),
    ("plan: broken input, each fault alone", alone),
    ("plan: broken input, two faults", pairs),
    (
        "plan: broken input, each slice at the edge counts",
        edge_counts,
    ),
    ("plan: broken input, nothing lent", nothing_lent),
    ("plan: one slot", one_slot),
    (
        "plan: every answer of every call has occurred",
        every_answer,
    ),
];
