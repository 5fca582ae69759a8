//! A price card for a machine: measures the five calls on laid columns, fits
//! the times of a further block and of a ripple step, and rounds them to prices.
//!
//! The costs of two layouts under one list of calls differ only by blocks
//! scanned, at SR each, and by partitions passed, at RR + RW each: the other
//! terms are the same for every layout. So the planner's choice depends on
//! SR : RR + RW alone, and these two are fitted, each kind of call with a
//! constant of its own. The card has no price for that constant.

use crate::columns::LIBRARY;
use crate::sets::{delivery, drawn, Layouts};
use crate::timing::timed;
use meltusk::{spread_growers, Call, Column, Set};
use second::random::{case_seed, Random};
use second::{Delivery, PriceCard, BLOCK_LIMIT, PRICE_LIMIT, SLOT_LIMIT};

/// Partition counts of the layouts that are measured.
const LAYOUTS: [usize; 7] = [1, 2, 4, 8, 16, 32, 64];
const KINDS: [&str; 5] = ["find", "range 1/8", "insert", "delete", "move"];
/// Passes over all layouts, and rounds of each; of the passes the least median.
const PASSES: usize = 8;
const ROUNDS: usize = 15;
/// Inserts of a batch, and then deletes and moves.
const WRITES: usize = 32;
/// A batch of reads is of about as many records, so that the clock's own time
/// is a small part of it.
const READ_RECORDS: usize = 16_384;
/// Rounding a card may change SR : RR + RW by one part in this many.
const ROUNDED: f64 = 50.0;

/// Nanoseconds a call, and what a call reports, on average.
#[derive(Clone, Copy, Default)]
struct Measured {
    kind: usize,
    partitions: usize,
    ns: f64,
    rr: f64,
    sr: f64,
    rw: f64,
}

impl Measured {
    fn batch(kind: usize, partitions: usize, c: &mut Column, calls: &[Call]) -> Measured {
        let mut column = c.lend();
        let (ns, sums) = timed(calls.len(), || {
            let mut sums = [0; 4];
            for call in calls {
                let a = LIBRARY.call(&mut column, call);
                let more = [u64::from(a.refusal), a.counts.rr, a.counts.sr, a.counts.rw];
                sums = std::array::from_fn(|i| sums[i] + more[i]);
            }
            sums
        });
        assert_eq!(sums[0], 0, "a call is refused");
        let [_, rr, sr, rw] = sums.map(|sum| sum as f64 / calls.len() as f64);
        Measured {
            kind,
            partitions,
            ns,
            rr,
            sr,
            rw,
        }
    }

    /// The median time and the mean counts of batches of one kind.
    fn median(batches: &mut [Measured]) -> Measured {
        batches.sort_unstable_by(|a, b| a.ns.total_cmp(&b.ns));
        let n = batches.len() as f64;
        let mean = |of: fn(&Measured) -> f64| batches.iter().map(of).sum::<f64>() / n;
        Measured {
            rr: mean(|m| m.rr),
            sr: mean(|m| m.sr),
            rw: mean(|m| m.rw),
            ..batches[batches.len() / 2]
        }
    }
}

/// One batch of each kind of call, in the order of `KINDS`. What is inserted is
/// deleted, and what is moved is moved back.
fn drawn_calls(r: &mut Random, set: &Set) -> [Vec<Call>; 5] {
    let (used, eighth) = (set.records(), set.records() / 8);
    let reads = (READ_RECORDS / set.block as usize).clamp(8, 256);
    let finds = (0..reads).map(|_| Call::Find(set.growers[r.below(used)]));
    let finds = finds.collect();
    let ranges = (0..reads).map(|_| {
        let lo = r.below(used - eighth);
        Call::Range(set.growers[lo], set.growers[lo + eighth.max(1) - 1])
    });
    let ranges = ranges.collect();
    let new: Vec<Delivery> = (0..WRITES)
        .map(|_| {
            let grower = set.growers[r.below(used)];
            delivery(r, grower)
        })
        .collect();
    let moves = (0..WRITES / 2).flat_map(|_| {
        let (d, grower) = (set.delivery(r.below(used)), set.growers[r.below(used)]);
        let back = Delivery { grower, ..d };
        [Call::Move(d, grower), Call::Move(back, d.grower)]
    });
    let moves = moves.collect();
    let inserts = new.iter().map(|&d| Call::Insert(d)).collect();
    let deletes = new.iter().map(|&d| Call::Delete(d)).collect();
    [finds, ranges, inserts, deletes, moves]
}

/// Every kind of call on every layout of a set of 64 blocks.
fn measure(block: u32) -> Vec<Measured> {
    let mut r = Random::new(case_seed(102, u64::from(block)));
    let used = (BLOCK_LIMIT * block as usize).min(SLOT_LIMIT - WRITES);
    let growers = spread_growers(&mut r, used);
    let set = drawn(&mut r, block, growers, used + WRITES);
    let mut columns = LAYOUTS.map(|k| set.column(&set.equal_ends(k)));
    let mut least: Vec<Measured> = Vec::new();
    for _ in 0..PASSES {
        let mut pass = Vec::new();
        for (column, k) in columns.iter_mut().zip(LAYOUTS) {
            let mut batches: [Vec<Measured>; 5] = Default::default();
            for _ in 0..ROUNDS {
                for (kind, calls) in drawn_calls(&mut r, &set).iter().enumerate() {
                    batches[kind].push(Measured::batch(kind, k, column, calls));
                }
            }
            pass.extend(batches.iter_mut().map(|b| Measured::median(b)));
        }
        if least.is_empty() {
            least = pass;
        } else {
            for (held, new) in least.iter_mut().zip(pass) {
                held.ns = held.ns.min(new.ns);
            }
        }
    }
    least
}

/// Unknowns of the fit: a constant for each kind, a further block, a ripple step.
const UNKNOWNS: usize = KINDS.len() + 2;
const BLOCK: usize = KINDS.len();
const STEP: usize = KINDS.len() + 1;

/// How often each unknown goes into a measured time. A call's ripple steps and
/// its random writes differ by a number that is the same for all of its kind.
fn terms(m: &Measured) -> [f64; UNKNOWNS] {
    let mut terms = [0.0; UNKNOWNS];
    terms[m.kind] = 1.0;
    terms[BLOCK] = m.sr;
    terms[STEP] = m.rw;
    terms
}

/// The times whose squared relative errors have the least sum: the normal
/// equations, solved by elimination.
fn fitted(measured: &[Measured]) -> [f64; UNKNOWNS] {
    let mut rows = [[0.0; UNKNOWNS + 1]; UNKNOWNS];
    for m in measured {
        let relative = terms(m).map(|term| term / m.ns);
        for (row, &weight) in rows.iter_mut().zip(&relative) {
            for (sum, &term) in row.iter_mut().zip(relative.iter().chain(&[1.0])) {
                *sum += weight * term;
            }
        }
    }
    for i in 0..UNKNOWNS {
        let pivot = rows[i].map(|x| x / rows[i][i]);
        for row in &mut rows {
            let factor = row[i];
            for (x, p) in row.iter_mut().zip(&pivot) {
                *x -= factor * p;
            }
        }
        rows[i] = pivot;
    }
    rows.map(|row| row[UNKNOWNS])
}

/// The smallest prices for a block's and a step's times. RR has all of RR + RW
/// but 1: a find's first block is far dearer than a step's random write, and
/// the planner sees only the sum.
fn rounded(block: f64, step: f64) -> PriceCard {
    let ratio = block / step.max(block / 1e6);
    let card = |sum: u32| {
        let sr = (ratio * f64::from(sum)).round();
        let sr = sr.clamp(1.0, f64::from(PRICE_LIMIT));
        let error = (sr / f64::from(sum) / ratio).ln().abs();
        (error, PriceCard::new(sum - 1, sr as u32, 1))
    };
    let cards = || (2..=PRICE_LIMIT + 1).map(card);
    let close = cards().find(|(error, _)| error * ROUNDED <= 1.0);
    let least = || cards().min_by(|a, b| a.0.total_cmp(&b.0));
    close.or_else(least).expect("there are cards").1
}

/// A measured machine at one block length.
pub struct Machine {
    measured: Vec<Measured>,
    times: [f64; UNKNOWNS],
    pub card: PriceCard,
}

impl Machine {
    pub fn measured(block: u32) -> Machine {
        let measured = measure(block);
        let times = fitted(&measured);
        let card = rounded(times[BLOCK], times[STEP]);
        Machine {
            measured,
            times,
            card,
        }
    }

    /// Nanoseconds of the fit, with the constant of the call's kind.
    fn fit(&self, m: &Measured) -> f64 {
        terms(m).iter().zip(&self.times).map(|(a, b)| a * b).sum()
    }

    /// Nanoseconds of the counts that a call reports, priced by the card.
    fn priced(&self, m: &Measured) -> f64 {
        let PriceCard { rr, sr, rw } = self.card;
        let unit = self.times[BLOCK] / f64::from(sr);
        unit * (f64::from(rr) * m.rr + f64::from(sr) * m.sr + f64::from(rw) * m.rw)
    }

    /// How far the fit is off, in per cent: on average, and at the worst.
    fn off(&self) -> (f64, f64) {
        let off = self.measured.iter().map(|m| off(self.fit(m), m.ns).abs());
        let sum: f64 = off.clone().sum();
        (sum / self.measured.len() as f64, off.fold(0.0, f64::max))
    }
}

/// Per cent.
fn off(told: f64, measured: f64) -> f64 {
    100.0 * (told / measured - 1.0)
}

/// A line for each of several block lengths. The last is a power of two, at
/// which the slots of a ripple share few sets of the cache.
pub fn survey() {
    println!(
        "{:>6}{:>12}{:>14}{:>14}{:>22}{:>14}",
        "B", "find, K 64", "further block", "ripple step", "card RR SR RW", "off, worst"
    );
    for block in [16, 32, 64, 125, 250, 500, 1_000, 2_000, 4_000, 4_096] {
        let machine = Machine::measured(block);
        let PriceCard { rr, sr, rw } = machine.card;
        let one = machine
            .measured
            .iter()
            .find(|m| m.partitions == BLOCK_LIMIT);
        let (mean, worst) = machine.off();
        println!(
            "{block:>6}{:>9.0} ns{:>11.1} ns{:>11.2} ns{:>22}{mean:>6.0}%{worst:>6.0}%",
            one.map_or(f64::NAN, |m| m.ns),
            machine.times[BLOCK],
            machine.times[STEP],
            format!("{rr} {sr} {rw}"),
        );
    }
}

/// The card of one block length, and how far it is off call by call.
pub fn run(block: u32) {
    let machine = Machine::measured(block);
    let PriceCard { rr, sr, rw } = machine.card;
    println!("block length {block}: card RR {rr}, SR {sr}, RW {rw}");
    println!(
        "a further block {:.1} ns, a ripple step {:.2} ns, one price unit {:.2} ns",
        machine.times[BLOCK],
        machine.times[STEP],
        machine.times[BLOCK] / f64::from(sr)
    );
    println!("priced: a call's counts at these prices; constant: what is the same in every layout");
    println!();
    println!(
        "{:<12}{:>4}{:>8}{:>8}{:>12}{:>12}{:>7}{:>14}{:>7}",
        "call", "K", "sr", "rw", "ns", "priced", "off", "and constant", "off"
    );
    for kind in 0..KINDS.len() {
        for m in machine.measured.iter().filter(|m| m.kind == kind) {
            let (priced, fit) = (machine.priced(m), machine.fit(m));
            println!(
                "{:<12}{:>4}{:>8.1}{:>8.1}{:>12.1}{priced:>12.1}{:>6.0}%{fit:>14.1}{:>6.0}%",
                KINDS[kind],
                m.partitions,
                m.sr,
                m.rw,
                m.ns,
                off(priced, m.ns),
                off(fit, m.ns)
            );
        }
    }
    println!();
    for (kind, constant) in KINDS.iter().zip(machine.times) {
        println!("constant of {kind:<12}{constant:>10.1} ns");
    }
    let (mean, worst) = machine.off();
    println!("with its constants the fit is {mean:.0}% off on average, {worst:.0}% at the worst");
}
