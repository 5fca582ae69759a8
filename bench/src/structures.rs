//! What a user could keep deliveries in, each with the calls and the ledger's
//! answers: refusal and totals.

use crate::columns::LIBRARY;
use crate::sets::Layouts;
use meltusk::{Call, Column, Set, Totals};
use second::check::ABSENT;
use second::{Delivery, Span};
use std::cell::RefCell;
use std::collections::BTreeMap;
use std::rc::Rc;

pub type Answered = (u32, Totals);

pub const NONE: Totals = Totals {
    records: 0,
    weight: 0,
    oil: 0,
};

pub trait Structure {
    /// Holds the set's deliveries again, and no others.
    fn fresh(&mut self);

    fn call(&mut self, call: Call) -> Answered;

    fn run(&mut self, calls: &[Call], answers: &mut Vec<Answered>) {
        answers.clear();
        for &made in calls {
            answers.push(self.call(made));
        }
    }
}

/// Memory that all layouts of a week share: where a column lies changes its
/// times by a quarter, so each layout takes every place in turn.
pub type Places = Rc<Vec<RefCell<Column>>>;

/// Our column.
pub struct Ours<'a> {
    set: &'a Set,
    directory: Vec<u32>,
    places: Places,
    turn: usize,
}

impl<'a> Ours<'a> {
    pub fn new(set: &'a Set, ends: &[u32], places: Places) -> Ours<'a> {
        Ours {
            set,
            directory: set.column(ends).directory,
            places,
            turn: 0,
        }
    }
}

impl Structure for Ours<'_> {
    fn fresh(&mut self) {
        self.turn = (self.turn + 1) % self.places.len();
        let mut column = self.places[self.turn].borrow_mut();
        column.directory.copy_from_slice(&self.directory);
        column.growers.copy_from_slice(&self.set.growers);
        column.weights.copy_from_slice(&self.set.weights);
        column.yields.copy_from_slice(&self.set.yields);
        column.days.copy_from_slice(&self.set.days);
    }

    fn call(&mut self, made: Call) -> Answered {
        let mut answers = Vec::new();
        self.run(&[made], &mut answers);
        answers[0]
    }

    /// Borrows the column once, not once a call.
    fn run(&mut self, calls: &[Call], answers: &mut Vec<Answered>) {
        let mut column = self.places[self.turn].borrow_mut();
        let mut slices = column.lend();
        answers.clear();
        for call in calls {
            let a = LIBRARY.call(&mut slices, call);
            answers.push((a.refusal, a.totals));
        }
    }
}

fn add(totals: &mut Totals, weight: u32, oil_yield: u32, records: u64) {
    totals.records += records;
    totals.weight += records * u64::from(weight);
    totals.oil += records * u64::from(weight) * u64::from(oil_yield);
}

/// Four vectors sorted by grower, searched by halves; an insert shifts what
/// lies behind it.
pub struct Sorted<'a> {
    set: &'a Set,
    growers: Vec<u32>,
    weights: Vec<u32>,
    yields: Vec<u32>,
    days: Vec<u32>,
}

impl<'a> Sorted<'a> {
    pub fn new(set: &'a Set) -> Sorted<'a> {
        let slots = set.growers.len();
        Sorted {
            set,
            growers: Vec::with_capacity(slots),
            weights: Vec::with_capacity(slots),
            yields: Vec::with_capacity(slots),
            days: Vec::with_capacity(slots),
        }
    }

    fn slices(&mut self) -> [&mut Vec<u32>; 4] {
        let Sorted {
            growers,
            weights,
            yields,
            days,
            ..
        } = self;
        [growers, weights, yields, days]
    }

    /// The first slot whose grower is at least `grower`.
    fn first(&self, grower: u32) -> usize {
        self.growers.partition_point(|&held| held < grower)
    }

    fn slot(&self, d: Delivery) -> Option<usize> {
        let first = self.first(d.grower);
        let same = self.growers[first..].iter();
        let same = same.take_while(|&&held| held == d.grower).count();
        let is_equal = |&i: &usize| {
            self.weights[i] == d.weight && self.yields[i] == d.oil_yield && self.days[i] == d.day
        };
        (first..first + same).find(is_equal)
    }

    fn range(&self, lo: u32, hi: u32) -> Totals {
        let first = self.first(lo);
        let mut totals = NONE;
        if lo == hi {
            let mut i = first;
            while self.growers.get(i) == Some(&lo) {
                add(&mut totals, self.weights[i], self.yields[i], 1);
                i += 1;
            }
            return totals;
        }
        let past = self.growers.partition_point(|&held| held <= hi);
        let records = self.weights[first..past]
            .iter()
            .zip(&self.yields[first..past]);
        for (&weight, &oil_yield) in records {
            add(&mut totals, weight, oil_yield, 1);
        }
        totals
    }

    fn range_days(&self, lo: u32, hi: u32, span: Span) -> Totals {
        let mut totals = NONE;
        let past = self.growers.partition_point(|&held| held <= hi);
        for i in (self.first(lo)..past).filter(|&i| span.holds(self.days[i])) {
            add(&mut totals, self.weights[i], self.yields[i], 1);
        }
        totals
    }
}

impl Structure for Sorted<'_> {
    fn fresh(&mut self) {
        let (set, used) = (self.set, self.set.records());
        for (held, from) in
            self.slices()
                .into_iter()
                .zip([&set.growers, &set.weights, &set.yields, &set.days])
        {
            held.clear();
            held.extend_from_slice(&from[..used]);
        }
    }

    fn call(&mut self, call: Call) -> Answered {
        match call {
            Call::Find(grower) => (0, self.range(grower, grower)),
            Call::Range(lo, hi) => (0, self.range(lo, hi)),
            Call::RangeDays(lo, hi, span) => (0, self.range_days(lo, hi, span)),
            Call::Insert(d) => {
                let slot = self.first(d.grower);
                self.growers.insert(slot, d.grower);
                self.weights.insert(slot, d.weight);
                self.yields.insert(slot, d.oil_yield);
                self.days.insert(slot, d.day);
                (0, NONE)
            }
            Call::Delete(d) => {
                let Some(slot) = self.slot(d) else {
                    return (ABSENT, NONE);
                };
                for held in self.slices() {
                    held.remove(slot);
                }
                (0, NONE)
            }
            Call::Move(d, new) => {
                let Some(slot) = self.slot(d) else {
                    return (ABSENT, NONE);
                };
                // Only what lies between the two places shifts.
                let to = self.first(new);
                for held in self.slices() {
                    if to > slot {
                        held[slot..to].rotate_left(1);
                    } else {
                        held[to..=slot].rotate_right(1);
                    }
                }
                self.growers[if to > slot { to - 1 } else { to }] = new;
                (0, NONE)
            }
        }
    }
}

/// A balanced tree of deliveries, each with how many equal ones are held.
pub struct Tree {
    set: BTreeMap<Delivery, u32>,
    held: BTreeMap<Delivery, u32>,
}

impl Tree {
    pub fn new(set: &Set) -> Tree {
        let mut tree = Tree {
            set: BTreeMap::new(),
            held: BTreeMap::new(),
        };
        for slot in 0..set.records() {
            tree.insert(set.delivery(slot));
        }
        std::mem::swap(&mut tree.set, &mut tree.held);
        tree
    }

    fn insert(&mut self, d: Delivery) {
        *self.held.entry(d).or_insert(0) += 1;
    }

    fn delete(&mut self, d: Delivery) -> u32 {
        match self.held.get_mut(&d) {
            None => return ABSENT,
            Some(1) => drop(self.held.remove(&d)),
            Some(count) => *count -= 1,
        }
        0
    }

    fn range(&self, lo: u32, hi: u32, span: Span) -> Totals {
        let mut totals = NONE;
        let (from, to) = (
            Delivery::new(lo, 0, 0),
            Delivery::new(hi, u32::MAX, u32::MAX).on(u32::MAX),
        );
        let held = self.held.range(from..=to);
        for (d, &count) in held.filter(|(d, _)| span.holds(d.day)) {
            add(&mut totals, d.weight, d.oil_yield, u64::from(count));
        }
        totals
    }
}

impl Structure for Tree {
    fn fresh(&mut self) {
        self.held = self.set.clone();
    }

    fn call(&mut self, call: Call) -> Answered {
        match call {
            Call::Find(grower) => (0, self.range(grower, grower, Span::ALL)),
            Call::Range(lo, hi) => (0, self.range(lo, hi, Span::ALL)),
            Call::RangeDays(lo, hi, span) => (0, self.range(lo, hi, span)),
            Call::Insert(d) => {
                self.insert(d);
                (0, NONE)
            }
            Call::Delete(d) => (self.delete(d), NONE),
            Call::Move(d, new) => {
                let refusal = self.delete(d);
                if refusal == 0 {
                    self.insert(Delivery { grower: new, ..d });
                }
                (refusal, NONE)
            }
        }
    }
}
