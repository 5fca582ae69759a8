//! The ledger: a bag of at most C deliveries, with the same calls and the two
//! that step from grower to grower.

use crate::check;
use crate::types::*;

#[derive(Clone, Debug, PartialEq, Eq)]
pub struct Ledger {
    capacity: usize,
    records: Vec<Delivery>,
}

impl Ledger {
    pub fn new(capacity: usize) -> Ledger {
        Ledger {
            capacity,
            records: Vec::new(),
        }
    }

    /// A ledger that holds the given deliveries, at most `capacity` of them.
    pub fn holding(capacity: usize, records: Vec<Delivery>) -> Ledger {
        assert!(records.len() <= capacity);
        Ledger { capacity, records }
    }

    pub fn records(&self) -> &[Delivery] {
        &self.records
    }

    /// The bag in a fixed order, for comparison.
    pub fn sorted(&self) -> Vec<Delivery> {
        let mut bag = self.records.clone();
        bag.sort_unstable();
        bag
    }

    /// Check 7, then the totals of the growers lo to hi.
    pub fn range(&self, lo: u32, hi: u32) -> (u32, Totals) {
        self.range_days(lo, hi, Span::ALL)
    }

    /// Checks 7 and 19, then the totals of the growers lo to hi on these days.
    pub fn range_days(&self, lo: u32, hi: u32, span: Span) -> (u32, Totals) {
        if lo > hi {
            return (check::RANGE, Totals::ZERO);
        }
        if !span.in_range() {
            return (check::DAYS, Totals::ZERO);
        }
        let mut totals = Totals::ZERO;
        for d in self
            .records
            .iter()
            .filter(|d| lo <= d.grower && d.grower <= hi && span.holds(d.day))
        {
            totals.records += 1;
            totals.weight += u64::from(d.weight);
            totals.oil += u64::from(d.weight) * u64::from(d.oil_yield);
        }
        (check::ACCEPTED, totals)
    }

    /// A find is a range from g to g.
    pub fn find(&self, g: u32) -> (u32, Totals) {
        self.range(g, g)
    }

    /// The smallest grower at or above g with a record, and his record count;
    /// 0 and 0 if there is none.
    pub fn next_grower(&self, g: u32) -> (u32, u64) {
        let growers = self.records.iter().map(|d| d.grower);
        self.counted(growers.filter(|&held| held >= g).min())
    }

    /// The same downward.
    pub fn previous_grower(&self, g: u32) -> (u32, u64) {
        let growers = self.records.iter().map(|d| d.grower);
        self.counted(growers.filter(|&held| held <= g).max())
    }

    fn counted(&self, grower: Option<u32>) -> (u32, u64) {
        grower.map_or((0, 0), |g| (g, self.find(g).1.records))
    }

    /// Checks 8, 19 and 12.
    pub fn insert(&mut self, d: Delivery) -> u32 {
        if !d.in_range() {
            return check::VALUES;
        }
        if !d.day_in_range() {
            return check::DAYS;
        }
        if self.records.len() >= self.capacity {
            return check::FULL;
        }
        self.records.push(d);
        check::ACCEPTED
    }

    /// Checks 8, 19 and 13.
    pub fn delete(&mut self, d: Delivery) -> u32 {
        if !d.in_range() {
            return check::VALUES;
        }
        if !d.day_in_range() {
            return check::DAYS;
        }
        let Some(at) = self.records.iter().position(|held| *held == d) else {
            return check::ABSENT;
        };
        self.records.swap_remove(at);
        check::ACCEPTED
    }

    /// Checks 8, 19 and 13; one equal delivery gets the new grower.
    pub fn move_delivery(&mut self, d: Delivery, new_grower: u32) -> u32 {
        if !d.in_range() {
            return check::VALUES;
        }
        if !d.day_in_range() {
            return check::DAYS;
        }
        let Some(at) = self.records.iter().position(|held| *held == d) else {
            return check::ABSENT;
        };
        self.records[at].grower = new_grower;
        check::ACCEPTED
    }
}
