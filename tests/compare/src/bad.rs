//! Days out of range beside weights and yields out of range, in every record.

use crate::sheets::column_of;
use crate::{broken, inputs};
use meltusk::{Column, Slots};
use second::random::Random;
use std::ops::Range;

/// Of at most so many records every two are tried.
const FEW: usize = 12;

/// A sound column with a free slot: few records, or partitions of so many that a
/// scan looks at several together.
pub fn column(r: &mut Random) -> Column {
    if r.one_in(3) {
        let (growers, k) = (r.within(3, 150), r.within(1, 3));
        let mut c = column_of(r, growers, 2, k);
        c.resize(c.growers.len() + 1);
        return c;
    }
    loop {
        let c = broken::base(r);
        if c.view().used() <= FEW {
            return c;
        }
    }
}

/// The record whose day and the one whose weight or yield is out of range.
#[derive(Clone, Copy, Debug)]
pub struct Bad {
    day: Option<usize>,
    value: Option<usize>,
}

impl Bad {
    /// Both in each record and in none, if there are few; else the day in each
    /// record, alone and beside the other in any.
    pub fn every(r: &mut Random, records: usize) -> Vec<Bad> {
        let places = || std::iter::once(None).chain((0..records).map(Some));
        if records <= FEW {
            let beside = |day| places().map(move |value| Bad { day, value });
            return places().flat_map(beside).collect();
        }
        let mut all = Vec::with_capacity(2 * records);
        for day in (0..records).map(Some) {
            let value = Some(r.below(records));
            all.extend([Bad { day, value: None }, Bad { day, value }]);
        }
        all
    }

    /// One of both in this record.
    pub fn one(r: &mut Random, at: usize) -> Bad {
        let is_day = r.one_in(3);
        Bad {
            day: is_day.then_some(at),
            value: (!is_day).then_some(at),
        }
    }

    /// Puts them into growers, weights, yields and days.
    pub fn put(self, r: &mut Random, slots: [&mut Vec<u32>; 4]) {
        let late = inputs::day_out(r);
        self.put_day(r, slots, late);
    }

    /// The same with this day.
    pub fn put_day(self, r: &mut Random, slots: [&mut Vec<u32>; 4], late: u32) {
        let [_, weights, yields, days] = slots;
        if let Some(at) = self.day {
            days[at] = late;
        }
        match self.value {
            Some(at) if r.one_in(2) => weights[at] = inputs::weight_out(r),
            Some(at) => yields[at] = inputs::oil_yield_out(r),
            None => {}
        }
    }

    /// The refusal of a call that asks these slots: 8 of all, then 19 of all.
    pub fn refusal(self, asked: &Range<usize>) -> u32 {
        let meets = |at: Option<usize>| at.is_some_and(|at| asked.contains(&at));
        match () {
            () if meets(self.value) => 8,
            () if meets(self.day) => 19,
            () => 0,
        }
    }
}
