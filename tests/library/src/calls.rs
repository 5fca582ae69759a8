//! The calls as values, made and recorded by either implementation, the steps
//! from grower to grower, and sheets.

use crate::answers::{Answer, Stepped, Written};
use crate::column::{ColumnSlices, View};
use crate::library::Library;
use second::{Delivery, Span, UnlaidSet};

/// A call on a column, or one to be recorded against a set.
#[derive(Clone, Copy, Debug)]
pub enum Call {
    Find(u32),
    Range(u32, u32),
    RangeDays(u32, u32, Span),
    Insert(Delivery),
    Delete(Delivery),
    Move(Delivery, u32),
}

impl Call {
    /// The delivery that the call is offered.
    pub fn offered(&mut self) -> Option<&mut Delivery> {
        match self {
            Call::Insert(d) | Call::Delete(d) | Call::Move(d, _) => Some(d),
            Call::Find(_) | Call::Range(..) | Call::RangeDays(..) => None,
        }
    }
}

/// A step to the grower at or above, or at or below.
#[derive(Clone, Copy, Debug)]
pub enum Step {
    Next(u32),
    Previous(u32),
}

impl Step {
    pub fn both(grower: u32) -> [Step; 2] {
        [Step::Next(grower), Step::Previous(grower)]
    }

    pub fn grower(&self) -> u32 {
        match *self {
            Step::Next(grower) | Step::Previous(grower) => grower,
        }
    }

    /// Whether the step may answer a grower.
    pub fn reaches(&self, grower: u32) -> bool {
        match *self {
            Step::Next(from) => grower >= from,
            Step::Previous(from) => grower <= from,
        }
    }
}

impl Library {
    #[inline]
    pub fn call(&self, column: &mut ColumnSlices, call: &Call) -> Answer {
        match *call {
            Call::Find(grower) => self.find(&column.view(), grower),
            Call::Range(lo, hi) => self.range(&column.view(), lo, hi),
            Call::RangeDays(lo, hi, span) => self.range_days(&column.view(), lo, hi, span),
            Call::Insert(d) => self.insert(column, d),
            Call::Delete(d) => self.delete(column, d),
            Call::Move(d, new_grower) => self.move_delivery(column, d, new_grower),
        }
    }

    #[inline]
    pub fn step(&self, column: &View, step: &Step) -> Stepped {
        match *step {
            Step::Next(grower) => self.next_grower(column, grower),
            Step::Previous(grower) => self.previous_grower(column, grower),
        }
    }

    /// The sheet of a column, or of the term that holds a day.
    #[inline]
    pub fn sheet(
        &self,
        column: &View,
        day: Option<u32>,
        text: &mut [u8],
        order: &mut [u32],
        work: &mut [u32],
    ) -> Written {
        match day {
            None => self.write_sheet(column, text, order, work),
            Some(day) => self.write_term_sheet(column, day, text, order, work),
        }
    }

    pub fn record(&self, histograms: &mut [u32], set: &UnlaidSet, call: &Call) -> u32 {
        match *call {
            Call::Find(grower) => self.record_find(histograms, set, grower),
            Call::Range(lo, hi) => self.record_range(histograms, set, lo, hi),
            Call::RangeDays(lo, hi, span) => {
                self.record_range_days(histograms, set, (lo, hi), span)
            }
            Call::Insert(d) => self.record_insert(histograms, set, d),
            Call::Delete(d) => self.record_delete(histograms, set, d),
            Call::Move(d, new_grower) => self.record_move(histograms, set, d, new_grower),
        }
    }
}

#[inline]
pub fn call_second(column: &mut ColumnSlices, call: &Call) -> Answer {
    let ColumnSlices {
        directory: at,
        growers: g,
        weights: w,
        yields: y,
        days: n,
    } = column;
    match *call {
        Call::Find(grower) => second::find(g, w, y, n, at, grower).into(),
        Call::Range(lo, hi) => second::range(g, w, y, n, at, lo, hi).into(),
        Call::RangeDays(lo, hi, span) => second::range_days(g, w, y, n, at, (lo, hi), span).into(),
        Call::Insert(d) => second::insert(g, w, y, n, at, d).into(),
        Call::Delete(d) => second::delete(g, w, y, n, at, d).into(),
        Call::Move(d, new_grower) => second::move_delivery(g, w, y, n, at, d, new_grower).into(),
    }
}

#[inline]
pub fn step_second(column: &View, step: &Step) -> Stepped {
    let View {
        directory: at,
        growers: g,
        weights: w,
        yields: y,
        days: n,
    } = *column;
    match *step {
        Step::Next(grower) => second::next_grower(g, w, y, n, at, grower).into(),
        Step::Previous(grower) => second::previous_grower(g, w, y, n, at, grower).into(),
    }
}

/// The second implementation's sheet of a column, or of the term that holds a day.
#[inline]
pub fn sheet_second(
    column: &View,
    day: Option<u32>,
    text: &mut [u8],
    order: &mut [u32],
    work: &mut [u32],
) -> Written {
    let View {
        directory: at,
        growers: g,
        weights: w,
        yields: y,
        days: n,
    } = *column;
    match day {
        None => second::sheet_write(g, w, y, n, at, text, order, work).into(),
        Some(day) => second::term_sheet_write(g, w, y, n, at, day, text, order, work).into(),
    }
}

pub fn record_second(histograms: &mut [u32], set: &UnlaidSet, call: &Call) -> u32 {
    match *call {
        Call::Find(grower) => second::record_find(set, histograms, grower),
        Call::Range(lo, hi) => second::record_range(set, histograms, lo, hi),
        Call::RangeDays(lo, hi, span) => second::record_range_days(set, histograms, (lo, hi), span),
        Call::Insert(d) => second::record_insert(set, histograms, d),
        Call::Delete(d) => second::record_delete(set, histograms, d),
        Call::Move(d, new_grower) => second::record_move(set, histograms, d, new_grower),
    }
}
