//! Safe calls of the compiled library.

use crate::answers::{
    Answer, Applied, Costed, Counts, DateAnswer, DayAnswer, Imported, Listed, PartitionSlice,
    Planned, Stepped, TermAnswer, Written,
};
use crate::column::{ColumnSlices, View};
use crate::declared;
use second::{Delivery, Limits, PriceCard, Span, UnlaidSet};

/// The pointer with which an empty slice is lent.
#[derive(Clone, Copy, Debug, PartialEq, Eq)]
pub enum Empty {
    Null,
    /// Not null: a place in the caller's allocation.
    Place,
}

/// The compiled library. Each call is safe: the slices are borrowed, so they
/// do not overlap, and each is lent with its own count.
#[derive(Clone, Copy, Debug)]
pub struct Library {
    pub empty: Empty,
}

/// Both ways to lend an empty slice.
pub const LIBRARIES: [Library; 2] = [
    Library { empty: Empty::Null },
    Library {
        empty: Empty::Place,
    },
];

/// A C call. An argument `&slice` or `mut slice` is lent as its pointer and its
/// count; every other argument is itself.
macro_rules! call {
    ($library:ident => $name:ident($($arguments:tt)*)) => {
        call!(@ $library $name [] ($($arguments)*))
    };
    (@ $library:ident $name:ident [$($done:tt)*] ()) => {
        unsafe { declared::$name($($done)*) }
    };
    (@ $library:ident $name:ident [$($done:tt)*] (&$slice:expr $(, $($rest:tt)*)?)) => {
        call!(@ $library $name
            [$($done)* $library.pointer($slice), $slice.len(),] ($($($rest)*)?))
    };
    (@ $library:ident $name:ident [$($done:tt)*] (mut $slice:expr $(, $($rest:tt)*)?)) => {
        call!(@ $library $name
            [$($done)* $library.pointer_mut($slice), $slice.len(),] ($($($rest)*)?))
    };
    (@ $library:ident $name:ident [$($done:tt)*] ($number:expr $(, $($rest:tt)*)?)) => {
        call!(@ $library $name [$($done)* $number,] ($($($rest)*)?))
    };
}

impl Library {
    #[inline]
    fn pointer<T>(&self, slice: &[T]) -> *const T {
        if slice.is_empty() && self.empty == Empty::Null {
            std::ptr::null()
        } else {
            slice.as_ptr()
        }
    }

    #[inline]
    fn pointer_mut<T>(&self, slice: &mut [T]) -> *mut T {
        if slice.is_empty() && self.empty == Empty::Null {
            std::ptr::null_mut()
        } else {
            slice.as_mut_ptr()
        }
    }

    #[inline]
    pub fn apply_layout(&self, set: &UnlaidSet, ends: &[u32]) -> Applied {
        call!(self => meltusk_apply_layout(
            set.b, set.m as u32, &set.growers, &set.weights, &set.yields, &set.days, &ends
        ))
    }

    #[inline]
    pub fn find(&self, c: &View, grower: u32) -> Answer {
        call!(self => meltusk_find(&c.directory, &c.growers, &c.weights, &c.yields, &c.days, grower))
    }

    #[inline]
    pub fn range(&self, c: &View, lo: u32, hi: u32) -> Answer {
        call!(self => meltusk_range(&c.directory, &c.growers, &c.weights, &c.yields, &c.days, lo, hi))
    }

    #[inline]
    pub fn range_days(&self, c: &View, lo: u32, hi: u32, span: Span) -> Answer {
        call!(self => meltusk_range_days(
            &c.directory, &c.growers, &c.weights, &c.yields, &c.days, lo, hi, span.first, span.last
        ))
    }

    #[inline]
    pub fn insert(&self, c: &mut ColumnSlices, d: Delivery) -> Answer {
        call!(self => meltusk_insert(
            mut c.directory, mut c.growers, mut c.weights, mut c.yields, mut c.days,
            d.grower, d.weight, d.oil_yield, d.day
        ))
    }

    #[inline]
    pub fn delete(&self, c: &mut ColumnSlices, d: Delivery) -> Answer {
        call!(self => meltusk_delete(
            mut c.directory, mut c.growers, mut c.weights, mut c.yields, mut c.days,
            d.grower, d.weight, d.oil_yield, d.day
        ))
    }

    #[inline]
    pub fn move_delivery(&self, c: &mut ColumnSlices, d: Delivery, new_grower: u32) -> Answer {
        call!(self => meltusk_move(
            mut c.directory, mut c.growers, mut c.weights, mut c.yields, mut c.days,
            d.grower, d.weight, d.oil_yield, d.day, new_grower
        ))
    }

    #[inline]
    pub fn next_grower(&self, c: &View, grower: u32) -> Stepped {
        call!(self => meltusk_next_grower(
            &c.directory, &c.growers, &c.weights, &c.yields, &c.days, grower
        ))
    }

    #[inline]
    pub fn previous_grower(&self, c: &View, grower: u32) -> Stepped {
        call!(self => meltusk_previous_grower(
            &c.directory, &c.growers, &c.weights, &c.yields, &c.days, grower
        ))
    }

    #[inline]
    pub fn partition(&self, c: &View, grower: u32) -> PartitionSlice {
        call!(self => meltusk_partition(&c.directory, &c.growers, grower))
    }

    pub fn record_find(&self, histograms: &mut [u32], set: &UnlaidSet, grower: u32) -> u32 {
        call!(self => meltusk_record_find(
            mut histograms, set.b, set.m as u32, &set.growers, &set.weights, &set.yields, &set.days, grower
        ))
    }

    pub fn record_range(&self, histograms: &mut [u32], set: &UnlaidSet, lo: u32, hi: u32) -> u32 {
        call!(self => meltusk_record_range(
            mut histograms, set.b, set.m as u32, &set.growers, &set.weights, &set.yields, &set.days, lo, hi
        ))
    }

    pub fn record_range_days(
        &self,
        histograms: &mut [u32],
        set: &UnlaidSet,
        (lo, hi): (u32, u32),
        span: Span,
    ) -> u32 {
        call!(self => meltusk_record_range_days(
            mut histograms, set.b, set.m as u32, &set.growers, &set.weights, &set.yields, &set.days,
            lo, hi, span.first, span.last
        ))
    }

    pub fn record_insert(&self, histograms: &mut [u32], set: &UnlaidSet, d: Delivery) -> u32 {
        call!(self => meltusk_record_insert(
            mut histograms, set.b, set.m as u32, &set.growers, &set.weights, &set.yields, &set.days,
            d.grower, d.weight, d.oil_yield, d.day
        ))
    }

    pub fn record_delete(&self, histograms: &mut [u32], set: &UnlaidSet, d: Delivery) -> u32 {
        call!(self => meltusk_record_delete(
            mut histograms, set.b, set.m as u32, &set.growers, &set.weights, &set.yields, &set.days,
            d.grower, d.weight, d.oil_yield, d.day
        ))
    }

    pub fn record_move(
        &self,
        histograms: &mut [u32],
        set: &UnlaidSet,
        d: Delivery,
        new_grower: u32,
    ) -> u32 {
        call!(self => meltusk_record_move(
            mut histograms, set.b, set.m as u32, &set.growers, &set.weights, &set.yields, &set.days,
            d.grower, d.weight, d.oil_yield, d.day, new_grower
        ))
    }

    pub fn cost(
        &self,
        card: &PriceCard,
        set: &UnlaidSet,
        ends: &[u32],
        histograms: &[u32],
    ) -> Costed {
        call!(self => meltusk_cost(
            card.rr, card.sr, card.rw, set.b, set.m as u32,
            &set.growers, &set.weights, &set.yields, &set.days, &ends, &histograms
        ))
    }

    pub fn plan(
        &self,
        card: &PriceCard,
        limits: &Limits,
        set: &UnlaidSet,
        histograms: &[u32],
        ends: &mut [u32],
    ) -> Planned {
        call!(self => meltusk_plan(
            card.rr, card.sr, card.rw, limits.read, limits.insert, set.b, set.m as u32,
            &set.growers, &set.weights, &set.yields, &set.days, &histograms, mut ends
        ))
    }

    pub fn list_layouts(
        &self,
        card: &PriceCard,
        limits: &Limits,
        set: &UnlaidSet,
        histograms: &[u32],
        text: &mut [u8],
    ) -> Listed {
        call!(self => meltusk_list_layouts(
            card.rr, card.sr, card.rw, limits.read, limits.insert, set.b, set.m as u32,
            &set.growers, &set.weights, &set.yields, &set.days, &histograms, mut text
        ))
    }

    #[inline]
    pub fn write_snapshot(&self, c: &View, text: &mut [u8]) -> Written {
        call!(self => meltusk_write_snapshot(
            &c.directory, &c.growers, &c.weights, &c.yields, &c.days, mut text
        ))
    }

    #[inline]
    pub fn write_sheet(
        &self,
        c: &View,
        text: &mut [u8],
        order: &mut [u32],
        work: &mut [u32],
    ) -> Written {
        call!(self => meltusk_write_sheet(
            &c.directory, &c.growers, &c.weights, &c.yields, &c.days, mut text, mut order, mut work
        ))
    }

    #[inline]
    pub fn write_term_sheet(
        &self,
        c: &View,
        day: u32,
        text: &mut [u8],
        order: &mut [u32],
        work: &mut [u32],
    ) -> Written {
        call!(self => meltusk_write_term_sheet(
            &c.directory, &c.growers, &c.weights, &c.yields, &c.days, day,
            mut text, mut order, mut work
        ))
    }

    #[inline]
    pub fn read_snapshot(
        &self,
        text: &[u8],
        growers: &mut [u32],
        weights: &mut [u32],
        yields: &mut [u32],
        days: &mut [u32],
    ) -> Applied {
        call!(self => meltusk_read_snapshot(&text, mut growers, mut weights, mut yields, mut days))
    }

    #[inline]
    pub fn import_csv(
        &self,
        text: &[u8],
        growers: &mut [u32],
        weights: &mut [u32],
        yields: &mut [u32],
        days: &mut [u32],
    ) -> Imported {
        call!(self => meltusk_import_csv(&text, mut growers, mut weights, mut yields, mut days))
    }

    #[inline]
    pub fn export_csv(
        &self,
        used: u32,
        growers: &[u32],
        weights: &[u32],
        yields: &[u32],
        days: &[u32],
        text: &mut [u8],
    ) -> Written {
        call!(self => meltusk_export_csv(used, &growers, &weights, &yields, &days, mut text))
    }
}

/// Adds to the three numbers of a tally.
pub fn tally_add(rr: &mut u64, sr: &mut u64, rw: &mut u64, more: &Counts) -> u32 {
    unsafe { declared::meltusk_tally_add(rr, sr, rw, more.rr, more.sr, more.rw) }
}

/// The day number of a date.
pub fn day_of(year: u32, month: u32, day: u32) -> DayAnswer {
    unsafe { declared::meltusk_day_of(year, month, day) }
}

/// The date of a day number.
pub fn date_of(day: u32) -> DateAnswer {
    unsafe { declared::meltusk_date_of(day) }
}

/// The term that holds a day.
pub fn term_of(day: u32) -> TermAnswer {
    unsafe { declared::meltusk_term_of(day) }
}
