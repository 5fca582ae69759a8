//! The declarations of include/meltusk.h.

use crate::answers::{
    Answer, Applied, Costed, DateAnswer, DayAnswer, Imported, Listed, PartitionSlice, Planned,
    Stepped, TermAnswer, Written,
};

/// Declares C calls. A parameter `&name: T` is a slice that the call reads and
/// `mut name: T` one that it writes, each a pointer and a count; every other
/// parameter is itself.
macro_rules! declare {
    ($($name:ident($($parameters:tt)*) -> $answer:ty;)*) => {
        $(declare!(@ $name [] ($($parameters)*) $answer);)*
    };
    (@ $name:ident [$($done:tt)*] () $answer:ty) => {
        extern "C" {
            pub fn $name($($done)*) -> $answer;
        }
    };
    (@ $name:ident [$($done:tt)*] (&$slice:ident: $t:ty $(, $($rest:tt)*)?) $answer:ty) => {
        declare!(@ $name [$($done)* $slice: *const $t, _: usize,] ($($($rest)*)?) $answer);
    };
    (@ $name:ident [$($done:tt)*] (mut $slice:ident: $t:ty $(, $($rest:tt)*)?) $answer:ty) => {
        declare!(@ $name [$($done)* $slice: *mut $t, _: usize,] ($($($rest)*)?) $answer);
    };
    (@ $name:ident [$($done:tt)*] ($number:ident: $t:ty $(, $($rest:tt)*)?) $answer:ty) => {
        declare!(@ $name [$($done)* $number: $t,] ($($($rest)*)?) $answer);
    };
}

declare! {
    meltusk_apply_layout(
        block: u32, used: u32, &growers: u32, &weights: u32, &yields: u32, &days: u32, &ends: u32
    ) -> Applied;
    meltusk_find(
        &directory: u32, &growers: u32, &weights: u32, &yields: u32, &days: u32, grower: u32
    ) -> Answer;
    meltusk_range(
        &directory: u32, &growers: u32, &weights: u32, &yields: u32, &days: u32, lo: u32, hi: u32
    ) -> Answer;
    meltusk_range_days(
        &directory: u32, &growers: u32, &weights: u32, &yields: u32, &days: u32, lo: u32, hi: u32,
        first: u32, last: u32
    ) -> Answer;
    meltusk_insert(
        mut directory: u32, mut growers: u32, mut weights: u32, mut yields: u32, mut days: u32,
        grower: u32, weight: u32, oil_yield: u32, day: u32
    ) -> Answer;
    meltusk_delete(
        mut directory: u32, mut growers: u32, mut weights: u32, mut yields: u32, mut days: u32,
        grower: u32, weight: u32, oil_yield: u32, day: u32
    ) -> Answer;
    meltusk_move(
        mut directory: u32, mut growers: u32, mut weights: u32, mut yields: u32, mut days: u32,
        grower: u32, weight: u32, oil_yield: u32, day: u32, new_grower: u32
    ) -> Answer;
    meltusk_next_grower(
        &directory: u32, &growers: u32, &weights: u32, &yields: u32, &days: u32, grower: u32
    ) -> Stepped;
    meltusk_previous_grower(
        &directory: u32, &growers: u32, &weights: u32, &yields: u32, &days: u32, grower: u32
    ) -> Stepped;
    meltusk_partition(&directory: u32, &growers: u32, grower: u32) -> PartitionSlice;
    meltusk_record_find(
        mut histograms: u32, block: u32, used: u32, &growers: u32, &weights: u32, &yields: u32,
        &days: u32, grower: u32
    ) -> u32;
    meltusk_record_range(
        mut histograms: u32, block: u32, used: u32, &growers: u32, &weights: u32, &yields: u32,
        &days: u32, lo: u32, hi: u32
    ) -> u32;
    meltusk_record_range_days(
        mut histograms: u32, block: u32, used: u32, &growers: u32, &weights: u32, &yields: u32,
        &days: u32, lo: u32, hi: u32, first: u32, last: u32
    ) -> u32;
    meltusk_record_insert(
        mut histograms: u32, block: u32, used: u32, &growers: u32, &weights: u32, &yields: u32,
        &days: u32, grower: u32, weight: u32, oil_yield: u32, day: u32
    ) -> u32;
    meltusk_record_delete(
        mut histograms: u32, block: u32, used: u32, &growers: u32, &weights: u32, &yields: u32,
        &days: u32, grower: u32, weight: u32, oil_yield: u32, day: u32
    ) -> u32;
    meltusk_record_move(
        mut histograms: u32, block: u32, used: u32, &growers: u32, &weights: u32, &yields: u32,
        &days: u32, grower: u32, weight: u32, oil_yield: u32, day: u32, new_grower: u32
    ) -> u32;
    meltusk_cost(
        rr: u32, sr: u32, rw: u32, block: u32, used: u32, &growers: u32, &weights: u32,
        &yields: u32, &days: u32, &ends: u32, &histograms: u32
    ) -> Costed;
    meltusk_plan(
        rr: u32, sr: u32, rw: u32, read: u32, insert: u32, block: u32, used: u32, &growers: u32,
        &weights: u32, &yields: u32, &days: u32, &histograms: u32, mut ends: u32
    ) -> Planned;
    meltusk_list_layouts(
        rr: u32, sr: u32, rw: u32, read: u32, insert: u32, block: u32, used: u32, &growers: u32,
        &weights: u32, &yields: u32, &days: u32, &histograms: u32, mut text: u8
    ) -> Listed;
    meltusk_tally_add(
        rr: *mut u64, sr: *mut u64, rw: *mut u64, more_rr: u64, more_sr: u64, more_rw: u64
    ) -> u32;
    meltusk_write_snapshot(
        &directory: u32, &growers: u32, &weights: u32, &yields: u32, &days: u32, mut text: u8
    ) -> Written;
    meltusk_write_sheet(
        &directory: u32, &growers: u32, &weights: u32, &yields: u32, &days: u32, mut text: u8,
        mut order: u32, mut work: u32
    ) -> Written;
    meltusk_write_term_sheet(
        &directory: u32, &growers: u32, &weights: u32, &yields: u32, &days: u32, day: u32,
        mut text: u8, mut order: u32, mut work: u32
    ) -> Written;
    meltusk_read_snapshot(
        &text: u8, mut growers: u32, mut weights: u32, mut yields: u32, mut days: u32
    ) -> Applied;
    meltusk_import_csv(
        &text: u8, mut growers: u32, mut weights: u32, mut yields: u32, mut days: u32
    ) -> Imported;
    meltusk_export_csv(
        used: u32, &growers: u32, &weights: u32, &yields: u32, &days: u32, mut text: u8
    ) -> Written;
    meltusk_day_of(year: u32, month: u32, day: u32) -> DayAnswer;
    meltusk_date_of(day: u32) -> DateAnswer;
    meltusk_term_of(day: u32) -> TermAnswer;
}
