//! Sheets of settlement terms: columns whose days spread over years, each of their
//! terms, and all that is tried of whole sheets.

use crate::inputs::{self, Kind};
use crate::lists;
use crate::sheets::{self, column_of, exact_rooms, rooms, stir, term, Room, Sheet, MANY};
use crate::{Run, Test};
use meltusk::{Column, Empty, Library, Seen};
use second::random::Random;
use second::{sheet_size, Span, DAY_LIMIT};
use std::collections::BTreeSet;
use std::fmt::Write;

/// The refusals of the call, 0 for accepted.
const ANSWERS: [(&str, &[u32]); 1] = [("write_term_sheet", &[0, 2, 3, 6, 8, 15, 19])];

const KINDS: [&str; 17] = [
    "term: no record",
    "term: every record",
    "term: some records, not all",
    "term: a record on its first day",
    "term: a record on its last day",
    "term: a record on the day before it",
    "term: a record on the day after it",
    "term: a record in the same term of another year",
    "term: the 1st to the 15th",
    "term: the 16th on",
    "term: February of 29 days",
    "term: the first of all",
    "term: the last of all",
    "term: one grower in it and outside it",
    "term: text and lists exact",
    "term: fewer numbers in order than used slots",
    "term: more than 8,192 growers",
];

/// Notes a column of which the sheet of a day's term was to be written.
pub fn note(seen: &mut Seen, c: &Column, day: u32, room: Room, refusal: u32) {
    if refusal != 0 {
        return;
    }
    let used = c.view().used();
    let need = Sheet { c, day: Some(day) }.need();
    let (span, days) = (term(day), &c.days[..used]);
    let of = |inside: bool| -> BTreeSet<u32> {
        let slots = (0..used).filter(|&i| span.holds(days[i]) == inside);
        slots.map(|i| c.growers[i]).collect()
    };
    let (inside, outside) = (of(true), of(false));
    let date = second::date_of(span.first);
    let is_same = |n: u32| {
        let other = second::date_of(term(n).first);
        (other.month, other.day) == (date.month, date.day) && other.year != date.year
    };
    let there = [
        need.order == 0,
        need.order == used && used > 0,
        0 < need.order && need.order < used,
        days.contains(&span.first),
        days.contains(&span.last),
        span.first > 0 && days.contains(&(span.first - 1)),
        days.contains(&(span.last + 1)),
        need.order > 0 && days.iter().any(|&n| is_same(n)),
        date.day == 1,
        date.day == 16,
        date.month == 2 && span.last - span.first == 13,
        span.first == 0,
        span.last == DAY_LIMIT,
        inside.intersection(&outside).next().is_some(),
        need.order > 0 && (room.text, room.order, room.work) == (need.text, need.order, need.work),
        need.order <= room.order && room.order < used,
        need.text > sheet_size(8_192),
    ];
    for (kind, there) in KINDS.iter().zip(there) {
        seen.kind(there, kind);
    }
}

/// A day of one of the records.
fn held(r: &mut Random, c: &Column) -> Option<u32> {
    Some(c.days[r.below(c.view().used())])
}

fn any_day(r: &mut Random, _: &Column) -> Option<u32> {
    Some(inputs::day(r))
}

fn any_number(r: &mut Random, c: &Column) -> Option<u32> {
    match r.below(8) {
        0 => Some(inputs::day_out(r)),
        _ => any_day(r, c),
    }
}

/// Puts the days of the records among so many from one on.
fn spread(r: &mut Random, c: &mut Column, first: u32, days: usize) {
    let used = c.view().used();
    for day in &mut c.days[..used] {
        *day = first + r.below(days) as u32;
    }
}

/// The totals of a sheet's last line.
fn totals(text: &[u8]) -> Result<Vec<u64>, String> {
    let text = String::from_utf8_lossy(text);
    let numbers = text.lines().last().unwrap_or("").split_ascii_whitespace();
    let parsed: Result<Vec<u64>, _> = numbers.map(str::parse).collect();
    parsed.map_err(|_| format!("no totals: {text:?}"))
}

/// Every term from one day to another, as the library has them one after the
/// other, each from any of its days: each record is on one sheet, and the totals
/// add up to those of the whole sheet.
fn each_term(
    run: &mut Run,
    r: &mut Random,
    library: &Library,
    c: &Column,
    (from, to): (u32, u32),
) -> Result<(), String> {
    let (mut slots, mut sums) = (Vec::new(), vec![0; 3]);
    let mut next = from;
    while next <= to {
        let a = meltusk::term_of(next);
        let day = Some(r.edge(a.first as usize, a.last as usize) as u32);
        let sheet = Sheet { c, day };
        sheets::accepted(run, r, library, sheet, sheet.need())?;
        let (text, order) = sheet.by_slots();
        for (sum, n) in sums.iter_mut().zip(totals(&text)?) {
            *sum += n;
        }
        slots.extend(order);
        next = a.last + 1;
    }
    slots.sort_unstable();
    let whole = totals(&Sheet { c, day: None }.by_slots().0)?;
    let every_slot = slots.iter().copied().eq(0..c.view().used() as u32);
    match every_slot && sums == whole {
        true => Ok(()),
        false => Err(format!("{slots:?}, {sums:?} for {whole:?} of {c:?}")),
    }
}

/// The terms of records and those before and after them, with every kind of room.
fn sound(run: &mut Run) -> Result<(), String> {
    run.cases(150, 800, |run, r| {
        let library = inputs::library(r);
        let mut c = inputs::sound_column(r);
        // Over all dates, about February 2024, or few days.
        match r.below(3) {
            0 => spread(r, &mut c, 0, DAY_LIMIT as usize + 1),
            1 => spread(r, &mut c, 8_790, 60),
            _ => {}
        }
        for _ in 0..r.within(1, 6) {
            let own = match c.view().used() {
                0 => inputs::day(r),
                used => c.days[r.below(used)],
            };
            let near = [own, term(own).first.saturating_sub(1), term(own).last + 1];
            let day = Some(r.pick(&near).min(DAY_LIMIT));
            rooms(run, r, &library, Sheet { c: &c, day })?;
        }
        Ok(())
    })
}

/// Columns whose days spread over four years.
fn years(run: &mut Run) -> Result<(), String> {
    run.cases(151, 100, |run, r| {
        let library = inputs::library(r);
        let mut c = inputs::sound_column(r);
        let any = r.below(35_064) as u32;
        let first = r.pick(&[0, 8_766, 35_064, any, any]);
        spread(r, &mut c, first, 1_461);
        each_term(run, r, &library, &c, (first, first + 1_460))
    })
}

/// All 2,400 terms of columns whose days spread over the century.
fn century(run: &mut Run) -> Result<(), String> {
    run.cases(152, 3, |run, r| {
        let library = inputs::library(r);
        let mut c = inputs::clean_column(r, Kind::Full);
        spread(r, &mut c, 0, DAY_LIMIT as usize + 1);
        each_term(run, r, &library, &c, (0, DAY_LIMIT))
    })
}

/// The sheet as a host makes it of ranges over the term's days.
fn by_ranges(library: &Library, sheet: Sheet) -> String {
    let (mut text, view) = (String::new(), sheet.c.view());
    let span = sheet.day.map_or(Span::ALL, term);
    let held: BTreeSet<u32> = view.growers[..view.used()].iter().copied().collect();
    for grower in held {
        let t = library.range_days(&view, grower, grower, span).totals;
        if t.records > 0 {
            let [records, weight, oil] = [t.records, t.weight, t.oil];
            let _ = writeln!(text, "{grower:>20}{records:>20}{weight:>20}{oil:>20}");
        }
    }
    let t = library.range_days(&view, 0, u32::MAX, span).totals;
    let _ = writeln!(text, "{:>20}{:>20}{:>20}", t.records, t.weight, t.oil);
    text
}

/// Many growers, of whom about half have a record in the term.
fn many_growers(run: &mut Run) -> Result<(), String> {
    run.cases(154, 2, |run, r| {
        let library = inputs::library(r);
        for growers in MANY {
            let (most, k) = (r.pick(&[1, 2, 9]), r.pick(&[1, 2, 64]));
            let mut c = column_of(r, growers, most, k);
            let used = c.view().used();
            let often = r.pick(&[1, 2, 10]);
            for day in &mut c.days[..used] {
                *day = if r.one_in(often) { 8_825 } else { 8_826 };
            }
            stir(r, &mut c);
            let day = Some(8_812);
            exact_rooms(run, r, &library, Sheet { c: &c, day })?;
        }
        Ok(())
    })
}

/// The main column's records are all of day 0: its term has the whole sheet, the
/// next one a line of zeros.
fn main_column(run: &mut Run) -> Result<(), String> {
    let library = Library { empty: Empty::Null };
    let r = &mut Random::new(0);
    let c = lists::main_column();
    for (day, records) in [(0, 8), (14, 8), (15, 0), (DAY_LIMIT, 0)] {
        let day = Some(day);
        let sheet = Sheet { c: &c, day };
        if sheet.need().order != records {
            return Err(format!("day {day:?}: {:?}", sheet.need()));
        }
        rooms(run, r, &library, sheet)?;
    }
    Ok(())
}

fn every_case(run: &mut Run) -> Result<(), String> {
    run.seen.complete(&ANSWERS, &KINDS)
}

pub const TESTS: &[(&str, Test)] = &[
    ("terms: the main column's", main_column),
    ("terms: sound columns", sound),
    ("terms: every term of four years", years),
    ("terms: every term of the century", century),
    ("terms: laid columns after calls, beside ranges", |run| {
        sheets::laid(run, (153, 1_000), any_day, by_ranges)
    }),
    ("terms: more than 8,192 and 16,384 growers", many_growers),
    ("terms: each fault alone, and a day past the last", |run| {
        sheets::alone(run, (155, 60), held)
    }),
    ("terms: two faults", |run| {
        sheets::pairs(run, (156, 5), held)
    }),
    ("terms: 19 beside 8, every record", |run| {
        sheets::every_record(run, (157, 60), held)
    }),
    ("terms: any column and day", |run| {
        sheets::any(run, (158, 15_000), any_number)
    }),
    ("terms: each slice at the edge counts", |run| {
        sheets::edge_counts(run, 159, held)
    }),
    (
        "terms: every answer and every case has occurred",
        every_case,
    ),
];
