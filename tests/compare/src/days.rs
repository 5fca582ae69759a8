//! Days: dates and terms over the whole century, check 19 beside check 8 in every
//! place, deliveries that differ in the day alone, and what a day leaves as it was.

use crate::bad::{self, Bad};
use crate::broken::{self, asked_first};
use crate::calls::{Asked, Outcome, Pair};
use crate::inputs::{self, Kind};
use crate::{Run, Test};
use meltusk::{Call, Column, DateAnswer, DayAnswer, Slots, Step, TermAnswer, Totals};
use second::random::Random;
use second::{Delivery, Span, DAY_LIMIT, WEIGHT_LIMIT, YIELD_LIMIT};

/// The refusals of the conversions, 0 for accepted.
const ANSWERS: [(&str, &[u32]); 3] = [
    ("day_of", &[0, 19]),
    ("date_of", &[0, 19]),
    ("term_of", &[0, 19]),
];

/// Numbers about a range's ends, and far from them.
fn about(lo: u32, hi: u32) -> Vec<u32> {
    let mut all = vec![0, 1, 2, 1 << 16, 1 << 31, u32::MAX - 1, u32::MAX];
    for end in [lo, hi] {
        all.extend(end.saturating_sub(2)..=end + 2);
    }
    all
}

fn date(run: &mut Run, [year, month, day]: [u32; 3]) -> Result<DayAnswer, String> {
    let compiled = meltusk::day_of(year, month, day);
    let second = DayAnswer::from(second::day_of(year, month, day));
    run.seen.answer("day_of", second.refusal);
    match compiled == second {
        true => Ok(second),
        false => Err(format!("{year} {month} {day}: {compiled:?}, {second:?}")),
    }
}

fn day(run: &mut Run, n: u32) -> Result<(DateAnswer, TermAnswer), String> {
    let date = (meltusk::date_of(n), DateAnswer::from(second::date_of(n)));
    let term = (meltusk::term_of(n), TermAnswer::from(second::term_of(n)));
    run.seen.answer("date_of", date.1.refusal);
    run.seen.answer("term_of", term.1.refusal);
    match date.0 == date.1 && term.0 == term.1 {
        true => Ok((date.1, term.1)),
        false => Err(format!("day {n}: {date:?}, {term:?}")),
    }
}

/// Every day there and back, and every date of the years about the century with
/// months and days of the month past their ends, against a calendar that walks from
/// day to day.
fn century(run: &mut Run) -> Result<(), String> {
    for n in (0..=DAY_LIMIT).chain(about(0, DAY_LIMIT)) {
        let (a, term) = day(run, n)?;
        let back = date(run, [a.year, a.month, a.day])?;
        let holds = (term.first..=term.last).contains(&n);
        let good = match n <= DAY_LIMIT {
            true => a.refusal == 0 && (back.refusal, back.day) == (0, n) && holds,
            false => (a.refusal, term.refusal, back.refusal) == (19, 19, 19),
        };
        if !good {
            return Err(format!("day {n}: {a:?}, {term:?}, back {back:?}"));
        }
    }
    let mut days = 0;
    for year in 1_996..=2_103 {
        for month in 0..=13 {
            for day in 0..=32 {
                days += u32::from(date(run, [year, month, day])?.refusal == 0);
            }
        }
    }
    match days == DAY_LIMIT + 1 {
        true => Ok(()),
        false => Err(format!("{days} dates have a day")),
    }
}

/// Numbers around every range, in each place of a date.
fn odd_dates(run: &mut Run) -> Result<(), String> {
    for year in about(2_000, 2_099) {
        for month in about(1, 12) {
            for day in about(28, 31) {
                date(run, [year, month, day])?;
            }
        }
    }
    run.cases(140, 200_000, |run, r| {
        let any = |r: &mut Random, lo: usize, hi: usize| match r.below(8) {
            0 => r.next() as u32,
            _ => r.within(lo, hi) as u32,
        };
        let parts = [any(r, 1_995, 2_105), any(r, 0, 14), any(r, 0, 33)];
        date(run, parts)?;
        let n = any(r, 0, 40_000);
        day(run, n).map(|_| ())
    })
}

/// What is asked about a delivery that a column holds; ranges over all growers.
fn each_call(r: &mut Random, d: Delivery) -> Vec<Asked> {
    vec![
        Call::Find(d.grower).into(),
        Call::Range(0, u32::MAX).into(),
        Call::RangeDays(0, u32::MAX, Span::ALL).into(),
        Call::RangeDays(0, u32::MAX, Span::new(DAY_LIMIT, 0)).into(),
        Call::Delete(d).into(),
        Call::Move(d, r.next() as u32).into(),
        Call::Insert(d).into(),
        Step::Next(d.grower).into(),
        Step::Previous(d.grower).into(),
    ]
}

/// The same, accepted; then with days that are out of range, and with a weight or
/// a yield of the delivery offered. Each with its refusal.
fn each_fault(r: &mut Random, d: Delivery) -> Vec<(Asked, u32)> {
    let accepted = each_call(r, d).into_iter().map(|asked| (asked, 0));
    let mut all: Vec<(Asked, u32)> = accepted.collect();
    let (day, late) = (inputs::day(r), inputs::day_out(r));
    for span in [Span::new(late, day), Span::new(day, late)] {
        all.push((Call::RangeDays(0, u32::MAX, span).into(), 19));
    }
    let mut bad = d;
    match r.one_in(2) {
        true => bad.weight = inputs::weight_out(r),
        false => bad.oil_yield = inputs::oil_yield_out(r),
    }
    let grower = r.next() as u32;
    for (d, number) in [(d.on(late), 19), (bad, 8), (bad.on(late), 8)] {
        let calls = [Call::Insert(d), Call::Delete(d), Call::Move(d, grower)];
        all.extend(calls.map(|call| (call.into(), number)));
    }
    all
}

/// The slots that a call scans.
fn scanned(c: &Column, asked: &Asked) -> std::ops::Range<usize> {
    let slots = |(p, q)| c.view().start(p)..c.view().start(q + 1);
    broken::scanned(asked, c).map_or(0..0, slots)
}

/// Days out of range beside weights and yields out of range, offered, named and in
/// every record: 8 of all that is offered and scanned, then 19.
fn every_place(run: &mut Run) -> Result<(), String> {
    run.cases(141, 60, |run, r| {
        let library = inputs::library(r);
        let clean = bad::column(r);
        let used = clean.view().used();
        let d = clean.view().slot(r.below(used));
        for (asked, number) in each_fault(r, d) {
            let near = scanned(&clean, &asked);
            for bad in Bad::every(r, used) {
                let mut c = clean.clone();
                bad.put(r, c.slices());
                let expected = asked_first(number, bad.refusal(&near));
                let outcome = Pair::new(r, &c).ask(&mut run.seen, &library, asked)?;
                if outcome.refusal() != expected {
                    return Err(format!(
                        "{asked:?}, {bad:?}: {outcome:?}, not {expected}; {c:?}"
                    ));
                }
            }
        }
        Ok(())
    })
}

/// Deliveries that are equal but for the day: delete and move take the one of
/// that day, the lowest of several, and 13 if there is none.
fn another_day(run: &mut Run) -> Result<(), String> {
    run.cases(143, 1_500, |run, r| {
        let library = inputs::library(r);
        let mut c = broken::base(r);
        let view = c.view();
        let at = r.below(view.used());
        let d = view.slot(at);
        let p = view.partition_of(d.grower);
        let slots = view.start(p)..view.start(p + 1);
        // All of its partition are this delivery, on one of three days.
        for i in slots.clone() {
            c.growers[i] = d.grower;
            c.weights[i] = d.weight;
            c.yields[i] = d.oil_yield;
            c.days[i] = r.pick(&[0, 15, DAY_LIMIT]);
        }
        for day in [0, 15, DAY_LIMIT, 14] {
            let is_held = slots.clone().any(|i| c.days[i] == day);
            let grower = inputs::near(r, &c.view(), c.view().used());
            for call in [Call::Delete(d.on(day)), Call::Move(d.on(day), grower)] {
                let outcome = Pair::new(r, &c).ask(&mut run.seen, &library, call)?;
                if (outcome.refusal() == 13) == is_held {
                    return Err(format!("{call:?} of {c:?}: {outcome:?}"));
                }
            }
        }
        Ok(())
    })
}

/// Puts the days of the records into runs of one day each.
fn put_runs(r: &mut Random, c: &mut Column) {
    let (mut at, used) = (0, c.view().used());
    while at < used {
        let past = used.min(at + r.within(1, 200));
        c.days[at..past].fill(inputs::day(r));
        at = past;
    }
}

/// The totals of growers lo to hi on some days, slot by slot.
fn totals(c: &Column, (lo, hi): (u32, u32), span: Span) -> Totals {
    let mut t = second::Totals::ZERO;
    for i in scanned(c, &Call::Range(lo, hi).into()) {
        let d = c.view().slot(i);
        if lo <= d.grower && d.grower <= hi && span.holds(d.day) {
            t.records += 1;
            t.weight += u64::from(d.weight);
            t.oil += u64::from(d.weight) * u64::from(d.oil_yield);
        }
    }
    t.into()
}

/// Ranges over one day, a term, days of two terms, no day, every day and the days
/// cut in two: each has the scan of the range over the growers and the totals of
/// the records on its days. With a day past the last it is refused.
fn spans(run: &mut Run) -> Result<(), String> {
    run.cases(144, 4_000, |run, r| {
        let library = inputs::library(r);
        let kind = r.pick(&[Kind::Sound, Kind::Unsound, Kind::Full, Kind::Large]);
        let mut c = inputs::clean_column(r, kind);
        if r.one_in(2) {
            put_runs(r, &mut c);
        }
        let (view, used) = (c.view(), c.view().used());
        let [x, y] = [0; 2].map(|_| inputs::near(r, &view, used));
        let (lo, hi) = (x.min(y), x.max(y));
        let day = match used {
            0 => inputs::day(r),
            _ => c.days[r.below(used)],
        };
        let (term, cut) = (second::term_of(day), inputs::day(r).min(DAY_LIMIT - 1));
        let mut pair = Pair::new(r, &c);
        let mut ask = |run: &mut Run, call: Call| match pair.ask(&mut run.seen, &library, call)? {
            Outcome::Answer(a) => Ok(a),
            other => Err(format!("{call:?}: {other:?}")),
        };
        let whole = ask(run, Call::Range(lo, hi))?;
        for (first, last) in [
            (day, day),
            (term.first, term.last),
            (term.first.saturating_sub(1), term.last),
            (term.first, DAY_LIMIT.min(term.last + 1)),
            (day.max(1), day.max(1) - 1),
            (DAY_LIMIT, 0),
            (0, cut),
            (cut + 1, DAY_LIMIT),
            (0, DAY_LIMIT),
        ] {
            let span = Span::new(first, last);
            let a = ask(run, Call::RangeDays(lo, hi, span))?;
            let totals = totals(&c, (lo, hi), span);
            let same = (a.refusal, a.counts) == (whole.refusal, whole.counts);
            if !same || a.totals != totals {
                return Err(format!(
                    "{lo} to {hi}, {span:?}: {a:?}, not {totals:?} of {whole:?}; {c:?}"
                ));
            }
        }
        for span in [
            Span::new(inputs::day_out(r), day),
            Span::new(day, inputs::day_out(r)),
            Span::new(inputs::day_out(r), inputs::day_out(r)),
        ] {
            let a = ask(run, Call::RangeDays(lo, hi, span))?;
            if (a.refusal, a.counts.rr, a.totals.records) != (19, 0, 0) {
                return Err(format!("{lo} to {hi}, {span:?}: {a:?} of {c:?}"));
            }
        }
        Ok(())
    })
}

/// Finds, ranges, inserts and steps do not look at the days of records: a column
/// and the same without days answer alike, and keep all but the days alike.
fn undated(run: &mut Run) -> Result<(), String> {
    run.cases(145, 3_000, |run, r| {
        let library = inputs::library(r);
        let dated = inputs::clean_column(r, Kind::Sound);
        let plain = dated.clone().undated();
        for _ in 0..10 {
            let asked = inputs::asked(r, &dated.view(), &[2, 2, 3, 0, 0, 1, 1, 1, 0]);
            let without = match asked {
                Asked::Call(Call::Insert(d)) if d.day <= DAY_LIMIT => Call::Insert(d.on(0)).into(),
                _ => asked,
            };
            let mut one = Pair::new(r, &dated);
            let mut two = Pair::new(r, &plain);
            let a = one.ask(&mut run.seen, &library, asked)?;
            let b = two.ask(&mut run.seen, &library, without)?;
            let (left, right) = (one.column(), two.column());
            let same = a == b
                && left.directory == right.directory
                && left.growers == right.growers
                && left.weights == right.weights
                && left.yields == right.yields;
            if !same {
                return Err(format!("{asked:?}: {a:?}, without days {b:?}; {dated:?}"));
            }
        }
        Ok(())
    })
}

/// The largest weight, yield and day of every record are accepted everywhere.
fn at_limits(run: &mut Run) -> Result<(), String> {
    run.cases(146, 200, |run, r| {
        let library = inputs::library(r);
        let mut c = broken::base(r);
        let used = c.view().used();
        c.weights[..used].fill(WEIGHT_LIMIT);
        c.yields[..used].fill(YIELD_LIMIT);
        c.days[..used].fill(DAY_LIMIT);
        let d = c.view().slot(r.below(used));
        for asked in each_call(r, d) {
            let outcome = Pair::new(r, &c).ask(&mut run.seen, &library, asked)?;
            if outcome.refusal() != 0 {
                return Err(format!("{asked:?}: {outcome:?} of {c:?}"));
            }
        }
        Ok(())
    })
}

fn every_answer(run: &mut Run) -> Result<(), String> {
    run.seen.complete(&ANSWERS, &[])
}

pub const TESTS: &[(&str, Test)] = &[
    ("days: every day and date of the century", century),
    ("days: numbers around every range of a date", odd_dates),
    (
        "days: 19 beside 8, offered and in every record",
        every_place,
    ),
    ("days: equal but for the day", another_day),
    (
        "days: ranges over one day, terms, no day, past the last",
        spans,
    ),
    ("days: a column and the same without days", undated),
    ("days: all at their limits", at_limits),
    ("days: every answer has occurred", every_answer),
];
