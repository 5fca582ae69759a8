//! Days: the calendar against known dates and another count of days, the rules of
//! days on small columns and sets, and books and files without days.

use crate::groups::{main_set, Outcome};
use crate::growers::any_column;
use crate::model::snapshot_text;
use crate::random;
use crate::require;
use crate::subject::*;
use second::random::Random;
use second::*;

/// Day numbers and their dates: 02's three, the ends of February in leap years
/// and others, and the ends of years.
const KNOWN: [(u32, [u32; 3]); 22] = [
    (0, [2000, 1, 1]),
    (30, [2000, 1, 31]),
    (31, [2000, 2, 1]),
    (58, [2000, 2, 28]),
    (59, [2000, 2, 29]),
    (60, [2000, 3, 1]),
    (365, [2000, 12, 31]),
    (366, [2001, 1, 1]),
    (8_458, [2023, 2, 27]),
    (8_459, [2023, 2, 28]),
    (8_460, [2023, 3, 1]),
    (8_824, [2024, 2, 28]),
    (8_825, [2024, 2, 29]),
    (8_826, [2024, 3, 1]),
    (35_122, [2096, 2, 28]),
    (35_123, [2096, 2, 29]),
    (35_124, [2096, 3, 1]),
    (36_159, [2098, 12, 31]),
    (36_218, [2099, 2, 28]),
    (36_219, [2099, 3, 1]),
    (36_523, [2099, 12, 30]),
    (36_524, [2099, 12, 31]),
];

/// Dates that do not exist or lie outside 2000 to 2099.
const NO_DATES: [[u32; 3]; 26] = [
    [0, 0, 0],
    [1999, 12, 31],
    [2100, 1, 1],
    [2100, 2, 29],
    [u32::MAX, 1, 1],
    [0, 1, 1],
    [24, 2, 29],
    [2000, 0, 1],
    [2000, 13, 1],
    [2000, u32::MAX, 1],
    [2000, 1, 0],
    [2000, 1, 32],
    [2000, 1, u32::MAX],
    [2000, 2, 30],
    [2023, 2, 29],
    [2024, 2, 30],
    [2099, 2, 29],
    [2096, 2, 30],
    [2024, 4, 31],
    [2024, 6, 31],
    [2024, 9, 31],
    [2024, 11, 31],
    [2024, 3, 32],
    [2024, 12, 32],
    [2099, 12, 32],
    [2099, 13, 31],
];

/// The days from 1 January 2000 to a date, by Fliegel and Van Flandern's count of
/// Julian days; not by walking.
fn counted(year: u32, month: u32, day: u32) -> u32 {
    let [y, m, d] = [year, month, day].map(i64::from);
    let a = (m - 14) / 12;
    let julian = 1_461 * (y + 4_800 + a) / 4 + 367 * (m - 2 - 12 * a) / 12
        - 3 * ((y + 4_900 + a) / 100) / 4
        + d
        - 32_075;
    // 1 January 2000 is Julian day 2,451,545.
    (julian - 2_451_545) as u32
}

fn shown(a: &DateAnswer) -> [u32; 4] {
    [a.refusal, a.year, a.month, a.day]
}

pub fn calendar_examples(s: &dyn Subject, _: u64) -> Outcome {
    for (n, [year, month, day]) in KNOWN {
        let (to, from) = (s.day_of(year, month, day), s.date_of(n));
        require!(
            (to.refusal, to.day) == (0, n),
            "{year} {month} {day}: {to:?}"
        );
        require!(shown(&from) == [0, year, month, day], "{n}: {from:?}");
    }
    for [year, month, day] in NO_DATES {
        let a = s.day_of(year, month, day);
        require!((a.refusal, a.day) == (19, 0), "{year} {month} {day}: {a:?}");
    }
    for n in [36_525, 36_526, 1 << 31, u32::MAX] {
        let (date, term) = (s.date_of(n), s.term_of(n));
        require!(shown(&date) == [19, 0, 0, 0], "{n}: {date:?}");
        let zeros = (term.refusal, term.first, term.last) == (19, 0, 0);
        require!(zeros, "{n}: {term:?}");
    }
    for (n, first, last) in [
        (0, 0, 14),
        (14, 0, 14),
        (15, 15, 30),
        (30, 15, 30),
        (31, 31, 45),
        (46, 46, 59),
        (59, 46, 59),
        (60, 60, 74),
        // 16 to 28 February 2023 and 16 to 29 February 2024.
        (8_459, 8_447, 8_459),
        (8_812, 8_812, 8_825),
        (8_825, 8_812, 8_825),
        (36_508, 36_494, 36_508),
        (36_509, 36_509, 36_524),
        (36_524, 36_509, 36_524),
    ] {
        let a = s.term_of(n);
        let right = (a.refusal, a.first, a.last) == (0, first, last);
        require!(right, "the term of {n}: {a:?}");
    }
    Ok(())
}

/// Every date of every year from 1996 to 2104, months 0 to 14 and days 0 to 33:
/// those that exist and lie inside are numbered one after the other, each way,
/// and their terms lie one after the other.
pub fn calendar_century(s: &dyn Subject, _: u64) -> Outcome {
    let lengths = |year: u32| {
        let leap = year % 4 == 0 && year != 2100;
        [
            31,
            28 + u32::from(leap),
            31,
            30,
            31,
            30,
            31,
            31,
            30,
            31,
            30,
            31,
        ]
    };
    let mut next = 0;
    for year in 1996..=2104 {
        for month in 0..=14 {
            for day in 0..=33 {
                let a = s.day_of(year, month, day);
                let inside = (2000..=2099).contains(&year) && (1..=12).contains(&month);
                if !inside || !(1..=lengths(year)[month as usize - 1]).contains(&day) {
                    let zeros = (a.refusal, a.day) == (19, 0);
                    require!(zeros, "{year} {month} {day}: {a:?}");
                    continue;
                }
                let right = (a.refusal, a.day) == (0, next) && next == counted(year, month, day);
                require!(right, "{year} {month} {day}: {a:?}, not {next}");
                let back = s.date_of(next);
                require!(shown(&back) == [0, year, month, day], "{next}: {back:?}");
                let ends = match day {
                    0..=15 => (next + 1 - day, next + 15 - day),
                    _ => (
                        next + 16 - day,
                        next + lengths(year)[month as usize - 1] - day,
                    ),
                };
                let term = s.term_of(next);
                let right = (term.refusal, term.first, term.last) == (0, ends.0, ends.1);
                require!(right, "the term of {next}: {term:?}, not {ends:?}");
                next += 1;
            }
        }
    }
    require!(next == 36_525, "{next} days");
    Ok(())
}

/// Three partitions; growers 10, 10, 10 on three days, then none, then 50 and 60.
pub fn dated_column() -> Column {
    let mut c = Column {
        growers: vec![10, 10, 10, 50, 60, 0, 0],
        weights: vec![1, 10, 100, 1_000, 10_000, 0, 0],
        yields: vec![1; 7],
        days: vec![0, 14, 15, 8_825, 36_524, 0, 0],
        directory: vec![0; DIRECTORY_LEN],
    };
    c.directory[..5].copy_from_slice(&[2, 3, 3, 0, 2]);
    c.directory[FENCES..FENCES + 3].copy_from_slice(&[20, 30, 80]);
    c
}

/// A range over days: both ends counted, nothing if the last is earlier, the same
/// scan whatever the days.
pub fn range_examples(s: &dyn Subject, _: u64) -> Outcome {
    let whole = Counts::new(1, 2, 0);
    for (first, last, records, weight) in [
        (0, 36_524, 5, 11_111),
        (0, 0, 1, 1),
        (0, 14, 2, 11),
        (0, 13, 1, 1),
        (1, 14, 1, 10),
        (14, 15, 2, 110),
        (15, 8_824, 1, 100),
        (8_825, 8_825, 1, 1_000),
        (8_826, 36_523, 0, 0),
        (36_524, 36_524, 1, 10_000),
        (15, 14, 0, 0),
        (36_524, 0, 0, 0),
    ] {
        let mut c = dated_column();
        let a = s.call(&mut c, &Call::RangeDays(0, 90, Span::new(first, last)));
        let expected = Answer {
            refusal: 0,
            totals: Totals::new(records, weight, weight),
            counts: whole,
        };
        require!(a == expected, "{first} to {last}: {a:?}");
        require!(c == dated_column(), "a range changed the column");
    }
    for (lo, hi, first, last, number) in [
        (2, 1, 36_525, 36_525, 7),
        (0, 90, 0, 36_525, 19),
        (0, 90, 36_525, 36_525, 19),
        (0, 90, 36_525, 0, 19),
        (0, 90, u32::MAX, u32::MAX, 19),
    ] {
        let span = Span::new(first, last);
        let a = s.call(&mut dated_column(), &Call::RangeDays(lo, hi, span));
        require!(a == Answer::refused(number), "{span:?}: {a:?}");
    }
    Ok(())
}

/// Calls about a delivery and growers lo to hi: each kind as it is, with days
/// above the limit and, where a delivery is offered, with a bad weight too.
fn each_call((lo, hi): (u32, u32), d: Delivery) -> Vec<Call> {
    let heavy = Delivery {
        weight: 100_001,
        ..d
    };
    let spans = [(0, 36_524), (36_524, 0), (36_525, 0), (0, u32::MAX)];
    let mut calls = vec![Call::Find(d.grower), Call::Range(lo, hi)];
    calls.extend(spans.map(|(first, last)| Call::RangeDays(lo, hi, Span::new(first, last))));
    for d in [d, d.on(36_525), heavy, heavy.on(u32::MAX)] {
        calls.extend([Call::Insert(d), Call::Delete(d), Call::Move(d, hi)]);
    }
    calls
}

/// 8 if a weight that the call is given or meets is bad, else 19 if such a day is.
fn number(call: &Call, meets_heavy: bool, meets_late: bool) -> u32 {
    let (is_heavy, is_late) = match call {
        Call::Insert(d) | Call::Delete(d) | Call::Move(d, _) => {
            (d.weight > 100_000, d.day > 36_524)
        }
        Call::RangeDays(_, _, span) => (false, span.first.max(span.last) > 36_524),
        Call::Find(_) | Call::Range(..) => (false, false),
    };
    match () {
        () if is_heavy || meets_heavy => 8,
        () if is_late || meets_late => 19,
        () => 0,
    }
}

/// Where a bad day and a bad weight are: each in every record and in none.
fn faults(records: usize) -> impl Iterator<Item = [Option<usize>; 2]> {
    let places = move || std::iter::once(None).chain((0..records).map(Some));
    places().flat_map(move |late| places().map(move |heavy| [late, heavy]))
}

fn put(fault: Option<usize>, numbers: &mut [u32], bad: u32) {
    fault.into_iter().for_each(|at| numbers[at] = bad);
}

/// Of what a call is given and of all records that it scans 8, then of all 19. A
/// record that is not scanned is not asked.
pub fn order_examples(s: &dyn Subject, _: u64) -> Outcome {
    let calls = each_call((0, 90), Delivery::new(10, 1, 1));
    for [late, heavy] in faults(5) {
        let mut bad = dated_column();
        put(late, &mut bad.days, 36_525);
        put(heavy, &mut bad.weights, 100_001);
        for call in &calls {
            let scanned = match call {
                Call::Insert(_) => 0..0,
                Call::Find(_) | Call::Delete(_) | Call::Move(..) => 0..3,
                Call::Range(..) | Call::RangeDays(..) => 0..5,
            };
            let meets = |fault: Option<usize>| fault.is_some_and(|at| scanned.contains(&at));
            let number = number(call, meets(heavy), meets(late));
            let mut c = bad.clone();
            let a = s.call(&mut c, call);
            let right = match number {
                0 => a.refusal == 0,
                _ => a == Answer::refused(number) && c == bad,
            };
            require!(right, "{call:?}: {a:?}, not {number}; {bad:?}");
        }
    }
    Ok(())
}

/// The same of a set, of which all records are asked.
pub fn set_examples(s: &dyn Subject, _: u64) -> Outcome {
    let mut good = main_set();
    good.days = vec![0, 14, 15, 8_825, 36_524, 0, 0, 0, u32::MAX];
    let calls = each_call((20, 60), good.records()[2]);
    let (card, limits) = (PriceCard::FACTORY, Limits::new(1_000, 1_000));
    let zeros = vec![0; HISTOGRAM_LEN];
    for [late, heavy] in faults(good.m) {
        let mut set = good.clone();
        put(late, &mut set.days, 36_525);
        put(heavy, &mut set.weights, 100_001);
        for call in &calls {
            let number = number(call, heavy.is_some(), late.is_some());
            let mut h = zeros.clone();
            let refusal = s.record(&set.view(), &mut h, call);
            let right = refusal == number && (h == zeros) == (number != 0);
            require!(right, "{call:?}: {refusal}, not {number}; {set:?}");
        }
        let case = Case {
            card,
            limits,
            set,
            histograms: zeros.clone(),
        };
        let set = case.set.view();
        let refusals = [
            s.cost(&card, &set, &zeros, &[1, 3]).refusal,
            s.plan(&card, &limits, &set, &zeros, &mut [0; 4]).refusal,
            s.list(&case, &mut [0; 1_000]).refusal,
            s.apply(&set, &[1, 3]).refusal,
        ];
        let number = number(&Call::Find(0), heavy.is_some(), late.is_some());
        require!(
            refusals == [number; 4],
            "{refusals:?}, not {number}; {set:?}"
        );
    }
    Ok(())
}

/// Delete and move match the day; a move keeps it; a freed slot has day 0.
pub fn match_examples(s: &dyn Subject, _: u64) -> Outcome {
    let held = Delivery::new(10, 10, 1).on(14);
    for call in [Call::Delete(held.on(13)), Call::Move(held.on(0), 60)] {
        let mut c = dated_column();
        let a = s.call(&mut c, &call);
        require!(a.refusal == 13, "{call:?}: {a:?}");
        require!(a.counts == Counts::new(1, 1, 0), "{call:?}: {a:?}");
        require!(c == dated_column(), "refused, but the column changed");
    }
    let mut c = dated_column();
    let a = s.call(&mut c, &Call::Delete(held));
    require!(a.refusal == 0, "delete: {a:?}");
    require!(c.days == [0, 15, 36_524, 8_825, 0, 0, 0], "{:?}", c.days);
    let mut c = dated_column();
    let a = s.call(&mut c, &Call::Move(held, 60));
    require!(a.refusal == 0, "move: {a:?}");
    require!(c.days == [0, 15, 14, 8_825, 36_524, 0, 0], "{:?}", c.days);
    let mut c = dated_column();
    let a = s.call(&mut c, &Call::Insert(held));
    require!(a.refusal == 0, "insert: {a:?}");
    require!(c.days == [0, 14, 15, 14, 36_524, 8_825, 0], "{:?}", c.days);
    Ok(())
}

/// A range over every day is a range, and the days cut into spans add up to it,
/// on every column.
pub fn range_spans(s: &dyn Subject, cases: u64) -> Outcome {
    let r = &mut Random::new(31);
    for _ in 0..cases {
        let mut c = any_column(r);
        let (x, y) = (random::asked(r, &c), random::asked(r, &c));
        let (lo, hi) = (x.min(y), x.max(y));
        let whole = s.call(&mut c, &Call::Range(lo, hi));
        let all = s.call(&mut c, &Call::RangeDays(lo, hi, Span::new(0, 36_524)));
        require!(all == whole, "{all:?}, not {whole:?}; {c:?}");
        let cut = random::day(r).min(36_523);
        let mut sum = Totals::ZERO;
        for span in [Span::new(0, cut), Span::new(cut + 1, 36_524)] {
            let a = s.call(&mut c, &Call::RangeDays(lo, hi, span));
            let same = (a.refusal, a.counts) == (whole.refusal, whole.counts);
            require!(same, "{span:?}: {a:?}, not {whole:?}; {c:?}");
            sum.records += a.totals.records;
            sum.weight += a.totals.weight;
            sum.oil += a.totals.oil;
        }
        require!(sum == whole.totals, "{sum:?}, not {whole:?}; {c:?}");
    }
    Ok(())
}

/// A book is written only if every day of a record is 0, and is read with day 0;
/// what free slots hold is not asked and stays.
pub fn book_days(s: &dyn Subject, cases: u64) -> Outcome {
    let r = &mut Random::new(34);
    let mut met = [0u32; 20];
    for _ in 0..cases {
        let mut c = any_column(r);
        if r.one_in(2) {
            c = c.undated();
        }
        let text = snapshot_text(&c);
        let bytes = text.len();
        let short = r.one_in(4);
        let records = c.records();
        let number = match () {
            () if !c.is_sound() => 6,
            () if records.iter().any(|d| !d.in_range()) => 8,
            () if records.iter().any(|d| d.day > 0) => 19,
            () if short => 15,
            () => 0,
        };
        met[number as usize] += 1;
        let mut out = vec![b'#'; bytes - usize::from(short)];
        let a = s.snapshot_write(&c, &mut out);
        let right = a.refusal == number && (number == 0) == (a.written == bytes);
        require!(right, "{a:?}, not {number}; {c:?}");
        if number != 0 {
            require!(out.iter().all(|&b| b == b'#'), "refused, but written");
            continue;
        }
        require!(out == text, "another text; {c:?}");
        let slots = c.used().max(1) + 1;
        let mut back = Column {
            growers: vec![7; slots],
            weights: vec![8; slots],
            yields: vec![9; slots],
            days: vec![36_525; slots],
            directory: Vec::new(),
        };
        let read = s.snapshot_read(&text, &mut back);
        back.directory = read.directory.to_vec();
        require!(read.refusal == 0 && back.records() == records, "{back:?}");
        require!(
            back.days[c.used()..].iter().all(|&n| n == 36_525),
            "{back:?}"
        );
    }
    let every = [0, 6, 8, 15, 19].iter().all(|&number| met[number] > 0);
    require!(every || cases < 500, "not every outcome was met: {met:?}");
    Ok(())
}

/// The first slots are exported whatever their days, if these are days, and come
/// back with day 0.
pub fn export_days(s: &dyn Subject, cases: u64) -> Outcome {
    let r = &mut Random::new(35);
    let mut met = [0u32; 20];
    for _ in 0..cases {
        let c = any_column(r);
        let used = r.edge(0, c.used());
        let kept = &c.records()[..used];
        let number = match () {
            () if kept.iter().any(|d| !d.in_range()) => 8,
            () if kept.iter().any(|d| d.day > 36_524) => 19,
            () => 0,
        };
        met[number as usize] += 1;
        let mut text = vec![b'#'; 21 + 25 * used];
        let a = s.csv_export(used, &c, &mut text);
        require!(a.refusal == number, "{a:?}, not {number}; {c:?}");
        if number != 0 {
            continue;
        }
        let mut back = c.clone();
        back.days.fill(36_525);
        let i = s.csv_import(&text[..a.written], &mut back);
        require!(i.refusal == 0 && i.rows == used, "{i:?}; {c:?}");
        for (at, d) in kept.iter().enumerate() {
            require!(back.slot(at) == d.on(0), "slot {at}: {back:?}");
        }
        require!(back.days[used..].iter().all(|&n| n == 36_525), "{back:?}");
    }
    let every = [0, 8, 19].iter().all(|&number| met[number] > 0);
    require!(every || cases < 500, "not every outcome was met: {met:?}");
    Ok(())
}
