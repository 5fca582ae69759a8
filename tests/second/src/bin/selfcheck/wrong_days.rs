//! Deliberately wrong variants of the rules of days, terms and dates.

use crate::subject::*;
use second::*;

/// The other three columns move with a record, its day stays behind.
pub fn day_behind(c: &mut Column, call: &Call) -> Answer {
    let days = c.days.clone();
    let a = library_call(c, call);
    if let (Call::Insert(_) | Call::Delete(_) | Call::Move(..), 0) = (call, a.refusal) {
        c.days = days;
    }
    a
}

/// A freed slot keeps its day.
pub fn freed_day(c: &mut Column, call: &Call) -> Answer {
    let last = c.used().saturating_sub(1);
    let day = c.days[last];
    let a = library_call(c, call);
    if let (Call::Delete(_), 0) = (call, a.refusal) {
        c.days[last] = day;
    }
    a
}

/// Delete and move take an equal delivery of any day.
pub fn any_day(c: &mut Column, call: &Call) -> Answer {
    let a = library_call(c, call);
    let (Call::Delete(d) | Call::Move(d, _), 13) = (*call, a.refusal) else {
        return a;
    };
    let p = c.partition_of(d.grower);
    let start: usize = c.lengths()[..p].iter().sum();
    let mut own = (start..start + c.lengths()[p]).map(|s| c.slot(s));
    match (own.find(|held| held.on(d.day) == d), call) {
        (Some(held), Call::Delete(_)) => library_call(c, &Call::Delete(held)),
        (Some(held), Call::Move(_, g)) => library_call(c, &Call::Move(held, *g)),
        _ => a,
    }
}

/// A moved record gets day 0.
pub fn moved_undated(c: &mut Column, call: &Call) -> Answer {
    let before = c.clone();
    let a = library_call(c, call);
    if let (Call::Move(d, g), 0) = (*call, a.refusal) {
        let stored = Delivery { grower: g, ..d };
        let at = (0..c.used()).find(|&s| c.slot(s) == stored && c.slot(s) != before.slot(s));
        if let Some(s) = at {
            c.days[s] = 0;
        }
    }
    a
}

/// A range over days as one over other days.
fn respanned(c: &mut Column, call: &Call, other: fn(Span) -> Span) -> Answer {
    match *call {
        Call::RangeDays(lo, hi, span) if span.in_range() => {
            library_call(c, &Call::RangeDays(lo, hi, other(span)))
        }
        _ => library_call(c, call),
    }
}

/// The last day is not counted.
pub fn last_day_out(c: &mut Column, call: &Call) -> Answer {
    respanned(c, call, |span| match span.last {
        0 => Span::new(1, 0),
        last => Span::new(span.first, last - 1),
    })
}

/// The first day is not counted.
pub fn first_day_out(c: &mut Column, call: &Call) -> Answer {
    respanned(c, call, |span| match span.first {
        DAY_LIMIT => Span::new(1, 0),
        first => Span::new(first + 1, span.last),
    })
}

/// The days are not looked at.
pub fn days_ignored(c: &mut Column, call: &Call) -> Answer {
    respanned(c, call, |_| Span::ALL)
}

/// The range ends with the term of its first day.
pub fn one_term_only(c: &mut Column, call: &Call) -> Answer {
    respanned(c, call, |span| {
        Span::new(span.first, span.last.min(term_of(span.first).last))
    })
}

/// A last day that is earlier is taken as the first.
pub fn days_exchanged(c: &mut Column, call: &Call) -> Answer {
    respanned(c, call, |span| {
        Span::new(span.first.min(span.last), span.first.max(span.last))
    })
}

/// A last day that is earlier is refused by 7.
pub fn earlier_refused(c: &mut Column, call: &Call) -> Answer {
    let a = library_call(c, call);
    match *call {
        Call::RangeDays(_, _, span) if span.last < span.first && a.refusal == 0 => {
            Answer::refused(7)
        }
        _ => a,
    }
}

/// A range over no day scans nothing.
pub fn earlier_unscanned(c: &mut Column, call: &Call) -> Answer {
    let mut a = library_call(c, call);
    match *call {
        Call::RangeDays(_, _, span) if span.last < span.first => a.counts = Counts::ZERO,
        _ => {}
    }
    a
}

/// Days above the limit match nothing.
pub fn late_span_matches_nothing(c: &mut Column, call: &Call) -> Answer {
    match *call {
        Call::RangeDays(lo, hi, span) if !span.in_range() => {
            library_call(c, &Call::RangeDays(lo, hi, Span::new(1, 0)))
        }
        _ => library_call(c, call),
    }
}

/// The slots that a call scans, if it gets as far.
fn scanned(c: &Column, call: &Call) -> std::ops::Range<usize> {
    let (lo, hi) = match *call {
        Call::Find(g) => (g, g),
        Call::Range(lo, hi) | Call::RangeDays(lo, hi, _) if lo <= hi => (lo, hi),
        Call::Delete(d) | Call::Move(d, _) => (d.grower, d.grower),
        _ => return 0..0,
    };
    let lengths = c.lengths();
    let start = |p: usize| lengths[..p].iter().sum();
    start(c.partition_of(lo))..start(c.partition_of(hi) + 1)
}

/// 8 and 19 are asked record by record.
pub fn record_by_record(c: &mut Column, call: &Call) -> Answer {
    let a = library_call(c, call);
    if a.refusal != 8 {
        return a;
    }
    if let Call::Delete(d) | Call::Move(d, _) = call {
        if !d.in_range() {
            return a;
        }
    }
    let bad = |d: &Delivery| !d.in_range() || !d.day_in_range();
    match scanned(c, call).map(|s| c.slot(s)).find(bad) {
        Some(d) if d.in_range() => Answer::refused(19),
        _ => a,
    }
}

/// 19 goes ahead of 8.
pub fn days_first(c: &mut Column, call: &Call) -> Answer {
    let a = library_call(c, call);
    let late = scanned(c, call).any(|s| !c.slot(s).day_in_range());
    match (a.refusal, late) {
        (8, true) => Answer::refused(19),
        _ => a,
    }
}

/// The days of records are not asked by some calls.
pub fn records_not_asked(c: &mut Column, call: &Call, by: fn(&Call) -> bool) -> Answer {
    if !by(call) {
        return library_call(c, call);
    }
    let (days, used) = (c.days.clone(), c.used());
    let early = |day: &mut u32| *day = (*day).min(DAY_LIMIT);
    c.days[..used].iter_mut().for_each(early);
    let a = library_call(c, call);
    if a.refusal != 0 || !matches!(call, Call::Delete(_) | Call::Move(..)) {
        c.days = days;
    }
    a
}

fn early(d: Delivery) -> Delivery {
    d.on(d.day.min(DAY_LIMIT))
}

/// The offered day is not asked by an insert.
pub fn inserted_not_asked(c: &mut Column, call: &Call) -> Answer {
    match *call {
        Call::Insert(d) => library_call(c, &Call::Insert(early(d))),
        _ => library_call(c, call),
    }
}

/// The offered day is not asked by a delete.
pub fn deleted_not_asked(c: &mut Column, call: &Call) -> Answer {
    match *call {
        Call::Delete(d) => library_call(c, &Call::Delete(early(d))),
        _ => library_call(c, call),
    }
}

/// The offered day is not asked by a move.
pub fn moved_not_asked(c: &mut Column, call: &Call) -> Answer {
    match *call {
        Call::Move(d, g) => library_call(c, &Call::Move(early(d), g)),
        _ => library_call(c, call),
    }
}

/// Stepping does not ask for days.
pub fn steps_not_asked(c: &Column, step: &Step) -> GrowerAnswer {
    library_step(&c.clone().undated(), step)
}

/// A delivery of the set on another day is entered as if it were the one.
pub fn recorded_any_day(set: &UnlaidSet, h: &mut [u32], call: &Call) -> u32 {
    let held = |d: Delivery| {
        let of = |s: usize| Delivery::new(set.growers[s], set.weights[s], set.yields[s]);
        let own = (0..set.m).find(|&s| of(s).on(d.day) == d && d.day_in_range());
        own.map_or(d, |s| d.on(set.days[s]))
    };
    match *call {
        Call::Delete(d) => library_record(set, h, &Call::Delete(held(d))),
        Call::Move(d, g) => library_record(set, h, &Call::Move(held(d), g)),
        _ => library_record(set, h, call),
    }
}

/// A range over no day is not entered.
pub fn earlier_not_entered(set: &UnlaidSet, h: &mut [u32], call: &Call) -> u32 {
    match *call {
        Call::RangeDays(_, _, span) if span.last < span.first => {
            library_record(set, &mut h.to_vec(), call)
        }
        _ => library_record(set, h, call),
    }
}

/// The recorder does not ask for the days named.
pub fn recorded_span_not_asked(set: &UnlaidSet, h: &mut [u32], call: &Call) -> u32 {
    match *call {
        Call::RangeDays(lo, hi, _) => library_record(set, h, &Call::Range(lo, hi)),
        _ => library_record(set, h, call),
    }
}

/// The recorder does not ask for the day of an insert.
pub fn recorded_insert_not_asked(set: &UnlaidSet, h: &mut [u32], call: &Call) -> u32 {
    match *call {
        Call::Insert(d) => library_record(set, h, &Call::Insert(early(d))),
        _ => library_record(set, h, call),
    }
}

/// The recorder does not ask for the day of a delete or a move.
pub fn recorded_removal_not_asked(set: &UnlaidSet, h: &mut [u32], call: &Call) -> u32 {
    match *call {
        Call::Delete(d) => library_record(set, h, &Call::Delete(early(d))),
        Call::Move(d, g) => library_record(set, h, &Call::Move(early(d), g)),
        _ => library_record(set, h, call),
    }
}

/// Asks with the days of a set that are above the limit at it.
fn with_early<A>(set: &UnlaidSet, ask: impl FnOnce(&UnlaidSet) -> A) -> A {
    let days: Vec<u32> = set.days.iter().map(|&day| day.min(DAY_LIMIT)).collect();
    ask(&UnlaidSet {
        days: &days,
        ..*set
    })
}

/// The recorder does not ask for the days of the set.
pub fn recorded_set_not_asked(set: &UnlaidSet, h: &mut [u32], call: &Call) -> u32 {
    with_early(set, |set| library_record(set, h, call))
}

/// The recorder asks for the days of the set ahead of weights and yields.
pub fn recorded_days_first(set: &UnlaidSet, h: &mut [u32], call: &Call) -> u32 {
    let late = set.days.iter().take(set.m).any(|&day| day > DAY_LIMIT);
    match library_record(set, &mut h.to_vec(), call) {
        8 if late => 19,
        _ => library_record(set, h, call),
    }
}

/// The cost of a layout does not ask for days.
pub fn cost_not_asked(card: &PriceCard, set: &UnlaidSet, h: &[u32], ends: &[u32]) -> CostAnswer {
    with_early(set, |set| cost(card, set, h, ends))
}

/// The planner does not ask for days.
pub fn plan_not_asked(
    card: &PriceCard,
    limits: &Limits,
    set: &UnlaidSet,
    h: &[u32],
    out: &mut [u32],
) -> PlanAnswer {
    with_early(set, |set| plan_by_table(card, limits, set, h, out))
}

/// The listing does not ask for days.
pub fn list_not_asked(case: &Case, out: &mut [u8]) -> ListAnswer {
    let mut early = case.clone();
    early.set.days.fill(0);
    library_list(&early, out)
}

/// Applying a layout does not ask for days.
pub fn apply_not_asked(set: &UnlaidSet, ends: &[u32]) -> DirectoryAnswer {
    with_early(set, |set| apply_layout(set, ends))
}

/// A book is written whatever the days.
pub fn written_with_days(c: &Column, out: &mut [u8]) -> TextAnswer {
    Library.snapshot_write(&c.clone().undated(), out)
}

/// A book is refused only for a day above the limit.
pub fn written_with_good_days(c: &Column, out: &mut [u8]) -> TextAnswer {
    match c.records().iter().all(|d| d.day <= DAY_LIMIT) {
        true => Library.snapshot_write(&c.clone().undated(), out),
        false => Library.snapshot_write(c, out),
    }
}

/// Reading leaves the days that are there.
pub fn read_days_left(text: &[u8], c: &mut Column) -> DirectoryAnswer {
    let days = c.days.clone();
    let a = Library.snapshot_read(text, c);
    c.days = days;
    a
}

/// Reading clears every day.
pub fn read_days_cleared(text: &[u8], c: &mut Column) -> DirectoryAnswer {
    let a = Library.snapshot_read(text, c);
    if a.refusal == 0 {
        c.days.fill(0);
    }
    a
}

/// An import leaves the days that are there.
pub fn import_days_left(text: &[u8], c: &mut Column) -> ImportAnswer {
    let days = c.days.clone();
    let a = Library.csv_import(text, c);
    c.days = days;
    a
}

/// An export does not ask for days.
pub fn export_not_asked(used: usize, c: &Column, out: &mut [u8]) -> TextAnswer {
    let mut undated = c.clone();
    undated.days.fill(0);
    Library.csv_export(used, &undated, out)
}

/// An export is refused for a day, as a book is.
pub fn export_without_days(used: usize, c: &Column, out: &mut [u8]) -> TextAnswer {
    let dated = c.days.iter().take(used).any(|&day| day > 0);
    let mut scratch = out.to_vec();
    match Library.csv_export(used, c, &mut scratch) {
        a if a.refusal == 0 && dated => TextAnswer {
            refusal: 19,
            written: 0,
        },
        _ => Library.csv_export(used, c, out),
    }
}

/// The sheet does not ask for days.
pub fn sheet_not_asked(c: &Column, room: &mut Room) -> TextAnswer {
    library_sheet(&c.clone().undated(), room)
}

/// The sheet of a term is the column's.
pub fn term_of_all(c: &Column, day: u32, room: &mut Room) -> TextAnswer {
    match term_of(day).refusal {
        0 => library_sheet(c, room),
        _ => library_term_sheet(c, day, room),
    }
}

/// Only the term's records are asked.
pub fn term_asked_alone(c: &Column, day: u32, room: &mut Room) -> TextAnswer {
    let term = term_of(day);
    let mut good = c.clone();
    for s in 0..c.used() {
        if !(term.first..=term.last).contains(&c.days[s]) {
            good.weights[s] = 0;
            good.yields[s] = 0;
            good.days[s] = if term.first > 0 { 0 } else { DAY_LIMIT };
        }
    }
    library_term_sheet(&good, day, room)
}

/// The sheet of a term with some of the records, by their days and the term.
fn of_records(
    c: &Column,
    day: u32,
    room: &mut Room,
    chosen: impl Fn(u32, &TermAnswer) -> bool,
) -> TextAnswer {
    let term = term_of(day);
    let outside = if term.first > 0 { 0 } else { DAY_LIMIT };
    let mut other = c.clone();
    for held in other.days[..c.used()].iter_mut() {
        if *held <= DAY_LIMIT && term.refusal == 0 {
            *held = if chosen(*held, &term) { day } else { outside };
        }
    }
    library_term_sheet(&other, day, room)
}

/// The sheet of a term lacks its first day.
pub fn term_without_first(c: &Column, day: u32, room: &mut Room) -> TextAnswer {
    of_records(c, day, room, |n, term| term.first < n && n <= term.last)
}

/// The sheet of a term lacks its last day.
pub fn term_without_last(c: &Column, day: u32, room: &mut Room) -> TextAnswer {
    of_records(c, day, room, |n, term| term.first <= n && n < term.last)
}

/// The sheet of a term has the same term of every year.
pub fn term_of_every_year(c: &Column, day: u32, room: &mut Room) -> TextAnswer {
    of_records(c, day, room, |n, term| {
        let [own, other] = [term.first, n].map(date_of);
        (own.month, own.day > 15) == (other.month, other.day > 15)
    })
}

/// The sheet of a term has the whole month.
pub fn term_of_month(c: &Column, day: u32, room: &mut Room) -> TextAnswer {
    of_records(c, day, room, |n, term| {
        let [own, other] = [term.first, n].map(date_of);
        (own.year, own.month) == (other.year, other.month)
    })
}

/// A day above the limit has an empty sheet.
pub fn term_of_no_day(c: &Column, day: u32, room: &mut Room) -> TextAnswer {
    match day > DAY_LIMIT {
        true => library_term_sheet(&in_no_term(c), 0, room),
        false => library_term_sheet(c, day, room),
    }
}

fn in_no_term(c: &Column) -> Column {
    let mut other = c.clone();
    let used = other.used();
    let late = |day: &mut u32| *day = (*day).max(DAY_LIMIT);
    other.days[..used].iter_mut().for_each(late);
    other
}

/// 15 asks for room for every record.
pub fn term_room_of_all(c: &Column, day: u32, room: &mut Room) -> TextAnswer {
    let before = room.clone();
    let a = library_term_sheet(c, day, room);
    if a.refusal == 0 && room.order.len().min(room.work.len()) < c.used() {
        *room = before;
        return TextAnswer {
            refusal: 15,
            written: 0,
        };
    }
    a
}

/// 2000 is no leap year.
pub fn century_not_leap(year: u32, month: u32, day: u32) -> DayAnswer {
    let right = day_of(year, month, day);
    match (right.refusal, right.day) {
        (0, 59) => DayAnswer {
            refusal: 19,
            day: 0,
        },
        (0, n) if n > 59 => DayAnswer {
            refusal: 0,
            day: n - 1,
        },
        _ => right,
    }
}

/// Every February has 29 days.
pub fn february_of_29(year: u32, month: u32, day: u32) -> DayAnswer {
    match (month, day) {
        (2, 29) if day_of(year, 2, 28).refusal == 0 => DayAnswer {
            refusal: 0,
            day: day_of(year, 2, 28).day + 1,
        },
        _ => day_of(year, month, day),
    }
}

/// 2100 is counted too.
pub fn year_2100(year: u32, month: u32, day: u32) -> DayAnswer {
    match (year, month) {
        (2100, 1) if (1..=31).contains(&day) => DayAnswer {
            refusal: 0,
            day: DAY_LIMIT + day,
        },
        _ => day_of(year, month, day),
    }
}

/// A refused date has a day all the same.
pub fn refused_with_day(year: u32, month: u32, day: u32) -> DayAnswer {
    let mut a = day_of(year, month, day);
    if a.refusal != 0 {
        a.day = day;
    }
    a
}

/// A refused day has a date all the same.
pub fn refused_with_date(day: u32) -> DateAnswer {
    let mut a = date_of(day);
    if a.refusal != 0 {
        (a.year, a.month, a.day) = (2100, 1, 1);
    }
    a
}

/// A refused day has a term all the same.
pub fn refused_with_term(day: u32) -> TermAnswer {
    let mut a = term_of(day);
    if a.refusal != 0 {
        (a.first, a.last) = (DAY_LIMIT + 1, DAY_LIMIT + 15);
    }
    a
}

/// Days of the month are counted from 0.
pub fn date_from_zero(day: u32) -> DateAnswer {
    let mut a = date_of(day);
    if a.refusal == 0 {
        a.day -= 1;
    }
    a
}

/// The last day is refused.
pub fn last_day_refused(day: u32) -> DateAnswer {
    date_of(if day == DAY_LIMIT { day + 1 } else { day })
}

/// The 16th is in the first term.
pub fn term_to_16(day: u32) -> TermAnswer {
    let mut a = term_of(day);
    let date = date_of(day);
    if a.refusal == 0 {
        match date.day {
            1..=15 => a.last += 1,
            16 => a = term_to_16(day - 1),
            _ => a.first += 1,
        }
    }
    a
}

/// The second term has 15 days.
pub fn term_of_15(day: u32) -> TermAnswer {
    let mut a = term_of(day);
    if a.refusal == 0 {
        a.last = a.first + 14;
    }
    a
}
