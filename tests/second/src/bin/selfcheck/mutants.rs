//! Deliberately wrong variants. Each must be detected by the comparison that
//! is named for it; otherwise that comparison proves nothing.

use crate::csv;
use crate::days;
use crate::groups::{self, Outcome};
use crate::growers;
use crate::increases;
use crate::model::text_in;
use crate::sheets;
use crate::subject::*;
use crate::terms;
use crate::wrong_days::*;
use crate::wrong_listings::{self, List};
use second::planner::layout_of_bits;
use second::recorder::*;
use second::*;

type Group = fn(&dyn Subject, u64) -> Outcome;

/// Number of random cases that must suffice.
const CASES: u64 = 2_000;

/// A subject in which some calls are replaced.
#[derive(Default)]
struct Mutant {
    call: Option<fn(&mut Column, &Call) -> Answer>,
    step: Option<fn(&Column, &Step) -> GrowerAnswer>,
    record: Option<fn(&UnlaidSet, &mut [u32], &Call) -> u32>,
    cost: Option<fn(&PriceCard, &UnlaidSet, &[u32], &[u32]) -> CostAnswer>,
    plan: Option<fn(&PriceCard, &Limits, &UnlaidSet, &[u32], &mut [u32]) -> PlanAnswer>,
    list: Option<List>,
    apply: Option<fn(&UnlaidSet, &[u32]) -> DirectoryAnswer>,
    read: Option<fn(&[u8], &mut Column) -> DirectoryAnswer>,
    write: Option<fn(&Column, &mut [u8]) -> TextAnswer>,
    import: Option<fn(&[u8], &mut Column) -> ImportAnswer>,
    export: Option<fn(usize, &Column, &mut [u8]) -> TextAnswer>,
    tally: Option<fn(&mut Tally, &Counts) -> u32>,
    layplan: Option<fn(&[u8]) -> Vec<u8>>,
    sheet: Option<fn(&Column, &mut Room) -> TextAnswer>,
    settlement: Option<fn(&[u8]) -> Vec<u8>>,
    term_sheet: Option<fn(&Column, u32, &mut Room) -> TextAnswer>,
    day: Option<fn(u32, u32, u32) -> DayAnswer>,
    date: Option<fn(u32) -> DateAnswer>,
    term: Option<fn(u32) -> TermAnswer>,
}

impl Subject for Mutant {
    fn call(&self, c: &mut Column, call: &Call) -> Answer {
        match self.call {
            Some(f) => f(c, call),
            None => Library.call(c, call),
        }
    }

    fn step(&self, c: &Column, step: &Step) -> GrowerAnswer {
        self.step.unwrap_or(library_step)(c, step)
    }

    fn record(&self, set: &UnlaidSet, h: &mut [u32], call: &Call) -> u32 {
        match self.record {
            Some(f) => f(set, h, call),
            None => Library.record(set, h, call),
        }
    }

    fn cost(&self, card: &PriceCard, set: &UnlaidSet, h: &[u32], ends: &[u32]) -> CostAnswer {
        self.cost.map_or_else(
            || Library.cost(card, set, h, ends),
            |f| f(card, set, h, ends),
        )
    }

    fn plan(
        &self,
        card: &PriceCard,
        limits: &Limits,
        set: &UnlaidSet,
        h: &[u32],
        out: &mut [u32],
    ) -> PlanAnswer {
        match self.plan {
            Some(f) => f(card, limits, set, h, out),
            None => Library.plan(card, limits, set, h, out),
        }
    }

    fn list(&self, case: &Case, out: &mut [u8]) -> ListAnswer {
        self.list.unwrap_or(library_list)(case, out)
    }

    fn apply(&self, set: &UnlaidSet, ends: &[u32]) -> DirectoryAnswer {
        self.apply
            .map_or_else(|| Library.apply(set, ends), |f| f(set, ends))
    }

    fn snapshot_read(&self, text: &[u8], c: &mut Column) -> DirectoryAnswer {
        match self.read {
            Some(f) => f(text, c),
            None => Library.snapshot_read(text, c),
        }
    }

    fn snapshot_write(&self, c: &Column, out: &mut [u8]) -> TextAnswer {
        match self.write {
            Some(f) => f(c, out),
            None => Library.snapshot_write(c, out),
        }
    }

    fn csv_import(&self, text: &[u8], c: &mut Column) -> ImportAnswer {
        match self.import {
            Some(f) => f(text, c),
            None => Library.csv_import(text, c),
        }
    }

    fn csv_export(&self, used: usize, c: &Column, out: &mut [u8]) -> TextAnswer {
        match self.export {
            Some(f) => f(used, c, out),
            None => Library.csv_export(used, c, out),
        }
    }

    fn tally_add(&self, tally: &mut Tally, counts: &Counts) -> u32 {
        match self.tally {
            Some(f) => f(tally, counts),
            None => Library.tally_add(tally, counts),
        }
    }

    fn layplan(&self, text: &[u8]) -> Vec<u8> {
        self.layplan.unwrap_or(layplan)(text)
    }

    fn sheet(&self, c: &Column, room: &mut Room) -> TextAnswer {
        self.sheet.unwrap_or(library_sheet)(c, room)
    }

    fn settlement(&self, text: &[u8]) -> Vec<u8> {
        self.settlement.unwrap_or(settlement)(text)
    }

    fn term_sheet(&self, c: &Column, day: u32, room: &mut Room) -> TextAnswer {
        self.term_sheet.unwrap_or(library_term_sheet)(c, day, room)
    }

    fn day_of(&self, year: u32, month: u32, day: u32) -> DayAnswer {
        self.day.unwrap_or(day_of)(year, month, day)
    }

    fn date_of(&self, day: u32) -> DateAnswer {
        self.date.unwrap_or(date_of)(day)
    }

    fn term_of(&self, day: u32) -> TermAnswer {
        self.term.unwrap_or(term_of)(day)
    }
}

/// t without the block's own partition.
fn t_without_own(card: &PriceCard, set: &UnlaidSet, h: &[u32], ends: &[u32]) -> CostAnswer {
    let mut a = cost(card, set, h, ends);
    if a.refusal == 0 {
        for i in 0..set.blocks() {
            let c = |n: usize| i64::from(h[count_index(n, i)]);
            let parts = c(IN) + c(DE) + c(UDF) - c(UTF) - c(UDB) + c(UTB);
            a.bill -= i64::from(card.rr + card.rw) * parts;
        }
    }
    a
}

/// The last range block costs a random read too.
fn range_end_random(card: &PriceCard, set: &UnlaidSet, h: &[u32], ends: &[u32]) -> CostAnswer {
    let mut a = cost(card, set, h, ends);
    if a.refusal == 0 {
        for i in 0..set.blocks() {
            a.bill += i64::from(card.rr) * i64::from(h[count_index(RE, i)]);
        }
    }
    a
}

/// A planner by listing with another rule for limits or order.
fn variant_plan(
    input: (&PriceCard, &Limits, &UnlaidSet, &[u32], &mut [u32]),
    most: i64,
    longest: i64,
    ahead: fn(&(i64, Vec<u32>), &(i64, Vec<u32>)) -> bool,
) -> PlanAnswer {
    let (card, limits, set, h, out) = input;
    let right = plan_by_table(card, limits, set, h, &mut [0; 64]);
    if right.refusal != 0 && right.refusal != 11 {
        return right;
    }
    let n = set.blocks();
    let mut best: Option<(i64, Vec<u32>)> = None;
    for inner in 0..1u32 << (n - 1) {
        let ends = layout_of_bits(inner, n);
        let mut first = 0;
        let mut fits = ends.len() as i64 <= most;
        for &end in &ends {
            fits &= i64::from(end) + 1 - first <= longest;
            first = i64::from(end) + 1;
        }
        let a = cost(card, set, h, &ends);
        if !fits || a.refusal != 0 {
            continue;
        }
        let candidate = (a.bill, ends);
        if best.as_ref().is_none_or(|held| ahead(&candidate, held)) {
            best = Some(candidate);
        }
    }
    match best {
        None => PlanAnswer {
            refusal: 11,
            count: 0,
            bill: 0,
        },
        Some((_, ends)) if ends.len() > out.len() => PlanAnswer {
            refusal: 15,
            count: 0,
            bill: 0,
        },
        Some((bill, ends)) => {
            out[..ends.len()].copy_from_slice(&ends);
            PlanAnswer {
                refusal: 0,
                count: ends.len(),
                bill,
            }
        }
    }
}

fn most_of(card: &PriceCard, limits: &Limits) -> i64 {
    i64::from(limits.insert / (card.rr + card.rw)) - 1
}

fn longest_of(card: &PriceCard, limits: &Limits) -> i64 {
    if limits.read < card.rr {
        0
    } else {
        i64::from((limits.read - card.rr) / card.sr) + 1
    }
}

fn right_order(x: &(i64, Vec<u32>), y: &(i64, Vec<u32>)) -> bool {
    (x.0, x.1.len(), &x.1) < (y.0, y.1.len(), &y.1)
}

fn tie_most_partitions(
    c: &PriceCard,
    l: &Limits,
    s: &UnlaidSet,
    h: &[u32],
    o: &mut [u32],
) -> PlanAnswer {
    variant_plan((c, l, s, h, o), most_of(c, l), longest_of(c, l), |x, y| {
        (x.0, y.1.len(), &x.1) < (y.0, x.1.len(), &y.1)
    })
}

fn tie_larger_end(
    c: &PriceCard,
    l: &Limits,
    s: &UnlaidSet,
    h: &[u32],
    o: &mut [u32],
) -> PlanAnswer {
    variant_plan((c, l, s, h, o), most_of(c, l), longest_of(c, l), |x, y| {
        (x.0, x.1.len(), &y.1) < (y.0, y.1.len(), &x.1)
    })
}

fn one_partition_more(
    c: &PriceCard,
    l: &Limits,
    s: &UnlaidSet,
    h: &[u32],
    o: &mut [u32],
) -> PlanAnswer {
    variant_plan(
        (c, l, s, h, o),
        most_of(c, l) + 1,
        longest_of(c, l),
        right_order,
    )
}

fn one_block_more(
    c: &PriceCard,
    l: &Limits,
    s: &UnlaidSet,
    h: &[u32],
    o: &mut [u32],
) -> PlanAnswer {
    variant_plan(
        (c, l, s, h, o),
        most_of(c, l),
        longest_of(c, l) + 1,
        right_order,
    )
}

/// A partition whose find meets the read limit is too long, as before 02.
fn one_block_fewer(
    c: &PriceCard,
    l: &Limits,
    s: &UnlaidSet,
    h: &[u32],
    o: &mut [u32],
) -> PlanAnswer {
    variant_plan(
        (c, l, s, h, o),
        most_of(c, l),
        longest_of(c, l) - 1,
        right_order,
    )
}

/// Partitions of one block also where the read limit is below a random read.
fn one_block_always(
    c: &PriceCard,
    l: &Limits,
    s: &UnlaidSet,
    h: &[u32],
    o: &mut [u32],
) -> PlanAnswer {
    variant_plan(
        (c, l, s, h, o),
        most_of(c, l),
        longest_of(c, l).max(1),
        right_order,
    )
}

fn always_one_partition(
    c: &PriceCard,
    l: &Limits,
    s: &UnlaidSet,
    h: &[u32],
    o: &mut [u32],
) -> PlanAnswer {
    variant_plan(
        (c, l, s, h, o),
        most_of(c, l).min(1),
        longest_of(c, l),
        right_order,
    )
}

/// One partition, where that is permitted, as soon as a delete is entered.
fn one_partition_once_deleted(
    c: &PriceCard,
    l: &Limits,
    s: &UnlaidSet,
    h: &[u32],
    o: &mut [u32],
) -> PlanAnswer {
    let one = always_one_partition(c, l, s, h, o);
    if one.refusal == 0 && (0..BLOCK_LIMIT).any(|i| h[count_index(DE, i)] > 0) {
        return one;
    }
    plan_by_table(c, l, s, h, o)
}

fn always_11(_: &PriceCard, _: &Limits, _: &UnlaidSet, _: &[u32], _: &mut [u32]) -> PlanAnswer {
    PlanAnswer {
        refusal: 11,
        count: 0,
        bill: 0,
    }
}

/// Only the first call of a list is entered.
fn only_first_call(set: &UnlaidSet, h: &mut [u32], call: &Call) -> u32 {
    if h.iter().any(|&n| n > 0) {
        let mut scratch = h.to_vec();
        return library_record(set, &mut scratch, call);
    }
    library_record(set, h, call)
}

/// An insert is entered twice.
fn insert_twice(set: &UnlaidSet, h: &mut [u32], call: &Call) -> u32 {
    let refusal = library_record(set, h, call);
    if let (0, Call::Insert(_)) = (refusal, call) {
        library_record(set, h, call);
    }
    refusal
}

/// A range within one block enters rs and re.
fn range_never_pq(set: &UnlaidSet, h: &mut [u32], call: &Call) -> u32 {
    if let Call::Range(lo, hi) = *call {
        let mut scratch = h.to_vec();
        let number = library_record(set, &mut scratch, call);
        if number == 0 && set.block_of(lo) == set.block_of(hi) {
            h[count_index(RS, set.block_of(lo))] += 1;
            h[count_index(RE, set.block_of(hi))] += 1;
            return 0;
        }
    }
    library_record(set, h, call)
}

/// An absent delivery is entered as if it were there.
fn absent_as_delete(set: &UnlaidSet, h: &mut [u32], call: &Call) -> u32 {
    if let Call::Delete(d) = *call {
        let mut scratch = h.to_vec();
        let number = library_record(set, &mut scratch, call);
        if number == 0 {
            h[count_index(DE, set.block_of(d.grower))] += 1;
        }
        return number;
    }
    library_record(set, h, call)
}

/// Equal growers and a new grower that is not smaller go backward.
fn equal_move_backward(set: &UnlaidSet, h: &mut [u32], call: &Call) -> u32 {
    if let Call::Move(d, g) = *call {
        let mut scratch = h.to_vec();
        let number = library_record(set, &mut scratch, call);
        if number == 0 && g == d.grower && set.contains(&d) {
            h[count_index(UDB, set.block_of(g))] += 1;
            h[count_index(UTB, set.block_of(g))] += 1;
            return 0;
        }
    }
    library_record(set, h, call)
}

/// The steps of an accepted insert done by hand; `step` moves one record of
/// a partition that holds `n`.
fn insert_by_hand(
    c: &mut Column,
    d: Delivery,
    step: &mut dyn FnMut(&mut Column, usize, usize, usize),
) {
    let lengths = c.lengths();
    let target = c.partition_of(d.grower);
    let mut hole = c.used();
    for p in (target + 1..lengths.len()).rev() {
        let n = lengths[p];
        step(c, hole - n, hole, n);
        hole -= n;
    }
    c.store(hole, d);
    c.directory[LENGTHS + target] += 1;
}

/// Insert as `steps` does it; every refusal and other call as the library.
fn with_insert(c: &mut Column, call: &Call, steps: fn(&mut Column, Delivery)) -> Answer {
    let Call::Insert(d) = *call else {
        return library_call(c, call);
    };
    let before = c.clone();
    let a = library_call(c, call);
    if a.refusal == 0 {
        *c = before;
        steps(c, d);
    }
    a
}

/// Two of the four columns move.
fn two_columns(c: &mut Column, call: &Call) -> Answer {
    with_insert(c, call, |c, d| {
        insert_by_hand(c, d, &mut |c, from, to, n| {
            if n > 0 {
                c.growers[to] = c.growers[from];
                c.weights[to] = c.weights[from];
            }
        })
    })
}

/// The yield stays behind once an empty partition has been passed.
fn yield_behind_after_empty(c: &mut Column, call: &Call) -> Answer {
    with_insert(c, call, |c, d| {
        let mut passed_empty = false;
        insert_by_hand(c, d, &mut |c, from, to, n| {
            if n == 0 {
                passed_empty = true;
                return;
            }
            c.growers[to] = c.growers[from];
            c.weights[to] = c.weights[from];
            if !passed_empty {
                c.yields[to] = c.yields[from];
                c.days[to] = c.days[from];
            }
        })
    })
}

/// The new record goes to the column's end and the partitions are relabelled.
fn relabel(c: &mut Column, call: &Call) -> Answer {
    with_insert(c, call, |c, d| {
        let end = c.used();
        c.store(end, d);
        let p = c.partition_of(d.grower);
        c.directory[LENGTHS + p] += 1;
    })
}

/// Only the last partition's record moves; the others are relabelled.
fn relabel_all_but_last(c: &mut Column, call: &Call) -> Answer {
    with_insert(c, call, |c, d| {
        let (end, k) = (c.used(), c.k());
        let last = c.lengths()[k - 1];
        let p = c.partition_of(d.grower);
        let mut at = end;
        if p < k - 1 && last > 0 {
            let moved = c.slot(end - last);
            c.store(end, moved);
            at = end - last;
        }
        c.store(at, d);
        c.directory[LENGTHS + p] += 1;
    })
}

/// Only the length is kept.
fn length_only(c: &mut Column, call: &Call) -> Answer {
    with_insert(c, call, |c, d| {
        let p = c.partition_of(d.grower);
        c.directory[LENGTHS + p] += 1;
    })
}

/// Fences follow the inserted growers.
fn fence_follows(c: &mut Column, call: &Call) -> Answer {
    let a = library_call(c, call);
    if let (Call::Insert(d), 0) = (call, a.refusal) {
        let p = c.partition_of(d.grower);
        c.directory[FENCES + p] = c.directory[FENCES + p].max(d.grower);
    }
    a
}

/// 12 with one slot still free.
fn full_too_early(c: &mut Column, call: &Call) -> Answer {
    if matches!(call, Call::Insert(d) if d.in_range()) && c.used() + 1 == c.growers.len() {
        return Answer::refused(12);
    }
    library_call(c, call)
}

/// 13 without the counts of its scan.
fn absent_unscanned(c: &mut Column, call: &Call) -> Answer {
    let mut a = library_call(c, call);
    if a.refusal == 13 {
        a.counts = Counts::ZERO;
    }
    a
}

/// Counts always zero.
fn no_counts(c: &mut Column, call: &Call) -> Answer {
    let mut a = library_call(c, call);
    a.counts = Counts::ZERO;
    a
}

/// An empty partition counts as one block.
fn empty_as_block(counts: &mut Counts, lengths: &[usize]) {
    let empty = lengths.iter().filter(|&&n| n == 0).count() as u64;
    let blocks = counts.rr + counts.sr + empty;
    if blocks > 0 {
        *counts = Counts::new(1, blocks - 1, 0);
    }
}

/// The first partition, and not the first block, is the random read: there is
/// none if that partition is empty.
fn first_partition_random(counts: &mut Counts, lengths: &[usize]) {
    if lengths.first() == Some(&0) {
        counts.sr += counts.rr;
        counts.rr = 0;
    }
}

/// One random read where nothing was read.
fn read_of_nothing(counts: &mut Counts, lengths: &[usize]) {
    if !lengths.is_empty() && *counts == Counts::ZERO {
        counts.rr = 1;
    }
}

/// Each partition that is read begins with a random read.
fn random_read_each(counts: &mut Counts, lengths: &[usize]) {
    let read = lengths.iter().filter(|&&n| n > 0).count() as u64;
    let more = read.saturating_sub(1);
    counts.rr += more;
    counts.sr -= more;
}

/// The lengths of the partitions that a find, a range or a 13 has scanned.
fn lengths_scanned(c: &Column, call: &Call, refusal: u32) -> Vec<usize> {
    let (lo, hi) = match (*call, refusal) {
        (Call::Find(g), 0) => (g, g),
        (Call::Range(lo, hi) | Call::RangeDays(lo, hi, _), 0) => (lo, hi),
        (Call::Delete(d) | Call::Move(d, _), 13) => (d.grower, d.grower),
        _ => return Vec::new(),
    };
    c.lengths()[c.partition_of(lo)..=c.partition_of(hi)].to_vec()
}

/// The right answer, its scan's counts changed.
fn recounted(c: &mut Column, call: &Call, change: fn(&mut Counts, &[usize])) -> Answer {
    let mut a = library_call(c, call);
    change(&mut a.counts, &lengths_scanned(c, call, a.refusal));
    a
}

/// Delete by hand: `pick` chooses among the matching slots; an empty
/// partition gives up a record if `out_of_empty`.
fn delete_by_hand(c: &mut Column, d: Delivery, highest: bool, out_of_empty: bool) {
    let lengths = c.lengths();
    let p = c.partition_of(d.grower);
    let start: usize = lengths[..p].iter().sum();
    let mut matches = (start..start + lengths[p]).filter(|&s| c.slot(s) == d);
    let slot = if highest {
        matches.next_back()
    } else {
        matches.next()
    }
    .expect("a match");
    let mut hole = start + lengths[p] - 1;
    let last = c.slot(hole);
    c.store(slot, last);
    for &n in &lengths[p + 1..] {
        let n = if out_of_empty { n.max(1) } else { n };
        if n > 0 && hole + n < c.growers.len() {
            let moved = c.slot(hole + n);
            c.store(hole, moved);
            hole += n;
        }
    }
    c.store(hole, Delivery::default());
    c.directory[LENGTHS + p] -= 1;
}

fn with_delete(c: &mut Column, call: &Call, steps: fn(&mut Column, Delivery)) -> Answer {
    let Call::Delete(d) = *call else {
        return library_call(c, call);
    };
    let before = c.clone();
    let a = library_call(c, call);
    if a.refusal == 0 {
        *c = before;
        steps(c, d);
    }
    a
}

/// The highest matching slot instead of the lowest.
fn highest_match(c: &mut Column, call: &Call) -> Answer {
    with_delete(c, call, |c, d| delete_by_hand(c, d, true, false))
}

/// A record is moved out of an empty partition.
fn out_of_empty(c: &mut Column, call: &Call) -> Answer {
    with_delete(c, call, |c, d| delete_by_hand(c, d, false, true))
}

/// The freed slot keeps its old record.
fn freed_not_zero(c: &mut Column, call: &Call) -> Answer {
    let used = c.used();
    let old = if used > 0 {
        c.slot(used - 1)
    } else {
        Delivery::default()
    };
    let a = library_call(c, call);
    if let (Call::Delete(_), 0) = (call, a.refusal) {
        c.store(used - 1, old);
    }
    a
}

/// Equal growers suffice; weight and yield are not compared.
fn grower_alone(c: &mut Column, call: &Call) -> Answer {
    let a = library_call(c, call);
    if let (Call::Delete(d), 13) = (call, a.refusal) {
        let p = c.partition_of(d.grower);
        let start: usize = c.lengths()[..p].iter().sum();
        for s in start..start + c.lengths()[p] {
            if c.growers[s] == d.grower {
                let held = c.slot(s);
                return library_call(c, &Call::Delete(held));
            }
        }
    }
    a
}

/// A move leaves the grower as it was.
fn move_keeps_grower(c: &mut Column, call: &Call) -> Answer {
    if let Call::Move(d, g) = *call {
        if c.partition_of(d.grower) == c.partition_of(g) {
            return library_call(c, &Call::Move(d, d.grower));
        }
    }
    library_call(c, call)
}

/// A move within a partition to a smaller grower works as a backward one.
fn within_backward(c: &mut Column, call: &Call) -> Answer {
    let before = c.clone();
    let a = library_call(c, call);
    if let (Call::Move(d, g), 0) = (*call, a.refusal) {
        let p = before.partition_of(d.grower);
        if g < d.grower && before.partition_of(g) == p {
            *c = before;
            let start: usize = c.lengths()[..p].iter().sum();
            let slot = (start..).find(|&s| c.slot(s) == d).expect("a match");
            let first = c.slot(start);
            c.store(slot, first);
            c.store(start, Delivery { grower: g, ..d });
        }
    }
    a
}

/// The old partition counts as passed.
fn move_counts_old(c: &mut Column, call: &Call) -> Answer {
    let mut a = library_call(c, call);
    if let (Call::Move(..), 0) = (call, a.refusal) {
        a.counts.rr += 1;
        a.counts.rw += 1;
    }
    a
}

/// hi itself is left out of a range.
fn hi_excluded(c: &mut Column, call: &Call) -> Answer {
    if let Call::Range(lo, hi) = *call {
        if lo < hi && c.partition_of(hi - 1) == c.partition_of(hi) {
            return library_call(c, &Call::Range(lo, hi - 1));
        }
    }
    library_call(c, call)
}

/// The partitions that a step may scan, in its order.
fn step_order(c: &Column, step: &Step) -> Vec<usize> {
    let own = c.partition_of(step.grower());
    match step {
        Step::Next(_) => (own..c.k()).collect(),
        Step::Previous(_) => (0..=own).rev().collect(),
    }
}

fn slots_of(c: &Column, p: usize) -> std::ops::Range<usize> {
    let start: usize = c.lengths()[..p].iter().sum();
    start..start + c.lengths()[p]
}

/// Where in the order the first partition is that holds a grower which the step
/// may answer.
fn place_of_hit(c: &Column, step: &Step, order: &[usize]) -> Option<usize> {
    let holds = |&p: &usize| slots_of(c, p).any(|at| step.reaches(c.growers[at]));
    order.iter().position(holds)
}

/// The right answer, if all of these partitions are scanned.
fn scan_all(c: &Column, step: &Step, scanned: &[usize]) -> GrowerAnswer {
    let (b, lengths) = (c.directory[0] as usize, c.lengths());
    let slots = || scanned.iter().flat_map(|&p| slots_of(c, p));
    let grower = step.first_of(slots().map(|at| c.growers[at]));
    let blocks: usize = scanned.iter().map(|&p| lengths[p].div_ceil(b)).sum();
    if slots().any(|at| !c.slot(at).in_range()) {
        return step_refused(8);
    }
    GrowerAnswer {
        refusal: 0,
        grower: grower.unwrap_or(0),
        records: slots().filter(|&at| Some(c.growers[at]) == grower).count() as u64,
        counts: Counts::new(u64::from(blocks > 0), blocks.saturating_sub(1) as u64, 0),
    }
}

/// The right answer, its counts changed.
fn step_recounted(c: &Column, step: &Step, change: fn(&mut Counts, &[usize])) -> GrowerAnswer {
    let mut a = library_step(c, step);
    if a.refusal == 0 {
        let order = step_order(c, step);
        let last = place_of_hit(c, step, &order).unwrap_or(order.len() - 1);
        let lengths: Vec<usize> = order[..=last].iter().map(|&p| c.lengths()[p]).collect();
        change(&mut a.counts, &lengths);
    }
    a
}

/// The grower himself is not answered.
fn strictly(c: &Column, step: &Step) -> GrowerAnswer {
    match *step {
        Step::Next(g) if g < u32::MAX => library_step(c, &Step::Next(g + 1)),
        Step::Previous(g) if g > 0 => library_step(c, &Step::Previous(g - 1)),
        _ => library_step(c, step),
    }
}

/// The last partition that may be scanned is not.
fn one_partition_early(c: &Column, step: &Step) -> GrowerAnswer {
    let mut order = step_order(c, step);
    if order.len() == 1 {
        return library_step(c, step);
    }
    order.pop();
    let last = place_of_hit(c, step, &order).unwrap_or(order.len() - 1);
    scan_all(c, step, &order[..=last])
}

/// The partition after the hit is scanned too.
fn on_after_hit(c: &Column, step: &Step) -> GrowerAnswer {
    let order = step_order(c, step);
    let last = place_of_hit(c, step, &order).map_or(order.len() - 1, |at| at + 1);
    scan_all(c, step, &order[..=last.min(order.len() - 1)])
}

/// Of the partition's growers that may be answered the one in the lowest slot.
fn first_slot(c: &Column, step: &Step) -> GrowerAnswer {
    let mut a = library_step(c, step);
    let order = step_order(c, step);
    if let (0, Some(at)) = (a.refusal, place_of_hit(c, step, &order)) {
        let growers = &c.growers[slots_of(c, order[at])];
        let first = growers.iter().find(|&&g| step.reaches(g));
        a.grower = *first.expect("a hit");
        a.records = growers.iter().filter(|&&g| g == a.grower).count() as u64;
    }
    a
}

/// The records of all growers that may be answered are counted.
fn all_reached_counted(c: &Column, step: &Step) -> GrowerAnswer {
    let mut a = library_step(c, step);
    let order = step_order(c, step);
    if let (0, Some(at)) = (a.refusal, place_of_hit(c, step, &order)) {
        let slots = slots_of(c, order[at]);
        a.records = slots.filter(|&s| step.reaches(c.growers[s])).count() as u64;
    }
    a
}

/// The counts are those of the last partition scanned alone.
fn last_partition_counted(c: &Column, step: &Step) -> GrowerAnswer {
    let mut a = library_step(c, step);
    if a.refusal == 0 {
        let order = step_order(c, step);
        let last = place_of_hit(c, step, &order).unwrap_or(order.len() - 1);
        a.counts = scan_all(c, step, &order[last..=last]).counts;
    }
    a
}

/// 8 is asked of all records that the step may scan.
fn unscanned_judged(c: &Column, step: &Step) -> GrowerAnswer {
    let a = library_step(c, step);
    let all = scan_all(c, step, &step_order(c, step));
    if all.refusal == 8 {
        return all;
    }
    a
}

/// 8 is not asked of the partition that holds the hit.
fn hit_not_judged(c: &Column, step: &Step) -> GrowerAnswer {
    let order = step_order(c, step);
    let Some(at) = place_of_hit(c, step, &order) else {
        return library_step(c, step);
    };
    let mut good = c.clone();
    for s in slots_of(c, order[at]) {
        (good.weights[s], good.yields[s]) = (0, 0);
    }
    library_step(&good, step)
}

/// Downward begins at the partition after the grower's.
fn down_from_after(c: &Column, step: &Step) -> GrowerAnswer {
    let mut order = step_order(c, step);
    if let (Step::Previous(_), true) = (step, order[0] + 1 < c.k()) {
        order.insert(0, order[0] + 1);
    }
    let last = place_of_hit(c, step, &order).unwrap_or(order.len() - 1);
    scan_all(c, step, &order[..=last])
}

/// A layout may part equal growers.
fn parts_equal_growers(set: &UnlaidSet, ends: &[u32]) -> DirectoryAnswer {
    let mut a = apply_layout(set, ends);
    if a.refusal == 6 {
        a = apply_layout(set, &ends[ends.len() - 1..]);
    }
    a
}

/// A trailing LF is taken.
fn trailing_lf(text: &[u8], c: &mut Column) -> DirectoryAnswer {
    let a = Library.snapshot_read(text, c);
    match text.strip_suffix(b"\n") {
        Some(shorter) if a.refusal == 14 => Library.snapshot_read(shorter, c),
        _ => a,
    }
}

/// A leading zero is taken.
fn leading_zero(text: &[u8], c: &mut Column) -> DirectoryAnswer {
    let mut plain = text.to_vec();
    for i in 0..plain.len().saturating_sub(1) {
        let after_space = i == 0 || plain[i - 1] == b' ';
        if after_space && plain[i] == b'0' && plain[i + 1].is_ascii_digit() {
            plain[i] = b' ';
        }
    }
    Library.snapshot_read(&plain, c)
}

/// 14 always goes ahead of 12.
fn text_ahead_of_full(text: &[u8], c: &mut Column) -> DirectoryAnswer {
    let a = Library.snapshot_read(text, c);
    if a.refusal == 12 {
        let mut large = Column {
            growers: vec![0; SLOT_LIMIT],
            weights: vec![0; SLOT_LIMIT],
            yields: vec![0; SLOT_LIMIT],
            days: vec![0; SLOT_LIMIT],
            directory: Vec::new(),
        };
        let b = Library.snapshot_read(text, &mut large);
        if b.refusal == 14 {
            return b;
        }
    }
    a
}

/// Slots past M are cleared.
fn later_slots_cleared(text: &[u8], c: &mut Column) -> DirectoryAnswer {
    let a = Library.snapshot_read(text, c);
    if a.refusal == 0 {
        let m: u32 = a.directory[LENGTHS..FENCES].iter().sum();
        for s in m as usize..c.growers.len() {
            c.store(s, Delivery::default());
        }
    }
    a
}

/// Bytes past the text are blanked.
fn blanked_tail(c: &Column, out: &mut [u8]) -> TextAnswer {
    let a = Library.snapshot_write(c, out);
    if a.refusal == 0 {
        out[a.written..].fill(b' ');
    }
    a
}

/// Records, kg and oil of these records.
fn sums(records: &[Delivery]) -> Vec<u64> {
    let weight = |d: &Delivery| u64::from(d.weight);
    vec![
        records.len() as u64,
        records.iter().map(weight).sum(),
        records
            .iter()
            .map(|d| weight(d) * u64::from(d.oil_yield))
            .sum(),
    ]
}

/// A grower's line of these records, which are his.
fn line_of(records: &[Delivery]) -> Vec<u64> {
    [vec![u64::from(records[0].grower)], sums(records)].concat()
}

/// The lines of the right sheet.
fn right_lines(c: &Column) -> Vec<Vec<u64>> {
    let mut records = c.records();
    records.sort_unstable();
    let of_growers = records.chunk_by(|x, y| x.grower == y.grower);
    let mut lines: Vec<Vec<u64>> = of_growers.map(line_of).collect();
    lines.push(sums(&records));
    lines
}

/// An accepted sheet has this text, as much of it as there is room for.
fn with_text(c: &Column, room: &mut Room, text: fn(&Column) -> Vec<u8>) -> TextAnswer {
    let mut a = library_sheet(c, room);
    if a.refusal == 0 {
        let text = text(c);
        a.written = text.len().min(room.text.len());
        room.text[..a.written].copy_from_slice(&text[..a.written]);
    }
    a
}

/// Growers stand in the order of their first slots.
fn in_slot_order(c: &Column, room: &mut Room) -> TextAnswer {
    with_text(c, room, |c| {
        let mut lines = right_lines(c);
        let last = lines.pop();
        let place = |l: &Vec<u64>| c.growers.iter().position(|&g| u64::from(g) == l[0]);
        lines.sort_by_key(place);
        lines.extend(last);
        text_in(20, &lines)
    })
}

/// A grower is listed once for each run of his records.
fn once_per_run(c: &Column, room: &mut Room) -> TextAnswer {
    with_text(c, room, |c| {
        let records = c.records();
        let runs = records.chunk_by(|x, y| x.grower == y.grower);
        let mut lines: Vec<Vec<u64>> = runs.map(line_of).collect();
        lines.push(sums(&records));
        text_in(20, &lines)
    })
}

/// The last line has the last partition's totals.
fn last_partition_totals(c: &Column, room: &mut Room) -> TextAnswer {
    with_text(c, room, |c| {
        let mut lines = right_lines(c);
        lines.pop();
        lines.push(sums(&c.records()[slots_of(c, c.k() - 1)]));
        text_in(20, &lines)
    })
}

/// Oil is all kg times the first record's yield.
fn oil_of_first_yield(c: &Column, room: &mut Room) -> TextAnswer {
    with_text(c, room, |c| {
        let mut lines = right_lines(c);
        let last = lines.len() - 1;
        for line in &mut lines[..last] {
            let first = c
                .records()
                .into_iter()
                .find(|d| u64::from(d.grower) == line[0]);
            line[3] = line[2] * first.map_or(0, |d| u64::from(d.oil_yield));
        }
        lines[last][2] = lines[..last].iter().map(|line| line[3]).sum();
        text_in(20, &lines)
    })
}

/// Every number stands in 11 columns.
fn eleven_columns(c: &Column, room: &mut Room) -> TextAnswer {
    with_text(c, room, |c| text_in(11, &right_lines(c)))
}

/// Nothing is printed of an empty column.
fn empty_as_nothing(c: &Column, room: &mut Room) -> TextAnswer {
    with_text(c, room, |c| match c.used() {
        0 => Vec::new(),
        _ => text_in(20, &right_lines(c)),
    })
}

/// The column's records in one partition, of whose fence no grower is past.
fn in_one_partition(c: &Column) -> Column {
    let mut one = c.clone();
    one.directory[1..].fill(0);
    one.directory[1..3].copy_from_slice(&[1, c.used() as u32]);
    one.directory[FENCES] = u32::MAX;
    one
}

/// An unsound column is printed.
fn unsound_printed(c: &Column, room: &mut Room) -> TextAnswer {
    library_sheet(&in_one_partition(c), room)
}

/// 8 goes ahead of 6.
fn values_ahead_of_soundness(c: &Column, room: &mut Room) -> TextAnswer {
    let mut a = library_sheet(c, room);
    if a.refusal == 6 && c.records().iter().any(|d| !d.in_range()) {
        a.refusal = 8;
    }
    a
}

/// 8 is not asked of the last record.
fn last_record_not_judged(c: &Column, room: &mut Room) -> TextAnswer {
    let mut good = c.clone();
    if let Some(last) = c.used().checked_sub(1) {
        good.weights[last] = c.weights[last].min(WEIGHT_LIMIT);
        good.yields[last] = c.yields[last].min(YIELD_LIMIT);
    }
    library_sheet(&good, room)
}

/// The text needs room for a line a record.
fn line_for_each_record(c: &Column, room: &mut Room) -> TextAnswer {
    let before = room.clone();
    let a = library_sheet(c, room);
    if a.refusal != 0 || room.text.len() >= sheet_size(c.used()) {
        return a;
    }
    *room = before;
    TextAnswer {
        refusal: 15,
        written: 0,
    }
}

/// Order and work may be short.
fn lists_not_asked(c: &Column, room: &mut Room) -> TextAnswer {
    let (order, work) = (room.order.len(), room.work.len());
    room.order.resize(order.max(c.used()), 0);
    room.work.resize(work.max(c.used()), 0);
    let a = library_sheet(c, room);
    room.order.truncate(order);
    room.work.truncate(work);
    a
}

/// What is refused by 15 has its order written.
fn order_when_refused(c: &Column, room: &mut Room) -> TextAnswer {
    let a = library_sheet(c, room);
    if a.refusal == 15 {
        for (slot, to) in room.order.iter_mut().enumerate() {
            *to = slot as u32;
        }
    }
    a
}

/// Of one grower the highest slot comes first.
fn ties_fall(c: &Column, room: &mut Room) -> TextAnswer {
    let a = library_sheet(c, room);
    if a.refusal == 0 {
        let order = &mut room.order[..c.used()];
        order.sort_by_key(|&slot| (c.growers[slot as usize], u32::MAX - slot));
    }
    a
}

/// The work slice keeps a number.
fn work_left(c: &Column, room: &mut Room) -> TextAnswer {
    let a = library_sheet(c, room);
    if let (0, Some(last)) = (a.refusal, c.used().checked_sub(1)) {
        room.work[last] = 1;
    }
    a
}

/// Order and work are cleared to their ends.
fn lists_cleared(c: &Column, room: &mut Room) -> TextAnswer {
    let a = library_sheet(c, room);
    if a.refusal == 0 {
        room.order[c.used()..].fill(0);
        room.work[c.used()..].fill(0);
    }
    a
}

/// Bytes past the sheet are blanked.
fn blanked_sheet(c: &Column, room: &mut Room) -> TextAnswer {
    let a = library_sheet(c, room);
    if a.refusal == 0 {
        room.text[a.written..].fill(b' ');
    }
    a
}

/// A book of 513 deliveries is printed.
fn slot_too_many(text: &[u8]) -> Vec<u8> {
    let mut c = Column {
        growers: vec![0; 513],
        weights: vec![0; 513],
        yields: vec![0; 513],
        days: vec![0; 513],
        directory: Vec::new(),
    };
    let read = Library.snapshot_read(text, &mut c);
    c.directory = read.directory.to_vec();
    match read.refusal {
        0 => text_in(20, &right_lines(&c)),
        _ => settlement(text),
    }
}

/// 14 always goes ahead of 12.
fn book_ahead_of_full(text: &[u8]) -> Vec<u8> {
    let out = settlement(text);
    match out == b"         12\n" && groups::expected_read(text, SLOT_LIMIT) == 14 {
        true => b"         14\n".to_vec(),
        false => out,
    }
}

/// The refusal number stands in 20 columns.
fn wide_refusal(text: &[u8]) -> Vec<u8> {
    let out = settlement(text);
    match out.len() {
        12 => [&b"         "[..], &out].concat(),
        _ => out,
    }
}

/// A line is printed ahead of the refusal number.
fn refusal_not_alone(text: &[u8]) -> Vec<u8> {
    let out = settlement(text);
    match out.len() {
        12 => [&text_in(20, &[vec![0; 3]])[..], &out].concat(),
        _ => out,
    }
}

/// A byte after the book is ignored.
fn book_tail_ignored(text: &[u8]) -> Vec<u8> {
    let out = settlement(text);
    match text.split_last() {
        Some((_, shorter)) if out == b"         14\n" => settlement(shorter),
        _ => out,
    }
}

/// An import that refuses some texts that should be accepted.
fn refused_if(text: &[u8], c: &mut Column, is_bad: bool) -> ImportAnswer {
    let before = c.clone();
    let a = Library.csv_import(text, c);
    if a.refusal != 0 || !is_bad {
        return a;
    }
    *c = before;
    ImportAnswer {
        refusal: 18,
        rows: 0,
    }
}

/// LF alone ends no line.
fn lf_alone(text: &[u8], c: &mut Column) -> ImportAnswer {
    let lf = |w: &[u8]| w[0] != b'\r' && w[1] == b'\n';
    refused_if(text, c, text.windows(2).any(lf))
}

/// A leading zero is refused.
fn no_leading_zero(text: &[u8], c: &mut Column) -> ImportAnswer {
    let zero = |w: &[u8]| !w[0].is_ascii_digit() && w[1] == b'0' && w[2].is_ascii_digit();
    refused_if(text, c, text.windows(3).any(zero))
}

/// A doubled quote is refused.
fn no_doubled_quote(text: &[u8], c: &mut Column) -> ImportAnswer {
    let (records, _) = csv::records(text);
    let is_there = records.iter().flatten().any(|field| field.contains(&b'"'));
    refused_if(text, c, is_there)
}

/// The first three columns are taken, whatever their names.
fn columns_by_place(text: &[u8], c: &mut Column) -> ImportAnswer {
    let a = Library.csv_import(text, c);
    let (records, _) = csv::records(text);
    for (slot, row) in records.iter().skip(1).take(a.rows).enumerate() {
        let number = |i: usize| String::from_utf8_lossy(&row[i]).parse().unwrap_or(0);
        c.store(slot, Delivery::new(number(0), number(1), number(2)));
    }
    a
}

/// The header is read in any case of its letters.
fn any_case(text: &[u8], c: &mut Column) -> ImportAnswer {
    let end = text.iter().position(|&b| b == b'\n').unwrap_or(0);
    let (header, rows) = text.split_at(end);
    Library.csv_import(&[&header.to_ascii_lowercase(), rows].concat(), c)
}

/// 12 goes ahead of 18.
fn full_ahead_of_row(text: &[u8], c: &mut Column) -> ImportAnswer {
    let a = Library.csv_import(text, c);
    let rows = csv::records(text).0.len().saturating_sub(1);
    match a.refusal == 18 && rows > c.growers.len() {
        true => ImportAnswer {
            refusal: 12,
            rows: 0,
        },
        false => a,
    }
}

/// 17 goes ahead of 16.
fn twice_ahead_of_absent(text: &[u8], c: &mut Column) -> ImportAnswer {
    let a = Library.csv_import(text, c);
    let (records, _) = csv::records(text);
    let header = records.first().map_or(&[][..], |header| header);
    let times = |name: &&[u8]| header.iter().filter(|field| field[..] == **name).count();
    let is_twice = [&b"grower"[..], b"weight", b"yield"]
        .iter()
        .any(|n| times(n) > 1);
    match a.refusal == 16 && is_twice {
        true => ImportAnswer {
            refusal: 17,
            rows: 0,
        },
        false => a,
    }
}

/// A text refused by 12 has filled the slots.
fn filled_when_refused(text: &[u8], c: &mut Column) -> ImportAnswer {
    let a = Library.csv_import(text, c);
    if a.refusal == 12 {
        let slots = c.growers.len();
        let mut large = c.clone();
        for column in [
            &mut large.growers,
            &mut large.weights,
            &mut large.yields,
            &mut large.days,
        ] {
            column.resize(text.len(), 0);
        }
        Library.csv_import(text, &mut large);
        (0..slots).for_each(|s| c.store(s, large.slot(s)));
    }
    a
}

/// Slots past the rows are cleared.
fn slots_past_rows_cleared(text: &[u8], c: &mut Column) -> ImportAnswer {
    let a = Library.csv_import(text, c);
    if a.refusal == 0 {
        (a.rows..c.growers.len()).for_each(|s| c.store(s, Delivery::default()));
    }
    a
}

/// Lines end with LF alone.
fn export_lf(used: usize, c: &Column, out: &mut [u8]) -> TextAnswer {
    let mut a = Library.csv_export(used, c, out);
    let mut text = out[..a.written].to_vec();
    text.retain(|&b| b != b'\r');
    a.written = text.len();
    out[..a.written].copy_from_slice(&text);
    a
}

/// Bytes past the export are blanked.
fn export_blanked(used: usize, c: &Column, out: &mut [u8]) -> TextAnswer {
    let a = Library.csv_export(used, c, out);
    out[a.written..].fill(b' ');
    a
}

/// A sum that wraps.
fn wrapping_tally(t: &mut Tally, c: &Counts) -> u32 {
    let next = Tally {
        rr: t.rr.wrapping_add(c.rr),
        sr: t.sr.wrapping_add(c.sr),
        rw: t.rw.wrapping_add(c.rw),
    };
    if [next.rr, next.sr, next.rw].iter().any(|&n| n > TALLY_LIMIT) {
        return 10;
    }
    *t = next;
    0
}

/// A byte after the last line is ignored.
fn input_tail_ignored(text: &[u8]) -> Vec<u8> {
    let out = layplan(text);
    match text.split_last() {
        Some((_, shorter)) if out == b"         14\n" => layplan(shorter),
        _ => out,
    }
}

/// Prices are refused ahead of the recorder.
fn prices_first(text: &[u8]) -> Vec<u8> {
    let out = layplan(text);
    if out.len() == 12 && out != b"         14\n" {
        let prices = second::field::read_line_u32::<3>(text, 0);
        if prices.is_some_and(|(p, _)| p.iter().any(|n| !(1..=PRICE_LIMIT).contains(n))) {
            return b"          1\n".to_vec();
        }
    }
    out
}

/// The bill stands in 21 columns.
fn wide_bill(text: &[u8]) -> Vec<u8> {
    let mut out = layplan(text);
    if out.len() > 12 {
        out.insert(11, b' ');
    }
    out
}

fn program(f: fn(&[u8]) -> Vec<u8>) -> Mutant {
    Mutant {
        layplan: Some(f),
        ..Mutant::default()
    }
}

fn call(f: fn(&mut Column, &Call) -> Answer) -> Mutant {
    Mutant {
        call: Some(f),
        ..Mutant::default()
    }
}

fn step(f: fn(&Column, &Step) -> GrowerAnswer) -> Mutant {
    Mutant {
        step: Some(f),
        ..Mutant::default()
    }
}

fn record(f: fn(&UnlaidSet, &mut [u32], &Call) -> u32) -> Mutant {
    Mutant {
        record: Some(f),
        ..Mutant::default()
    }
}

fn plan(f: fn(&PriceCard, &Limits, &UnlaidSet, &[u32], &mut [u32]) -> PlanAnswer) -> Mutant {
    Mutant {
        plan: Some(f),
        ..Mutant::default()
    }
}

fn listed(f: List) -> Mutant {
    Mutant {
        list: Some(f),
        ..Mutant::default()
    }
}

fn priced(f: fn(&PriceCard, &UnlaidSet, &[u32], &[u32]) -> CostAnswer) -> Mutant {
    Mutant {
        cost: Some(f),
        ..Mutant::default()
    }
}

fn read(f: fn(&[u8], &mut Column) -> DirectoryAnswer) -> Mutant {
    Mutant {
        read: Some(f),
        ..Mutant::default()
    }
}

fn import(f: fn(&[u8], &mut Column) -> ImportAnswer) -> Mutant {
    Mutant {
        import: Some(f),
        ..Mutant::default()
    }
}

fn export(f: fn(usize, &Column, &mut [u8]) -> TextAnswer) -> Mutant {
    Mutant {
        export: Some(f),
        ..Mutant::default()
    }
}

fn sheet(f: fn(&Column, &mut Room) -> TextAnswer) -> Mutant {
    Mutant {
        sheet: Some(f),
        ..Mutant::default()
    }
}

fn write(f: fn(&Column, &mut [u8]) -> TextAnswer) -> Mutant {
    Mutant {
        write: Some(f),
        ..Mutant::default()
    }
}

fn of_term(f: fn(&Column, u32, &mut Room) -> TextAnswer) -> Mutant {
    Mutant {
        term_sheet: Some(f),
        ..Mutant::default()
    }
}

fn numbered(f: fn(u32, u32, u32) -> DayAnswer) -> Mutant {
    Mutant {
        day: Some(f),
        ..Mutant::default()
    }
}

fn dated(f: fn(u32) -> DateAnswer) -> Mutant {
    Mutant {
        date: Some(f),
        ..Mutant::default()
    }
}

fn termed(f: fn(u32) -> TermAnswer) -> Mutant {
    Mutant {
        term: Some(f),
        ..Mutant::default()
    }
}

/// The wrong variants of the rules of days, terms and dates.
fn of_days() -> Vec<(&'static str, Mutant, &'static [Group])> {
    use days::*;
    use groups::{column_ledger, column_slots, laid_ledger, recorder_model};
    use terms::{term_examples, term_refused, term_sheets, term_years};
    vec![
        (
            "day left behind",
            call(day_behind),
            &[match_examples, column_ledger, laid_ledger, column_slots],
        ),
        (
            "day of a freed slot not 0",
            call(freed_day),
            &[match_examples, column_slots],
        ),
        (
            "match on any day",
            call(any_day),
            &[match_examples, column_ledger, laid_ledger, column_slots],
        ),
        (
            "move loses the day",
            call(moved_undated),
            &[match_examples, column_ledger, laid_ledger, column_slots],
        ),
        (
            "last day left out of a range",
            call(last_day_out),
            &[range_examples, range_spans, column_ledger, column_slots],
        ),
        (
            "first day left out of a range",
            call(first_day_out),
            &[range_examples, range_spans, column_ledger, column_slots],
        ),
        (
            "days of a range ignored",
            call(days_ignored),
            &[range_examples, range_spans, column_ledger, column_slots],
        ),
        (
            "range cut at the end of a term",
            call(one_term_only),
            &[range_examples, range_spans, column_ledger, column_slots],
        ),
        (
            "days of a range exchanged",
            call(days_exchanged),
            &[range_examples, column_ledger, column_slots],
        ),
        (
            "earlier last day refused",
            call(earlier_refused),
            &[range_examples, column_ledger, column_slots],
        ),
        (
            "range over no day not scanned",
            call(earlier_unscanned),
            &[range_examples, column_slots],
        ),
        (
            "range over days above the limit matches nothing",
            call(late_span_matches_nothing),
            &[range_examples, column_ledger, column_slots],
        ),
        (
            "8 and 19 record by record",
            call(record_by_record),
            &[order_examples, column_slots],
        ),
        (
            "19 ahead of 8",
            call(days_first),
            &[order_examples, column_slots],
        ),
        (
            "19 not asked of records by a find",
            call(|c, k| records_not_asked(c, k, |k| matches!(k, Call::Find(_)))),
            &[order_examples, column_slots],
        ),
        (
            "19 not asked of records by a range",
            call(|c, k| records_not_asked(c, k, |k| matches!(k, Call::Range(..)))),
            &[order_examples, range_spans, column_slots],
        ),
        (
            "19 not asked of records by a range over days",
            call(|c, k| records_not_asked(c, k, |k| matches!(k, Call::RangeDays(..)))),
            &[order_examples, range_spans, column_slots],
        ),
        (
            "19 not asked of records by a delete",
            call(|c, k| records_not_asked(c, k, |k| matches!(k, Call::Delete(_)))),
            &[order_examples, column_slots],
        ),
        (
            "19 not asked of records by a move",
            call(|c, k| records_not_asked(c, k, |k| matches!(k, Call::Move(..)))),
            &[order_examples, column_slots],
        ),
        (
            "19 not asked of an insert's delivery",
            call(inserted_not_asked),
            &[order_examples, column_ledger, laid_ledger, column_slots],
        ),
        (
            "19 not asked of a delete's delivery",
            call(deleted_not_asked),
            &[order_examples, column_ledger, laid_ledger, column_slots],
        ),
        (
            "19 not asked of a move's delivery",
            call(moved_not_asked),
            &[order_examples, column_ledger, laid_ledger, column_slots],
        ),
        (
            "19 not asked by steps",
            step(steps_not_asked),
            &[growers::grower_slots],
        ),
        (
            "delivery of another day entered",
            record(recorded_any_day),
            &[recorder_model],
        ),
        (
            "range over no day not entered",
            record(earlier_not_entered),
            &[recorder_model],
        ),
        (
            "recorder does not ask for the days named",
            record(recorded_span_not_asked),
            &[recorder_model, set_examples],
        ),
        (
            "recorder does not ask for an insert's day",
            record(recorded_insert_not_asked),
            &[recorder_model, set_examples],
        ),
        (
            "recorder does not ask for the day of a delete or a move",
            record(recorded_removal_not_asked),
            &[recorder_model, set_examples],
        ),
        (
            "recorder does not ask for the set's days",
            record(recorded_set_not_asked),
            &[set_examples],
        ),
        (
            "recorder puts 19 of the set ahead of 8",
            record(recorded_days_first),
            &[set_examples],
        ),
        (
            "19 not asked by the cost",
            priced(cost_not_asked),
            &[set_examples],
        ),
        (
            "19 not asked by the planner",
            plan(plan_not_asked),
            &[set_examples],
        ),
        (
            "19 not asked by the listing",
            listed(list_not_asked),
            &[set_examples],
        ),
        (
            "19 not asked by applying a layout",
            Mutant {
                apply: Some(apply_not_asked),
                ..Mutant::default()
            },
            &[set_examples],
        ),
        (
            "book of any days written",
            write(written_with_days),
            &[book_days],
        ),
        (
            "book refused only for bad days",
            write(written_with_good_days),
            &[book_days],
        ),
        (
            "days left by reading",
            read(read_days_left),
            &[book_days, groups::snapshot_round_trip],
        ),
        (
            "every day cleared by reading",
            read(read_days_cleared),
            &[book_days, groups::snapshot_round_trip],
        ),
        (
            "days left by an import",
            import(import_days_left),
            &[export_days, csv::csv_examples, csv::csv_damaged],
        ),
        (
            "19 not asked by an export",
            export(export_not_asked),
            &[export_days],
        ),
        (
            "export refused for a day",
            export(export_without_days),
            &[export_days, csv::csv_round_trip],
        ),
        (
            "19 not asked by the sheet",
            sheet(sheet_not_asked),
            &[sheets::sheet_refused],
        ),
        (
            "sheet of a term has every record",
            of_term(term_of_all),
            &[term_examples, term_sheets, term_years, term_refused],
        ),
        (
            "sheet of a term without its first day",
            of_term(term_without_first),
            &[term_examples, term_sheets, term_years, term_refused],
        ),
        (
            "sheet of a term without its last day",
            of_term(term_without_last),
            &[term_examples, term_sheets, term_years, term_refused],
        ),
        (
            "sheet of a term has that of every year",
            of_term(term_of_every_year),
            &[term_sheets, term_years],
        ),
        (
            "sheet of a term has the whole month",
            of_term(term_of_month),
            &[term_examples, term_sheets, term_years, term_refused],
        ),
        (
            "records outside the term not asked",
            of_term(term_asked_alone),
            &[term_examples, term_refused],
        ),
        (
            "sheet of no term is empty",
            of_term(term_of_no_day),
            &[term_examples, term_refused],
        ),
        (
            "room for the records of every term",
            of_term(term_room_of_all),
            &[term_examples, term_sheets, term_years, term_refused],
        ),
        (
            "2000 no leap year",
            numbered(century_not_leap),
            &[calendar_examples, calendar_century],
        ),
        (
            "29 February every year",
            numbered(february_of_29),
            &[calendar_examples, calendar_century],
        ),
        (
            "2100 counted too",
            numbered(year_2100),
            &[calendar_examples, calendar_century],
        ),
        (
            "refused date with a day",
            numbered(refused_with_day),
            &[calendar_examples, calendar_century],
        ),
        (
            "refused day with a date",
            dated(refused_with_date),
            &[calendar_examples],
        ),
        (
            "refused day with a term",
            termed(refused_with_term),
            &[calendar_examples],
        ),
        (
            "days of the month from 0",
            dated(date_from_zero),
            &[calendar_examples, calendar_century],
        ),
        (
            "last day refused",
            dated(last_day_refused),
            &[calendar_examples, calendar_century],
        ),
        (
            "the 16th in the first term",
            termed(term_to_16),
            &[calendar_examples, calendar_century],
        ),
        (
            "second term of 15 days",
            termed(term_of_15),
            &[calendar_examples, calendar_century],
        ),
    ]
}

fn settled(f: fn(&[u8]) -> Vec<u8>) -> Mutant {
    Mutant {
        settlement: Some(f),
        ..Mutant::default()
    }
}

pub fn all() -> Vec<(String, Outcome)> {
    use csv::{csv_damaged, csv_examples, csv_round_trip};
    use groups::*;
    use growers::{grower_edges, grower_examples, grower_ledger, grower_slots, grower_stepping};
    use increases::{increase_bounds, increase_examples};
    use sheets::{
        settlement_books, settlement_examples, sheet_columns, sheet_edges, sheet_examples,
        sheet_finds, sheet_refused,
    };
    let mut list: Vec<(&str, Mutant, &[Group])> = vec![
        (
            "t without its own partition",
            priced(t_without_own),
            &[cost_equation, cost_reports],
        ),
        (
            "random read at a range's end",
            priced(range_end_random),
            &[cost_equation, cost_reports],
        ),
        (
            "tie to the most partitions",
            plan(tie_most_partitions),
            &[planner_recorded, planner_raw, cost_reports],
        ),
        (
            "tie to the larger end",
            plan(tie_larger_end),
            &[planner_recorded, planner_raw, cost_reports],
        ),
        (
            "one partition more",
            plan(one_partition_more),
            &[planner_recorded, planner_raw, cost_reports],
        ),
        (
            "one block more",
            plan(one_block_more),
            &[planner_recorded, planner_raw, cost_reports],
        ),
        (
            "one block fewer",
            plan(one_block_fewer),
            &[planner_recorded, planner_raw, cost_reports],
        ),
        (
            "one block where R is below RR",
            plan(one_block_always),
            &[planner_recorded, planner_raw, cost_reports],
        ),
        (
            "always one partition",
            plan(always_one_partition),
            &[planner_recorded, planner_raw, cost_reports],
        ),
        (
            "always 11",
            plan(always_11),
            &[planner_recorded, planner_raw, planner_large, cost_reports],
        ),
        (
            "only the first call entered",
            record(only_first_call),
            &[recorder_model, cost_reports, increase_bounds],
        ),
        (
            "insert entered twice",
            record(insert_twice),
            &[recorder_model, increase_examples, increase_bounds],
        ),
        (
            "one partition once a delete is entered",
            plan(one_partition_once_deleted),
            &[increase_examples, increase_bounds],
        ),
        ("range never pq", record(range_never_pq), &[recorder_model]),
        (
            "absent delivery entered as delete",
            record(absent_as_delete),
            &[recorder_model, cost_reports],
        ),
        (
            "equal move entered backward",
            record(equal_move_backward),
            &[recorder_model],
        ),
        (
            "two of four columns moved",
            call(two_columns),
            &[column_ledger, laid_ledger, column_slots, column_edges],
        ),
        (
            "yield left behind after an empty partition",
            call(yield_behind_after_empty),
            &[column_ledger, column_slots, column_edges],
        ),
        (
            "relabelled without a ripple",
            call(relabel),
            &[column_ledger, laid_ledger, column_slots],
        ),
        (
            "one partition moved, others relabelled",
            call(relabel_all_but_last),
            &[column_ledger, laid_ledger, column_slots],
        ),
        (
            "insert keeps only the length",
            call(length_only),
            &[column_ledger, laid_ledger, column_slots],
        ),
        (
            "fence follows an insert",
            call(fence_follows),
            &[column_slots],
        ),
        (
            "12 with a free slot",
            call(full_too_early),
            &[column_ledger, laid_ledger, column_slots],
        ),
        (
            "13 without its scan",
            call(absent_unscanned),
            &[column_slots, cost_reports],
        ),
        (
            "counts always zero",
            call(no_counts),
            &[column_slots, cost_reports],
        ),
        (
            "empty partition counts as one block",
            call(|c, k| recounted(c, k, empty_as_block)),
            &[column_slots, column_edges],
        ),
        (
            "random read of the first partition",
            call(|c, k| recounted(c, k, first_partition_random)),
            &[column_slots, column_edges],
        ),
        (
            "one random read where nothing was read",
            call(|c, k| recounted(c, k, read_of_nothing)),
            &[column_slots, column_edges],
        ),
        (
            "random read for each partition",
            call(|c, k| recounted(c, k, random_read_each)),
            &[column_slots, cost_reports],
        ),
        (
            "highest matching slot",
            call(highest_match),
            &[column_slots],
        ),
        (
            "record moved out of an empty partition",
            call(out_of_empty),
            &[column_ledger, column_slots, column_edges],
        ),
        ("freed slot not zero", call(freed_not_zero), &[column_slots]),
        (
            "match on the grower alone",
            call(grower_alone),
            &[column_ledger, laid_ledger, column_slots],
        ),
        (
            "move keeps the grower",
            call(move_keeps_grower),
            &[column_ledger, laid_ledger, column_slots],
        ),
        (
            "move within done backward",
            call(within_backward),
            &[column_slots],
        ),
        (
            "move counts the old partition",
            call(move_counts_old),
            &[column_slots, cost_reports],
        ),
        (
            "hi left out of a range",
            call(hi_excluded),
            &[column_ledger, laid_ledger, column_slots],
        ),
        (
            "the grower himself not answered",
            step(strictly),
            &[
                grower_examples,
                grower_slots,
                grower_ledger,
                grower_stepping,
            ],
        ),
        (
            "stepping stops a partition early",
            step(one_partition_early),
            &[
                grower_examples,
                grower_slots,
                grower_ledger,
                grower_stepping,
                grower_edges,
            ],
        ),
        (
            "scan goes on after a hit",
            step(on_after_hit),
            &[grower_examples, grower_slots],
        ),
        (
            "grower of the lowest slot",
            step(first_slot),
            &[
                grower_examples,
                grower_slots,
                grower_ledger,
                grower_stepping,
                grower_edges,
            ],
        ),
        (
            "records of all growers reached",
            step(all_reached_counted),
            &[
                grower_examples,
                grower_slots,
                grower_ledger,
                grower_stepping,
                grower_edges,
            ],
        ),
        (
            "counts of the last partition scanned",
            step(last_partition_counted),
            &[grower_examples, grower_slots],
        ),
        (
            "empty partition stepped over counts as one block",
            step(|c, way| step_recounted(c, way, empty_as_block)),
            &[grower_examples, grower_slots, grower_edges],
        ),
        (
            "random read of the first partition stepped over",
            step(|c, way| step_recounted(c, way, first_partition_random)),
            &[grower_examples, grower_slots, grower_edges],
        ),
        (
            "one random read where a step read nothing",
            step(|c, way| step_recounted(c, way, read_of_nothing)),
            &[grower_examples, grower_slots, grower_edges],
        ),
        (
            "8 of a partition not scanned",
            step(unscanned_judged),
            &[grower_slots],
        ),
        (
            "8 not asked of the hit's partition",
            step(hit_not_judged),
            &[grower_slots],
        ),
        (
            "downward from the partition after",
            step(down_from_after),
            &[grower_examples, grower_slots],
        ),
        (
            "equal growers parted",
            Mutant {
                apply: Some(parts_equal_growers),
                ..Mutant::default()
            },
            &[cost_reports],
        ),
        (
            "snapshot with a trailing LF",
            read(trailing_lf),
            &[snapshot_damaged],
        ),
        (
            "snapshot with a leading zero",
            read(leading_zero),
            &[snapshot_damaged],
        ),
        (
            "14 ahead of 12",
            read(text_ahead_of_full),
            &[snapshot_damaged],
        ),
        (
            "later slots cleared",
            read(later_slots_cleared),
            &[snapshot_round_trip],
        ),
        (
            "bytes past the snapshot blanked",
            Mutant {
                write: Some(blanked_tail),
                ..Mutant::default()
            },
            &[snapshot_round_trip],
        ),
        (
            "growers in slot order",
            sheet(in_slot_order),
            &[sheet_examples, sheet_columns, sheet_finds, sheet_edges],
        ),
        (
            "a grower listed once for each run",
            sheet(once_per_run),
            &[sheet_examples, sheet_columns, sheet_finds, sheet_edges],
        ),
        (
            "totals of the last partition alone",
            sheet(last_partition_totals),
            &[sheet_examples, sheet_columns, sheet_finds, sheet_edges],
        ),
        (
            "oil of the first yield",
            sheet(oil_of_first_yield),
            &[sheet_examples, sheet_columns, sheet_finds],
        ),
        (
            "sheet in 11 columns",
            sheet(eleven_columns),
            &[sheet_examples, sheet_columns, sheet_finds, sheet_edges],
        ),
        (
            "empty column printed as nothing",
            sheet(empty_as_nothing),
            &[sheet_examples, sheet_columns, sheet_finds],
        ),
        (
            "unsound column printed",
            sheet(unsound_printed),
            &[sheet_examples, sheet_refused],
        ),
        (
            "8 ahead of soundness",
            sheet(values_ahead_of_soundness),
            &[sheet_refused],
        ),
        (
            "8 not asked of the last record",
            sheet(last_record_not_judged),
            &[sheet_refused],
        ),
        (
            "room for a line a record",
            sheet(line_for_each_record),
            &[sheet_examples, sheet_columns, sheet_refused, sheet_edges],
        ),
        (
            "order and work not asked for",
            sheet(lists_not_asked),
            &[sheet_columns, sheet_refused],
        ),
        (
            "order written when refused",
            sheet(order_when_refused),
            &[sheet_columns, sheet_refused],
        ),
        (
            "slots of one grower in falling order",
            sheet(ties_fall),
            &[sheet_examples, sheet_columns, sheet_refused, sheet_edges],
        ),
        (
            "work not all zeros",
            sheet(work_left),
            &[sheet_examples, sheet_columns, sheet_refused, sheet_edges],
        ),
        (
            "order and work cleared past M",
            sheet(lists_cleared),
            &[sheet_examples, sheet_columns, sheet_refused],
        ),
        (
            "bytes past the sheet blanked",
            sheet(blanked_sheet),
            &[sheet_examples, sheet_columns, sheet_refused],
        ),
        (
            "a slot too many in the program",
            settled(slot_too_many),
            &[settlement_examples],
        ),
        (
            "14 ahead of 12 in the program",
            settled(book_ahead_of_full),
            &[settlement_examples, settlement_books],
        ),
        (
            "refusal number in 20 columns",
            settled(wide_refusal),
            &[settlement_examples, settlement_books],
        ),
        (
            "refusal number not alone",
            settled(refusal_not_alone),
            &[settlement_examples, settlement_books],
        ),
        (
            "book with a byte left over",
            settled(book_tail_ignored),
            &[settlement_books],
        ),
        (
            "LF alone ends no line",
            import(lf_alone),
            &[csv_examples, csv_damaged],
        ),
        (
            "leading zero refused",
            import(no_leading_zero),
            &[csv_examples, csv_damaged],
        ),
        (
            "doubled quote refused",
            import(no_doubled_quote),
            &[csv_examples, csv_damaged],
        ),
        (
            "columns by their place",
            import(columns_by_place),
            &[csv_examples, csv_damaged],
        ),
        ("names in any case", import(any_case), &[csv_examples]),
        (
            "12 ahead of 18",
            import(full_ahead_of_row),
            &[csv_examples, csv_damaged],
        ),
        (
            "17 ahead of 16",
            import(twice_ahead_of_absent),
            &[csv_examples, csv_damaged],
        ),
        (
            "refused import stores",
            import(filled_when_refused),
            &[csv_examples, csv_damaged],
        ),
        (
            "slots past the rows cleared",
            import(slots_past_rows_cleared),
            &[csv_examples, csv_round_trip, csv_damaged],
        ),
        (
            "export with LF",
            export(export_lf),
            &[csv_examples, csv_round_trip],
        ),
        (
            "bytes past the export blanked",
            export(export_blanked),
            &[csv_round_trip],
        ),
        (
            "tally wraps",
            Mutant {
                tally: Some(wrapping_tally),
                ..Mutant::default()
            },
            &[tally_sums],
        ),
        (
            "program input with a byte left over",
            program(input_tail_ignored),
            &[layplan_pieces],
        ),
        (
            "prices refused ahead of the recorder",
            program(prices_first),
            &[layplan_pieces],
        ),
        (
            "bill a column too wide",
            program(wide_bill),
            &[example_layplan, layplan_pieces],
        ),
    ];
    list.extend(of_days());
    let listings = wrong_listings::ALL.iter();
    list.extend(listings.map(|&(name, list, detectors)| (name, listed(list), detectors)));
    list.into_iter()
        .map(|(name, mutant, detectors)| {
            let missed = detectors
                .iter()
                .filter(|group| groups::guarded(|| group(&mutant, CASES)).is_ok())
                .count();
            let outcome = if missed == 0 {
                Ok(())
            } else {
                Err(format!(
                    "{missed} of {} comparisons did not detect it",
                    detectors.len()
                ))
            };
            (format!("mutant: {name}"), outcome)
        })
        .collect()
}
