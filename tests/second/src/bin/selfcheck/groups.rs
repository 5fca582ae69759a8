//! Examples of the paper and random comparisons.

use crate::model::*;
use crate::random;
use crate::subject::*;
use second::planner::{layout_of_bits, longest_partition, most_partitions, permitted};
use second::random::Random;
use second::*;

pub type Outcome = Result<(), String>;

/// A panic counts as a failure, so that the run still ends with its totals.
pub fn guarded(test: impl FnOnce() -> Outcome) -> Outcome {
    std::panic::catch_unwind(std::panic::AssertUnwindSafe(test))
        .unwrap_or_else(|_| Err("panicked".into()))
}

#[macro_export]
macro_rules! require {
    ($yes:expr, $($text:tt)*) => {
        if !$yes {
            return Err(format!($($text)*));
        }
    };
}

/// The set of the main case: growers 10 to 80, B 2, one free slot.
pub fn main_set() -> Set {
    let mut set = Set {
        b: 2,
        m: 8,
        growers: (1..=8).map(|i| 10 * i).collect(),
        weights: vec![100; 8],
        yields: vec![2_000; 8],
        days: vec![0; 9],
    };
    set.growers.push(0);
    set.weights.push(0);
    set.yields.push(0);
    set
}

pub fn main_histograms(s: &dyn Subject) -> Result<Vec<u32>, String> {
    let set = main_set();
    let mut h = vec![0; HISTOGRAM_LEN];
    let d = Delivery::new(15, 100, 2_000);
    for call in [Call::Find(30); 5].iter().chain(&[Call::Insert(d)]) {
        require!(
            s.record(&set.view(), &mut h, call) == 0,
            "recorder refuses {call:?}"
        );
    }
    Ok(h)
}

pub fn main_column(s: &dyn Subject) -> Column {
    let set = main_set();
    let laid = s.apply(&set.view(), &[1, 3]);
    set.column(laid.directory.to_vec())
}

pub fn example_reads(s: &dyn Subject, _: u64) -> Outcome {
    let mut c = main_column(s);
    let cases = [
        (Call::Find(30), 1, Counts::new(1, 1, 0)),
        (Call::Find(99), 0, Counts::new(1, 1, 0)),
        (Call::Range(40, 50), 2, Counts::new(1, 3, 0)),
    ];
    for (call, records, counts) in cases {
        let a = s.call(&mut c, &call);
        let totals = Totals::new(records, 100 * records, 200_000 * records);
        require!(
            a == Answer {
                refusal: 0,
                totals,
                counts
            },
            "{call:?}: {a:?}"
        );
    }
    require!(c == main_column(s), "a read changed the column");
    Ok(())
}

pub fn example_writes(s: &dyn Subject, _: u64) -> Outcome {
    let d = |g| Delivery::new(g, 100, 2_000);
    let cases: [(Call, Counts, &[u32]); 5] = [
        (
            Call::Insert(d(15)),
            Counts::new(3, 0, 3),
            &[10, 20, 30, 40, 15, 60, 70, 80, 50],
        ),
        (
            Call::Delete(d(30)),
            Counts::new(3, 1, 3),
            &[10, 20, 40, 80, 50, 60, 70, 0, 0],
        ),
        (
            Call::Move(d(20), 70),
            Counts::new(3, 1, 3),
            &[10, 40, 30, 70, 50, 60, 70, 80, 0],
        ),
        (
            Call::Move(d(70), 20),
            Counts::new(3, 1, 3),
            &[10, 20, 30, 40, 20, 60, 50, 80, 0],
        ),
        (
            Call::Move(d(20), 25),
            Counts::new(2, 1, 2),
            &[10, 40, 30, 25, 50, 60, 70, 80, 0],
        ),
    ];
    for (call, counts, growers) in cases {
        let mut c = main_column(s);
        let a = s.call(&mut c, &call);
        require!(a.refusal == 0 && a.counts == counts, "{call:?}: {a:?}");
        require!(c.growers == growers, "{call:?}: {:?}", c.growers);
        let used = c.used();
        require!(
            c.weights[..used].iter().all(|&w| w == 100),
            "{call:?}: weights"
        );
        require!(
            c.yields[..used].iter().all(|&y| y == 2_000),
            "{call:?}: yields"
        );
    }
    Ok(())
}

pub fn example_plans(s: &dyn Subject, _: u64) -> Outcome {
    let set = main_set();
    let h = main_histograms(s)?;
    let card = PriceCard::FACTORY;
    let cases: [(u32, u32, u32, i64, &[u32]); 8] = [
        (100, 100, 0, 35, &[1, 3]),
        (100, 15, 0, 35, &[1, 3]),
        (100, 14, 0, 40, &[3]),
        (4, 100, 0, 35, &[1, 3]),
        (4, 20, 0, 35, &[1, 3]),
        (3, 100, 0, 40, &[0, 1, 2, 3]),
        (3, 20, 11, 0, &[]),
        (2, 100, 11, 0, &[]),
    ];
    for (read, insert, refusal, bill, ends) in cases {
        let limits = Limits::new(read, insert);
        let mut out = [9; 64];
        let a = s.plan(&card, &limits, &set.view(), &h, &mut out);
        let good = a
            == PlanAnswer {
                refusal,
                count: ends.len(),
                bill,
            };
        require!(
            good && out[..a.count] == *ends,
            "R {read} U {insert}: {a:?}"
        );
        require!(
            out[a.count..].iter().all(|&n| n == 9),
            "written past the ends"
        );
        let mut out = [9; 64];
        let b = plan_by_listing(&card, &limits, &set.view(), &h, &mut out);
        require!(
            b == Some(a) && out[..a.count] == *ends,
            "listing R {read} U {insert}: {b:?}"
        );
    }
    for (ends, bill) in [(&[0u32, 1, 3][..], 35), (&[3], 40), (&[1, 3], 35)] {
        let a = s.cost(&card, &set.view(), &h, ends);
        require!(
            a == CostAnswer { refusal: 0, bill },
            "cost of {ends:?}: {a:?}"
        );
    }
    Ok(())
}

fn main_input(read: u64, insert: u64) -> Vec<u8> {
    let mut lines = vec![vec![3, 1, 2], vec![read, insert], vec![2, 8, 6]];
    lines.extend((1..=8).map(|i| vec![10 * i, 100, 2_000]));
    lines.extend((0..5).map(|_| vec![1, 30, 0, 0, 0]));
    lines.push(vec![3, 15, 100, 2_000, 0]);
    text_of(&lines)
}

pub fn example_layplan(s: &dyn Subject, _: u64) -> Outcome {
    let whole = "          2                  35\n          0          1\n          2          3\n";
    let cases = [
        (100, 100, whole),
        (100, 15, whole),
        (100, 14, "          1                  40\n          0          3\n"),
        (4, 100, whole),
        (4, 20, whole),
        (
            3,
            100,
            "          4                  40\n          0          0\n          1          1\n          2          2\n          3          3\n",
        ),
        (3, 20, "         11\n"),
        (2, 100, "         11\n"),
    ];
    for (read, insert, expected) in cases {
        let out = s.layplan(&main_input(read, insert));
        require!(
            out == expected.as_bytes(),
            "R {read} U {insert}: {:?}",
            String::from_utf8_lossy(&out)
        );
    }
    Ok(())
}

/// A recorded list over a set; answers the accepted calls too.
pub fn recorded(s: &dyn Subject, r: &mut Random, set: &Set, most: usize) -> (Vec<u32>, Vec<Call>) {
    let held = set.records();
    let mut h = vec![0; HISTOGRAM_LEN];
    let mut accepted = Vec::new();
    for _ in 0..r.within(0, most) {
        let call = random::call(r, &held);
        if s.record(&set.view(), &mut h, &call) == 0 {
            accepted.push(call);
        }
    }
    (h, accepted)
}

/// Listing and table agree in refusal, ends and bill.
fn same_plan(
    s: &dyn Subject,
    card: &PriceCard,
    limits: &Limits,
    set: &Set,
    h: &[u32],
    room: usize,
) -> Outcome {
    let (mut one, mut two) = (vec![77; room], vec![77; room]);
    let a = plan_by_listing(card, limits, &set.view(), h, &mut one).ok_or("too many blocks")?;
    let b = s.plan(card, limits, &set.view(), h, &mut two);
    require!(
        a == b && one == two,
        "listing {a:?} {:?}, table {b:?} {:?}, {card:?} {limits:?} {set:?}",
        &one[..a.count],
        &two[..b.count.min(room)]
    );
    Ok(())
}

pub fn planner_recorded(s: &dyn Subject, cases: u64) -> Outcome {
    let r = &mut Random::new(1);
    for _ in 0..cases {
        let set = random::set(r, 12, 1);
        let (h, _) = recorded(s, r, &set, 20);
        let card = random::card(r);
        let limits = random::limits(r, &card, set.view().blocks());
        let room = if r.one_in(8) { r.below(4) } else { 64 };
        same_plan(s, &card, &limits, &set, &h, room)?;
    }
    Ok(())
}

pub fn planner_raw(s: &dyn Subject, cases: u64) -> Outcome {
    let r = &mut Random::new(2);
    let mut negative = 0;
    for _ in 0..cases {
        let set = random::set(r, 12, 1);
        let h = random::raw_histograms(r);
        let card = random::card(r);
        let limits = random::limits(r, &card, set.view().blocks());
        same_plan(s, &card, &limits, &set, &h, 64)?;
        let mut out = [0; 64];
        if s.plan(&card, &limits, &set.view(), &h, &mut out).bill < 0 {
            negative += 1;
        }
    }
    require!(negative > 0 || cases < 500, "no negative bill was met");
    Ok(())
}

/// Up to 64 blocks: the bill is that of the ends, the ends are permitted,
/// and no random permitted layout is ahead of them.
pub fn planner_large(s: &dyn Subject, cases: u64) -> Outcome {
    let r = &mut Random::new(3);
    for _ in 0..cases {
        let set = random::set(r, 64, 1);
        let view = set.view();
        let h = if r.one_in(2) {
            random::raw_histograms(r)
        } else {
            recorded(s, r, &set, 60).0
        };
        let card = random::card(r);
        let limits = random::limits(r, &card, view.blocks());
        let mut out = [0; 64];
        let plan = s.plan(&card, &limits, &view, &h, &mut out);
        require!(
            plan.refusal == 0 || plan.refusal == 11,
            "planner refuses: {plan:?}"
        );
        let ends = &out[..plan.count];
        if plan.refusal == 0 {
            let bill = s.cost(&card, &view, &h, ends);
            require!(
                bill == CostAnswer {
                    refusal: 0,
                    bill: plan.bill
                },
                "bill {plan:?} {bill:?}"
            );
            require!(
                permitted(&card, &limits, &view, ends),
                "not permitted {ends:?}"
            );
            require!(
                ends.len() <= most_partitions(&card, &limits),
                "too many partitions"
            );
            let first = ends[0] as usize + 1;
            require!(
                first <= longest_partition(&card, &limits),
                "partition too long"
            );
        }
        for _ in 0..30 {
            let other = random::layout(r, &set);
            if !permitted(&card, &limits, &view, &other) {
                continue;
            }
            require!(plan.refusal == 0, "11 although {other:?} is permitted");
            let bill = s.cost(&card, &view, &h, &other).bill;
            require!(
                (plan.bill, ends.len(), ends) <= (bill, other.len(), &other[..]),
                "{other:?} is ahead of {ends:?}"
            );
        }
    }
    Ok(())
}

/// The recorder against the rules read one by one; a list of calls on the
/// same histograms.
pub fn recorder_model(s: &dyn Subject, cases: u64) -> Outcome {
    let r = &mut Random::new(4);
    for _ in 0..cases {
        let set = random::set(r, 64, 1);
        let held = set.records();
        let start = if r.one_in(4) { 999_998 } else { 0 };
        let mut h = vec![start; HISTOGRAM_LEN];
        for _ in 0..r.within(1, 15) {
            let call = random::call(r, &held);
            let mut expected = h.clone();
            let refusal = match call {
                Call::Range(lo, hi) | Call::RangeDays(lo, hi, _) if lo > hi => 7,
                Call::Insert(d) | Call::Delete(d) | Call::Move(d, _) if !d.in_range() => 8,
                Call::Insert(d) | Call::Delete(d) | Call::Move(d, _) if d.day > 36_524 => 19,
                Call::RangeDays(_, _, span) if span.first.max(span.last) > 36_524 => 19,
                _ => {
                    let up = raised(&set, &call);
                    if up.iter().any(|&(n, b)| h[named(n, b)] >= 1_000_000) {
                        10
                    } else {
                        up.iter().for_each(|&(n, b)| expected[named(n, b)] += 1);
                        0
                    }
                }
            };
            let got = s.record(&set.view(), &mut h, &call);
            require!(
                got == refusal && h == expected,
                "{call:?}: {got}, not {refusal}; {set:?}"
            );
        }
    }
    Ok(())
}

/// The cost against 002's equations 16 and 17.
pub fn cost_equation(s: &dyn Subject, cases: u64) -> Outcome {
    let r = &mut Random::new(5);
    for _ in 0..cases {
        let set = random::set(r, 24, 0);
        let h = if r.one_in(2) {
            random::raw_histograms(r)
        } else {
            recorded(s, r, &set, 30).0
        };
        let card = random::card(r);
        let ends = random::layout(r, &set);
        let expected = equation_cost(&card, set.view().blocks(), &h, &ends);
        let a = s.cost(&card, &set.view(), &h, &ends);
        require!(
            a.refusal == 0 && i128::from(a.bill) == expected,
            "{a:?}, not {expected}; {ends:?}"
        );
    }
    Ok(())
}

/// For every layout of a small set the bill is the sum of priced reports of
/// the accepted calls, each made alone on the freshly laid column; the limits
/// are met where no find and no insert there costs more; and the planner returns
/// the cheapest permitted layout by these sums.
pub fn cost_reports(s: &dyn Subject, cases: u64) -> Outcome {
    let r = &mut Random::new(6);
    for _ in 0..cases {
        let free = r.within(1, 2);
        let set = random::set(r, 7, free);
        let view = set.view();
        let n = view.blocks();
        let (h, calls) = recorded(s, r, &set, 12);
        let card = random::card(r);
        let limits = random::limits(r, &card, n);
        let mut best: Option<(i128, usize, Vec<u32>)> = None;
        for inner in 0..1u32 << (n - 1) {
            let ends = layout_of_bits(inner, n);
            let parts_equal = (0..n - 1).any(|i| {
                inner >> i & 1 == 1 && view.last_grower(i) == set.growers[(i + 1) * set.b as usize]
            });
            let laid = s.apply(&view, &ends);
            let bill = s.cost(&card, &view, &h, &ends);
            if parts_equal {
                require!(
                    laid.refusal == 6 && bill.refusal == 6,
                    "{ends:?} parts equal growers"
                );
                continue;
            }
            require!(
                laid.refusal == 0 && bill.refusal == 0,
                "{ends:?} is refused"
            );
            let fresh = set.column(laid.directory.to_vec());
            let mut sum = 0;
            for call in &calls {
                let mut c = fresh.clone();
                let a = s.call(&mut c, call);
                require!(a.refusal == 0 || a.refusal == 13, "{call:?}: {a:?}");
                sum += card.priced(&a.counts);
            }
            require!(
                i128::from(bill.bill) == sum,
                "bill {} but reports {sum}; {ends:?} {calls:?} {set:?}",
                bill.bill
            );
            let longest = ends
                .iter()
                .scan(-1i64, |before, &e| {
                    let length = i64::from(e) - *before;
                    *before = i64::from(e);
                    Some(length)
                })
                .max()
                .unwrap_or(0);
            // Both limits by the papers' sentences.
            let most = i64::from(limits.insert / (card.rr + card.rw)) - 1;
            let fits = ends.len() as i64 <= most
                && limits.read >= card.rr
                && longest <= i64::from((limits.read - card.rr) / card.sr) + 1;
            // And by what they mean: no find and no insert costs more.
            let price = |call: &Call| card.priced(&s.call(&mut fresh.clone(), call).counts);
            let mut growers = set.growers[..view.m].iter().chain(&[0, u32::MAX]);
            let within = growers.all(|&g| {
                price(&Call::Find(g)) <= i128::from(limits.read)
                    && price(&Call::Insert(Delivery::new(g, 0, 0))) <= i128::from(limits.insert)
            });
            require!(
                fits == within,
                "{ends:?} fits: {fits}, by its calls: {within}; {card:?} {limits:?} {set:?}"
            );
            if fits {
                let key = (sum, ends.len(), ends);
                if best.as_ref().is_none_or(|held| key < *held) {
                    best = Some(key);
                }
            }
        }
        let mut out = [0; 64];
        let plan = s.plan(&card, &limits, &view, &h, &mut out);
        match best {
            None => require!(plan.refusal == 11, "no layout is permitted: {plan:?}"),
            Some((sum, k, ends)) => require!(
                plan.refusal == 0
                    && i128::from(plan.bill) == sum
                    && plan.count == k
                    && out[..k] == ends,
                "planner {plan:?}, cheapest {ends:?} at {sum}"
            ),
        }
    }
    Ok(())
}

/// Column against ledger after every call: refusal, totals, bag, soundness;
/// refusals change nothing.
fn follow_ledger(s: &dyn Subject, r: &mut Random, mut c: Column, calls: usize) -> Outcome {
    let mut ledger = Ledger::holding(c.growers.len(), c.records());
    require!(c.is_sound(), "not sound at the start");
    for _ in 0..calls {
        let call = random::call(r, ledger.records());
        let before = c.clone();
        let a = s.call(&mut c, &call);
        let (refusal, totals) = ledger_call(&mut ledger, &call);
        require!(
            (a.refusal, a.totals) == (refusal, totals),
            "{call:?}: column {a:?}, ledger {refusal} {totals:?}; {before:?}"
        );
        if a.refusal != 0 {
            require!(c == before, "{call:?}: refused, but the column changed");
        }
        let lengths: u64 = c.directory[LENGTHS..FENCES]
            .iter()
            .map(|&n| u64::from(n))
            .sum();
        require!(
            lengths <= c.growers.len() as u64,
            "{call:?}: lengths past C"
        );
        let mut bag = c.records();
        bag.sort_unstable();
        require!(
            bag == ledger.sorted(),
            "{call:?}: bags differ; {before:?} {c:?}"
        );
        require!(c.is_sound(), "{call:?}: no longer sound; {before:?} {c:?}");
    }
    Ok(())
}

pub fn column_ledger(s: &dyn Subject, cases: u64) -> Outcome {
    let r = &mut Random::new(7);
    for _ in 0..cases {
        let c = random::column(r);
        follow_ledger(s, r, c, 25)?;
    }
    Ok(())
}

pub fn laid_ledger(s: &dyn Subject, cases: u64) -> Outcome {
    let r = &mut Random::new(8);
    for _ in 0..cases {
        let c = random::laid_column(r);
        follow_ledger(s, r, c, 25)?;
    }
    Ok(())
}

/// Column against the list model: answer with counts, every slot, the
/// directory. Unsound columns and bad values too.
pub fn column_slots(s: &dyn Subject, cases: u64) -> Outcome {
    let r = &mut Random::new(9);
    for _ in 0..cases {
        let mut c = if r.one_in(3) {
            random::laid_column(r)
        } else {
            random::column(r)
        };
        let used = c.used();
        if used > 0 && r.one_in(4) {
            let at = r.below(used);
            c.growers[at] = random::grower(r, 20);
        }
        if used > 0 && r.one_in(8) {
            let at = r.below(used);
            if r.one_in(2) {
                c.weights[at] = 100_001;
            } else {
                c.yields[at] = u32::MAX;
            }
        }
        if used > 0 && r.one_in(8) {
            let at = r.below(used);
            c.days[at] = 36_525;
        }
        let mut model = SlotModel::new(&c);
        for _ in 0..25 {
            let call = random::call(r, &c.records());
            let before = c.clone();
            let a = s.call(&mut c, &call);
            let expected = model.call(&call);
            require!(
                a == expected,
                "{call:?}: {a:?}, not {expected:?}; {before:?}"
            );
            let shown = model.column();
            require!(
                c == shown,
                "{call:?}: {c:?}, not {shown:?}; before {before:?}"
            );
        }
    }
    Ok(())
}

/// Chosen columns at the edges of shape and size.
pub fn column_edges(s: &dyn Subject, cases: u64) -> Outcome {
    let r = &mut Random::new(10);
    let d = |g| Delivery::new(g, 100, 2_000);
    let empty = |k: usize, c: usize, fence: &dyn Fn(usize) -> u32| {
        let mut directory = vec![0; DIRECTORY_LEN];
        directory[0] = 1;
        directory[1] = k as u32;
        for p in 0..k {
            directory[FENCES + p] = fence(p);
        }
        Column {
            growers: vec![0; c],
            weights: vec![0; c],
            yields: vec![0; c],
            days: vec![0; c],
            directory,
        }
    };
    // All partitions empty, then filled to the last slot, then emptied.
    for k in [1, 2, 63, 64] {
        for b in [1, 3, 4_096] {
            let mut c = empty(k, 130, &|p| 10 * p as u32);
            c.directory[0] = b;
            let a = s.call(&mut c, &Call::Range(0, u32::MAX));
            require!(
                a.refusal == 0 && a.counts == Counts::ZERO,
                "empty range: {a:?}"
            );
            for call in [Call::Delete(d(0)), Call::Move(d(0), 10)] {
                let a = s.call(&mut c, &call);
                require!(
                    a.refusal == 13 && a.counts == Counts::ZERO,
                    "{call:?}: {a:?}"
                );
            }
            let mut model = SlotModel::new(&c);
            for i in 0..131u32 {
                let call = Call::Insert(d(i * 7 % (10 * k as u32 + 5)));
                let (a, e) = (s.call(&mut c, &call), model.call(&call));
                require!(a == e && c == model.column(), "{call:?}: {a:?}, not {e:?}");
                require!((a.refusal == 12) == (i == 130), "{call:?}: {a:?}");
            }
            for i in 0..131u32 {
                let call = Call::Delete(d(i * 7 % (10 * k as u32 + 5)));
                let (a, e) = (s.call(&mut c, &call), model.call(&call));
                require!(a == e && c == model.column(), "{call:?}: {a:?}, not {e:?}");
            }
            require!(
                c == {
                    let mut e = empty(k, 130, &|p| 10 * p as u32);
                    e.directory[0] = b;
                    e
                },
                "not emptied"
            );
        }
    }
    // Growers 0 and the largest; fences past every grower; one slot.
    for fences in [[0, u32::MAX], [u32::MAX - 1, u32::MAX], [0, 1]] {
        for _ in 0..cases.max(20) {
            let slots = r.within(1, 4);
            let c = empty(2, slots, &|p| fences[p]);
            follow_ledger(s, r, c, 30)?;
        }
    }
    // Sixty-four partitions with few records: long runs of empty ones.
    for _ in 0..cases.max(20) {
        let mut c = empty(64, 12, &|p| 10 * p as u32 + 9);
        for _ in 0..r.within(2, 11) {
            let g = r.pick(&[5, 5, 300, 305, 639, 9_999]);
            let a = s.call(
                &mut c,
                &Call::Insert(
                    Delivery::new(g, random::weight(r), random::oil_yield(r)).on(random::day(r)),
                ),
            );
            require!(a.refusal == 0, "insert: {a:?}");
        }
        let mut model = SlotModel::new(&c);
        for _ in 0..30 {
            let call = random::call(r, &c.records());
            let (a, e) = (s.call(&mut c, &call), model.call(&call));
            require!(a == e && c == model.column(), "{call:?}: {a:?}, not {e:?}");
        }
        let mut ledger_start = c.clone();
        ledger_start.directory[0] = 2;
        follow_ledger(s, r, ledger_start, 30)?;
    }
    Ok(())
}

/// The largest set: 262,144 slots in 64 blocks of 4,096.
pub fn column_largest(s: &dyn Subject, _: u64) -> Outcome {
    let m = SLOT_LIMIT;
    let set = Set {
        b: 4_096,
        m,
        growers: (0..m as u32).collect(),
        weights: vec![100_000; m],
        yields: vec![10_000; m],
        days: vec![36_524; m],
    };
    let ends: Vec<u32> = (0..64).collect();
    let laid = s.apply(&set.view(), &ends);
    require!(laid.refusal == 0, "laying: {}", laid.refusal);
    let mut c = set.column(laid.directory.to_vec());
    let a = s.call(&mut c, &Call::Range(0, u32::MAX));
    let n = m as u64;
    require!(
        a.totals == Totals::new(n, n * 100_000, n * 1_000_000_000),
        "range: {a:?}"
    );
    require!(a.counts == Counts::new(1, 63, 0), "range: {a:?}");
    let of = |g: u32| Delivery::new(g, 100_000, 10_000).on(36_524);
    let d = of(5);
    let a = s.call(&mut c, &Call::Insert(d));
    require!(a.refusal == 12, "insert: {a:?}");
    let mut model = SlotModel::new(&c);
    for call in [
        Call::Delete(d),
        Call::Move(of(200_000), 7),
        Call::Move(of(9), u32::MAX),
        Call::Insert(d),
        Call::Insert(d),
    ] {
        let (a, e) = (s.call(&mut c, &call), model.call(&call));
        require!(a == e, "{call:?}: {a:?}, not {e:?}");
    }
    require!(c == model.column(), "slots differ");
    let c = c.undated();
    let mut text = vec![b'#'; snapshot_size(m, 64) + 3];
    let w = s.snapshot_write(&c, &mut text);
    require!(
        w.refusal == 0 && w.written == snapshot_size(m, 64),
        "write: {w:?}"
    );
    require!(text.ends_with(b"\n###"), "bytes past the text changed");
    let mut back = c.clone();
    back.growers.fill(1);
    back.weights.fill(1);
    back.yields.fill(1);
    back.days.fill(1);
    text.truncate(w.written);
    let read = s.snapshot_read(&text, &mut back);
    back.directory = read.directory.to_vec();
    require!(read.refusal == 0 && back == c, "read: {}", read.refusal);
    Ok(())
}

/// Write then read gives the same column, read then write the same bytes.
pub fn snapshot_round_trip(s: &dyn Subject, cases: u64) -> Outcome {
    let r = &mut Random::new(11);
    for _ in 0..cases {
        let mut c = if r.one_in(3) {
            random::laid_column(r)
        } else {
            random::column(r)
        };
        for _ in 0..r.below(6) {
            let call = random::call(r, &c.records());
            s.call(&mut c, &call);
        }
        let c = c.undated();
        let expected = snapshot_text(&c);
        let spare = r.below(3);
        let mut text = vec![b'#'; expected.len() + spare];
        let before = c.clone();
        let w = s.snapshot_write(&c, &mut text);
        require!(
            w == TextAnswer {
                refusal: 0,
                written: expected.len()
            },
            "write: {w:?} {c:?}"
        );
        require!(c == before, "writing changed the column");
        require!(text[..w.written] == expected, "text differs");
        require!(
            text[w.written..].iter().all(|&x| x == b'#'),
            "bytes past the text changed"
        );
        // Another number of slots, with contents of its own.
        let slots = c.used().max(1) + r.below(3);
        let mut back = Column {
            growers: vec![7; slots],
            weights: vec![8; slots],
            yields: vec![9; slots],
            days: vec![6; slots],
            directory: Vec::new(),
        };
        let a = s.snapshot_read(&expected, &mut back);
        back.directory = a.directory.to_vec();
        require!(
            a.refusal == 0 && back.directory == c.directory,
            "read: {}",
            a.refusal
        );
        require!(back.records() == c.records(), "records differ");
        for at in c.used()..slots {
            require!(
                back.slot(at) == Delivery::new(7, 8, 9).on(6),
                "a later slot changed"
            );
        }
        let mut again = vec![0; expected.len()];
        let w = s.snapshot_write(&back, &mut again);
        require!(w.refusal == 0 && again == expected, "second text differs");
    }
    Ok(())
}

/// Refusal that reading a text into `slots` slots must give.
pub fn expected_read(text: &[u8], slots: usize) -> u32 {
    let head = text.get(..34).and_then(|h| lines_of(h, &|_, _| Some(3)));
    let Some(head) = head.filter(|h| h.len() == 1) else {
        return 14;
    };
    let (b, m, k) = (head[0][0], head[0][1], head[0][2]);
    if !(1..=4_096).contains(&b) || m > 262_144 || !(1..=64).contains(&k) {
        return 14;
    }
    if m > slots as u64 {
        return 12;
    }
    let fields = |i: usize, _: &[Vec<u64>]| Some(if i >= 1 && i <= k as usize { 2 } else { 3 });
    let Some(lines) = lines_of(text, &fields) else {
        return 14;
    };
    if lines.len() as u64 != 1 + k + m {
        return 14;
    }
    let parts = &lines[1..=k as usize];
    let records = &lines[1 + k as usize..];
    let top = u64::from(u32::MAX);
    if parts.iter().any(|p| p[1] > top)
        || records
            .iter()
            .any(|d| d[0] > top || d[1] > 100_000 || d[2] > 10_000)
        || parts.windows(2).any(|w| w[0][1] >= w[1][1])
        || parts.iter().map(|p| p[0]).sum::<u64>() != m
    {
        return 14;
    }
    let mut at = 0;
    for (p, part) in parts.iter().enumerate() {
        for d in &records[at..at + part[0] as usize] {
            let own = parts
                .iter()
                .position(|q| q[1] >= d[0])
                .unwrap_or(parts.len() - 1);
            if own != p {
                return 14;
            }
        }
        at += part[0] as usize;
    }
    0
}

/// One random damage to a text of numbers.
pub fn damage(r: &mut Random, text: &mut Vec<u8>) {
    if text.is_empty() {
        text.push(b'0');
        return;
    }
    // Damage to the first lines is as likely as to all the rest.
    let reach = if r.one_in(2) {
        text.len()
    } else {
        text.len().min(80)
    };
    let at = r.below(reach);
    match r.below(10) {
        0 => text[at] = r.next() as u8,
        1 => {
            text.remove(at);
        }
        2 => text.insert(at, r.pick(b" 0123456789\n\r-+#")),
        3 => text.truncate(at),
        4 => text.push(r.pick(b" 0\n#")),
        5 => text.swap(at, reach - 1),
        _ => {
            // A digit or space in place of another, most often still a number.
            let digits: Vec<usize> = (0..reach).filter(|&i| text[i].is_ascii_digit()).collect();
            if let Some(&i) = digits.get(r.below(digits.len().max(1))) {
                match r.below(4) {
                    0 => text[i] = b' ',
                    1 if i > 0 => text[i - 1] = r.pick(b"0123456789"),
                    _ => text[i] = r.pick(b"0123456789"),
                }
            }
        }
    }
}

pub fn snapshot_damaged(s: &dyn Subject, cases: u64) -> Outcome {
    let r = &mut Random::new(12);
    let mut met = [0u32; 16];
    for _ in 0..cases {
        let c = if r.one_in(3) {
            random::laid_column(r)
        } else {
            random::column(r)
        };
        let mut text = snapshot_text(&c);
        for _ in 0..r.within(1, 2) {
            damage(r, &mut text);
        }
        let slots = (c.used() + r.below(4)).saturating_sub(1).max(1);
        let mut back = Column {
            growers: vec![7; slots],
            weights: vec![8; slots],
            yields: vec![9; slots],
            days: vec![6; slots],
            directory: Vec::new(),
        };
        let before = back.clone();
        let expected = expected_read(&text, slots);
        let a = s.snapshot_read(&text, &mut back);
        let shown = String::from_utf8_lossy(&text);
        require!(
            a.refusal == expected,
            "{}, not {expected}: {shown:?}",
            a.refusal
        );
        met[expected as usize] += 1;
        if a.refusal != 0 {
            require!(back == before, "refused, but slots changed");
            require!(
                a.directory == [0; DIRECTORY_LEN],
                "refused, but a directory"
            );
        } else {
            back.directory = a.directory.to_vec();
            let mut again = vec![0; text.len()];
            let w = s.snapshot_write(&back, &mut again);
            require!(
                w.refusal == 0 && again == text,
                "accepted, but another text: {shown:?}"
            );
        }
    }
    let every = met[0] > 0 && met[12] > 0 && met[14] > 0;
    require!(every || cases < 500, "not every outcome was met: {met:?}");
    Ok(())
}

/// The output that the pieces give for an input text.
fn expected_layplan(s: &dyn Subject, text: &[u8]) -> Vec<u8> {
    let refuse = |n: u32| text_of(&[vec![u64::from(n)]]);
    let fields = |i: usize, lines: &[Vec<u64>]| match i {
        0 | 2 => Some(3),
        1 => Some(2),
        _ => {
            let (m, q) = (lines[2][1], lines[2][2]);
            if !(1..=1_024).contains(&m) || q > 1_000 {
                None
            } else if (i as u64) < 3 + m {
                Some(3)
            } else if (i as u64) < 3 + m + q {
                Some(5)
            } else {
                None
            }
        }
    };
    let Some(lines) = lines_of(text, &fields) else {
        return refuse(14);
    };
    if lines.len() < 3
        || lines.len() as u64 != 3 + lines[2][1] + lines[2][2]
        || !(1..=1_024).contains(&lines[2][1])
        || lines.iter().flatten().any(|&n| n > u64::from(u32::MAX))
    {
        return refuse(14);
    }
    let num = |n: u64| n as u32;
    let m = lines[2][1] as usize;
    let mut set = Set {
        b: num(lines[2][0]),
        m,
        growers: vec![],
        weights: vec![],
        yields: vec![],
        days: vec![0; m + 1],
    };
    for d in &lines[3..3 + m] {
        set.growers.push(num(d[0]));
        set.weights.push(num(d[1]));
        set.yields.push(num(d[2]));
    }
    set.growers.push(0);
    set.weights.push(0);
    set.yields.push(0);
    let mut calls = Vec::new();
    for c in &lines[3 + m..] {
        let d = Delivery::new(num(c[1]), num(c[2]), num(c[3]));
        calls.push(match c[..] {
            [1, g, 0, 0, 0] => Call::Find(num(g)),
            [2, lo, hi, 0, 0] => Call::Range(num(lo), num(hi)),
            [3, _, _, _, 0] => Call::Insert(d),
            [4, _, _, _, 0] => Call::Delete(d),
            [5, _, _, _, g] => Call::Move(d, num(g)),
            _ => return refuse(14),
        });
    }
    let mut h = vec![0; HISTOGRAM_LEN];
    for call in &calls {
        let n = s.record(&set.view(), &mut h, call);
        if n != 0 {
            return refuse(n);
        }
    }
    let card = PriceCard::new(num(lines[0][0]), num(lines[0][1]), num(lines[0][2]));
    let limits = Limits::new(num(lines[1][0]), num(lines[1][1]));
    let mut out = [0; 64];
    let plan = s.plan(&card, &limits, &set.view(), &h, &mut out);
    if plan.refusal != 0 {
        return refuse(plan.refusal);
    }
    let mut shown = format!("{:>11}{:>20}\n", plan.count, plan.bill);
    let mut first = 0;
    for end in &out[..plan.count] {
        shown.push_str(&format!("{first:>11}{end:>11}\n"));
        first = end + 1;
    }
    shown.into_bytes()
}

/// Lines of a random program input; a few values are out of range.
fn random_input(r: &mut Random) -> Vec<Vec<u64>> {
    let set = random::set(r, 10, 0);
    let card = random::card(r);
    let limits = random::limits(r, &card, set.view().blocks());
    let wide = |n: u32| u64::from(n);
    let q = r.below(8);
    let mut lines = vec![
        vec![wide(card.rr), wide(card.sr), wide(card.rw)],
        vec![wide(limits.read), wide(limits.insert)],
        vec![wide(set.b), set.m as u64, q as u64],
    ];
    let held = set.records();
    for d in &held {
        lines.push(vec![wide(d.grower), wide(d.weight), wide(d.oil_yield)]);
    }
    for _ in 0..q {
        lines.push(match random::call(r, &held) {
            Call::Find(g) => vec![1, wide(g), 0, 0, 0],
            Call::Range(lo, hi) | Call::RangeDays(lo, hi, _) => vec![2, wide(lo), wide(hi), 0, 0],
            Call::Insert(d) => vec![3, wide(d.grower), wide(d.weight), wide(d.oil_yield), 0],
            Call::Delete(d) => vec![4, wide(d.grower), wide(d.weight), wide(d.oil_yield), 0],
            Call::Move(d, g) => {
                vec![
                    5,
                    wide(d.grower),
                    wide(d.weight),
                    wide(d.oil_yield),
                    wide(g),
                ]
            }
        });
    }
    if r.one_in(3) {
        let line = if r.one_in(2) {
            r.below(3)
        } else {
            r.below(lines.len())
        };
        let field = r.below(lines[line].len());
        lines[line][field] = r.pick(&[
            0,
            1,
            6,
            1_001,
            4_097,
            1_000_001,
            u32::MAX as u64,
            u32::MAX as u64 + 1,
        ]);
    }
    lines
}

pub fn layplan_pieces(s: &dyn Subject, cases: u64) -> Outcome {
    let r = &mut Random::new(13);
    let mut plans = 0;
    for _ in 0..cases {
        let mut text = text_of(&random_input(r));
        if r.one_in(2) {
            damage(r, &mut text);
        }
        let (got, expected) = (s.layplan(&text), expected_layplan(s, &text));
        require!(
            got == expected,
            "{:?}, not {:?}: {:?}",
            String::from_utf8_lossy(&got),
            String::from_utf8_lossy(&expected),
            String::from_utf8_lossy(&text)
        );
        plans += u32::from(got.len() > 12);
    }
    require!(plans > 0 || cases < 500, "no plan was printed");
    Ok(())
}

/// The span and the slice of a grower's partition.
pub fn partition_slices(_: &dyn Subject, cases: u64) -> Outcome {
    let r = &mut Random::new(14);
    for _ in 0..cases {
        let c = if r.one_in(3) {
            random::laid_column(r)
        } else {
            random::column(r)
        };
        for _ in 0..5 {
            let g = random::grower(r, 40);
            let p = c.partition_of(g);
            let start: usize = c.lengths()[..p].iter().sum();
            let count = c.lengths()[p];
            let span = partition_span(&c.growers, &c.directory, g);
            require!(
                span == SpanAnswer {
                    refusal: 0,
                    start,
                    count
                },
                "{g}: {span:?}"
            );
            let mut refusal = 99;
            let part = partition_slice(&c.growers, &c.directory, g, &mut refusal);
            require!(
                refusal == 0 && *part == c.growers[start..start + count],
                "{g}: {part:?}"
            );
        }
    }
    Ok(())
}

pub fn tally_sums(s: &dyn Subject, cases: u64) -> Outcome {
    let r = &mut Random::new(15);
    let top = 1_000_000_000_000u64;
    let number = |r: &mut Random| {
        let n = r.below(5) as u64;
        r.pick(&[n, n, top / 2, top - n, top, top + 1, u64::MAX - n, u64::MAX])
    };
    require!(
        Tally::new()
            == Tally {
                rr: 0,
                sr: 0,
                rw: 0
            },
        "a tally begins at zero"
    );
    let card = PriceCard::FACTORY;
    require!((card.rr, card.sr, card.rw) == (3, 1, 2), "factory card");
    for _ in 0..cases {
        let mut t = Tally {
            rr: number(r),
            sr: number(r),
            rw: number(r),
        };
        let c = Counts {
            rr: number(r),
            sr: number(r),
            rw: number(r),
        };
        let before = t;
        let sum = |a: u64, b: u64| a as u128 + b as u128;
        let sums = [sum(t.rr, c.rr), sum(t.sr, c.sr), sum(t.rw, c.rw)];
        let fits = sums.iter().all(|&n| n <= top as u128);
        let a = s.tally_add(&mut t, &c);
        require!(a == if fits { 0 } else { 10 }, "{before:?} + {c:?}: {a}");
        let after = [t.rr as u128, t.sr as u128, t.rw as u128];
        require!(
            if fits { after == sums } else { t == before },
            "{before:?} + {c:?}: {t:?}"
        );
    }
    Ok(())
}
