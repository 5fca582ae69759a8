//! Every check of every call, alone and in pairs: of two faults the one asked
//! first answers. A refusal changes no slice and answers zeros.

use crate::groups::{guarded, Outcome};
use crate::model::{snapshot_text, text_of};
use crate::require;
use crate::subject::{
    library_call, library_record, library_sheet, library_step, library_term_sheet, step_refused,
    Call, Column, Room, Set, Step,
};
use second::recorder::{count_index, DE, IN, PQ, RE, RS, SC, UDB, UDF, UTB, UTF};
use second::*;
use std::ops::Range;

/// A fault: position in the call's order of checks, number, name, change.
struct Fault<I> {
    place: usize,
    number: u32,
    name: String,
    change: Box<dyn Fn(&mut I)>,
}

fn fault<I>(place: usize, number: u32, name: &str, change: impl Fn(&mut I) + 'static) -> Fault<I> {
    Fault {
        place,
        number,
        name: name.into(),
        change: Box::new(change),
    }
}

/// The base is accepted, each fault gives its number, of two faults the one
/// with the lower place answers. The later fault is put in first, so that
/// the earlier one is never overwritten.
fn alone_and_in_pairs<I: Clone>(
    base: &I,
    faults: &[Fault<I>],
    call: &dyn Fn(&I) -> Result<u32, String>,
) -> Outcome {
    let got = call(base)?;
    require!(got == 0, "base is refused by {got}");
    for f in faults {
        let mut input = base.clone();
        (f.change)(&mut input);
        let got = call(&input)?;
        require!(got == f.number, "{}: {got}, not {}", f.name, f.number);
        for g in faults.iter().filter(|g| g.place > f.place) {
            let mut input = base.clone();
            (g.change)(&mut input);
            (f.change)(&mut input);
            let got = call(&input)?;
            require!(
                got == f.number,
                "{} with {}: {got}, not {}",
                f.name,
                g.name,
                f.number
            );
        }
    }
    Ok(())
}

/// Sets an element if there is one.
fn put(v: &mut [u32], at: usize, n: u32) {
    if let Some(x) = v.get_mut(at) {
        *x = n;
    }
}

/// Input of the calls on an unlaid set.
#[derive(Clone)]
struct Work {
    card: PriceCard,
    limits: Limits,
    set: Set,
    histograms: Vec<u32>,
    ends: Vec<u32>,
    lo: u32,
    hi: u32,
    span: Span,
    d: Delivery,
    new_grower: u32,
    room: usize,
}

/// Eight blocks of one record; blocks 4 and 5 hold equal growers. The slots
/// past M hold values that no check concerns.
fn work() -> Work {
    let mut growers = vec![10, 20, 30, 40, 50, 50, 60, 70];
    let mut weights = vec![100_000; 8];
    let mut yields = vec![10_000; 8];
    growers.resize(70, 0);
    weights.resize(70, u32::MAX);
    yields.resize(70, u32::MAX);
    let mut days = vec![36_524; 8];
    days.resize(70, u32::MAX);
    Work {
        card: PriceCard::FACTORY,
        limits: Limits::new(7, 100),
        set: Set {
            b: 1,
            m: 8,
            growers,
            weights,
            yields,
            days,
        },
        histograms: vec![0; HISTOGRAM_LEN],
        ends: vec![3, 7],
        lo: 20,
        hi: 60,
        span: Span::new(0, 36_524),
        d: Delivery::new(30, 100_000, 10_000).on(36_524),
        new_grower: 60,
        room: 2,
    }
}

fn price_faults(place: usize) -> Vec<Fault<Work>> {
    vec![
        fault(place, 1, "RR 0", |w: &mut Work| w.card.rr = 0),
        fault(place, 1, "SR 0", |w: &mut Work| w.card.sr = 0),
        fault(place, 1, "RW 0", |w: &mut Work| w.card.rw = 0),
        fault(place, 1, "RR 1001", |w: &mut Work| w.card.rr = 1_001),
        fault(place, 1, "SR 1001", |w: &mut Work| w.card.sr = 1_001),
        fault(place, 1, "RW largest", |w: &mut Work| w.card.rw = u32::MAX),
    ]
}

fn limit_faults(place: usize) -> Vec<Fault<Work>> {
    vec![
        fault(place, 1, "R 1000001", |w: &mut Work| {
            w.limits.read = 1_000_001
        }),
        fault(place, 1, "U largest", |w: &mut Work| {
            w.limits.insert = u32::MAX
        }),
    ]
}

/// Checks 2 3 4 5, which every call on an unlaid set puts.
fn set_faults(place: usize) -> Vec<Fault<Work>> {
    let mut all = Vec::new();
    for b in [0, 4_097, u32::MAX] {
        all.push(fault(place, 2, &format!("B {b}"), move |w: &mut Work| {
            w.set.b = b
        }));
    }
    let p = place + 1;
    all.push(fault(p, 3, "short weights", |w: &mut Work| {
        w.set.weights.pop();
    }));
    all.push(fault(p, 3, "long yields", |w: &mut Work| {
        w.set.yields.push(0)
    }));
    all.push(fault(p, 3, "long growers", |w: &mut Work| {
        w.set.growers.push(0)
    }));
    all.push(fault(p, 3, "short days", |w: &mut Work| {
        w.set.days.pop();
    }));
    all.push(fault(p, 3, "no days", |w: &mut Work| w.set.days.clear()));
    for c in [0, SLOT_LIMIT + 1] {
        all.push(fault(p, 3, &format!("C {c}"), move |w: &mut Work| {
            w.set.growers.resize(c, 0);
            w.set.weights.resize(c, 0);
            w.set.yields.resize(c, 0);
            w.set.days.resize(c, 0);
        }));
    }
    let p = place + 2;
    all.push(fault(p, 4, "M 0", |w: &mut Work| w.set.m = 0));
    all.push(fault(p, 4, "M above 64 B", |w: &mut Work| w.set.m = 65));
    all.push(fault(p, 4, "M above C", |w: &mut Work| {
        w.set.b = 2;
        w.set.m = 71;
    }));
    all.push(fault(p, 4, "M largest", |w: &mut Work| {
        w.set.m = usize::MAX
    }));
    let p = place + 3;
    all.push(fault(p, 5, "growers fall", |w: &mut Work| {
        put(&mut w.set.growers, 2, 41)
    }));
    all.push(fault(p, 5, "last grower falls", |w: &mut Work| {
        put(&mut w.set.growers, 7, 59)
    }));
    all
}

fn layout_faults(place: usize) -> Vec<Fault<Work>> {
    let shapes: [(&str, Vec<u32>); 10] = [
        ("no end", vec![]),
        ("65 ends", (0..65).collect()),
        ("65 ends, last 7", (0..64).chain([7]).collect()),
        ("ends stand", vec![3, 3, 7]),
        ("ends fall", vec![5, 3, 7]),
        ("last end short", vec![3, 6]),
        ("last end past", vec![3, 7, 8]),
        ("end largest", vec![3, 7, u32::MAX]),
        ("equal growers parted", vec![4, 7]),
        ("last end 7 then 7", vec![7, 7]),
    ];
    shapes
        .into_iter()
        .map(|(name, ends)| fault(place, 6, name, move |w: &mut Work| w.ends = ends.clone()))
        .collect()
}

/// Check 8 of the set.
fn value_faults(place: usize) -> Vec<Fault<Work>> {
    vec![
        fault(place, 8, "weight in set", |w: &mut Work| {
            put(&mut w.set.weights, 7, 100_001)
        }),
        fault(place, 8, "yield in set", |w: &mut Work| {
            put(&mut w.set.yields, 0, 10_001)
        }),
        fault(place, 8, "yield largest", |w: &mut Work| {
            put(&mut w.set.yields, 3, u32::MAX)
        }),
    ]
}

/// Check 19 of the set.
fn day_faults(place: usize) -> Vec<Fault<Work>> {
    vec![
        fault(place, 19, "day in set", |w: &mut Work| {
            put(&mut w.set.days, 0, 36_525)
        }),
        fault(place, 19, "last day in set", |w: &mut Work| {
            put(&mut w.set.days, 7, 36_525)
        }),
        fault(place, 19, "day largest", |w: &mut Work| {
            put(&mut w.set.days, 4, u32::MAX)
        }),
    ]
}

fn offered_day_faults(place: usize) -> Vec<Fault<Work>> {
    [36_525, u32::MAX]
        .map(|day| {
            let name = format!("day {day} offered");
            fault(place, 19, &name, move |w: &mut Work| w.d.day = day)
        })
        .into()
}

fn span_faults(place: usize) -> Vec<Fault<Work>> {
    vec![
        fault(place, 19, "first day", |w: &mut Work| w.span.first = 36_525),
        fault(place, 19, "last day", |w: &mut Work| w.span.last = 36_525),
        fault(place, 19, "both days", |w: &mut Work| {
            w.span = Span::new(u32::MAX, u32::MAX)
        }),
        fault(place, 19, "first day, the last earlier", |w: &mut Work| {
            w.span = Span::new(36_525, 0)
        }),
    ]
}

fn offered_faults(place: usize) -> Vec<Fault<Work>> {
    vec![
        fault(place, 8, "weight offered", |w: &mut Work| {
            w.d.weight = 100_001
        }),
        fault(place, 8, "yield offered", |w: &mut Work| {
            w.d.oil_yield = 10_001
        }),
    ]
}

fn histogram_faults(place: usize) -> Vec<Fault<Work>> {
    vec![
        fault(place, 9, "639 counts", |w: &mut Work| {
            w.histograms.pop();
        }),
        fault(place, 9, "641 counts", |w: &mut Work| w.histograms.push(0)),
        fault(place, 9, "no counts", |w: &mut Work| w.histograms.clear()),
        fault(place, 9, "unused count", |w: &mut Work| {
            put(&mut w.histograms, 639, 1_000_001)
        }),
        fault(place, 9, "count largest", |w: &mut Work| {
            put(&mut w.histograms, 100, u32::MAX)
        }),
    ]
}

/// What a recorded call gives beside the set.
#[derive(Clone, Copy, PartialEq, Eq)]
enum Given {
    Grower,
    Range,
    RangeDays,
    Delivery,
}

/// The recorder for one call; `full` are the counts it raises.
fn recorder(call: fn(&Work) -> Call, full: &[usize], given: Given) -> Outcome {
    let mut faults = set_faults(0);
    if given == Given::Range || given == Given::RangeDays {
        faults.push(fault(4, 7, "lo above hi", |w: &mut Work| w.lo = w.hi + 1));
    }
    faults.extend(value_faults(5));
    faults.extend(day_faults(6));
    if given == Given::Delivery {
        faults.extend(offered_faults(5));
        faults.extend(offered_day_faults(6));
    }
    if given == Given::RangeDays {
        faults.extend(span_faults(6));
    }
    faults.extend(histogram_faults(7));
    for &i in full {
        faults.push(fault(
            8,
            10,
            &format!("count {i} full"),
            move |w: &mut Work| put(&mut w.histograms, i, 1_000_000),
        ));
    }
    alone_and_in_pairs(&work(), &faults, &|w| {
        let mut h = w.histograms.clone();
        let number = library_record(&w.set.view(), &mut h, &call(w));
        if number != 0 {
            require_same(&h, &w.histograms)?;
        } else {
            let raised = (0..h.len())
                .filter(|&i| h[i] == w.histograms[i] + 1)
                .count();
            let same = (0..h.len()).filter(|&i| h[i] == w.histograms[i]).count();
            if raised != full.len() || raised + same != h.len() {
                return Err(format!("{raised} counts raised, not {}", full.len()));
            }
        }
        Ok(number)
    })
}

fn require_same<T: PartialEq>(a: &[T], b: &[T]) -> Outcome {
    require!(a == b, "refused, but a slice changed");
    Ok(())
}

fn cost_checks() -> Outcome {
    let mut faults = price_faults(0);
    faults.extend(set_faults(1));
    faults.extend(layout_faults(5));
    faults.extend(value_faults(6));
    faults.extend(day_faults(7));
    faults.extend(histogram_faults(8));
    // Limits are not given to this call.
    alone_and_in_pairs(&work(), &faults, &|w| {
        let a = cost(&w.card, &w.set.view(), &w.histograms, &w.ends);
        require_zero(a.refusal, a.bill == 0)?;
        Ok(a.refusal)
    })
}

fn require_zero(refusal: u32, zero: bool) -> Outcome {
    require!(refusal == 0 || zero, "refused by {refusal}, but not zeros");
    Ok(())
}

/// Check 11.
fn permission_faults(place: usize) -> Vec<Fault<Work>> {
    let limits = [
        ("R below RR", 2, 100),
        ("R one block, equal growers", 3, 100),
        ("U 0", 7, 0),
        ("U 4", 7, 4),
        ("U 9", 7, 9),
        ("R and U", 7, 14),
    ];
    let of = |(name, read, insert)| {
        fault(place, 11, name, move |w: &mut Work| {
            w.limits = Limits::new(read, insert)
        })
    };
    limits.into_iter().map(of).collect()
}

/// Checks 1 2 3 4 5 8 19 9, which planning and listing put first.
fn plan_faults() -> Vec<Fault<Work>> {
    let mut faults = price_faults(0);
    faults.extend(limit_faults(0));
    faults.extend(set_faults(1));
    faults.extend(value_faults(5));
    faults.extend(day_faults(6));
    faults.extend(histogram_faults(7));
    faults
}

fn planner_checks() -> Outcome {
    let mut faults = plan_faults();
    faults.extend(permission_faults(8));
    faults.push(fault(9, 15, "room 1", |w: &mut Work| w.room = 1));
    faults.push(fault(9, 15, "room 0", |w: &mut Work| w.room = 0));
    alone_and_in_pairs(&work(), &faults, &|w| {
        let (mut one, mut two) = (vec![5; w.room], vec![5; w.room]);
        let a = plan_by_table(&w.card, &w.limits, &w.set.view(), &w.histograms, &mut one);
        let b = plan_by_listing(&w.card, &w.limits, &w.set.view(), &w.histograms, &mut two);
        if Some(a) != b || one != two {
            return Err(format!("table {a:?}, listing {b:?}"));
        }
        require_zero(a.refusal, a.bill == 0 && a.count == 0)?;
        if a.refusal != 0 {
            require_same(&one, &vec![5; w.room])?;
        }
        Ok(a.refusal)
    })
}

/// So many blocks of one record.
fn block_fault(place: usize, blocks: usize) -> Fault<Work> {
    let name = format!("{blocks} blocks");
    fault(place, 23, &name, move |w: &mut Work| {
        w.set.m = blocks;
        for at in 8..blocks {
            put(&mut w.set.growers, at, 70 + at as u32);
            put(&mut w.set.weights, at, 0);
            put(&mut w.set.yields, at, 0);
            put(&mut w.set.days, at, 0);
        }
    })
}

fn listing_checks() -> Outcome {
    let mut base = work();
    let layouts = permitted_layouts(&base.card, &base.limits, &base.set.view());
    base.room = listing_size(&layouts);
    let short = base.room - 1;
    let mut faults = plan_faults();
    faults.extend([13, 64].map(|blocks| block_fault(8, blocks)));
    faults.extend(permission_faults(9));
    for room in [short, 43, 0] {
        let name = format!("room {room}");
        faults.push(fault(10, 15, &name, move |w: &mut Work| w.room = room));
    }
    alone_and_in_pairs(&base, &faults, &|w| {
        let mut out = vec![b'#'; w.room];
        let a = list_layouts(&w.card, &w.limits, &w.set.view(), &w.histograms, &mut out);
        require_zero(a.refusal, a.layouts == 0 && a.written == 0)?;
        if a.refusal != 0 {
            require_same(&out, &vec![b'#'; w.room])?;
        }
        Ok(a.refusal)
    })
}

fn apply_checks() -> Outcome {
    let mut faults = set_faults(0);
    faults.extend(layout_faults(4));
    faults.extend(value_faults(5));
    faults.extend(day_faults(6));
    alone_and_in_pairs(&work(), &faults, &|w| {
        let a = apply_layout(&w.set.view(), &w.ends);
        require_zero(a.refusal, a.directory == [0; DIRECTORY_LEN])?;
        Ok(a.refusal)
    })
}

/// Input of the calls on a column.
#[derive(Clone)]
struct Laid {
    c: Column,
    lo: u32,
    hi: u32,
    span: Span,
    /// The day whose term a sheet is of.
    day: u32,
    d: Delivery,
    new_grower: u32,
    /// Bytes of the text that is written.
    room: usize,
    /// Numbers lent to a sheet's order and to its work.
    lists: [usize; 2],
}

/// Three partitions of 3, 0 and 2 records, fences 30, 40, 60, two free slots.
fn laid() -> Laid {
    let mut c = Column {
        growers: vec![10, 30, 20, 60, 90, 1, 2],
        weights: vec![100, 200, 300, 400, 500, u32::MAX, u32::MAX],
        yields: vec![1, 2, 3, 4, 5, u32::MAX, u32::MAX],
        days: vec![0, 0, 0, 0, 0, u32::MAX, u32::MAX],
        directory: vec![0; DIRECTORY_LEN],
    };
    c.directory[..5].copy_from_slice(&[2, 3, 3, 0, 2]);
    c.directory[FENCES..FENCES + 3].copy_from_slice(&[30, 40, 60]);
    let room = snapshot_text(&c).len();
    Laid {
        c,
        lo: 20,
        hi: 70,
        span: Span::new(36_524, 0),
        day: 14,
        d: Delivery::new(30, 200, 2),
        new_grower: 50,
        room,
        lists: [5; 2],
    }
}

/// Checks 2, 3 and 6. The partition slice is given the growers alone.
fn directory_faults(growers_alone: bool) -> Vec<Fault<Laid>> {
    let mut all = Vec::new();
    for b in [0, 4_097, u32::MAX] {
        all.push(fault(0, 2, &format!("B {b}"), move |l: &mut Laid| {
            put(&mut l.c.directory, 0, b)
        }));
    }
    if !growers_alone {
        all.push(fault(1, 3, "short weights", |l: &mut Laid| {
            l.c.weights.pop();
        }));
        all.push(fault(1, 3, "short yields", |l: &mut Laid| {
            l.c.yields.truncate(2)
        }));
        all.push(fault(1, 3, "long growers", |l: &mut Laid| {
            l.c.growers.push(0)
        }));
        all.push(fault(1, 3, "short days", |l: &mut Laid| {
            l.c.days.pop();
        }));
        all.push(fault(1, 3, "long days", |l: &mut Laid| l.c.days.push(0)));
    }
    for c in [0, SLOT_LIMIT + 1] {
        all.push(fault(1, 3, &format!("C {c}"), move |l: &mut Laid| {
            l.c.growers.resize(c, 0);
            l.c.weights.resize(c, 0);
            l.c.yields.resize(c, 0);
            l.c.days.resize(c, 0);
        }));
    }
    let shapes: [(&str, &[(usize, u32)]); 14] = [
        ("K 0", &[(1, 0)]),
        ("K 65", &[(1, 65)]),
        ("K largest", &[(1, u32::MAX)]),
        ("K 2 with a third partition", &[(1, 2)]),
        ("K 4 with fence 0", &[(1, 4)]),
        ("unused length", &[(LENGTHS + 3, 1)]),
        ("last unused length", &[(LENGTHS + 63, 1)]),
        ("unused fence", &[(FENCES + 3, 70)]),
        ("last unused fence", &[(FENCES + 63, 1)]),
        ("fences stand", &[(FENCES + 1, 30)]),
        ("fences fall", &[(FENCES + 2, 39)]),
        ("lengths past C", &[(LENGTHS + 1, 3)]),
        ("length largest", &[(LENGTHS, u32::MAX)]),
        // The 32-bit sum of these would wrap to 4.
        (
            "lengths wrap",
            &[(LENGTHS, u32::MAX), (LENGTHS + 1, 3), (LENGTHS + 2, 2)],
        ),
    ];
    for (name, puts) in shapes {
        all.push(fault(2, 6, name, move |l: &mut Laid| {
            puts.iter()
                .for_each(|&(at, n)| put(&mut l.c.directory, at, n))
        }));
    }
    all
}

fn column_call(call: fn(&Laid) -> Call) -> impl Fn(&Laid) -> Result<u32, String> {
    move |l| {
        let mut c = l.c.clone();
        let a = library_call(&mut c, &call(l));
        if a.refusal != 0 {
            require!(c == l.c, "refused by {}, but the column changed", a.refusal);
        }
        if a.refusal == 13 {
            // Partition 0: three records in two blocks.
            require!(
                a.counts == Counts::new(1, 1, 0),
                "13 reports {:?}",
                a.counts
            );
        } else {
            let zero = a.counts == Counts::ZERO && a.totals == Totals::ZERO;
            require_zero(a.refusal, zero)?;
        }
        Ok(a.refusal)
    }
}

/// Check 19 of the slots that a call scans.
fn scanned_day_faults(place: usize, slots: &[usize]) -> Vec<Fault<Laid>> {
    let of = |&at: &usize| {
        fault(place, 19, "day scanned", move |l: &mut Laid| {
            put(&mut l.c.days, at, 36_525)
        })
    };
    slots.iter().map(of).collect()
}

fn offered_day_fault(place: usize) -> Fault<Laid> {
    fault(place, 19, "day offered", |l: &mut Laid| l.d.day = 36_525)
}

/// Find of 30 scans partition 0 alone; bad values elsewhere do not concern it.
fn find_checks() -> Outcome {
    let mut base = laid();
    base.c.weights[3] = u32::MAX;
    base.c.yields[4] = u32::MAX;
    base.c.days[3] = u32::MAX;
    let mut faults = directory_faults(false);
    faults.push(fault(3, 8, "weight scanned", |l: &mut Laid| {
        put(&mut l.c.weights, 0, 100_001)
    }));
    faults.push(fault(3, 8, "yield scanned", |l: &mut Laid| {
        put(&mut l.c.yields, 2, 10_001)
    }));
    faults.extend(scanned_day_faults(4, &[0, 1, 2]));
    alone_and_in_pairs(&base, &faults, &column_call(|_| Call::Find(30)))
}

/// What both kinds of range ask.
fn range_faults() -> Vec<Fault<Laid>> {
    let mut faults = directory_faults(false);
    faults.push(fault(3, 7, "lo above hi", |l: &mut Laid| l.lo = l.hi + 1));
    faults.push(fault(3, 7, "lo largest", |l: &mut Laid| {
        (l.lo, l.hi) = (u32::MAX, 0)
    }));
    for at in [0, 2, 3, 4] {
        faults.push(fault(4, 8, "weight scanned", move |l: &mut Laid| {
            put(&mut l.c.weights, at, 100_001)
        }));
        faults.push(fault(4, 8, "yield scanned", move |l: &mut Laid| {
            put(&mut l.c.yields, at, u32::MAX)
        }));
    }
    faults.extend(scanned_day_faults(5, &[0, 2, 3, 4]));
    faults
}

fn range_checks() -> Outcome {
    let call = column_call(|l| Call::Range(l.lo, l.hi));
    alone_and_in_pairs(&laid(), &range_faults(), &call)
}

/// A last day that is earlier is no fault; either above the limit is.
fn range_days_checks() -> Outcome {
    let mut faults = range_faults();
    faults.push(fault(5, 19, "first day", |l: &mut Laid| {
        l.span.first = 36_525
    }));
    faults.push(fault(5, 19, "last day", |l: &mut Laid| {
        l.span.last = u32::MAX
    }));
    let call = column_call(|l| Call::RangeDays(l.lo, l.hi, l.span));
    alone_and_in_pairs(&laid(), &faults, &call)
}

/// Insert scans nothing: bad values in the column do not concern it.
fn insert_checks() -> Outcome {
    let mut base = laid();
    base.c.weights[0] = u32::MAX;
    base.c.yields[3] = u32::MAX;
    base.c.days[0] = u32::MAX;
    let mut faults = directory_faults(false);
    faults.push(fault(3, 8, "weight offered", |l: &mut Laid| {
        l.d.weight = 100_001
    }));
    faults.push(fault(3, 8, "yield offered", |l: &mut Laid| {
        l.d.oil_yield = u32::MAX
    }));
    faults.push(offered_day_fault(4));
    faults.push(fault(5, 12, "full", |l: &mut Laid| {
        put(&mut l.c.directory, LENGTHS + 2, 4)
    }));
    alone_and_in_pairs(&base, &faults, &column_call(|l| Call::Insert(l.d)))
}

fn removal_checks(call: fn(&Laid) -> Call) -> Outcome {
    let mut base = laid();
    base.c.weights[3] = u32::MAX;
    base.c.yields[4] = u32::MAX;
    base.c.days[3] = u32::MAX;
    let mut faults = directory_faults(false);
    faults.push(fault(3, 8, "weight offered", |l: &mut Laid| {
        l.d.weight = 100_001
    }));
    faults.push(fault(3, 8, "yield offered", |l: &mut Laid| {
        l.d.oil_yield = 10_001
    }));
    faults.push(fault(3, 8, "weight scanned", |l: &mut Laid| {
        put(&mut l.c.weights, 2, u32::MAX)
    }));
    faults.push(fault(3, 8, "yield scanned", |l: &mut Laid| {
        put(&mut l.c.yields, 0, 10_001)
    }));
    faults.push(offered_day_fault(4));
    faults.extend(scanned_day_faults(4, &[0, 1, 2]));
    faults.push(fault(5, 13, "other grower", |l: &mut Laid| l.d.grower = 29));
    faults.push(fault(5, 13, "other weight", |l: &mut Laid| {
        l.d.weight = 201
    }));
    faults.push(fault(5, 13, "other yield", |l: &mut Laid| {
        l.d.oil_yield = 3
    }));
    faults.push(fault(5, 13, "other day", |l: &mut Laid| l.d.day = 1));
    alone_and_in_pairs(&base, &faults, &column_call(call))
}

/// A step that scans these slots; bad values elsewhere do not concern it.
fn step_checks(step: Step, scanned: Range<usize>) -> Outcome {
    let mut base = laid();
    for at in (0..5).filter(|at| !scanned.contains(at)) {
        base.c.weights[at] = u32::MAX;
        base.c.yields[at] = u32::MAX;
        base.c.days[at] = u32::MAX;
    }
    let mut faults = directory_faults(false);
    faults.extend(scanned_day_faults(4, &scanned.clone().collect::<Vec<_>>()));
    for at in scanned {
        faults.push(fault(3, 8, "weight scanned", move |l: &mut Laid| {
            put(&mut l.c.weights, at, 100_001)
        }));
        faults.push(fault(3, 8, "yield scanned", move |l: &mut Laid| {
            put(&mut l.c.yields, at, 10_001)
        }));
    }
    alone_and_in_pairs(&base, &faults, &|l| {
        let a = library_step(&l.c, &step);
        require_zero(a.refusal, a == step_refused(a.refusal))?;
        Ok(a.refusal)
    })
}

fn slice_checks() -> Outcome {
    let mut base = laid();
    // The other three slices do not concern this call.
    base.c.weights.clear();
    base.c.days.clear();
    alone_and_in_pairs(&base, &directory_faults(true), &|l| {
        let a = partition_span(&l.c.growers, &l.c.directory, 30);
        require_zero(a.refusal, a.start == 0 && a.count == 0)?;
        let mut refusal = 99;
        let part = partition_slice(&l.c.growers, &l.c.directory, 30, &mut refusal);
        require!(
            refusal == a.refusal && part.len() == a.count,
            "slice and span differ"
        );
        require!(
            part.as_ptr() == l.c.growers[a.start..].as_ptr(),
            "part does not begin there"
        );
        Ok(a.refusal)
    })
}

/// The checks of what writes a text of a column.
fn text_faults() -> Vec<Fault<Laid>> {
    let mut faults = directory_faults(false);
    faults.push(fault(3, 6, "first unsound", |l: &mut Laid| {
        put(&mut l.c.growers, 0, 31)
    }));
    faults.push(fault(3, 6, "last unsound", |l: &mut Laid| {
        put(&mut l.c.growers, 4, 40)
    }));
    for at in 0..5 {
        faults.push(fault(4, 8, "weight", move |l: &mut Laid| {
            put(&mut l.c.weights, at, 100_001)
        }));
        faults.push(fault(4, 8, "yield", move |l: &mut Laid| {
            put(&mut l.c.yields, at, 10_001)
        }));
    }
    faults.extend(scanned_day_faults(5, &[0, 1, 2, 3, 4]));
    faults.push(fault(6, 15, "room short by 1", |l: &mut Laid| l.room -= 1));
    faults.push(fault(6, 15, "room 0", |l: &mut Laid| l.room = 0));
    faults
}

/// A book holds no day but 0.
fn write_checks() -> Outcome {
    let mut faults = text_faults();
    for (at, day) in [(0, 1), (4, 36_524), (2, 8_825)] {
        let name = format!("day {day}");
        faults.push(fault(5, 19, &name, move |l: &mut Laid| {
            put(&mut l.c.days, at, day)
        }));
    }
    alone_and_in_pairs(&laid(), &faults, &|l| {
        let mut out = vec![b'#'; l.room];
        let c = &l.c;
        let a = snapshot_write(
            &c.growers,
            &c.weights,
            &c.yields,
            &c.days,
            &c.directory,
            &mut out,
        );
        require_zero(a.refusal, a.written == 0)?;
        if a.refusal != 0 {
            require_same(&out, &vec![b'#'; l.room])?;
        }
        Ok(a.refusal)
    })
}

fn sheet_checks(of_term: bool) -> Outcome {
    let mut base = laid();
    base.c.days[..5].copy_from_slice(&[0, 14, 7, 1, 2]);
    // No grower has two records.
    base.room = sheet_size(5);
    let mut faults = text_faults();
    if of_term {
        for day in [36_525, u32::MAX] {
            let name = format!("the term of day {day}");
            faults.push(fault(5, 19, &name, move |l: &mut Laid| l.day = day));
        }
    }
    for (i, list) in ["order", "work"].into_iter().enumerate() {
        for n in [0, 4] {
            let name = format!("{list} of {n}");
            faults.push(fault(6, 15, &name, move |l: &mut Laid| l.lists[i] = n));
        }
    }
    alone_and_in_pairs(&base, &faults, &|l| {
        let before = Room {
            text: vec![b'#'; l.room],
            order: vec![6; l.lists[0]],
            work: vec![7; l.lists[1]],
        };
        let mut room = before.clone();
        let a = match of_term {
            true => library_term_sheet(&l.c, l.day, &mut room),
            false => library_sheet(&l.c, &mut room),
        };
        require_zero(a.refusal, a.written == 0)?;
        require!(
            a.refusal == 0 || room == before,
            "refused, but a slice changed"
        );
        Ok(a.refusal)
    })
}

/// A directory slice of another length: 2 is not put, 3 is, then 6.
fn directory_length_checks() -> Outcome {
    for len in [0, 1, 2, 129, 131, 1_000] {
        for b in [0, 2, 4_097] {
            for short in [false, true] {
                let mut l = laid();
                l.c.directory.resize(len, 0);
                put(&mut l.c.directory, 0, b);
                if short {
                    l.c.growers.clear();
                }
                let expected = if short { 3 } else { 6 };
                let d = Delivery::new(30, u32::MAX, 2).on(u32::MAX);
                for call in [
                    Call::Find(30),
                    Call::Range(9, 8),
                    Call::RangeDays(9, 8, Span::new(u32::MAX, 0)),
                    Call::Insert(d),
                    Call::Delete(d),
                    Call::Move(d, 50),
                ] {
                    let mut c = l.c.clone();
                    let a = library_call(&mut c, &call);
                    require!(a.refusal == expected && c == l.c, "{len} {call:?}: {a:?}");
                }
                for step in Step::both(30) {
                    let a = library_step(&l.c, &step);
                    require!(a.refusal == expected, "{len} {step:?}: {a:?}");
                }
                let a = partition_span(&l.c.growers, &l.c.directory, 30);
                require!(a.refusal == expected, "{len} slice: {a:?}");
                let c = &l.c;
                let a = snapshot_write(
                    &c.growers,
                    &c.weights,
                    &c.yields,
                    &c.days,
                    &c.directory,
                    &mut [],
                );
                require!(a.refusal == expected, "{len} write: {a:?}");
                let mut room = Room {
                    text: Vec::new(),
                    order: Vec::new(),
                    work: Vec::new(),
                };
                let a = library_sheet(c, &mut room);
                require!(a.refusal == expected, "{len} sheet: {a:?}");
                let a = library_term_sheet(c, u32::MAX, &mut room);
                require!(a.refusal == expected, "{len} sheet of a term: {a:?}");
            }
        }
    }
    Ok(())
}

/// Input of reading: lines of numbers, changes to the text, slices.
#[derive(Clone)]
struct Text {
    lines: Vec<Vec<u64>>,
    /// Bytes put after the lines; cut from the end.
    tail: Vec<u8>,
    cut: usize,
    bytes: Vec<(usize, u8)>,
    slots: [usize; 4],
}

impl Text {
    fn bytes(&self) -> Vec<u8> {
        let mut text = text_of(&self.lines);
        for &(at, byte) in &self.bytes {
            if let Some(x) = text.get_mut(at) {
                *x = byte;
            }
        }
        text.truncate(text.len().saturating_sub(self.cut));
        text.extend(&self.tail);
        text
    }
}

fn read_call(t: &Text) -> Result<u32, String> {
    let [g, w, y, n] = t.slots;
    let (mut gs, mut ws, mut ys, mut ns) = (vec![7; g], vec![8; w], vec![9; y], vec![6; n]);
    let a = snapshot_read(&t.bytes(), &mut gs, &mut ws, &mut ys, &mut ns);
    require_zero(a.refusal, a.directory == [0; DIRECTORY_LEN])?;
    if a.refusal != 0 {
        require_same(&gs, &vec![7; g])?;
        require_same(&ws, &vec![8; w])?;
        require_same(&ys, &vec![9; y])?;
        require_same(&ns, &vec![6; n])?;
    }
    Ok(a.refusal)
}

fn text_base() -> Text {
    Text {
        lines: vec![
            vec![2, 3, 2],
            vec![2, 30],
            vec![1, 60],
            vec![10, 100_000, 10_000],
            vec![30, 0, 0],
            vec![u64::from(u32::MAX), 1, 1],
        ],
        tail: vec![],
        cut: 0,
        bytes: vec![],
        slots: [3; 4],
    }
}

fn text_fault(name: &str, change: fn(&mut Text)) -> Fault<Text> {
    fault(2, 14, name, change)
}

/// Faults that spare line 1: 12 goes ahead of them.
fn body_faults() -> Vec<Fault<Text>> {
    vec![
        text_fault("longer by a byte", |t| t.tail.push(b'\n')),
        text_fault("longer by a line", |t| {
            t.tail.extend(text_of(&[vec![9, 9, 9]]))
        }),
        text_fault("shorter by a byte", |t| t.cut = 1),
        text_fault("shorter by a line", |t| t.cut = 34),
        text_fault("only line 1", |t| t.cut = 2 * 23 + 3 * 34),
        text_fault("a length too much", |t| t.lines[1][0] = 3),
        text_fault("lengths exchanged", |t| {
            (t.lines[1][0], t.lines[2][0]) = (1, 2)
        }),
        text_fault("length wide", |t| t.lines[1][0] = 4_294_967_298),
        text_fault("fences stand", |t| t.lines[2][1] = 30),
        text_fault("fences fall", |t| t.lines[2][1] = 29),
        text_fault("fence wide", |t| t.lines[2][1] = 4_294_967_296),
        text_fault("weight", |t| t.lines[3][1] = 100_001),
        text_fault("yield", |t| t.lines[4][2] = 10_001),
        text_fault("grower wide", |t| t.lines[5][0] = 4_294_967_296),
        text_fault("unsound", |t| t.lines[4][0] = 31),
        text_fault("leading zero", |t| t.bytes.push((34 + 8, b'0'))),
        text_fault("plus sign", |t| t.bytes.push((34 + 9, b'+'))),
        text_fault("minus sign", |t| t.bytes.push((34 + 9, b'-'))),
        text_fault("tab", |t| t.bytes.push((34, b'\t'))),
        text_fault("no digit", |t| t.bytes.push((34 + 10, b' '))),
        text_fault("space after digit", |t| t.bytes.push((34 + 23 + 21, b' '))),
        text_fault("no LF", |t| t.bytes.push((34 + 22, b' '))),
        text_fault("CR", |t| t.bytes.push((34 + 22, b'\r'))),
        text_fault("letter", |t| t.bytes.push((34 + 46 + 10, b'a'))),
    ]
}

fn read_checks() -> Outcome {
    let mut faults = vec![
        fault(0, 3, "short weights", |t: &mut Text| {
            t.slots[1] = t.slots[0] - 1
        }),
        fault(0, 3, "long yields", |t: &mut Text| {
            t.slots[2] = t.slots[0] + 1
        }),
        fault(0, 3, "short days", |t: &mut Text| {
            t.slots[3] = t.slots[0] - 1
        }),
        fault(0, 3, "C 0", |t: &mut Text| t.slots = [0; 4]),
        fault(0, 3, "C 262145", |t: &mut Text| {
            t.slots = [SLOT_LIMIT + 1; 4]
        }),
        fault(1, 12, "two slots", |t: &mut Text| t.slots = [2; 4]),
        fault(1, 12, "M larger", |t: &mut Text| t.lines[0][1] = 4),
        fault(1, 12, "M largest", |t: &mut Text| t.lines[0][1] = 262_144),
    ];
    faults.extend(body_faults());
    faults.push(text_fault("K larger", |t| t.lines[0][2] = 3));
    faults.push(text_fault("K smaller", |t| t.lines[0][2] = 1));
    alone_and_in_pairs(&text_base(), &faults, &read_call)?;
    // A smaller M is no fault of line 1, but not the sum of the lengths.
    for slots in [2, 3] {
        let mut t = text_base();
        t.lines[0][1] = 2;
        t.slots = [slots; 4];
        let got = read_call(&t)?;
        require!(got == 14, "M smaller, {slots} slots: {got}");
    }
    Ok(())
}

/// Faults of line 1: 14 goes ahead of 12.
fn line_1_faults() -> Vec<Fault<Text>> {
    vec![
        fault(1, 14, "B 0", |t: &mut Text| t.lines[0][0] = 0),
        fault(1, 14, "B 4097", |t: &mut Text| t.lines[0][0] = 4_097),
        fault(1, 14, "B wide", |t: &mut Text| {
            t.lines[0][0] = 4_294_967_298
        }),
        fault(1, 14, "M 262145", |t: &mut Text| t.lines[0][1] = 262_145),
        fault(1, 14, "M wide", |t: &mut Text| {
            t.lines[0][1] = 4_294_967_299
        }),
        fault(1, 14, "K 0", |t: &mut Text| t.lines[0][2] = 0),
        fault(1, 14, "K 65", |t: &mut Text| t.lines[0][2] = 65),
        fault(1, 14, "no LF", |t: &mut Text| t.bytes.push((33, b' '))),
        fault(1, 14, "line 1 without LF", |t: &mut Text| {
            t.cut = 1 + 2 * 23 + 3 * 34
        }),
        fault(1, 14, "no text", |t: &mut Text| {
            t.cut = 34 + 2 * 23 + 3 * 34
        }),
        fault(1, 14, "leading zero", |t: &mut Text| {
            t.bytes.push((9, b'0'))
        }),
        fault(1, 14, "no digit", |t: &mut Text| t.bytes.push((10, b' '))),
        fault(1, 14, "letter", |t: &mut Text| t.bytes.push((32, b'x'))),
    ]
}

fn read_line_1_checks() -> Outcome {
    let mut faults = line_1_faults();
    faults.push(fault(0, 3, "short growers", |t: &mut Text| {
        t.slots[0] = t.slots[1] - 1
    }));
    faults.push(fault(2, 12, "two slots", |t: &mut Text| t.slots = [2; 4]));
    alone_and_in_pairs(&text_base(), &faults, &read_call)
}

/// The program's refusal number, or 0 for a sheet of three growers.
fn settlement_call(t: &Text) -> Result<u32, String> {
    let output = settlement(&t.bytes());
    let number = (0..=15).find(|n| output == format!("{n:>11}\n").as_bytes());
    let is_sheet = output.len() == sheet_size(3);
    let shown = output.escape_ascii();
    number
        .or(is_sheet.then_some(0))
        .ok_or(format!("prints \"{shown}\""))
}

/// Of line 1 first 14, then 12; then 14 of the rest.
fn settlement_checks() -> Outcome {
    let mut faults = line_1_faults();
    for m in [513, SLOT_LIMIT as u64] {
        let name = format!("M {m}");
        faults.push(fault(2, 12, &name, move |t: &mut Text| t.lines[0][1] = m));
    }
    for mut f in body_faults() {
        f.place = 3;
        faults.push(f);
    }
    faults.push(fault(3, 14, "M 512", |t: &mut Text| t.lines[0][1] = 512));
    alone_and_in_pairs(&text_base(), &faults, &settlement_call)
}

/// Input of an import.
#[derive(Clone)]
struct File {
    header: &'static str,
    rows: Vec<&'static str>,
    slots: [usize; 4],
}

fn import_call(f: &File) -> Result<u32, String> {
    let [g, w, y, n] = f.slots;
    let (mut gs, mut ws, mut ys, mut ns) = (vec![7; g], vec![8; w], vec![9; y], vec![6; n]);
    let text = [f.header, &f.rows.join("\r\n")].join("\r\n");
    let a = csv_import(text.as_bytes(), &mut gs, &mut ws, &mut ys, &mut ns);
    require_zero(a.refusal, a.rows == 0)?;
    if a.refusal != 0 {
        require_same(&gs, &vec![7; g])?;
        require_same(&ws, &vec![8; w])?;
        require_same(&ys, &vec![9; y])?;
        require_same(&ns, &vec![6; n])?;
    }
    Ok(a.refusal)
}

fn import_checks() -> Outcome {
    let base = File {
        header: "mill,grower,weight,yield",
        rows: vec!["a,1,2,3", "b,4,5,6"],
        slots: [2; 4],
    };
    let mut faults = vec![
        fault(0, 3, "short weights", |f: &mut File| {
            f.slots[1] = f.slots[0] - 1
        }),
        fault(0, 3, "long yields", |f: &mut File| {
            f.slots[2] = f.slots[0] + 1
        }),
        fault(0, 3, "short days", |f: &mut File| {
            f.slots[3] = f.slots[0] - 1
        }),
        fault(0, 3, "C 0", |f: &mut File| f.slots = [0; 4]),
        fault(0, 3, "C 262145", |f: &mut File| {
            f.slots = [SLOT_LIMIT + 1; 4]
        }),
        fault(4, 12, "one slot", |f: &mut File| f.slots = [1; 4]),
        fault(4, 12, "rows more", |f: &mut File| f.rows.push("c,7,8,9")),
    ];
    for (place, number, header) in [
        (1, 16, "mill,grower,weight"),
        (1, 16, "mill,grower,weight,Yield"),
        (1, 16, "mill,grower,weight,yield,x\""),
        (1, 16, "grower,grower,weight,weight"),
        (2, 17, "grower,grower,weight,yield"),
        (2, 17, "yield,grower,weight,yield"),
    ] {
        faults.push(fault(place, number, header, move |f: &mut File| {
            f.header = header
        }));
    }
    for row in [
        "a,1,2",
        "a,1,2,3,4",
        "a,1,100001,3",
        "a,1,2,10001",
        "a,4294967296,2,3",
        "a,1,,3",
        "a\",1,2,3",
        "\"a,1,2,3",
    ] {
        faults.push(fault(3, 18, row, move |f: &mut File| f.rows.push(row)));
    }
    alone_and_in_pairs(&base, &faults, &import_call)
}

/// Input of an export.
#[derive(Clone)]
struct Export {
    used: usize,
    c: Column,
    room: usize,
}

fn columns(c: &mut Column) -> [&mut Vec<u32>; 4] {
    [&mut c.growers, &mut c.weights, &mut c.yields, &mut c.days]
}

fn export_checks() -> Outcome {
    let c = Column {
        growers: vec![10, u32::MAX, 0, 7],
        weights: vec![100_000, 0, 5, 100_001],
        yields: vec![10_000, 0, 6, 10_001],
        days: vec![36_524, 0, 8_825, 36_525],
        directory: vec![],
    };
    let base = Export {
        used: 3,
        c,
        room: "grower,weight,yield\r\n10,100000,10000\r\n4294967295,0,0\r\n0,5,6\r\n".len(),
    };
    let mut faults = vec![
        fault(0, 3, "short growers", |e: &mut Export| {
            e.c.growers.truncate(3)
        }),
        fault(0, 3, "long yields", |e: &mut Export| e.c.yields.push(0)),
        fault(0, 3, "short days", |e: &mut Export| e.c.days.truncate(3)),
        fault(0, 3, "C 0", |e: &mut Export| {
            for column in columns(&mut e.c) {
                column.clear();
            }
        }),
        fault(0, 3, "C 262145", |e: &mut Export| {
            for column in columns(&mut e.c) {
                column.resize(SLOT_LIMIT + 1, 0);
            }
        }),
        fault(1, 4, "M above C", |e: &mut Export| e.used = 5),
        fault(1, 4, "M largest", |e: &mut Export| {
            e.used = u32::MAX as usize
        }),
        fault(2, 8, "M over values out of range", |e: &mut Export| {
            e.used = 4
        }),
        fault(4, 15, "room short by 1", |e: &mut Export| e.room -= 1),
        fault(4, 15, "room 0", |e: &mut Export| e.room = 0),
    ];
    for at in 0..3 {
        faults.push(fault(2, 8, "weight", move |e: &mut Export| {
            put(&mut e.c.weights, at, 100_001)
        }));
        faults.push(fault(2, 8, "yield", move |e: &mut Export| {
            put(&mut e.c.yields, at, 10_001)
        }));
        faults.push(fault(3, 19, "day", move |e: &mut Export| {
            put(&mut e.c.days, at, 36_525)
        }));
    }
    alone_and_in_pairs(&base, &faults, &|e| {
        let mut out = vec![b'#'; e.room];
        let a = csv_export(
            e.used,
            &e.c.growers,
            &e.c.weights,
            &e.c.yields,
            &e.c.days,
            &mut out,
        );
        require_zero(a.refusal, a.written == 0)?;
        if a.refusal != 0 {
            require_same(&out, &vec![b'#'; e.room])?;
        }
        Ok(a.refusal)
    })
}

/// Input of `layplan`: its lines, and changes to the text.
fn layplan_base(calls: bool) -> Text {
    let mut lines = vec![vec![3, 1, 2], vec![100, 100], vec![2, 5, 0]];
    lines.extend([10, 20, 30, 30, 50].map(|g| vec![g, 100, 2_000]));
    if calls {
        lines[2][2] = 5;
        lines.push(vec![1, 30, 0, 0, 0]);
        lines.push(vec![2, 10, 50, 0, 0]);
        lines.push(vec![3, 15, 100, 2_000, 0]);
        lines.push(vec![4, 30, 100, 2_000, 0]);
        lines.push(vec![5, 30, 100, 2_000, 10]);
    }
    Text {
        lines,
        tail: vec![],
        cut: 0,
        bytes: vec![],
        slots: [0; 4],
    }
}

fn layplan_call(t: &Text) -> Result<u32, String> {
    let out = layplan(&t.bytes());
    if out.len() == 12 {
        let text = String::from_utf8_lossy(&out);
        text.trim().parse().map_err(|_| format!("output {text:?}"))
    } else {
        Ok(0)
    }
}

/// Refusals of the recorder come ahead of the planner's; 14 ahead of all.
fn layplan_checks(calls: bool) -> Outcome {
    // With calls the prices are asked last, by the planner.
    let price = if calls { 6 } else { 1 };
    let mut faults = vec![
        fault(0, 14, "empty", |t: &mut Text| t.cut = 100_000),
        fault(0, 14, "a byte short", |t: &mut Text| t.cut = 1),
        fault(0, 14, "a byte long", |t: &mut Text| t.tail.push(b'\n')),
        fault(0, 14, "a line long", |t: &mut Text| {
            t.tail.extend(text_of(&[vec![1, 1, 0, 0, 0]]))
        }),
        fault(0, 14, "M 0", |t: &mut Text| t.lines[2][1] = 0),
        fault(0, 14, "M 1025", |t: &mut Text| t.lines[2][1] = 1_025),
        fault(0, 14, "Q 1001", |t: &mut Text| t.lines[2][2] = 1_001),
        fault(0, 14, "Q one more", |t: &mut Text| t.lines[2][2] += 1),
        fault(0, 14, "price wide", |t: &mut Text| {
            t.lines[0][0] = 4_294_967_296
        }),
        fault(0, 14, "grower wide", |t: &mut Text| {
            t.lines[4][0] = 4_294_967_296
        }),
        fault(0, 14, "letter", |t: &mut Text| t.bytes.push((5, b'x'))),
        fault(0, 14, "leading zero", |t: &mut Text| {
            t.bytes.push((9, b'0'))
        }),
        fault(price, 1, "RR 0", |t: &mut Text| t.lines[0][0] = 0),
        fault(price, 1, "RW 1001", |t: &mut Text| t.lines[0][2] = 1_001),
        fault(price, 1, "R 1000001", |t: &mut Text| {
            t.lines[1][0] = 1_000_001
        }),
        fault(price, 1, "U largest", |t: &mut Text| {
            t.lines[1][1] = 4_294_967_295
        }),
        fault(2, 2, "B 0", |t: &mut Text| t.lines[2][0] = 0),
        fault(2, 2, "B largest", |t: &mut Text| {
            t.lines[2][0] = 4_294_967_295
        }),
        fault(3, 5, "growers fall", |t: &mut Text| t.lines[4][0] = 31),
        fault(5, 8, "weight", |t: &mut Text| t.lines[3][1] = 100_001),
        fault(5, 8, "yield", |t: &mut Text| t.lines[7][2] = 4_294_967_295),
        fault(7, 11, "U 9", |t: &mut Text| t.lines[1][1] = 9),
        fault(7, 11, "R 2", |t: &mut Text| t.lines[1][0] = 2),
    ];
    if calls {
        faults.push(fault(0, 14, "kind 0", |t: &mut Text| t.lines[8][0] = 0));
        faults.push(fault(0, 14, "kind 6", |t: &mut Text| t.lines[12][0] = 6));
        for (line, field) in [(8, 2), (8, 3), (8, 4), (9, 3), (9, 4), (10, 4), (11, 4)] {
            faults.push(fault(
                0,
                14,
                &format!("unused {line} {field}"),
                move |t: &mut Text| t.lines[line][field] = 1,
            ));
        }
        faults.push(fault(4, 7, "lo above hi", |t: &mut Text| {
            t.lines[9][1] = 51
        }));
        // The first call already asks 8 of the set, so the set's 8 comes
        // ahead of the second call's 7.
        for f in faults.iter_mut().filter(|f| f.number == 8) {
            f.place = 3;
        }
        for f in faults.iter_mut().filter(|f| f.number == 5) {
            f.place = 2;
        }
        for f in faults.iter_mut().filter(|f| f.number == 2) {
            f.place = 1;
        }
        faults.push(fault(5, 8, "weight offered", |t: &mut Text| {
            t.lines[10][2] = 100_001
        }));
    }
    alone_and_in_pairs(&layplan_base(calls), &faults, &layplan_call)?;
    // 64 blocks of one delivery are planned, 65 are refused by 4.
    for (m, expected) in [(64u64, 0), (65, 4)] {
        let mut t = layplan_base(false);
        t.lines.truncate(3);
        t.lines[2] = vec![1, m, 0];
        t.lines.extend((0..m).map(|g| vec![g, 1, 1]));
        let got = layplan_call(&t)?;
        require!(got == expected, "M {m} B 1: {got}");
    }
    Ok(())
}

fn tally_checks() -> Outcome {
    let top = TALLY_LIMIT;
    for at in 0..3 {
        for (t, r, expected) in [
            (top, 0, 0),
            (top - 1, 1, 0),
            (0, top, 0),
            (top, 1, 10),
            (0, top + 1, 10),
            (top + 1, 0, 10),
            (u64::MAX, 0, 10),
            (u64::MAX, u64::MAX, 10),
            (1, u64::MAX, 10),
        ] {
            let mut ts = [1; 3];
            let mut rs = [2; 3];
            ts[at] = t;
            rs[at] = r;
            let mut tally = Tally {
                rr: ts[0],
                sr: ts[1],
                rw: ts[2],
            };
            let before = tally;
            let counts = Counts {
                rr: rs[0],
                sr: rs[1],
                rw: rs[2],
            };
            let got = tally_add(&mut tally, &counts);
            require!(got == expected, "{t} + {r}: {got}");
            require!((got == 0) != (tally == before), "{t} + {r}: {tally:?}");
        }
    }
    Ok(())
}

fn ledger_checks() -> Outcome {
    let d = Delivery::new(1, 2, 3);
    let heavy = Delivery::new(1, 100_001, 3);
    let rich = Delivery::new(1, 2, 10_001);
    let mut l = Ledger::new(1);
    require!(l.insert(d) == 0, "insert");
    let before = l.clone();
    require!(l.insert(d) == 12, "12");
    for bad in [heavy, rich, heavy.on(36_525)] {
        // Full and absent as well: 8 is asked first.
        require!(l.insert(bad) == 8, "8 ahead of 12");
        require!(l.delete(bad) == 8, "8 ahead of 13");
        require!(l.move_delivery(bad, 4) == 8, "8 ahead of 13");
    }
    let late = d.on(36_525);
    require!(l.insert(late) == 19, "19 ahead of 12");
    require!(l.delete(late) == 19, "19 ahead of 13");
    require!(l.move_delivery(late, 4) == 19, "19 ahead of 13");
    for absent in [
        d.on(1),
        Delivery::new(2, 2, 3),
        Delivery::new(1, 1, 3),
        Delivery::new(1, 2, 2),
    ] {
        require!(
            l.delete(absent) == 13 && l.move_delivery(absent, 9) == 13,
            "13"
        );
    }
    require!(l.range(2, 1) == (7, Totals::ZERO), "7");
    for (lo, first, last, expected) in [
        (2, 36_525, 0, (7, Totals::ZERO)),
        (1, 36_525, 0, (19, Totals::ZERO)),
        (1, 0, 36_525, (19, Totals::ZERO)),
        (1, 1, 0, (0, Totals::ZERO)),
        (1, 1, 36_524, (0, Totals::ZERO)),
        (1, 0, 0, (0, Totals::new(1, 2, 6))),
    ] {
        let a = l.range_days(lo, 1, Span::new(first, last));
        require!(a == expected, "range on {first} to {last}: {a:?}");
    }
    require!(l == before, "a refusal changed the ledger");
    require!(l.find(1) == (0, Totals::new(1, 2, 6)), "find");
    for (g, next, previous) in [
        (0, (1, 1), (0, 0)),
        (1, (1, 1), (1, 1)),
        (2, (0, 0), (1, 1)),
    ] {
        require!(l.next_grower(g) == next, "next of {g}");
        require!(l.previous_grower(g) == previous, "previous of {g}");
    }
    require!(
        l.move_delivery(d, 9) == 0 && l.records() == [Delivery::new(9, 2, 3)],
        "move"
    );
    Ok(())
}

/// The recorder's calls, each with the counts it raises.
fn recorder_checks() -> Vec<(&'static str, Box<dyn Fn() -> Outcome>)> {
    let at = count_index;
    let mut spread = vec![at(RS, 1), at(RE, 6)];
    spread.extend((2..6).map(|i| at(SC, i)));
    let ranged = spread.clone();
    vec![
        (
            "recorder find",
            Box::new(move || recorder(|_| Call::Find(30), &[at(PQ, 2)], Given::Grower)),
        ),
        (
            "recorder range",
            Box::new(move || recorder(|w| Call::Range(w.lo, w.hi), &ranged, Given::Range)),
        ),
        (
            "recorder range over days",
            Box::new(move || {
                let call = |w: &Work| Call::RangeDays(w.lo, w.hi, w.span);
                recorder(call, &spread, Given::RangeDays)
            }),
        ),
        (
            "recorder insert",
            Box::new(move || recorder(|w| Call::Insert(w.d), &[at(IN, 2)], Given::Delivery)),
        ),
        (
            "recorder delete",
            Box::new(move || recorder(|w| Call::Delete(w.d), &[at(DE, 2)], Given::Delivery)),
        ),
        (
            "recorder delete of an absent delivery",
            Box::new(move || {
                let call = |w: &Work| Call::Delete(Delivery { grower: 99, ..w.d });
                recorder(call, &[at(PQ, 7)], Given::Delivery)
            }),
        ),
        (
            "recorder delete of a delivery on another day",
            Box::new(move || {
                let call = |w: &Work| Call::Delete(w.d.on(w.d.day - 1));
                recorder(call, &[at(PQ, 2)], Given::Grower)
            }),
        ),
        (
            "recorder move of a delivery on another day",
            Box::new(move || {
                let call = |w: &Work| Call::Move(w.d.on(w.d.day - 1), w.new_grower);
                recorder(call, &[at(PQ, 2)], Given::Grower)
            }),
        ),
        (
            "recorder move forward",
            Box::new(move || {
                let full = [at(UDF, 2), at(UTF, 6)];
                recorder(|w| Call::Move(w.d, w.new_grower), &full, Given::Delivery)
            }),
        ),
        (
            "recorder move backward",
            Box::new(move || {
                let full = [at(UDB, 2), at(UTB, 0)];
                recorder(|w| Call::Move(w.d, 1), &full, Given::Delivery)
            }),
        ),
    ]
}

pub fn all() -> Vec<(String, Outcome)> {
    let mut list = recorder_checks();
    let rest: [(&str, fn() -> Outcome); 26] = [
        ("cost of a layout", cost_checks),
        ("planner", planner_checks),
        ("listing", listing_checks),
        ("apply layout", apply_checks),
        ("find", find_checks),
        ("range", range_checks),
        ("range over days", range_days_checks),
        ("insert", insert_checks),
        ("delete", || removal_checks(|l| Call::Delete(l.d))),
        ("move", || removal_checks(|l| Call::Move(l.d, l.new_grower))),
        // From the empty partition to the one above it, or below it.
        ("next grower", || step_checks(Step::Next(31), 3..5)),
        ("previous grower", || step_checks(Step::Previous(40), 0..3)),
        ("partition slice", slice_checks),
        ("snapshot write", write_checks),
        ("sheet", || sheet_checks(false)),
        ("sheet of a term", || sheet_checks(true)),
        ("directory of another length", directory_length_checks),
        ("snapshot read", read_checks),
        ("snapshot read, line 1", read_line_1_checks),
        ("import", import_checks),
        ("export", export_checks),
        ("layplan with calls", || layplan_checks(true)),
        ("layplan without calls", || layplan_checks(false)),
        ("settlement", settlement_checks),
        ("tally", tally_checks),
        ("ledger", ledger_checks),
    ];
    for (name, test) in rest {
        list.push((name, Box::new(test)));
    }
    list.into_iter()
        .map(|(name, test)| (format!("checks: {name}"), guarded(test)))
        .collect()
}
