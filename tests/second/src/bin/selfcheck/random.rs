//! Random inputs.

use crate::subject::{Call, Column, Set};
use second::random::Random;
use second::*;

/// Few values, so that equal deliveries are common; the range's ends too.
pub fn weight(r: &mut Random) -> u32 {
    r.pick(&[0, 1, 7, 100, 100, 100_000])
}

pub fn oil_yield(r: &mut Random) -> u32 {
    r.pick(&[0, 1, 2_000, 2_000, 10_000])
}

/// Few days, so that terms hold several records; both ends of a term and of the
/// range too.
pub fn day(r: &mut Random) -> u32 {
    r.pick(&[0, 0, 14, 15, 8_825, 8_825, 8_826, 36_508, 36_509, 36_524])
}

/// A first and a last day: mostly both near those held; the last earlier and
/// either out of range too.
pub fn span(r: &mut Random) -> Span {
    let near = |r: &mut Random| match r.below(12) {
        0 => 36_525,
        1 => u32::MAX,
        2 => r.below(36_525) as u32,
        _ => day(r),
    };
    let (x, y) = (near(r), near(r));
    match r.below(6) {
        0 => Span::new(x.max(y), x.min(y)),
        1 => Span::new(x, x),
        _ => Span::new(x.min(y), x.max(y)),
    }
}

/// A grower from a small domain, at its ends too.
pub fn grower(r: &mut Random, domain: u32) -> u32 {
    match r.below(12) {
        0 => 0,
        1 => u32::MAX,
        2 => u32::MAX - 1,
        _ => r.below(domain as usize) as u32,
    }
}

/// Arbitrary contents of free slots; values out of range are allowed there.
fn stale(r: &mut Random) -> u32 {
    if r.one_in(2) {
        r.next() as u32
    } else {
        0
    }
}

/// A proper unlaid set of at most `most_blocks` blocks; `free` more slots.
pub fn set(r: &mut Random, most_blocks: usize, free: usize) -> Set {
    let b = r.pick(&[1, 1, 2, 2, 3, 5]);
    let n = r.within(1, most_blocks);
    let m = r.within((n - 1) * b + 1, n * b);
    let domain = r.pick(&[3, m as u32 + 1, 4 * m as u32 + 4]);
    let mut growers: Vec<u32> = (0..m).map(|_| grower(r, domain)).collect();
    growers.sort_unstable();
    let mut weights: Vec<u32> = (0..m).map(|_| weight(r)).collect();
    let mut yields: Vec<u32> = (0..m).map(|_| oil_yield(r)).collect();
    let mut days: Vec<u32> = (0..m).map(|_| day(r)).collect();
    for _ in 0..free {
        growers.push(stale(r));
        weights.push(stale(r));
        yields.push(stale(r));
        days.push(stale(r));
    }
    Set {
        b: b as u32,
        m,
        growers,
        weights,
        yields,
        days,
    }
}

/// A random layout of a proper set that parts no equal growers.
pub fn layout(r: &mut Random, set: &Set) -> Vec<u32> {
    let view = set.view();
    let n = view.blocks();
    let often = r.within(1, 4);
    let mut ends: Vec<u32> = (0..n as u32 - 1)
        .filter(|&e| !view.separates_equal(e as usize) && r.one_in(often))
        .collect();
    ends.push(n as u32 - 1);
    ends
}

/// A grower near those held, or one of the domain's ends.
fn near(r: &mut Random, held: &[Delivery]) -> u32 {
    if held.is_empty() || r.one_in(8) {
        return grower(r, 12);
    }
    let g = held[r.below(held.len())].grower;
    match r.below(4) {
        0 => g.wrapping_add(1),
        1 => g.wrapping_sub(1),
        _ => g,
    }
}

/// A delivery that is mostly among those held.
fn mostly_held(r: &mut Random, held: &[Delivery]) -> Delivery {
    let mut d = if held.is_empty() || r.one_in(6) {
        Delivery::new(near(r, held), weight(r), oil_yield(r)).on(day(r))
    } else {
        held[r.below(held.len())]
    };
    match r.below(30) {
        0 => d.weight = 100_001,
        1 => d.oil_yield = 10_001,
        2 => d.grower = near(r, held),
        3 => d.weight = weight(r),
        4 => d.oil_yield = oil_yield(r),
        5 => d.day = r.pick(&[36_525, u32::MAX]),
        6 => d.day = day(r),
        7 => (d.weight, d.day) = (100_001, 36_525),
        _ => {}
    }
    d
}

/// A random call over the deliveries held.
pub fn call(r: &mut Random, held: &[Delivery]) -> Call {
    match r.below(7) {
        0 => Call::Find(near(r, held)),
        kind @ (1 | 2) => {
            let (x, y) = (near(r, held), near(r, held));
            let (lo, hi) = match r.one_in(12) {
                true => (x.max(y), x.min(y)),
                false => (x.min(y), x.max(y)),
            };
            match kind {
                1 => Call::Range(lo, hi),
                _ => Call::RangeDays(lo, hi, span(r)),
            }
        }
        3 => {
            let mut d = mostly_held(r, held);
            if r.one_in(2) {
                d.grower = near(r, held);
            }
            Call::Insert(d)
        }
        4 => Call::Delete(mostly_held(r, held)),
        _ => Call::Move(mostly_held(r, held), near(r, held)),
    }
}

/// A sound column with arbitrary fences, lengths (empty ones too) and free
/// slots.
pub fn column(r: &mut Random) -> Column {
    let k = match r.below(10) {
        0 => 1,
        1 => 64,
        n => n.min(6),
    };
    let mut fences: Vec<u32> = Vec::new();
    let wide = if r.one_in(2) { 3 * k as u32 + 2 } else { 200 };
    while fences.len() < k {
        let fence = grower(r, wide);
        if !fences.contains(&fence) {
            fences.push(fence);
        }
    }
    fences.sort_unstable();
    let records = match r.below(8) {
        0 => 0,
        1 => r.within(0, 3),
        _ => r.within(1, 3 * k.min(8)),
    };
    // Few chosen growers leave partitions empty; all lie by fences or past.
    let mut parts: Vec<Vec<Delivery>> = vec![Vec::new(); k];
    for _ in 0..records {
        let g = match r.below(4) {
            0 => grower(r, wide),
            1 => r.pick(&fences).saturating_add(1),
            _ => r.pick(&fences),
        };
        let p = fences.iter().position(|&f| f >= g).unwrap_or(k - 1);
        parts[p].push(Delivery::new(g, weight(r), oil_yield(r)).on(day(r)));
    }
    let free = if r.one_in(4) {
        usize::from(records == 0)
    } else {
        r.within(1, 5)
    };
    let mut c = Column {
        growers: Vec::new(),
        weights: Vec::new(),
        yields: Vec::new(),
        days: Vec::new(),
        directory: vec![0; DIRECTORY_LEN],
    };
    c.directory[0] = r.pick(&[1, 2, 3, 4_096]);
    c.directory[1] = k as u32;
    for (p, part) in parts.iter().enumerate() {
        c.directory[LENGTHS + p] = part.len() as u32;
        c.directory[FENCES + p] = fences[p];
        for d in part {
            c.push(*d);
        }
    }
    for _ in 0..free {
        let d = Delivery::new(stale(r), stale(r), stale(r)).on(stale(r));
        c.push(d);
    }
    c
}

/// A sound column whose partitions are mostly longer than what a scan looks at
/// together.
pub fn long_column(r: &mut Random) -> Column {
    let k = r.within(1, 3);
    let growers = r.pick(&[2, 30, 3_000]);
    let mut c = Column {
        growers: Vec::new(),
        weights: Vec::new(),
        yields: Vec::new(),
        days: Vec::new(),
        directory: vec![0; DIRECTORY_LEN],
    };
    c.directory[0] = r.pick(&[1, 7, 64]);
    c.directory[1] = k as u32;
    for p in 0..k {
        let n = r.within(0, 300);
        let lowest = p * growers;
        c.directory[LENGTHS + p] = n as u32;
        c.directory[FENCES + p] = (lowest + growers - 1) as u32;
        for _ in 0..n {
            let g = lowest + r.below(growers);
            c.push(Delivery::new(g as u32, weight(r), oil_yield(r)).on(day(r)));
        }
    }
    c.push(Delivery::new(stale(r), stale(r), stale(r)).on(stale(r)));
    c
}

/// A grower at a fence or at one held, just below or just above, or one of the
/// ends.
pub fn asked(r: &mut Random, c: &Column) -> u32 {
    let used = c.used();
    let g = match r.below(6) {
        0 => return r.pick(&[0, u32::MAX]),
        1..=3 if used > 0 => c.growers[r.below(used)],
        _ => c.directory[FENCES + r.below(c.k())],
    };
    match r.below(3) {
        0 => g.saturating_sub(1),
        1 => g.saturating_add(1),
        _ => g,
    }
}

/// A column laid over a random set.
pub fn laid_column(r: &mut Random) -> Column {
    let free = r.below(4);
    let set = set(r, 10, free);
    let ends = layout(r, &set);
    let laid = apply_layout(&set.view(), &ends);
    assert_eq!(laid.refusal, 0);
    set.column(laid.directory.to_vec())
}

/// Histograms that no list made: any counts, small ones so that bills tie.
pub fn raw_histograms(r: &mut Random) -> Vec<u32> {
    let most = r.pick(&[0, 1, 1, 3, 1_000_000]);
    let rare = r.within(1, 6);
    (0..HISTOGRAM_LEN)
        .map(|_| {
            if r.one_in(rare) {
                r.within(0, most) as u32
            } else {
                0
            }
        })
        .collect()
}

pub fn card(r: &mut Random) -> PriceCard {
    match r.below(4) {
        0 => PriceCard::FACTORY,
        1 => PriceCard::new(1, 1, 1),
        2 => PriceCard::new(1_000, 1_000, 1_000),
        _ => PriceCard::new(
            r.within(1, 12) as u32,
            r.within(1, 6) as u32,
            r.within(1, 12) as u32,
        ),
    }
}

/// Limits around the point where they begin to bind.
pub fn limits(r: &mut Random, card: &PriceCard, blocks: usize) -> Limits {
    let read = match r.below(4) {
        0 => 1_000_000,
        1 => r.below(card.rr as usize + 2) as u32,
        _ => card.rr + r.below(card.sr as usize * (blocks + 2)) as u32,
    };
    let insert = match r.below(4) {
        0 => 1_000_000,
        _ => r.below((card.rr + card.rw) as usize * (blocks + 3)) as u32,
    };
    Limits::new(read.min(1_000_000), insert.min(1_000_000))
}
