//! Random columns, sets, layouts and calls.

use crate::calls::Asked;
use meltusk::{Call, Column, Empty, Library, Set, Step, View};
use second::random::Random;
use second::{
    Delivery, Span, UnlaidSet, DAY_LIMIT, DIRECTORY_LEN, FENCES, LENGTHS, SLOT_LIMIT, WEIGHT_LIMIT,
    YIELD_LIMIT,
};

/// Counts of a slice, at the edges of what any slice may have.
pub const EDGE_COUNTS: [usize; 3] = [0, 1, SLOT_LIMIT + 1];

/// Empty slices are lent in both ways.
pub fn library(r: &mut Random) -> Library {
    Library {
        empty: r.pick(&[Empty::Null, Empty::Place]),
    }
}

/// Few values, so that equal deliveries are common; the ends of the range too.
pub fn weight(r: &mut Random) -> u32 {
    r.pick(&[0, 1, 7, 100, 100, 99_999, WEIGHT_LIMIT])
}

pub fn oil_yield(r: &mut Random) -> u32 {
    r.pick(&[0, 1, 2_000, 2_000, 9_999, YIELD_LIMIT])
}

/// Few days: those about the ends of terms, of February 2024 and of the range;
/// or any even one.
pub fn day(r: &mut Random) -> u32 {
    let about = [0, 0, 1, 14, 15, 30, 31, 8_811, 8_812, 8_825, 8_825, 8_826];
    match r.below(8) {
        0 => 2 * r.below(DAY_LIMIT as usize / 2 + 1) as u32,
        1 => r.pick(&[36_508, 36_509, DAY_LIMIT - 1, DAY_LIMIT, DAY_LIMIT]),
        _ => r.pick(&about),
    }
}

pub fn day_out(r: &mut Random) -> u32 {
    r.pick(&[DAY_LIMIT + 1, DAY_LIMIT + 1, 1 << 31, u32::MAX])
}

/// A first and a last day: mostly in order, both days.
pub fn span(r: &mut Random) -> Span {
    let (x, y) = (day(r), day(r));
    match r.below(16) {
        0 => Span::new(day_out(r), y),
        1 => Span::new(x, day_out(r)),
        2 | 3 => Span::new(x.max(y), x.min(y)),
        4 | 5 => Span::new(x, x),
        6 => Span::ALL,
        _ => Span::new(x.min(y), x.max(y)),
    }
}

pub fn weight_out(r: &mut Random) -> u32 {
    r.pick(&[WEIGHT_LIMIT + 1, WEIGHT_LIMIT + 1, 1 << 31, u32::MAX])
}

pub fn oil_yield_out(r: &mut Random) -> u32 {
    r.pick(&[YIELD_LIMIT + 1, YIELD_LIMIT + 1, 1 << 31, u32::MAX])
}

/// What a free slot holds: any number, also one out of range.
fn stale(r: &mut Random) -> u32 {
    match r.below(4) {
        0 => r.next() as u32,
        1 => r.below(12) as u32,
        _ => 0,
    }
}

#[derive(Clone, Copy, PartialEq, Eq)]
pub enum Kind {
    Sound,
    /// Records in partitions that are not their grower's.
    Unsound,
    /// No free slot, or one.
    Full,
    /// Some thousand slots.
    Large,
}

/// Fences that rise strictly: from 0, up to the largest grower, far apart,
/// past every small grower, or close together.
fn fences(r: &mut Random, k: usize) -> Vec<u32> {
    let count = k as u32;
    let (mut fence, step) = match r.below(7) {
        0 => return (0..count).collect(),
        1 => return (0..count).map(|p| u32::MAX - (count - 1 - p)).collect(),
        2 => (r.below(1 << 24) as u32, 1 << 25),
        3 => (1_000_000, 5),
        _ => (r.below(4) as u32, 3),
    };
    let mut all = Vec::with_capacity(k);
    for _ in 0..k {
        all.push(fence);
        fence += r.within(1, step) as u32;
    }
    all
}

/// Partition lengths: all 0, all but one 0, half of them 0, all 1, or any.
fn lengths(r: &mut Random, k: usize, most: usize) -> Vec<usize> {
    let mut all = vec![0; k];
    match r.below(9) {
        0 => {}
        1 => {
            let p = r.pick(&[0, k - 1, k / 2]);
            all[p] = r.within(1, most);
        }
        2..=4 => {
            for n in &mut all {
                *n = if r.one_in(2) { 0 } else { r.within(1, most) };
            }
        }
        5 => all.fill(1),
        _ => {
            for n in &mut all {
                *n = r.within(0, most);
            }
        }
    }
    all
}

/// A grower of partition `p`: the ends of its part of the growers, or any.
fn grower_in(r: &mut Random, fences: &[u32], p: usize, few: bool) -> u32 {
    let lo = if p == 0 { 0 } else { fences[p - 1] + 1 };
    let hi = if p + 1 == fences.len() {
        u32::MAX
    } else {
        fences[p]
    };
    match r.below(if few { 3 } else { 6 }) {
        0 => lo,
        1 => fences[p],
        2 if few => fences[p],
        2 => hi,
        3 => lo + r.below((hi - lo) as usize + 1).min(3) as u32,
        _ => lo + r.below((hi - lo) as usize + 1) as u32,
    }
}

/// A column of proper shape, all weights, yields and days in range.
pub fn clean_column(r: &mut Random, kind: Kind) -> Column {
    let k = match r.below(8) {
        0 => 1,
        1 => 64,
        2 => 2,
        _ => r.within(2, 9),
    };
    let fences = fences(r, k);
    let most = match kind {
        Kind::Large => r.within(1, 3_000 / k),
        _ if k > 16 => 2,
        _ => r.within(1, 6),
    };
    let lengths = lengths(r, k, most);
    let few = r.one_in(2);
    let mut c = Column {
        directory: vec![0; DIRECTORY_LEN],
        growers: Vec::new(),
        weights: Vec::new(),
        yields: Vec::new(),
        days: Vec::new(),
    };
    c.directory[0] = match kind {
        Kind::Large => r.pick(&[1, 7, 64, 1_000, 4_096]),
        _ => r.pick(&[1, 1, 2, 2, 3, 5, 4_096]),
    };
    c.directory[1] = k as u32;
    for p in 0..k {
        c.directory[LENGTHS + p] = lengths[p] as u32;
        c.directory[FENCES + p] = fences[p];
        for _ in 0..lengths[p] {
            let owner = if kind == Kind::Unsound && r.one_in(3) {
                r.below(k)
            } else {
                p
            };
            c.growers.push(grower_in(r, &fences, owner, few));
            c.weights.push(weight(r));
            c.yields.push(oil_yield(r));
            c.days.push(day(r));
        }
    }
    let free = match kind {
        Kind::Full => usize::from(r.one_in(4)),
        _ => r.pick(&[0, 1, 1, 2, 3, 7]),
    };
    let free = if c.growers.is_empty() {
        free.max(1)
    } else {
        free
    };
    for _ in 0..free {
        c.growers.push(stale(r));
        c.weights.push(stale(r));
        c.yields.push(stale(r));
        c.days.push(stale(r));
    }
    c
}

/// A sound column: in one of four no free slot or one, in few some thousand slots.
pub fn sound_column(r: &mut Random) -> Column {
    let kind = match r.below(40) {
        0 => Kind::Large,
        1..=9 => Kind::Full,
        _ => Kind::Sound,
    };
    clean_column(r, kind)
}

/// A column of proper shape; in some a weight or a yield is out of range, in
/// some a day, in some both.
pub fn column(r: &mut Random, kind: Kind) -> Column {
    let mut c = clean_column(r, kind);
    let used = c.view().used();
    if used > 0 && r.one_in(6) {
        let i = r.below(used);
        if r.one_in(2) {
            c.weights[i] = weight_out(r);
        } else {
            c.yields[i] = oil_yield_out(r);
        }
    }
    if used > 0 && r.one_in(8) {
        let i = r.below(used);
        c.days[i] = day_out(r);
    }
    c
}

/// A sound column of one slot, used or free.
pub fn one_slot(r: &mut Random, is_used: bool) -> Column {
    let k = r.pick(&[1, 2, 64]);
    let target = r.below(k);
    let mut directory = vec![0; DIRECTORY_LEN];
    directory[0] = r.pick(&[1, 2, 4_096]);
    directory[1] = k as u32;
    directory[LENGTHS + target] = u32::from(is_used);
    for p in 0..k {
        directory[FENCES + p] = 10 * p as u32;
    }
    Column {
        directory,
        growers: vec![10 * target as u32],
        weights: vec![weight(r)],
        yields: vec![oil_yield(r)],
        days: vec![day(r)],
    }
}

/// A proper unpartitioned set of at most `most_blocks` blocks.
pub fn set(r: &mut Random, most_blocks: usize, free: usize) -> Set {
    let block = r.pick(&[1, 1, 2, 2, 3, 5, 8]);
    let blocks = r.within(1, most_blocks);
    let used = r.within((blocks - 1) * block + 1, blocks * block);
    let domain = r.pick(&[2, used + 1, 4 * used + 4, 1 << 32]);
    let ends = r.one_in(2);
    let mut growers: Vec<u32> = (0..used)
        .map(|_| match r.below(16) {
            0 if ends => 0,
            1 if ends => u32::MAX,
            _ => r.below(domain) as u32,
        })
        .collect();
    growers.sort_unstable();
    let mut s = Set {
        block: block as u32,
        used: used as u32,
        growers,
        weights: (0..used).map(|_| weight(r)).collect(),
        yields: (0..used).map(|_| oil_yield(r)).collect(),
        days: (0..used).map(|_| day(r)).collect(),
    };
    for _ in 0..free {
        s.growers.push(stale(r));
        s.weights.push(stale(r));
        s.yields.push(stale(r));
        s.days.push(stale(r));
    }
    s
}

/// A set of one slot, which is proper if its used slots are 1.
pub fn one_delivery(r: &mut Random, block: u32, used: u32) -> Set {
    Set {
        block,
        used,
        growers: vec![r.next() as u32],
        weights: vec![weight(r)],
        yields: vec![oil_yield(r)],
        days: vec![day(r)],
    }
}

/// A layout of a proper set that parts no equal growers.
pub fn layout(r: &mut Random, set: &UnlaidSet) -> Vec<u32> {
    let n = set.blocks() as u32;
    let often = r.within(1, 4);
    let mut ends: Vec<u32> = (0..n - 1)
        .filter(|&e| !set.separates_equal(e as usize) && r.one_in(often))
        .collect();
    ends.push(n - 1);
    ends
}

/// Ends that may or may not be a layout of a set of `blocks` blocks.
pub fn any_ends(r: &mut Random, blocks: usize) -> Vec<u32> {
    let mut ends: Vec<u32> = match r.below(8) {
        0 => Vec::new(),
        1 => (0..blocks as u32).collect(),
        2 => (0..r.within(60, 70) as u32).collect(),
        _ => (0..blocks as u32)
            .filter(|&e| e as usize + 1 == blocks || r.one_in(3))
            .collect(),
    };
    if !ends.is_empty() && r.one_in(3) {
        let i = r.pick(&[0, ends.len() - 1, ends.len() / 2]);
        ends[i] = match r.below(5) {
            0 => u32::MAX,
            1 => blocks as u32,
            2 => ends[i].wrapping_sub(1),
            3 => ends[i].wrapping_add(1),
            _ => r.below(blocks + 2) as u32,
        };
    }
    ends
}

/// A grower by those held or by a fence, or one of the ends.
pub fn near(r: &mut Random, c: &View, used: usize) -> u32 {
    let by = |r: &mut Random, g: u32| match r.below(5) {
        0 => g.wrapping_add(1),
        1 => g.wrapping_sub(1),
        _ => g,
    };
    match r.below(8) {
        0 => r.pick(&[0, 1, u32::MAX - 1, u32::MAX]),
        1 => r.next() as u32,
        2..=4 => {
            let p = r.below(c.partitions());
            let fence = c.fence(p);
            by(r, fence)
        }
        _ if used > 0 => {
            let g = c.growers[r.below(used)];
            by(r, g)
        }
        _ => r.below(20) as u32,
    }
}

/// A delivery that is mostly among those held.
fn mostly_held(r: &mut Random, c: &View, used: usize) -> Delivery {
    let mut d = if used == 0 || r.one_in(10) {
        Delivery::new(near(r, c, used), weight(r), oil_yield(r)).on(day(r))
    } else {
        c.slot(r.below(used))
    };
    match r.below(40) {
        0 => d.weight = weight_out(r),
        1 => d.oil_yield = oil_yield_out(r),
        2 => d.grower = near(r, c, used),
        3 => d.weight = weight(r),
        4 => d.oil_yield = oil_yield(r),
        5 => d.day = day_out(r),
        6 => d.day = day(r),
        7 => (d.weight, d.day) = (weight_out(r), day_out(r)),
        _ => {}
    }
    d
}

/// How often each call comes: find, range, insert, delete, move, partition,
/// next grower, previous grower, range over days.
pub const MIXES: [[usize; 9]; 4] = [
    [2, 2, 3, 3, 4, 1, 1, 1, 2],
    [1, 1, 8, 2, 3, 1, 1, 1, 1],
    [1, 1, 2, 8, 3, 1, 1, 1, 1],
    [1, 1, 2, 2, 9, 1, 1, 1, 1],
];

/// What a column of proper shape is asked.
pub fn asked(r: &mut Random, c: &View, mix: &[usize; 9]) -> Asked {
    let used = c.used();
    let mut at = r.below(mix.iter().sum());
    let mut which = 0;
    while at >= mix[which] {
        at -= mix[which];
        which += 1;
    }
    let call = match which {
        0 => Call::Find(near(r, c, used)),
        1 | 8 => {
            let (x, y) = (near(r, c, used), near(r, c, used));
            let (lo, hi) = match r.below(12) {
                0 => (x.max(y), x.min(y)),
                1 => (0, u32::MAX),
                2 => (x, x),
                _ => (x.min(y), x.max(y)),
            };
            match which {
                1 => Call::Range(lo, hi),
                _ => Call::RangeDays(lo, hi, span(r)),
            }
        }
        2 => {
            let mut d = mostly_held(r, c, used);
            if r.one_in(2) {
                d.grower = near(r, c, used);
            }
            Call::Insert(d)
        }
        3 => Call::Delete(mostly_held(r, c, used)),
        4 => Call::Move(mostly_held(r, c, used), near(r, c, used)),
        5 => return Asked::Partition(near(r, c, used)),
        6 => return Step::Next(near(r, c, used)).into(),
        _ => return Step::Previous(near(r, c, used)).into(),
    };
    call.into()
}
