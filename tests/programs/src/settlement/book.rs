//! Books as numbers, their text and their sheet.

use programs::damage::{put_line, Input};
use second::random::Random;
use std::collections::BTreeMap;
use std::fmt::Write;

/// The program's slots.
pub const SLOTS: usize = 512;
/// Most partitions.
pub const PARTITIONS: usize = 64;
/// Bytes of the longest book that is accepted.
pub const LONGEST: usize = 34 + 23 * PARTITIONS + 34 * SLOTS;

#[derive(Clone, Debug)]
pub struct Book {
    /// B, M, K.
    pub head: [u32; 3],
    /// Length and fence.
    pub parts: Vec<[u32; 2]>,
    /// Grower, weight, yield.
    pub deliveries: Vec<[u32; 3]>,
}

impl Input for Book {
    fn text(&self) -> Vec<u8> {
        let mut text = String::new();
        put_line(&mut text, &self.head);
        for part in &self.parts {
            put_line(&mut text, part);
        }
        for delivery in &self.deliveries {
            put_line(&mut text, delivery);
        }
        text.into_bytes()
    }
}

impl Book {
    /// The sheet of a good book.
    pub fn sheet(&self) -> Vec<u8> {
        let mut growers: BTreeMap<u32, [u64; 3]> = BTreeMap::new();
        let mut all = [0; 3];
        for &[grower, weight, oil_yield] in &self.deliveries {
            let oil = u64::from(weight) * u64::from(oil_yield);
            for sums in [growers.entry(grower).or_default(), &mut all] {
                let more = [1, u64::from(weight), oil];
                sums.iter_mut().zip(more).for_each(|(sum, n)| *sum += n);
            }
        }
        let mut text = String::new();
        let lines = growers.iter().map(|(grower, t)| (Some(grower), t));
        for (grower, [records, weight, oil]) in lines.chain([(None, &all)]) {
            let grower = grower.map_or(String::new(), |g| format!("{g:>20}"));
            writeln!(text, "{grower}{records:>20}{weight:>20}{oil:>20}")
                .expect("a string takes every text");
        }
        text.into_bytes()
    }

    /// The slots of a partition.
    pub fn slots(&self, p: usize) -> std::ops::Range<usize> {
        let before = |p: usize| self.parts[..p].iter().map(|part| part[0] as usize).sum();
        before(p)..before(p + 1)
    }
}

fn weight(r: &mut Random) -> u32 {
    r.edge(0, 100_000) as u32
}

fn oil_yield(r: &mut Random) -> u32 {
    r.edge(0, 10_000) as u32
}

/// Fences that rise: the first numbers, the last, or any.
fn fences(r: &mut Random, k: u32) -> Vec<u32> {
    let gap = r.pick(&[1, 1, 3, 10_000_000]);
    let first = r.pick(&[0, 7, 11_000]);
    match r.below(4) {
        0 => (0..k).map(|p| u32::MAX - (k - 1 - p)).collect(),
        _ => (0..k).map(|p| first + p * gap).collect(),
    }
}

/// A good book of so many deliveries in so many partitions.
pub fn of(r: &mut Random, count: usize, k: usize) -> Book {
    let fences = fences(r, k as u32);
    // Few partitions that hold deliveries leave the others empty.
    let holding: Vec<usize> = match r.below(3) {
        0 => vec![r.below(k), r.below(k)],
        _ => (0..k).collect(),
    };
    let few = r.one_in(2);
    let mut parts: Vec<Vec<[u32; 3]>> = vec![Vec::new(); k];
    for _ in 0..count {
        let p = r.pick(&holding);
        let lo = if p == 0 { 0 } else { fences[p - 1] + 1 };
        let hi = if p + 1 == k { u32::MAX } else { fences[p] };
        let any = r.within(lo as usize, hi as usize) as u32;
        let grower = match few {
            true => r.pick(&[lo, fences[p], hi]),
            false => r.pick(&[lo, hi, any, any, any, any]),
        };
        parts[p].push([grower, weight(r), oil_yield(r)]);
    }
    let lengths = parts.iter().map(|part| part.len() as u32);
    Book {
        head: [r.edge(1, 4_096) as u32, count as u32, k as u32],
        parts: lengths.zip(fences).map(|(n, fence)| [n, fence]).collect(),
        deliveries: parts.concat(),
    }
}

/// Mostly small; the largest counts now and then.
pub fn any(r: &mut Random) -> Book {
    let count = match r.below(40) {
        0 => r.within(SLOTS - 1, SLOTS),
        1..=3 => r.within(1, SLOTS),
        4..=6 => 0,
        7..=16 => r.within(20, 140),
        _ => r.within(1, 12),
    };
    let k = r.pick(&[1, 1, 2, 2, 3, 5, 9, PARTITIONS]);
    of(r, count, k)
}

/// The longest book: 512 growers in 64 partitions, and so the longest sheet.
pub fn largest(r: &mut Random) -> Book {
    let mut book = of(r, SLOTS, PARTITIONS);
    let each = (SLOTS / PARTITIONS) as u32;
    for (p, part) in book.parts.iter_mut().enumerate() {
        *part = [each, each * (p as u32 + 1) - 1];
    }
    for (i, delivery) in book.deliveries.iter_mut().enumerate() {
        // Down inside each partition.
        let i = i as u32;
        delivery[0] = i / each * each + (each - 1 - i % each);
    }
    book
}
