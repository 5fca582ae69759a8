//! The laid column: applying a layout and the calls on it.
//!
//! The directory is 130 numbers: B, K, 64 lengths, 64 fences, unused ones 0.
//! The calls work in place, touch the scanned partitions and one record per
//! partition passed, and allocate nothing.

use crate::check::{self, ensure, Checked};
use crate::types::*;
use crate::unlaid::UnlaidSet;

/// A directory that has passed checks 2 and 6.
#[derive(Clone, Copy)]
pub(crate) struct Shape {
    pub b: usize,
    pub k: usize,
    /// Sum of the lengths.
    pub used: usize,
}

/// Check 6 of a directory over slices of length `c`.
pub(crate) fn check_directory(directory: &[u32], c: usize) -> Checked<Shape> {
    ensure(directory.len() == DIRECTORY_LEN, check::SHAPE)?;
    let k = directory[1] as usize;
    ensure((1..=BLOCK_LIMIT).contains(&k), check::SHAPE)?;
    let lengths = &directory[LENGTHS..FENCES];
    let fences = &directory[FENCES..];
    let used: u64 = lengths[..k].iter().map(|&n| u64::from(n)).sum();
    let clear = lengths[k..]
        .iter()
        .chain(&fences[k..])
        .fold(0, |all, &n| all | n)
        == 0;
    let rising = fences[..k].windows(2).all(|w| w[0] < w[1]);
    ensure(clear && rising && used <= c as u64, check::SHAPE)?;
    Ok(Shape {
        b: directory[0] as usize,
        k,
        used: used as usize,
    })
}

/// Check 2 of a directory. It is not put if the slice is not 130 long; check
/// 6 refuses that later.
#[inline]
pub(crate) fn check_directory_block_length(directory: &[u32]) -> Checked<()> {
    if directory.len() == DIRECTORY_LEN {
        check::block_length(directory[0])
    } else {
        Ok(())
    }
}

/// Checks 2, 3 and 6 of a column.
#[inline]
pub(crate) fn check_column(
    growers: &[u32],
    weights: &[u32],
    yields: &[u32],
    days: &[u32],
    directory: &[u32],
) -> Checked<Shape> {
    check_directory_block_length(directory)?;
    check::slices(growers, weights, yields, days)?;
    check_directory(directory, growers.len())
}

/// Partition of grower `g`: the first whose fence is at least `g`, else the
/// last.
#[inline]
pub(crate) fn partition_of(directory: &[u32], k: usize, g: u32) -> usize {
    directory[FENCES..FENCES + k]
        .partition_point(|&fence| fence < g)
        .min(k - 1)
}

#[inline]
pub(crate) fn length(directory: &[u32], p: usize) -> usize {
    directory[LENGTHS + p] as usize
}

/// First slot of partition `p`.
#[inline]
pub(crate) fn start(directory: &[u32], p: usize) -> usize {
    directory[LENGTHS..LENGTHS + p]
        .iter()
        .map(|&n| n as usize)
        .sum()
}

/// Blocks that a partition of `n` records counts as; an empty one counts none.
#[inline]
pub(crate) fn block_count(n: usize, b: usize) -> u64 {
    n.div_ceil(b) as u64
}

/// Of all blocks that a call reads the first is a random read, each other a
/// sequential read; without a block there is no read.
#[inline]
pub(crate) fn scan_counts(blocks: u64) -> Counts {
    let rr = blocks.min(1);
    Counts {
        rr,
        sr: blocks - rr,
        rw: 0,
    }
}

/// Records looked at together in a scan.
pub(crate) const STRIDE: usize = 64;

/// Check 8 of all records of one partition, then the totals of its growers lo to
/// hi, on the days of the span if these are looked at. Check 19 is the caller's.
/// The loops have no branch per record, so each does several records at a time; a
/// stride without a match is passed over. Not inlined, so that its loops stay the
/// same whatever stands around the call.
#[inline(never)]
fn scan_totals<const DATED: bool>(
    growers: &[u32],
    weights: &[u32],
    yields: &[u32],
    days: &[u32],
    (lo, hi): (u32, u32),
    span: &Span,
) -> Checked<Totals> {
    check::values(weights, yields)?;
    let width = hi - lo;
    let matches = |g: u32, n: u32| (g.wrapping_sub(lo) <= width) & (!DATED | span.holds(n));
    let mut totals = Totals::ZERO;
    let strides = growers
        .chunks(STRIDE)
        .zip(weights.chunks(STRIDE))
        .zip(yields.chunks(STRIDE))
        .zip(days.chunks(STRIDE));
    for (((gs, ws), ys), ns) in strides {
        let dated = gs.iter().zip(ns);
        if !dated.fold(false, |any, (&g, &n)| any | matches(g, n)) {
            continue;
        }
        for (((&g, &w), &y), &n) in gs.iter().zip(ws).zip(ys).zip(ns) {
            let weight = if matches(g, n) { w } else { 0 };
            totals.records += u64::from(matches(g, n));
            totals.weight += u64::from(weight);
            totals.oil += u64::from(weight) * u64::from(y);
        }
    }
    Ok(totals)
}

/// Lowest slot of one partition that holds a record equal to `d`. Not inlined,
/// as above.
#[inline(never)]
fn scan_match(
    growers: &[u32],
    weights: &[u32],
    yields: &[u32],
    days: &[u32],
    d: &Delivery,
) -> Option<usize> {
    growers
        .iter()
        .zip(weights)
        .zip(yields)
        .zip(days)
        .position(|(((&g, &w), &y), &n)| {
            (g == d.grower) & (w == d.weight) & (y == d.oil_yield) & (n == d.day)
        })
}

/// The four slices as one array of records.
struct Slots<'a> {
    growers: &'a mut [u32],
    weights: &'a mut [u32],
    yields: &'a mut [u32],
    days: &'a mut [u32],
}

impl Slots<'_> {
    #[inline]
    fn copy(&mut self, from: usize, to: usize) {
        self.growers[to] = self.growers[from];
        self.weights[to] = self.weights[from];
        self.yields[to] = self.yields[from];
        self.days[to] = self.days[from];
    }

    #[inline]
    fn store(&mut self, at: usize, d: &Delivery) {
        self.growers[at] = d.grower;
        self.weights[at] = d.weight;
        self.yields[at] = d.oil_yield;
        self.days[at] = d.day;
    }

    /// The free slot `hole` lies just past the last of the partitions whose
    /// lengths are given. Each sends its first record there; an empty one
    /// only shifts. Answers the free slot, then the first slot of these
    /// partitions.
    #[inline]
    fn ripple_back(&mut self, lengths: &[u32], mut hole: usize) -> usize {
        for &n in lengths.iter().rev() {
            let n = n as usize;
            if n > 0 {
                self.copy(hole - n, hole);
                hole -= n;
            }
        }
        hole
    }

    /// The free slot `hole` lies just before the first of the partitions
    /// whose lengths are given. Each sends its last record there; an empty
    /// one only shifts. Answers the free slot, then the last slot of these
    /// partitions.
    #[inline]
    fn ripple_forward(&mut self, lengths: &[u32], mut hole: usize) -> usize {
        for &n in lengths {
            let n = n as usize;
            if n > 0 {
                self.copy(hole + n, hole);
                hole += n;
            }
        }
        hole
    }
}

/// Checks 2 3 4 5 6 8 19, then the directory of the layout. No record moves.
pub fn apply_layout(set: &UnlaidSet, ends: &[u32]) -> DirectoryAnswer {
    let checked = set
        .check_order()
        .and_then(|()| set.check_layout(ends))
        .and_then(|()| set.check_values())
        .and_then(|()| set.check_days());
    if let Err(number) = checked {
        return DirectoryAnswer::refused(number);
    }
    let mut directory = [0; DIRECTORY_LEN];
    directory[0] = set.b;
    directory[1] = ends.len() as u32;
    let mut first = 0;
    for (p, &end) in ends.iter().enumerate() {
        let past = ((end as usize + 1) * set.b as usize).min(set.m);
        directory[LENGTHS + p] = (past - first) as u32;
        directory[FENCES + p] = set.growers[past - 1];
        first = past;
    }
    DirectoryAnswer {
        refusal: check::ACCEPTED,
        directory,
    }
}

/// Scans the partitions from lo's to hi's, after checks 2 3 6 7: 8 of them all,
/// then 19 of them all and of the days named.
fn read(
    growers: &[u32],
    weights: &[u32],
    yields: &[u32],
    days: &[u32],
    directory: &[u32],
    (lo, hi): (u32, u32),
    span: &Span,
) -> Checked<ReadAnswer> {
    let shape = check_column(growers, weights, yields, days, directory)?;
    ensure(lo <= hi, check::RANGE)?;
    let first = partition_of(directory, shape.k, lo);
    let last = partition_of(directory, shape.k, hi);
    let mut at = start(directory, first);
    let mut blocks = 0;
    let mut totals = Totals::ZERO;
    let mut dated = span.in_range();
    for p in first..=last {
        let past = at + length(directory, p);
        if past == at {
            continue;
        }
        let scan = match *span == Span::ALL {
            true => scan_totals::<false>,
            false => scan_totals::<true>,
        };
        let part = scan(
            &growers[at..past],
            &weights[at..past],
            &yields[at..past],
            &days[at..past],
            (lo, hi),
            span,
        )?;
        dated &= check::days_in_range(&days[at..past]);
        totals.records += part.records;
        totals.weight += part.weight;
        totals.oil += part.oil;
        blocks += block_count(past - at, shape.b);
        at = past;
    }
    ensure(dated, check::DAYS)?;
    Ok(ReadAnswer {
        refusal: check::ACCEPTED,
        totals,
        counts: scan_counts(blocks),
    })
}

/// Checks 2 3 6 8 19.
pub fn find(
    growers: &[u32],
    weights: &[u32],
    yields: &[u32],
    days: &[u32],
    directory: &[u32],
    g: u32,
) -> ReadAnswer {
    read(
        growers,
        weights,
        yields,
        days,
        directory,
        (g, g),
        &Span::ALL,
    )
    .unwrap_or_else(ReadAnswer::refused)
}

/// Checks 2 3 6 7 8 19.
pub fn range(
    growers: &[u32],
    weights: &[u32],
    yields: &[u32],
    days: &[u32],
    directory: &[u32],
    lo: u32,
    hi: u32,
) -> ReadAnswer {
    read(
        growers,
        weights,
        yields,
        days,
        directory,
        (lo, hi),
        &Span::ALL,
    )
    .unwrap_or_else(ReadAnswer::refused)
}

/// Checks 2 3 6 7 8 19, the last of the days named too; only records on these
/// days match.
pub fn range_days(
    growers: &[u32],
    weights: &[u32],
    yields: &[u32],
    days: &[u32],
    directory: &[u32],
    (lo, hi): (u32, u32),
    span: Span,
) -> ReadAnswer {
    read(growers, weights, yields, days, directory, (lo, hi), &span)
        .unwrap_or_else(ReadAnswer::refused)
}

/// Checks 2 3 6 8 19 12, then the new record goes just past its partition.
pub fn insert(
    growers: &mut [u32],
    weights: &mut [u32],
    yields: &mut [u32],
    days: &mut [u32],
    directory: &mut [u32],
    d: Delivery,
) -> WriteAnswer {
    let shape = match check_column(growers, weights, yields, days, directory) {
        Ok(shape) => shape,
        Err(number) => return WriteAnswer::refused(number),
    };
    if !d.in_range() {
        return WriteAnswer::refused(check::VALUES);
    }
    if !d.day_in_range() {
        return WriteAnswer::refused(check::DAYS);
    }
    if shape.used == growers.len() {
        return WriteAnswer::refused(check::FULL);
    }
    let target = partition_of(directory, shape.k, d.grower);
    let mut slots = Slots {
        growers,
        weights,
        yields,
        days,
    };
    let later = &directory[LENGTHS + target + 1..LENGTHS + shape.k];
    let hole = slots.ripple_back(later, shape.used);
    slots.store(hole, &d);
    directory[LENGTHS + target] += 1;
    // The end slot, and each partition from the target to the last.
    let each = 1 + (shape.k - target) as u64;
    WriteAnswer {
        refusal: check::ACCEPTED,
        counts: Counts {
            rr: each,
            sr: 0,
            rw: each,
        },
    }
}

/// Where delete and move found the record.
struct Found {
    shape: Shape,
    partition: usize,
    start: usize,
    slot: usize,
    scan: Counts,
}

/// Checks 2 3 6 8 19 13 of delete and move; 13 reports its scan.
fn locate(
    growers: &[u32],
    weights: &[u32],
    yields: &[u32],
    days: &[u32],
    directory: &[u32],
    d: &Delivery,
) -> Result<Found, WriteAnswer> {
    let shape =
        check_column(growers, weights, yields, days, directory).map_err(WriteAnswer::refused)?;
    ensure(d.in_range(), check::VALUES).map_err(WriteAnswer::refused)?;
    let partition = partition_of(directory, shape.k, d.grower);
    let n = length(directory, partition);
    let at = start(directory, partition);
    let (gs, ws, ys, ns) = (
        &growers[at..at + n],
        &weights[at..at + n],
        &yields[at..at + n],
        &days[at..at + n],
    );
    check::values(ws, ys).map_err(WriteAnswer::refused)?;
    ensure(d.day_in_range(), check::DAYS).map_err(WriteAnswer::refused)?;
    check::days(ns).map_err(WriteAnswer::refused)?;
    let scan = scan_counts(block_count(n, shape.b));
    match scan_match(gs, ws, ys, ns, d) {
        Some(i) => Ok(Found {
            shape,
            partition,
            start: at,
            slot: at + i,
            scan,
        }),
        None => Err(WriteAnswer {
            refusal: check::ABSENT,
            counts: scan,
        }),
    }
}

/// Checks 2 3 6 8 19 13, then the lowest matching record is removed and the
/// freed slot at the end becomes 0, 0, 0, 0.
pub fn delete(
    growers: &mut [u32],
    weights: &mut [u32],
    yields: &mut [u32],
    days: &mut [u32],
    directory: &mut [u32],
    d: Delivery,
) -> WriteAnswer {
    let found = match locate(growers, weights, yields, days, directory, &d) {
        Ok(found) => found,
        Err(answer) => return answer,
    };
    let p = found.partition;
    let mut slots = Slots {
        growers,
        weights,
        yields,
        days,
    };
    let last = found.start + length(directory, p) - 1;
    slots.copy(last, found.slot);
    let later = &directory[LENGTHS + p + 1..LENGTHS + found.shape.k];
    let hole = slots.ripple_forward(later, last);
    slots.store(hole, &Delivery::default());
    directory[LENGTHS + p] -= 1;
    let each = (found.shape.k - p) as u64;
    WriteAnswer {
        refusal: check::ACCEPTED,
        counts: Counts {
            rr: found.scan.rr + each,
            sr: found.scan.sr,
            rw: 1 + each,
        },
    }
}

/// Checks 2 3 6 8 19 13, then the lowest matching record gets the new grower
/// and goes to that grower's partition. Weight, yield and day are kept.
pub fn move_delivery(
    growers: &mut [u32],
    weights: &mut [u32],
    yields: &mut [u32],
    days: &mut [u32],
    directory: &mut [u32],
    d: Delivery,
    new_grower: u32,
) -> WriteAnswer {
    let found = match locate(growers, weights, yields, days, directory, &d) {
        Ok(found) => found,
        Err(answer) => return answer,
    };
    let from = found.partition;
    let to = partition_of(directory, found.shape.k, new_grower);
    let moved = Delivery {
        grower: new_grower,
        ..d
    };
    let mut slots = Slots {
        growers,
        weights,
        yields,
        days,
    };
    let passed = if from <= to {
        // Forward, or within (nothing passed, the hole is the last slot).
        let last = found.start + length(directory, from) - 1;
        slots.copy(last, found.slot);
        let between = LENGTHS + (from + 1).min(to)..LENGTHS + to;
        let hole = slots.ripple_forward(&directory[between], last);
        slots.store(hole, &moved);
        to - from
    } else {
        slots.copy(found.start, found.slot);
        let between = LENGTHS + to + 1..LENGTHS + from;
        let hole = slots.ripple_back(&directory[between], found.start);
        slots.store(hole, &moved);
        from - to
    };
    directory[LENGTHS + from] -= 1;
    directory[LENGTHS + to] += 1;
    let passed = passed as u64;
    WriteAnswer {
        refusal: check::ACCEPTED,
        counts: Counts {
            rr: found.scan.rr + 1 + passed,
            sr: found.scan.sr,
            rw: 2 + passed,
        },
    }
}

/// Checks 2, 3 (growers alone) and 6, then the span of the partition of `g`.
pub fn partition_span(growers: &[u32], directory: &[u32], g: u32) -> SpanAnswer {
    let checked = check_directory_block_length(directory)
        .and_then(|()| check::slices(growers, growers, growers, growers))
        .and_then(|()| check_directory(directory, growers.len()));
    match checked {
        Ok(shape) => {
            let p = partition_of(directory, shape.k, g);
            SpanAnswer {
                refusal: check::ACCEPTED,
                start: start(directory, p),
                count: length(directory, p),
            }
        }
        Err(refusal) => SpanAnswer {
            refusal,
            start: 0,
            count: 0,
        },
    }
}

/// The part of the growers that is the partition of `g`; refused, an empty
/// part at the start. The refusal number is left in `refusal`.
pub fn partition_slice<'a>(
    growers: &'a [u32],
    directory: &[u32],
    g: u32,
    refusal: &mut u32,
) -> &'a [u32] {
    let span = partition_span(growers, directory, g);
    *refusal = span.refusal;
    &growers[span.start..span.start + span.count]
}
