//! The next and the previous grower with records.

use crate::check::{self, ensure, Checked};
use crate::column::{block_count, check_column, length, partition_of, scan_counts, start, STRIDE};
use crate::types::*;

/// The least distance that is at most `furthest`, and the records at it. The
/// loops have no branch per record, so each does several records at a time; a
/// stride with nothing as near as the nearest so far is passed over.
#[inline]
fn nearest<'a>(
    strides: impl Iterator<Item = &'a [u32]>,
    distance: impl Fn(u32) -> u32,
    furthest: u32,
) -> Option<(u32, u64)> {
    let (mut near, mut records) = (furthest, 0);
    for gs in strides {
        if !gs.iter().fold(false, |any, &g| any | (distance(g) <= near)) {
            continue;
        }
        let here = gs.iter().fold(near, |d, &g| d.min(distance(g)));
        if here < near {
            (near, records) = (here, 0);
        }
        let equal = gs.iter().map(|&g| u32::from(distance(g) == near));
        records += u64::from(equal.sum::<u32>());
    }
    (records > 0).then_some((near, records))
}

/// Scans from the partition of `g`, upward or downward, to the first that holds
/// a grower on that side of it.
#[inline]
fn search<const DOWN: bool>(
    growers: &[u32],
    weights: &[u32],
    yields: &[u32],
    days: &[u32],
    directory: &[u32],
    g: u32,
) -> Checked<GrowerAnswer> {
    let shape = check_column(growers, weights, yields, days, directory)?;
    // The distance of a grower on the other side wraps, past the furthest.
    let up = |held: u32| held.wrapping_sub(g);
    let down = |held: u32| g.wrapping_sub(held);
    let mut p = partition_of(directory, shape.k, g);
    let mut at = start(directory, p);
    let mut blocks = 0;
    let mut dated = true;
    loop {
        let n = length(directory, p);
        let mut found = None;
        if n > 0 {
            let part = &growers[at..at + n];
            check::values(&weights[at..at + n], &yields[at..at + n])?;
            dated &= check::days_in_range(&days[at..at + n]);
            blocks += block_count(n, shape.b);
            // Laid growers rise: this end of the partition is mostly the nearer one.
            found = if DOWN {
                nearest(part.rchunks(STRIDE), down, g).map(|(d, records)| (g - d, records))
            } else {
                nearest(part.chunks(STRIDE), up, u32::MAX - g).map(|(d, records)| (g + d, records))
            };
        }
        let is_last = p == if DOWN { 0 } else { shape.k - 1 };
        if found.is_some() || is_last {
            ensure(dated, check::DAYS)?;
            let (grower, records) = found.unwrap_or_default();
            return Ok(GrowerAnswer {
                refusal: check::ACCEPTED,
                grower,
                records,
                counts: scan_counts(blocks),
            });
        }
        if DOWN {
            p -= 1;
            at -= length(directory, p);
        } else {
            p += 1;
            at += n;
        }
    }
}

/// Checks 2 3 6 8 19, then the smallest grower at or above `g` with a record, and
/// his record count.
pub fn next_grower(
    growers: &[u32],
    weights: &[u32],
    yields: &[u32],
    days: &[u32],
    directory: &[u32],
    g: u32,
) -> GrowerAnswer {
    search::<false>(growers, weights, yields, days, directory, g)
        .unwrap_or_else(GrowerAnswer::refused)
}

/// Checks 2 3 6 8 19, then the largest grower at or below `g` with a record, and
/// his record count.
pub fn previous_grower(
    growers: &[u32],
    weights: &[u32],
    yields: &[u32],
    days: &[u32],
    directory: &[u32],
    g: u32,
) -> GrowerAnswer {
    search::<true>(growers, weights, yields, days, directory, g)
        .unwrap_or_else(GrowerAnswer::refused)
}
