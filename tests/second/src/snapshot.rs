//! The snapshot text (the paper's book): writing and reading.

use crate::check::{self, ensure, Checked};
use crate::column::{check_column, partition_of, Shape};
use crate::field::{line_size, read_line, read_line_u32, write_line};
use crate::types::*;

/// Bytes of a snapshot of `m` records in `k` partitions.
pub const fn snapshot_size(m: usize, k: usize) -> usize {
    line_size(3) + k * line_size(2) + m * line_size(3)
}

/// Whether every record is in its grower's partition: above the fence before it
/// and, but for the last, not above its own. No early exit inside a partition, so
/// that the loop is done several records at a time.
pub(crate) fn is_sound(growers: &[u32], directory: &[u32], shape: &Shape) -> bool {
    let fences = &directory[FENCES..FENCES + shape.k];
    let mut at = 0;
    for p in 0..shape.k {
        let past = at + directory[LENGTHS + p] as usize;
        let lo = if p == 0 { 0 } else { fences[p - 1] + 1 };
        let hi = if p + 1 == shape.k {
            u32::MAX
        } else {
            fences[p]
        };
        let outside = |g: u32| g.wrapping_sub(lo) > hi - lo;
        if growers[at..past]
            .iter()
            .fold(false, |any, &g| any | outside(g))
        {
            return false;
        }
        at = past;
    }
    true
}

fn try_write(
    growers: &[u32],
    weights: &[u32],
    yields: &[u32],
    days: &[u32],
    directory: &[u32],
    out: &mut [u8],
) -> Checked<usize> {
    let shape = check_column(growers, weights, yields, days, directory)?;
    ensure(is_sound(growers, directory, &shape), check::SHAPE)?;
    let m = shape.used;
    check::values(&weights[..m], &yields[..m])?;
    ensure(days[..m].iter().all(|&day| day == 0), check::DAYS)?;
    ensure(snapshot_size(m, shape.k) <= out.len(), check::ROOM)?;
    let mut at = write_line(out, 0, &[directory[0], m as u32, directory[1]]);
    for p in 0..shape.k {
        at = write_line(out, at, &[directory[LENGTHS + p], directory[FENCES + p]]);
    }
    for s in 0..m {
        at = write_line(out, at, &[growers[s], weights[s], yields[s]]);
    }
    Ok(at)
}

/// Checks 2 3 6 (shape, then soundness) 8 19 (every day is 0) 15, then the text.
/// Bytes past it stay as they were.
pub fn snapshot_write(
    growers: &[u32],
    weights: &[u32],
    yields: &[u32],
    days: &[u32],
    directory: &[u32],
    out: &mut [u8],
) -> TextAnswer {
    try_write(growers, weights, yields, days, directory, out).into()
}

/// Line 1 if it is three numbers in range, its LF included: B, M, K and the
/// position after it.
fn read_head(text: &[u8]) -> Option<(u32, usize, usize, usize)> {
    let ([b, m, k], at) = read_line::<3>(text, 0)?;
    let good = (1..=u64::from(BLOCK_LENGTH_LIMIT)).contains(&b)
        && m <= SLOT_LIMIT as u64
        && (1..=BLOCK_LIMIT as u64).contains(&k);
    good.then_some((b as u32, m as usize, k as usize, at))
}

/// The lines after line 1, checked without a write: the directory and the
/// position of the first record. M is at most C.
fn read_body(
    text: &[u8],
    (b, m, k, mut at): (u32, usize, usize, usize),
) -> Option<([u32; DIRECTORY_LEN], usize)> {
    if text.len() != snapshot_size(m, k) {
        return None;
    }
    let mut directory = [0; DIRECTORY_LEN];
    directory[0] = b;
    directory[1] = k as u32;
    let mut total = 0u64;
    for p in 0..k {
        let ([length, fence], next) = read_line_u32::<2>(text, at)?;
        if p > 0 && fence <= directory[FENCES + p - 1] {
            return None;
        }
        directory[LENGTHS + p] = length;
        directory[FENCES + p] = fence;
        total += u64::from(length);
        at = next;
    }
    if total != m as u64 {
        return None;
    }
    let records = at;
    for p in 0..k {
        for _ in 0..directory[LENGTHS + p] {
            let ([grower, weight, oil_yield], next) = read_line_u32::<3>(text, at)?;
            let d = Delivery::new(grower, weight, oil_yield);
            if !d.in_range() || partition_of(&directory, k, grower) != p {
                return None;
            }
            at = next;
        }
    }
    Some((directory, records))
}

fn try_read(
    text: &[u8],
    growers: &mut [u32],
    weights: &mut [u32],
    yields: &mut [u32],
    days: &mut [u32],
) -> Checked<[u32; DIRECTORY_LEN]> {
    check::slices(growers, weights, yields, days)?;
    let head = read_head(text).ok_or(check::TEXT)?;
    let m = head.1;
    ensure(m <= growers.len(), check::FULL)?;
    let (directory, records) = read_body(text, head).ok_or(check::TEXT)?;
    let mut at = records;
    for s in 0..m {
        let (record, next) = read_line_u32::<3>(text, at).ok_or(check::TEXT)?;
        [growers[s], weights[s], yields[s]] = record;
        days[s] = 0;
        at = next;
    }
    Ok(directory)
}

/// Checks 3, then 12 if line 1 is three numbers in range, then 14. Fills the
/// first M slots, with day 0; later slots stay as they were.
pub fn snapshot_read(
    text: &[u8],
    growers: &mut [u32],
    weights: &mut [u32],
    yields: &mut [u32],
    days: &mut [u32],
) -> DirectoryAnswer {
    match try_read(text, growers, weights, yields, days) {
        Ok(directory) => DirectoryAnswer {
            refusal: check::ACCEPTED,
            directory,
        },
        Err(refusal) => DirectoryAnswer::refused(refusal),
    }
}
