//! Numbers of the checks, and the checks that several calls share.

use crate::types::*;

pub const ACCEPTED: u32 = 0;
/// Prices 1 to 1,000 and limits at most 1,000,000.
pub const PRICES: u32 = 1;
/// B 1 to 4,096.
pub const BLOCK_LENGTH: u32 = 2;
/// Four slices of one length C, 1 to 262,144.
pub const SLICES: u32 = 3;
/// M in range for an unlaid set (an export: 0 to C).
pub const RECORD_COUNT: u32 = 4;
/// Growers of an unlaid set never fall.
pub const ORDER: u32 = 5;
/// Shape of a layout or directory.
pub const SHAPE: u32 = 6;
/// lo at most hi.
pub const RANGE: u32 = 7;
/// Weight and yield in range.
pub const VALUES: u32 = 8;
/// Histogram slice 640 long, no count above 1,000,000.
pub const HISTOGRAM: u32 = 9;
/// Raised counts and tally numbers stay within their limits.
pub const OVERFLOW: u32 = 10;
/// Some layout is permitted.
pub const NO_LAYOUT: u32 = 11;
/// A free slot (reading: M slots; an import: a slot for each row).
pub const FULL: u32 = 12;
/// The delivery is in the partition.
pub const ABSENT: u32 = 13;
/// The text is a snapshot (or program input).
pub const TEXT: u32 = 14;
/// The output is long enough.
pub const ROOM: u32 = 15;
/// The header has each needed name, and no broken quote.
pub const COLUMN_ABSENT: u32 = 16;
/// No needed name occurs twice.
pub const COLUMN_TWICE: u32 = 17;
/// Each row has the header's field count, no broken quote, and its numbers in
/// range.
pub const ROW: u32 = 18;
/// Days at most 36,524, of records asked just after 8; a date exists and lies in
/// 2000 to 2099; a day to be written is 0.
pub const DAYS: u32 = 19;
/// A set to be listed has at most 12 blocks; asked ahead of 11.
pub const LISTED_BLOCKS: u32 = 23;

/// Outcome of a list of checks: the first "no" ends it.
pub type Checked<T> = Result<T, u32>;

#[inline]
pub fn ensure(yes: bool, number: u32) -> Checked<()> {
    if yes {
        Ok(())
    } else {
        Err(number)
    }
}

/// A text's answer: the bytes written, or the first check that fails.
impl From<Checked<usize>> for TextAnswer {
    fn from(outcome: Checked<usize>) -> TextAnswer {
        TextAnswer {
            refusal: outcome.err().unwrap_or(ACCEPTED),
            written: outcome.unwrap_or(0),
        }
    }
}

/// Check 1, prices only.
pub fn prices(card: &PriceCard) -> Checked<()> {
    let good = |p: u32| (1..=PRICE_LIMIT).contains(&p);
    ensure(good(card.rr) && good(card.sr) && good(card.rw), PRICES)
}

/// Check 1, prices and limits.
pub fn prices_and_limits(card: &PriceCard, limits: &Limits) -> Checked<()> {
    prices(card)?;
    ensure(
        limits.read <= LIMIT_LIMIT && limits.insert <= LIMIT_LIMIT,
        PRICES,
    )
}

/// Check 2.
#[inline]
pub fn block_length(b: u32) -> Checked<()> {
    ensure((1..=BLOCK_LENGTH_LIMIT).contains(&b), BLOCK_LENGTH)
}

/// Check 3.
#[inline]
pub fn slices(growers: &[u32], weights: &[u32], yields: &[u32], days: &[u32]) -> Checked<()> {
    let c = growers.len();
    let even = [weights, yields, days].iter().all(|slice| slice.len() == c);
    ensure(even && (1..=SLOT_LIMIT).contains(&c), SLICES)
}

/// Whether all numbers are at most `limit`; no early exit, so that the loop
/// is done several numbers at a time.
#[inline]
fn all_within(numbers: &[u32], limit: u32) -> bool {
    !numbers.iter().fold(false, |over, &n| over | (n > limit))
}

/// Check 8 over a run of records.
#[inline]
pub fn values(weights: &[u32], yields: &[u32]) -> Checked<()> {
    let good = all_within(weights, WEIGHT_LIMIT) && all_within(yields, YIELD_LIMIT);
    ensure(good, VALUES)
}

/// Whether check 19 passes over a run of records. Of several runs 8 is asked of
/// all before 19 is asked of one.
#[inline]
pub fn days_in_range(days: &[u32]) -> bool {
    all_within(days, DAY_LIMIT)
}

/// Check 19 over a run of records.
#[inline]
pub fn days(days: &[u32]) -> Checked<()> {
    ensure(days_in_range(days), DAYS)
}

/// Check 9.
pub fn histograms(histograms: &[u32]) -> Checked<()> {
    ensure(
        histograms.len() == HISTOGRAM_LEN && histograms.iter().all(|&n| n <= COUNT_LIMIT),
        HISTOGRAM,
    )
}
