//! The unlaid set: sorted deliveries cut into blocks.

use crate::check::{self, ensure, Checked};
use crate::types::*;

/// Block length B, number of used slots M, and the four slices. Every value
/// is possible; the calls check it.
#[derive(Clone, Copy, Debug)]
pub struct UnlaidSet<'a> {
    pub b: u32,
    pub m: usize,
    pub growers: &'a [u32],
    pub weights: &'a [u32],
    pub yields: &'a [u32],
    pub days: &'a [u32],
}

impl<'a> UnlaidSet<'a> {
    /// Checks 2, 3, 4 and 5.
    pub fn check_order(&self) -> Checked<()> {
        check::block_length(self.b)?;
        check::slices(self.growers, self.weights, self.yields, self.days)?;
        let most = self.growers.len().min(BLOCK_LIMIT * self.b as usize);
        ensure((1..=most).contains(&self.m), check::RECORD_COUNT)?;
        let rising = self.growers[..self.m].windows(2).all(|w| w[0] <= w[1]);
        ensure(rising, check::ORDER)
    }

    /// Check 8 of the first M slots. M is known to be in range.
    pub fn check_values(&self) -> Checked<()> {
        check::values(&self.weights[..self.m], &self.yields[..self.m])
    }

    /// Check 19 of the first M slots. M is known to be in range.
    pub fn check_days(&self) -> Checked<()> {
        check::days(&self.days[..self.m])
    }

    /// N, the number of blocks.
    pub fn blocks(&self) -> usize {
        self.m.div_ceil(self.b as usize)
    }

    /// Last grower of block `i`.
    pub fn last_grower(&self, i: usize) -> u32 {
        let past = ((i + 1) * self.b as usize).min(self.m);
        self.growers[past - 1]
    }

    /// Whether an end at block `i`, not the last block, separates equal
    /// growers.
    pub fn separates_equal(&self, i: usize) -> bool {
        let next = (i + 1) * self.b as usize;
        self.growers[next - 1] == self.growers[next]
    }

    /// Block of grower `g`: the first block whose last grower is at least
    /// `g`, else the last block.
    pub fn block_of(&self, g: u32) -> usize {
        let n = self.blocks();
        (0..n).find(|&i| self.last_grower(i) >= g).unwrap_or(n - 1)
    }

    /// Whether the set has a record equal to `d` in all four values.
    pub fn contains(&self, d: &Delivery) -> bool {
        (0..self.m).any(|s| {
            self.growers[s] == d.grower
                && self.weights[s] == d.weight
                && self.yields[s] == d.oil_yield
                && self.days[s] == d.day
        })
    }

    /// Check 6 of a layout. Checks 2 to 5 have passed.
    pub fn check_layout(&self, ends: &[u32]) -> Checked<()> {
        let n = self.blocks();
        let shaped = (1..=BLOCK_LIMIT).contains(&ends.len())
            && ends.windows(2).all(|w| w[0] < w[1])
            && ends[ends.len() - 1] as usize == n - 1
            && ends[..ends.len() - 1]
                .iter()
                .all(|&e| !self.separates_equal(e as usize));
        ensure(shaped, check::SHAPE)
    }
}
