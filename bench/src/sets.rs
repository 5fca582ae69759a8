//! The unpartitioned sets of a benchmark: drawn, planned and laid.

use crate::columns::LIBRARY;
use meltusk::{Column, Set, Slots};
use second::random::Random;
use second::{
    Delivery, Limits, PriceCard, Span, BLOCK_LENGTH_LIMIT, BLOCK_LIMIT, LIMIT_LIMIT, WEIGHT_LIMIT,
    YIELD_LIMIT,
};

/// A drawn delivery for each grower, and free slots behind them.
pub fn drawn(r: &mut Random, block: u32, growers: Vec<u32>, slots: usize) -> Set {
    let deliveries: Vec<Delivery> = growers.iter().map(|&g| delivery(r, g)).collect();
    let mut set = Set {
        block,
        used: growers.len() as u32,
        growers,
        weights: deliveries.iter().map(|d| d.weight).collect(),
        yields: deliveries.iter().map(|d| d.oil_yield).collect(),
        days: deliveries.iter().map(|d| d.day).collect(),
    };
    set.resize(slots);
    set
}

/// The days of a harvest: 1 October to 31 December 2024, six terms.
pub const HARVEST: Span = Span::new(9_040, 9_131);

pub fn delivery(r: &mut Random, grower: u32) -> Delivery {
    let weight = r.within(0, WEIGHT_LIMIT as usize) as u32;
    let oil_yield = r.within(0, YIELD_LIMIT as usize) as u32;
    let day = r.within(HARVEST.first as usize, HARVEST.last as usize);
    Delivery::new(grower, weight, oil_yield).on(day as u32)
}

/// Where a set can be cut, and the columns that this gives.
pub trait Layouts {
    fn records(&self) -> usize;
    fn delivery(&self, slot: usize) -> Delivery;
    fn least_block(&self) -> u32;
    fn best_block(&self) -> u32;
    fn permitted(&self) -> Vec<u32>;
    fn mean_scan(&self) -> f64;
    fn equal_ends(&self, partitions: usize) -> Vec<u32>;
    fn planned(&self, histograms: &[u32], card: &PriceCard) -> Vec<u32>;
    fn column(&self, ends: &[u32]) -> Column;
}

impl Layouts for Set {
    fn records(&self) -> usize {
        self.used as usize
    }

    fn delivery(&self, slot: usize) -> Delivery {
        self.slot(slot)
    }

    /// The shortest blocks that the set can have.
    fn least_block(&self) -> u32 {
        self.records().div_ceil(BLOCK_LIMIT) as u32
    }

    /// The block length at which a find can read the fewest records, from the
    /// shortest to half as long again. With several deliveries a grower most
    /// ends fall between equal growers, and a length taken for its roundness
    /// leaves the planner few.
    fn best_block(&self) -> u32 {
        let least = self.least_block();
        let mut best = self.clone();
        let mut tried = self.clone();
        best.block = least;
        for block in least..=(least + least / 2).min(BLOCK_LENGTH_LIMIT) {
            tried.block = block;
            if tried.mean_scan() < best.mean_scan() {
                best.block = block;
            }
        }
        best.block
    }

    /// The ends that a layout may have besides the last block.
    fn permitted(&self) -> Vec<u32> {
        let set = self.view();
        (0..set.blocks() - 1)
            .filter(|&end| !set.separates_equal(end))
            .map(|end| end as u32)
            .collect()
    }

    /// The records that a find of a drawn record reads on average, cut at every
    /// permitted end.
    fn mean_scan(&self) -> f64 {
        let (block, records) = (self.block as usize, self.records());
        let mut start = 0;
        let mut squares = 0;
        for end in self.permitted() {
            let past = (end as usize + 1) * block;
            squares += (past - start).pow(2);
            start = past;
        }
        squares += (records - start).pow(2);
        squares as f64 / records as f64
    }

    /// Partitions of nearly equal blocks: for each equal share the permitted end
    /// that is nearest.
    fn equal_ends(&self, partitions: usize) -> Vec<u32> {
        let (blocks, permitted) = (self.view().blocks(), self.permitted());
        let nearest = |p: usize| {
            let wanted = (p * blocks / partitions).max(1) as u32 - 1;
            permitted.iter().copied().min_by_key(|e| e.abs_diff(wanted))
        };
        let mut ends: Vec<u32> = (1..partitions).filter_map(nearest).collect();
        ends.push(blocks as u32 - 1);
        ends.dedup();
        ends
    }

    /// The planner's ends; the limits permit every layout.
    fn planned(&self, histograms: &[u32], card: &PriceCard) -> Vec<u32> {
        let limits = Limits::new(LIMIT_LIMIT, LIMIT_LIMIT);
        let mut ends = vec![0; BLOCK_LIMIT];
        let planned = LIBRARY.plan(card, &limits, &self.view(), histograms, &mut ends);
        assert_eq!(planned.refusal, 0, "planning is refused");
        ends.truncate(planned.count as usize);
        ends
    }

    fn column(&self, ends: &[u32]) -> Column {
        let applied = LIBRARY.apply_layout(&self.view(), ends);
        assert_eq!(applied.refusal, 0, "the layout is refused");
        self.clone().laid(&applied)
    }
}
