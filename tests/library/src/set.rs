//! Unpartitioned sets, and the columns laid from them.

use crate::answers::Applied;
use crate::column::Column;
use second::random::Random;
use second::{Delivery, UnlaidSet, BLOCK_LIMIT};

/// What owns growers, weights, yields and days.
pub trait Slots {
    fn slices(&mut self) -> [&mut Vec<u32>; 4];

    /// Changes the length of all four slices; new slots hold zeros.
    fn resize(&mut self, length: usize) {
        for slice in self.slices() {
            slice.resize(length, 0);
        }
    }
}

/// An unpartitioned set that owns its slices.
#[derive(Clone, Debug)]
pub struct Set {
    pub block: u32,
    pub used: u32,
    pub growers: Vec<u32>,
    pub weights: Vec<u32>,
    pub yields: Vec<u32>,
    pub days: Vec<u32>,
}

impl Set {
    pub fn view(&self) -> UnlaidSet<'_> {
        self.over([&self.growers, &self.weights, &self.yields, &self.days])
    }

    /// The set's block length and used slots with other slices.
    pub fn over<'a>(&self, slices: [&'a [u32]; 4]) -> UnlaidSet<'a> {
        let [growers, weights, yields, days] = slices;
        UnlaidSet {
            b: self.block,
            m: self.used as usize,
            growers,
            weights,
            yields,
            days,
        }
    }

    /// The delivery in a slot.
    pub fn slot(&self, i: usize) -> Delivery {
        Delivery::new(self.growers[i], self.weights[i], self.yields[i]).on(self.days[i])
    }

    /// The column that a layout of the set gave.
    pub fn laid(self, applied: &Applied) -> Column {
        Column {
            directory: applied.directory.to_vec(),
            growers: self.growers,
            weights: self.weights,
            yields: self.yields,
            days: self.days,
        }
    }
}

impl Slots for Set {
    fn slices(&mut self) -> [&mut Vec<u32>; 4] {
        let Set {
            growers,
            weights,
            yields,
            days,
            ..
        } = self;
        [growers, weights, yields, days]
    }
}

/// Rising growers spread evenly over all numbers.
pub fn spread_growers(r: &mut Random, count: usize) -> Vec<u32> {
    let step = (1u64 << 32) / count as u64;
    (0..count as u64)
        .map(|i| (i * step + r.next() % step) as u32)
        .collect()
}

/// The ends of so many partitions, each of as many of the 64 blocks.
pub fn even_ends(partitions: usize) -> Vec<u32> {
    let each = (BLOCK_LIMIT / partitions) as u32;
    (1..=partitions as u32).map(|p| p * each - 1).collect()
}
