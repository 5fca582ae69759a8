//! Columns: a directory and four slices.

use crate::set::Slots;
use second::{Delivery, FENCES, LENGTHS};

/// A column that owns its slices.
#[derive(Clone, Debug, PartialEq, Eq)]
pub struct Column {
    pub directory: Vec<u32>,
    pub growers: Vec<u32>,
    pub weights: Vec<u32>,
    pub yields: Vec<u32>,
    pub days: Vec<u32>,
}

impl Column {
    pub fn view(&self) -> View<'_> {
        View {
            directory: &self.directory,
            growers: &self.growers,
            weights: &self.weights,
            yields: &self.yields,
            days: &self.days,
        }
    }

    /// Day 0 in every record, as a snapshot has it.
    pub fn undated(mut self) -> Column {
        let used = self.view().used();
        self.days[..used].fill(0);
        self
    }

    pub fn lend(&mut self) -> ColumnSlices<'_> {
        ColumnSlices {
            directory: &mut self.directory,
            growers: &mut self.growers,
            weights: &mut self.weights,
            yields: &mut self.yields,
            days: &mut self.days,
        }
    }
}

impl Slots for Column {
    fn slices(&mut self) -> [&mut Vec<u32>; 4] {
        let Column {
            growers,
            weights,
            yields,
            days,
            ..
        } = self;
        [growers, weights, yields, days]
    }
}

/// The slices of a column that a call may write.
pub struct ColumnSlices<'a> {
    pub directory: &'a mut [u32],
    pub growers: &'a mut [u32],
    pub weights: &'a mut [u32],
    pub yields: &'a mut [u32],
    pub days: &'a mut [u32],
}

impl ColumnSlices<'_> {
    #[inline]
    pub fn view(&self) -> View<'_> {
        View {
            directory: self.directory,
            growers: self.growers,
            weights: self.weights,
            yields: self.yields,
            days: self.days,
        }
    }
}

/// The slices of a column that a call only reads.
#[derive(Clone, Copy)]
pub struct View<'a> {
    pub directory: &'a [u32],
    pub growers: &'a [u32],
    pub weights: &'a [u32],
    pub yields: &'a [u32],
    pub days: &'a [u32],
}

/// Of a column whose directory has its shape.
impl View<'_> {
    pub fn partitions(&self) -> usize {
        self.directory[1] as usize
    }

    pub fn length(&self, p: usize) -> usize {
        self.directory[LENGTHS + p] as usize
    }

    pub fn start(&self, p: usize) -> usize {
        (0..p).map(|q| self.length(q)).sum()
    }

    pub fn used(&self) -> usize {
        self.start(self.partitions())
    }

    pub fn fence(&self, p: usize) -> u32 {
        self.directory[FENCES + p]
    }

    /// The first partition whose fence is at least the grower, else the last.
    pub fn partition_of(&self, grower: u32) -> usize {
        (0..self.partitions())
            .find(|&p| self.fence(p) >= grower)
            .unwrap_or(self.partitions() - 1)
    }

    pub fn slot(&self, i: usize) -> Delivery {
        Delivery::new(self.growers[i], self.weights[i], self.yields[i]).on(self.days[i])
    }

    pub fn to_column(&self) -> Column {
        Column {
            directory: self.directory.to_vec(),
            growers: self.growers.to_vec(),
            weights: self.weights.to_vec(),
            yields: self.yields.to_vec(),
            days: self.days.to_vec(),
        }
    }
}
