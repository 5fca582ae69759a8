//! Slices lent to a call, in one allocation with guard elements around each.

use crate::valgrind;
use second::random::Random;
use std::fmt::Display;

/// Most guard elements beside a slice.
const GUARDS: usize = 8;

/// An element of a slice.
pub trait Cell: Copy + PartialEq + Display {
    fn any(r: &mut Random) -> Self;
}

impl Cell for u32 {
    fn any(r: &mut Random) -> u32 {
        r.next() as u32
    }
}

impl Cell for u64 {
    fn any(r: &mut Random) -> u64 {
        r.next()
    }
}

impl Cell for u8 {
    fn any(r: &mut Random) -> u8 {
        r.next() as u8
    }
}

#[derive(Debug)]
pub struct Memory<T = u32> {
    cells: Vec<T>,
    /// First cell and the cell past the last of each slice.
    spans: Vec<(usize, usize)>,
}

impl<T: Cell> Clone for Memory<T> {
    fn clone(&self) -> Memory<T> {
        Memory {
            cells: self.cells.clone(),
            spans: self.spans.clone(),
        }
    }

    fn clone_from(&mut self, other: &Memory<T>) {
        self.cells.clone_from(&other.cells);
        self.spans.clone_from(&other.spans);
    }
}

/// Guards hold numbers of the slice beside them, or any number: a read past
/// a slice then changes the answer, and a write past it is seen.
fn push_guards<T: Cell>(r: &mut Random, cells: &mut Vec<T>, beside: &[T]) {
    for _ in 0..r.within(1, GUARDS) {
        let guard = if beside.is_empty() || r.one_in(2) {
            T::any(r)
        } else {
            beside[r.below(beside.len())]
        };
        cells.push(guard);
    }
}

impl<T: Cell> Memory<T> {
    pub fn new(r: &mut Random, slices: &[&[T]]) -> Memory<T> {
        let total: usize = slices.iter().map(|s| s.len()).sum();
        let mut cells = Vec::with_capacity(total + GUARDS * (slices.len() + 1));
        let mut spans = Vec::with_capacity(slices.len());
        for slice in slices {
            push_guards(r, &mut cells, slice);
            let first = cells.len();
            cells.extend_from_slice(slice);
            spans.push((first, cells.len()));
        }
        push_guards(r, &mut cells, slices.last().unwrap_or(&&[][..]));
        Memory { cells, spans }
    }

    /// The last `n` cells of a slice become guards.
    pub fn shorten(&mut self, i: usize, n: usize) {
        self.spans[i].1 -= n;
    }

    pub fn slice(&self, i: usize) -> &[T] {
        let (first, past) = self.spans[i];
        &self.cells[first..past]
    }

    /// The count of each slice, by its name.
    pub fn counts<'a>(
        &'a self,
        names: &'a [&'static str],
    ) -> impl Iterator<Item = (&'static str, usize)> + 'a {
        let counts = self.spans.iter().map(|(first, past)| past - first);
        names.iter().copied().zip(counts)
    }

    /// Lends all N slices to one call. Meanwhile a read of a guard is an error
    /// for valgrind, if it runs this process.
    pub fn lend<const N: usize, A>(&mut self, call: impl FnOnce([&mut [T]; N]) -> A) -> A {
        self.guards().for_each(valgrind::close);
        let mut rest = self.cells.as_mut_slice();
        let mut at = 0;
        let answer = call(std::array::from_fn(|i| {
            let (first, past) = self.spans[i];
            let (head, tail) = std::mem::take(&mut rest).split_at_mut(past - at);
            let slice = &mut head[first - at..];
            rest = tail;
            at = past;
            slice
        }));
        self.guards().for_each(valgrind::open);
        answer
    }

    /// The cells before, between and after the slices.
    fn guards(&self) -> impl Iterator<Item = &[T]> {
        let pasts = self.spans.iter().map(|span| span.1);
        let firsts = self.spans.iter().map(|span| span.0);
        std::iter::once(0)
            .chain(pasts)
            .zip(firsts.chain([self.cells.len()]))
            .map(|(past, first)| &self.cells[past..first])
    }

    /// Whether slices and guards are the same. The memory may have been
    /// written anywhere meanwhile.
    pub fn equals(&self, other: &Memory<T>) -> bool {
        std::hint::black_box(&self.cells) == std::hint::black_box(&other.cells)
    }

    /// The first cell that differs from what is expected, for a message.
    pub fn compared(&self, expected: &Memory<T>, names: &[&str]) -> String {
        match self.difference(expected, names) {
            Some(text) => format!("{} differ, first {text}", names.join(", ")),
            None => format!("{} the same", names.join(", ")),
        }
    }

    fn difference(&self, expected: &Memory<T>, names: &[&str]) -> Option<String> {
        let at = (0..self.cells.len()).find(|&i| self.cells[i] != expected.cells[i])?;
        let values = format!("{} for {}", self.cells[at], expected.cells[at]);
        for (&(first, past), name) in self.spans.iter().zip(names) {
            if at < first {
                return Some(format!("guard {} before {name}: {values}", first - at));
            }
            if at < past {
                return Some(format!("{name}[{}]: {values}", at - first));
            }
        }
        Some(format!("guard after the last slice: {values}"))
    }
}
