//! Every permitted layout of a small set, with its bill (02, Slip 13).

use crate::check::{self, ensure, Checked};
use crate::cost::{layout_cost, to_bill};
use crate::field::{line_size, write_bill, write_line, write_number, WIDE};
use crate::planner::{check_all, longest_partition, most_partitions};
use crate::types::*;
use crate::unlaid::UnlaidSet;

/// What a layout is chosen from.
struct Choice<'a> {
    set: &'a UnlaidSet<'a>,
    blocks: usize,
    /// Most blocks of a partition.
    longest: usize,
    /// Most partitions.
    most: usize,
}

impl Choice<'_> {
    /// Whether a partition may end at block `end`.
    fn may_end(&self, end: usize) -> bool {
        end + 1 == self.blocks || !self.set.separates_equal(end)
    }

    /// Adds to `all` each layout that begins with the ends in `chosen` and has
    /// its next partition begin at block `first`: the choice of that partition's
    /// end, smaller ones first, and then the rest of the set.
    fn list(&self, first: usize, chosen: &mut Vec<u32>, all: &mut Vec<Vec<u32>>) {
        if first == self.blocks {
            all.push(chosen.clone());
            return;
        }
        if chosen.len() == self.most {
            return;
        }
        for end in first..self.blocks.min(first + self.longest) {
            if self.may_end(end) {
                chosen.push(end as u32);
                self.list(end + 1, chosen, all);
                chosen.pop();
            }
        }
    }
}

/// The ends of every permitted layout, each once, those with the smaller end
/// at the first difference first. The prices and the set have passed their
/// checks.
pub fn permitted_layouts(card: &PriceCard, limits: &Limits, set: &UnlaidSet) -> Vec<Vec<u32>> {
    let choice = Choice {
        set,
        blocks: set.blocks(),
        longest: longest_partition(card, limits),
        most: most_partitions(card, limits),
    };
    let mut all = Vec::new();
    choice.list(0, &mut Vec::new(), &mut all);
    all
}

/// Bytes of the lines of these layouts: K, the bill and the ends of each.
pub fn listing_size(layouts: &[Vec<u32>]) -> usize {
    layouts
        .iter()
        .map(|ends| WIDE + line_size(1 + ends.len()))
        .sum()
}

fn try_list(
    card: &PriceCard,
    limits: &Limits,
    set: &UnlaidSet,
    histograms: &[u32],
    out: &mut [u8],
) -> Checked<ListAnswer> {
    check_all(card, limits, set, histograms)?;
    ensure(set.blocks() <= LISTED_BLOCK_LIMIT, check::LISTED_BLOCKS)?;
    let layouts = permitted_layouts(card, limits, set);
    ensure(!layouts.is_empty(), check::NO_LAYOUT)?;
    ensure(listing_size(&layouts) <= out.len(), check::ROOM)?;
    let mut at = 0;
    for ends in &layouts {
        let bill = to_bill(layout_cost(card, histograms, ends));
        at = write_number(out, at, ends.len() as u32);
        at = write_bill(out, at, bill);
        at = write_line(out, at, ends);
    }
    Ok(ListAnswer {
        refusal: check::ACCEPTED,
        layouts: layouts.len(),
        written: at,
    })
}

/// Checks 1 2 3 4 5 8 19 9 23 11 15, then a line a layout. Bytes past the lines
/// stay as they were.
pub fn list_layouts(
    card: &PriceCard,
    limits: &Limits,
    set: &UnlaidSet,
    histograms: &[u32],
    out: &mut [u8],
) -> ListAnswer {
    try_list(card, limits, set, histograms, out).unwrap_or_else(ListAnswer::refused)
}
