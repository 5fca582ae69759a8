//! The settlement sheet of a column, and the program `settlement` on byte
//! slices.

use crate::calendar::term_of;
use crate::check::{self, ensure, Checked};
use crate::column::check_column;
use crate::field::{refusal_text, wide_line_size, write_wide_line};
use crate::snapshot::{is_sound, snapshot_read};
use crate::types::*;

/// Slots of the program.
pub const SETTLEMENT_SLOTS: usize = 512;

/// Bytes of a sheet of so many growers.
pub const fn sheet_size(growers: usize) -> usize {
    growers * wide_line_size(4) + wide_line_size(3)
}

/// A slot behind its grower.
type Slot = (u32, u32);

/// The slots in rising order of grower; those of one grower in rising order.
fn sorted(mut slots: Vec<Slot>) -> Vec<Slot> {
    slots.sort_by_key(|&(grower, _)| grower);
    slots
}

fn totals_of(slots: &[Slot], weights: &[u32], yields: &[u32]) -> Totals {
    let mut totals = Totals::ZERO;
    for &(_, slot) in slots {
        let (weight, oil_yield) = (weights[slot as usize], yields[slot as usize]);
        totals.records += 1;
        totals.weight += u64::from(weight);
        totals.oil += u64::from(weight) * u64::from(oil_yield);
    }
    totals
}

/// The sheet of all records, or of those of the term that holds a given day. The
/// whole column is asked either way.
fn try_write(
    growers: &[u32],
    weights: &[u32],
    yields: &[u32],
    days: &[u32],
    directory: &[u32],
    day: Option<u32>,
    out: &mut [u8],
    [order, work]: [&mut [u32]; 2],
) -> Checked<usize> {
    let shape = check_column(growers, weights, yields, days, directory)?;
    ensure(is_sound(growers, directory, &shape), check::SHAPE)?;
    let used = shape.used;
    check::values(&weights[..used], &yields[..used])?;
    check::days(&days[..used])?;
    let span = match day.map(term_of) {
        None => Span::ALL,
        Some(term) => {
            ensure(term.refusal == check::ACCEPTED, term.refusal)?;
            Span::new(term.first, term.last)
        }
    };
    let all = growers[..used].iter().copied().zip(0..);
    let slots = sorted(all.filter(|&(_, s)| span.holds(days[s as usize])).collect());
    let m = slots.len();
    let of_growers = || slots.chunk_by(|a, b| a.0 == b.0);
    let room = sheet_size(of_growers().count()) <= out.len();
    ensure(room && m <= order.len() && m <= work.len(), check::ROOM)?;
    let mut all = Totals::ZERO;
    let mut at = 0;
    for of_grower in of_growers() {
        let t = totals_of(of_grower, weights, yields);
        let grower = u64::from(of_grower[0].0);
        at = write_wide_line(out, at, &[grower, t.records, t.weight, t.oil]);
        all.records += t.records;
        all.weight += t.weight;
        all.oil += t.oil;
    }
    for (to, &(_, slot)) in order.iter_mut().zip(&slots) {
        *to = slot;
    }
    work[..m].fill(0);
    Ok(write_wide_line(
        out,
        at,
        &[all.records, all.weight, all.oil],
    ))
}

/// Checks 2 3 6 (shape, then soundness) 8 19 15, then the text, the used slots in
/// the order of the sheet, and as many zeros. What lies past them stays as it
/// was.
pub fn sheet_write(
    growers: &[u32],
    weights: &[u32],
    yields: &[u32],
    days: &[u32],
    directory: &[u32],
    out: &mut [u8],
    order: &mut [u32],
    work: &mut [u32],
) -> TextAnswer {
    let lists = [order, work];
    try_write(growers, weights, yields, days, directory, None, out, lists).into()
}

/// The sheet of the term that holds the day, from that term's records alone.
/// Checks as for the whole sheet, 19 of the day too; 15 asks room for the term's
/// records, whose slots are the order.
pub fn term_sheet_write(
    growers: &[u32],
    weights: &[u32],
    yields: &[u32],
    days: &[u32],
    directory: &[u32],
    day: u32,
    out: &mut [u8],
    order: &mut [u32],
    work: &mut [u32],
) -> TextAnswer {
    let (day, lists) = (Some(day), [order, work]);
    try_write(growers, weights, yields, days, directory, day, out, lists).into()
}

fn run(text: &[u8]) -> Checked<Vec<u8>> {
    let accepted = |refusal: u32| match refusal {
        check::ACCEPTED => Ok(()),
        number => Err(number),
    };
    let [mut growers, mut weights, mut yields, mut days] = [[0; SETTLEMENT_SLOTS]; 4];
    let read = snapshot_read(text, &mut growers, &mut weights, &mut yields, &mut days);
    accepted(read.refusal)?;
    let mut out = vec![0; sheet_size(SETTLEMENT_SLOTS)];
    let [mut order, mut work] = [[0; SETTLEMENT_SLOTS]; 2];
    let written = sheet_write(
        &growers,
        &weights,
        &yields,
        &days,
        &read.directory,
        &mut out,
        &mut order,
        &mut work,
    );
    accepted(written.refusal)?;
    out.truncate(written.written);
    Ok(out)
}

/// The whole output for a book: the sheet, or only the refusal number.
pub fn settlement(text: &[u8]) -> Vec<u8> {
    run(text).unwrap_or_else(refusal_text)
}
