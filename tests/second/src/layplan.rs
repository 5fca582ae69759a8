//! The program `layplan` on byte slices: input text to output text.

use crate::check::{self, Checked};
use crate::field::{
    line_size, read_line_u32, refusal_text, write_bill, write_line, write_number, WIDE, WIDTH,
};
use crate::planner::plan_by_table;
use crate::recorder::*;
use crate::types::*;
use crate::unlaid::UnlaidSet;

/// Most deliveries of an input.
pub const DELIVERY_LIMIT: u32 = 1_024;
/// Most calls of an input.
pub const CALL_LIMIT: u32 = 1_000;

/// One line of the call list: kind, grower or lo, weight or hi, yield, new
/// grower.
type CallLine = [u32; 5];

struct Input {
    card: PriceCard,
    limits: Limits,
    b: u32,
    m: usize,
    /// One more slot than deliveries; the free slot holds zeros. Every day is 0.
    growers: Vec<u32>,
    weights: Vec<u32>,
    yields: Vec<u32>,
    days: Vec<u32>,
    calls: Vec<CallLine>,
}

/// Whether the kind is known and its unused numbers are 0.
fn call_is_proper(call: &CallLine) -> bool {
    let [kind, _, third, fourth, fifth] = *call;
    match kind {
        1 => third == 0 && fourth == 0 && fifth == 0,
        2 => fourth == 0 && fifth == 0,
        3 | 4 => fifth == 0,
        5 => true,
        _ => false,
    }
}

fn read_input(text: &[u8]) -> Option<Input> {
    let ([rr, sr, rw], at) = read_line_u32::<3>(text, 0)?;
    let ([read, insert], at) = read_line_u32::<2>(text, at)?;
    let ([b, m, q], mut at) = read_line_u32::<3>(text, at)?;
    if !(1..=DELIVERY_LIMIT).contains(&m) || q > CALL_LIMIT {
        return None;
    }
    let m = m as usize;
    let mut input = Input {
        card: PriceCard { rr, sr, rw },
        limits: Limits { read, insert },
        b,
        m,
        growers: vec![0; m + 1],
        weights: vec![0; m + 1],
        yields: vec![0; m + 1],
        days: vec![0; m + 1],
        calls: Vec::with_capacity(q as usize),
    };
    for s in 0..m {
        let (record, next) = read_line_u32::<3>(text, at)?;
        [input.growers[s], input.weights[s], input.yields[s]] = record;
        at = next;
    }
    for _ in 0..q {
        let (call, next) = read_line_u32::<5>(text, at)?;
        if !call_is_proper(&call) {
            return None;
        }
        input.calls.push(call);
        at = next;
    }
    (at == text.len()).then_some(input)
}

fn record(set: &UnlaidSet, histograms: &mut [u32], call: &CallLine) -> u32 {
    let [kind, grower, weight, oil_yield, new_grower] = *call;
    let d = Delivery::new(grower, weight, oil_yield);
    match kind {
        1 => record_find(set, histograms, grower),
        2 => record_range(set, histograms, grower, weight),
        3 => record_insert(set, histograms, d),
        4 => record_delete(set, histograms, d),
        _ => record_move(set, histograms, d, new_grower),
    }
}

fn run(text: &[u8]) -> Checked<Vec<u8>> {
    let input = read_input(text).ok_or(check::TEXT)?;
    let set = UnlaidSet {
        b: input.b,
        m: input.m,
        growers: &input.growers,
        weights: &input.weights,
        yields: &input.yields,
        days: &input.days,
    };
    let mut histograms = [0; HISTOGRAM_LEN];
    for call in &input.calls {
        match record(&set, &mut histograms, call) {
            check::ACCEPTED => {}
            number => return Err(number),
        }
    }
    let mut ends = [0; BLOCK_LIMIT];
    let plan = plan_by_table(&input.card, &input.limits, &set, &histograms, &mut ends);
    if plan.refusal != check::ACCEPTED {
        return Err(plan.refusal);
    }
    let head = WIDTH + WIDE + 1;
    let mut out = vec![0; head + plan.count * line_size(2)];
    let at = write_number(&mut out, 0, plan.count as u32);
    let mut at = write_bill(&mut out, at, plan.bill);
    out[at] = b'\n';
    at += 1;
    let mut first = 0;
    for &end in &ends[..plan.count] {
        at = write_line(&mut out, at, &[first, end]);
        first = end + 1;
    }
    Ok(out)
}

/// The whole output for an input text: the plan, or only the refusal number.
pub fn layplan(text: &[u8]) -> Vec<u8> {
    run(text).unwrap_or_else(refusal_text)
}
