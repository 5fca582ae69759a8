//! The calls that the C header declares: each has been compared, with each of
//! its slices at every edge; and the numbers that it names.

use crate::{Run, Test};
use meltusk::EDGES;
use second::DAY_LIMIT;
use std::collections::BTreeSet;

const HEADER: &str = include_str!("../../../include/meltusk.h");

/// Fewer calls found mean that the header is read wrongly.
const CALLS: usize = 29;

/// The header without its comments.
fn declarations() -> String {
    let pieces = HEADER.split("/*").enumerate();
    let code = pieces.map(|(i, piece)| match i {
        0 => piece,
        _ => piece.split_once("*/").map_or("", |(_, code)| code),
    });
    code.collect()
}

fn last_word(text: &str) -> &str {
    let is_part = |c: char| c.is_ascii_alphanumeric() || c == '_';
    text.rsplit(|c| !is_part(c)).next().unwrap_or("")
}

/// Each call without its prefix, and its slices: the names that have a count.
fn calls(code: &str) -> Vec<(&str, Vec<&str>)> {
    let heads = code.match_indices('(').map(|(at, _)| code.split_at(at));
    heads
        .filter_map(|(before, after)| {
            let call = last_word(before).strip_prefix("meltusk_")?;
            let parameters = after.split(')').next()?.split(',');
            let slices = parameters.filter_map(|p| last_word(p).strip_suffix("_count"));
            Some((call, slices.collect()))
        })
        .collect()
}

fn every_call(run: &mut Run) -> Result<(), String> {
    let code = declarations();
    let calls = calls(&code);
    if calls.len() < CALLS {
        return Err(format!("only {} calls in the header", calls.len()));
    }
    for (call, slices) in calls {
        if run.seen.count(call) == 0 {
            return Err(format!("{call} was never made"));
        }
        for slice in slices {
            for edge in EDGES {
                if !run.seen.was_lent(call, slice, edge) {
                    return Err(format!("{call}: {slice} never {edge:?}"));
                }
            }
        }
    }
    Ok(())
}

/// The numbers that the enum names: each refusal that has occurred, and no other.
fn every_refusal(run: &mut Run) -> Result<(), String> {
    let code = declarations();
    let names = code.lines().filter_map(|line| {
        let (name, number) = line.trim().trim_end_matches(',').split_once(" = ")?;
        name.starts_with("MELTUSK_").then_some(number.parse())?.ok()
    });
    let named: Vec<u32> = names.collect();
    let distinct: BTreeSet<u32> = named.iter().copied().collect();
    let seen = run.seen.refusals();
    if named.len() != distinct.len() || distinct != seen {
        return Err(format!("named {named:?}, seen {seen:?}"));
    }
    match code.contains(&format!("#define MELTUSK_MOST_DAY {DAY_LIMIT}\n")) {
        true => Ok(()),
        false => Err("another last day".into()),
    }
}

pub const TESTS: &[(&str, Test)] = &[
    (
        "every call of the header, each slice null, empty, of one and past 262,144",
        every_call,
    ),
    (
        "every refusal that occurred is named in the header",
        every_refusal,
    ),
];
