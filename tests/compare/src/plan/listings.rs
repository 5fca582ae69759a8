//! Listings of every permitted layout: against all boundary bits, against the
//! library's own costs and plans, and of sets that have too many blocks.

use super::calls::{list, plan, By, Case};
use super::{bounds, case, limits, main_case, one_a_block};
use crate::{inputs, Run};
use meltusk::{Call, Empty, Library, Seen};
use second::planner::{layout_of_bits, longest_partition, most_partitions, permitted};
use second::random::Random;
use second::{listing_size, permitted_layouts};
use second::{Limits, PriceCard, BLOCK_LIMIT, LIMIT_LIMIT, LISTED_BLOCK_LIMIT};

/// What listings have to have been.
pub const KINDS: [&str; 10] = [
    "listing: one layout of several blocks",
    "listing: every layout of 12 blocks",
    "listing: a cost below zero",
    "listing: equal least costs of different counts of partitions",
    "listing: equal least costs of one count of partitions",
    "listing: ends between equal growers left out",
    "listing: layouts left out for the insert limit",
    "listing: layouts left out for the read limit",
    "listing: 23 of 13 blocks",
    "listing: 23 where no layout is permitted",
];

/// A layout of a listing: its cost, its count of partitions and its ends. The
/// least of them is the planner's answer.
type Layout = (i64, usize, Vec<u32>);

/// Bytes of the listing of a case whose prices and set are in range.
pub fn size(case: &Case) -> usize {
    let set = case.set.view();
    listing_size(&permitted_layouts(&case.card, &case.limits, &set))
}

/// Each permitted layout of an accepted case by its boundary bits, with the cost
/// that the library's own call answers, in the order of their ends.
fn by_bits(library: &Library, case: &Case) -> Vec<Layout> {
    let (card, set) = (&case.card, case.set.view());
    let all = (0..1u32 << (set.blocks() - 1)).map(|inner| layout_of_bits(inner, set.blocks()));
    let mut layouts: Vec<Layout> = all
        .filter(|ends| permitted(card, &case.limits, &set, ends))
        .map(|ends| {
            let costed = library.cost(card, &set, &ends, &case.histograms);
            (costed.cost, ends.len(), ends)
        })
        .collect();
    layouts.sort_by(|x, y| x.2.cmp(&y.2));
    layouts
}

/// The text of these layouts by another writer than those compared.
fn text_of(layouts: &[Layout]) -> String {
    let line = |(cost, count, ends): &Layout| {
        let ends: String = ends.iter().map(|end| format!("{end:>11}")).collect();
        format!("{count:>11}{cost:>20}{ends}\n")
    };
    layouts.iter().map(line).collect()
}

/// A number that stands alone in its columns.
fn number<T: std::str::FromStr>(columns: &str) -> Result<T, String> {
    let parsed = columns.trim_start().parse();
    parsed.map_err(|_| format!("no number: \"{columns}\""))
}

/// A line without its LF, column by column.
fn layout_of(line: &str) -> Result<Layout, String> {
    let columns = |from: usize, to: usize| line.get(from..to).ok_or("a line is short");
    let past = |i: usize| 31 + 11 * i;
    let count: usize = number(columns(0, 11)?)?;
    let ends: Result<Vec<u32>, String> = (0..count)
        .map(|i| number(columns(past(i), past(i + 1))?))
        .collect();
    match line.len() == past(count) {
        true => Ok((number(columns(11, 31)?)?, count, ends?)),
        false => Err(format!("a line of {count} ends is \"{line}\"")),
    }
}

/// Notes the layouts of a case.
fn note(seen: &mut Seen, case: &Case, layouts: &[Layout]) {
    let (card, limits, set) = (&case.card, &case.limits, case.set.view());
    let blocks = set.blocks();
    let equal = (0..blocks - 1)
        .filter(|&end| set.separates_equal(end))
        .count();
    let Some((cost, fewest, _)) = layouts.iter().min() else {
        return;
    };
    let least = layouts.iter().filter(|x| x.0 == *cost).count();
    let ahead = layouts.iter().filter(|x| (x.0, x.1) == (*cost, *fewest));
    let ahead = ahead.count();
    let there = [
        layouts.len() == 1 && blocks > 1,
        layouts.len() == 1 << (LISTED_BLOCK_LIMIT - 1),
        layouts.iter().any(|x| x.0 < 0),
        ahead < least,
        ahead > 1,
        equal > 0,
        most_partitions(card, limits) < blocks - equal,
        longest_partition(card, limits) < blocks,
    ];
    for (kind, there) in KINDS.into_iter().zip(there) {
        seen.kind(there, kind);
    }
}

/// The listing of a case of at most 12 blocks with too little and with enough
/// room, at last with what it needs; its least line is what the library plans.
fn listed(run: &mut Run, r: &mut Random, library: &Library, case: &mut Case) -> Result<(), String> {
    let layouts = by_bits(library, case);
    note(&mut run.seen, case, &layouts);
    let text = text_of(&layouts);
    let exact = text.len();
    let some = r.below(exact + 1);
    let mut lines = Vec::new();
    for room in [0, some, exact.max(1) - 1, exact + some, exact + 1, exact] {
        case.text = room;
        let (answer, given) = list(r, &mut run.seen, library, case)?;
        let refusal = match room < exact {
            _ if layouts.is_empty() => 11,
            true => 15,
            false => 0,
        };
        let right = match refusal {
            0 => given == text.as_bytes() && answer.layouts as usize == layouts.len(),
            _ => given.is_empty() && answer.layouts == 0,
        };
        if answer.refusal != refusal || !right {
            let given = given.escape_ascii();
            return Err(format!(
                "room {room}, refusal {refusal}: {answer:?}, \"{given}\", not \"{text}\"; {case:?}"
            ));
        }
        lines = given;
    }
    least_is_planned(run, r, library, case, &lines)
}

/// An error if the least of the lines is not what the library plans; without a
/// line, if that is not 11.
fn least_is_planned(
    run: &mut Run,
    r: &mut Random,
    library: &Library,
    case: &Case,
    text: &[u8],
) -> Result<(), String> {
    let text = String::from_utf8_lossy(text);
    let lines: Result<Vec<Layout>, String> = text.lines().map(layout_of).collect();
    let least = lines?.into_iter().min();
    let (planned, ends) = plan(r, &mut run.seen, library, case, By::Table)?;
    let answer = (planned.cost, planned.count as usize, ends);
    match &least {
        Some(least) if planned.refusal == 0 && *least == answer => Ok(()),
        None if planned.refusal == 11 => Ok(()),
        _ => Err(format!("{planned:?}, {answer:?}, but listed is {least:?}")),
    }
}

/// The cost and the ends of each layout of 01's main case: five finds in block 1,
/// an insert in block 0.
const MAIN: [(i64, &[u32]); 8] = [
    (40, &[0, 1, 2, 3]),
    (35, &[0, 1, 3]),
    (40, &[0, 2, 3]),
    (40, &[0, 3]),
    (40, &[1, 2, 3]),
    (35, &[1, 3]),
    (40, &[2, 3]),
    (40, &[3]),
];

pub fn examples(run: &mut Run) -> Result<(), String> {
    let library = Library { empty: Empty::Null };
    let mut r = Random::new(0);
    let mut case = main_case(run, &mut r, &library)?;
    case.text = 476;
    // Read limit, insert limit, refusal, the lines that they permit.
    let stated: [(u32, u32, u32, &[usize]); 8] = [
        (100, 100, 0, &[0, 1, 2, 3, 4, 5, 6, 7]),
        (100, 15, 0, &[3, 5, 6, 7]),
        (100, 14, 0, &[7]),
        (4, 100, 0, &[0, 1, 2, 4, 5]),
        (4, 20, 0, &[1, 2, 4, 5]),
        (3, 100, 0, &[0]),
        (3, 20, 11, &[]),
        (2, 100, 11, &[]),
    ];
    for (read, insert, refusal, lines) in stated {
        case.limits = Limits::new(read, insert);
        let (a, given) = list(&mut r, &mut run.seen, &library, &case)?;
        let lines = lines.iter().map(|&i| MAIN[i]);
        let layouts: Vec<Layout> = lines
            .map(|(cost, ends)| (cost, ends.len(), ends.to_vec()))
            .collect();
        let text = text_of(&layouts);
        if a.refusal != refusal || given != text.as_bytes() {
            let given = given.escape_ascii();
            return Err(format!("limits {read} and {insert}: {a:?}, \"{given}\""));
        }
    }
    Ok(())
}

/// Random sets, often with few growers, and limits about those at which they
/// begin to bind.
pub fn every_layout(run: &mut Run) -> Result<(), String> {
    run.cases(52, 3_000, |run, r| {
        let library = inputs::library(r);
        let most_blocks = r.pick(&[3, 6, 9, LISTED_BLOCK_LIMIT]);
        let mut case = case(r, most_blocks);
        case.room = vec![0; BLOCK_LIMIT];
        listed(run, r, &library, &mut case)
    })
}

/// 12 blocks with prices and counts at their least and most: as many lines and
/// as wide costs as there can be.
pub fn largest(run: &mut Run) -> Result<(), String> {
    run.cases(53, 20, |run, r| {
        let library = inputs::library(r);
        let price = |r: &mut Random| r.pick(&[1, 1_000]);
        let mut case = Case {
            card: PriceCard::new(price(r), price(r), price(r)),
            limits: Limits::new(LIMIT_LIMIT, LIMIT_LIMIT),
            set: one_a_block(LISTED_BLOCK_LIMIT),
            ends: Vec::new(),
            histograms: bounds::histograms(r),
            room: vec![0; BLOCK_LIMIT],
            text: 0,
            call: Call::Find(0),
        };
        listed(run, r, &library, &mut case)?;
        match size(&case) {
            211_968 => Ok(()),
            bytes => Err(format!("{bytes} bytes")),
        }
    })
}

/// 13 to 64 blocks are refused by 23, whatever the limits and the room; more
/// by 4.
pub fn too_many_blocks(run: &mut Run) -> Result<(), String> {
    run.cases(54, 500, |run, r| {
        let library = inputs::library(r);
        let mut case = case(r, 70);
        if r.one_in(2) {
            case.set = one_a_block(r.pick(&[13, 14, 63, 64, 65]));
            case.limits = limits(r, &case.card, case.set.used as usize);
        }
        let none = r.one_in(4);
        if none {
            case.limits.read = case.card.rr - 1;
        }
        case.text = r.pick(&[0, 43, 1_000, 300_000]);
        let blocks = case.set.used.div_ceil(case.set.block);
        let (answer, _) = list(r, &mut run.seen, &library, &case)?;
        let refused = answer.refusal == 23;
        run.seen.kind(refused && blocks == 13, KINDS[8]);
        run.seen.kind(refused && none, KINDS[9]);
        match (blocks, answer.refusal) {
            (0..=12, 0 | 11 | 15) | (13..=64, 23) | (65.., 4) => Ok(()),
            _ => Err(format!("{answer:?} of {blocks} blocks")),
        }
    })
}
