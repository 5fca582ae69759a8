//! Inputs that get a plan, or 11.

use crate::input::{self, Input, BLOCKS, CALLS, DELETE, DELIVERIES, FIND, INSERT, MOVE, RANGE};
use programs::damage::Input as _;
use programs::run::{shown, Run, Test};
use programs::seen::{Expected, Seen};
use second::random::Random;
use std::fmt::Write;

/// Name, text and output of each example.
macro_rules! example {
    ($name:literal) => {
        (
            $name,
            include_bytes!(concat!("../../../../examples/", $name, ".txt")),
            include_bytes!(concat!("../../../../examples/", $name, ".out")),
        )
    };
}

const EXAMPLES: [(&str, &[u8], &[u8]); 3] = [
    example!("main-case"),
    example!("harvest-week"),
    example!("payment-week"),
];

/// The refusals that an input can get, 0 for a plan (3, 6 and 9 ask of what the
/// program itself makes, 10 needs more calls than an input has, and the others
/// are asked by the column and by snapshots), and the kinds of inputs that get
/// one.
pub const EXPECTED: Expected = Expected {
    answers: &[0, 1, 2, 4, 5, 7, 8, 11, 14],
    kinds: &[
        "1 delivery",
        "1,024 deliveries",
        "no call",
        "1,000 calls",
        "grower 0",
        "grower 4,294,967,295",
        "equal growers",
        "find",
        "range",
        "insert",
        "delete, held",
        "delete, not held",
        "move forward, held",
        "move back, held",
        "move, not held",
        "1 partition",
        "2 to 63 partitions",
        "64 partitions",
        "price 1",
        "price 1,000",
        "64 blocks",
    ],
};

/// Notes an input that got a plan of so many partitions.
fn note_plan(seen: &mut Seen, input: &Input, partitions: u32) {
    let held = &input.deliveries;
    seen.note(held.len() == 1, "1 delivery");
    seen.note(held.len() == DELIVERIES, "1,024 deliveries");
    seen.note(input.calls.is_empty(), "no call");
    seen.note(input.calls.len() == CALLS, "1,000 calls");
    seen.note(held[0][0] == 0, "grower 0");
    seen.note(held[held.len() - 1][0] == u32::MAX, "grower 4,294,967,295");
    seen.note(held.windows(2).any(|w| w[0][0] == w[1][0]), "equal growers");
    seen.note(partitions == 1, "1 partition");
    seen.note((2..64).contains(&partitions), "2 to 63 partitions");
    seen.note(partitions == 64, "64 partitions");
    seen.note(input.prices.contains(&1), "price 1");
    seen.note(input.prices.contains(&1_000), "price 1,000");
    seen.note(input.blocks() == 64, "64 blocks");
    for &[kind, grower, weight, oil_yield, new_grower] in &input.calls {
        let is_held = || held.contains(&[grower, weight, oil_yield]);
        let what = match kind {
            FIND => "find",
            RANGE => "range",
            INSERT => "insert",
            DELETE if is_held() => "delete, held",
            DELETE => "delete, not held",
            MOVE if !is_held() => "move, not held",
            _ if new_grower > grower => "move forward, held",
            _ => "move back, held",
        };
        seen.note(true, what);
    }
}

/// The number of partitions of a plan; 11 has none.
fn partitions(output: &[u8]) -> Option<u32> {
    if output == b"         11\n" {
        return Some(0);
    }
    let number = std::str::from_utf8(output.get(..11)?).ok()?;
    let is_plan = output.get(11) != Some(&b'\n');
    number.trim_start().parse().ok().filter(|_| is_plan)
}

/// The input gets a plan, or 11, of both.
fn planned(run: &mut Run, r: &mut Random, input: &Input) -> Result<(), String> {
    let text = input.text();
    let output = run.compare(r, &text)?;
    match partitions(&output) {
        Some(0) => {}
        Some(count) => note_plan(&mut run.seen, input, count),
        None => return Err(run.with_input(&text, format!("both print {}", shown(&output)))),
    }
    Ok(())
}

/// The outputs beside the examples.
fn examples(run: &mut Run) -> Result<(), String> {
    run.cases(1, 3, |run, r| {
        for (name, text, output) in EXAMPLES {
            run.prints(r, text, output)
                .map_err(|why| format!("{name}: {why}"))?;
        }
        Ok(())
    })
}

/// 01's main case with other limits.
fn main_case_limits(run: &mut Run) -> Result<(), String> {
    let input = |read: u32, insert: u32| Input {
        prices: [3, 1, 2],
        limits: [read, insert],
        block: 2,
        deliveries: (1..=8).map(|i| [10 * i, 100, 2_000]).collect(),
        calls: [vec![[1, 30, 0, 0, 0]; 5], vec![[3, 15, 100, 2_000, 0]]].concat(),
    };
    let two = "          2                  35\n          0          1\n          2          3\n";
    let cases = [
        (100, 100, two),
        (100, 15, two),
        (
            100,
            14,
            "          1                  40\n          0          3\n",
        ),
        (4, 100, two),
        (4, 20, two),
        (
            3,
            100,
            "          4                  40\n          0          0\n          1          1\n          2          2\n          3          3\n",
        ),
        (3, 20, "         11\n"),
        (2, 100, "         11\n"),
    ];
    run.cases(2, 1, |run, r| {
        for (read, insert, output) in cases {
            run.prints(r, &input(read, insert).text(), output.as_bytes())
                .map_err(|why| format!("R {read} U {insert}: {why}"))?;
        }
        Ok(())
    })
}

fn small(run: &mut Run) -> Result<(), String> {
    run.cases(3, 700, |run, r| {
        let mut input = input::any(r);
        if r.one_in(2) {
            input::tighten(r, &mut input);
        }
        planned(run, r, &input)
    })
}

fn large(run: &mut Run) -> Result<(), String> {
    run.cases(4, 20, |run, r| {
        let mut input = match r.one_in(3) {
            true => input::largest(r),
            false => input::accepted(r, DELIVERIES, CALLS),
        };
        if r.one_in(2) {
            input::tighten(r, &mut input);
        }
        planned(run, r, &input)
    })
}

/// Every insert goes to the first of 64 partitions, at the highest prices.
fn costliest(run: &mut Run) -> Result<(), String> {
    run.cases(5, 3, |run, r| {
        let mut input = input::largest(r);
        input.prices = [1_000; 3];
        // One block is the longest partition.
        input.limits[0] = 1_999;
        input.calls.fill([INSERT, 0, 100_000, 10_000, 0]);
        let bill = CALLS * (1_000 + 1_000) * (1 + BLOCKS);
        let mut output = format!("{BLOCKS:>11}{bill:>20}\n");
        for block in 0..BLOCKS {
            writeln!(output, "{block:>11}{block:>11}").expect("a string takes every text");
        }
        run.prints(r, &input.text(), output.as_bytes())?;
        planned(run, r, &input)
    })
}

pub const TESTS: &[(&str, Test)] = &[
    ("examples", examples),
    ("main case with other limits", main_case_limits),
    ("plans", small),
    ("plans of the largest inputs", large),
    ("the longest output and the highest bill", costliest),
];
