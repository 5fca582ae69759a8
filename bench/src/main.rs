//! Times the compiled library: its calls beside the second implementation's,
//! a price card for the machine, and weeks of calls beside other structures.
//! What stands side by side is checked to answer the same.

mod allocator;
mod calibrate;
mod columns;
mod csv;
mod empty;
mod growers;
mod listings;
mod plans;
mod race;
mod sets;
mod sheets;
mod snapshots;
mod sqlite;
mod sse2;
mod structures;
mod timing;
mod week;
mod weeks;

use second::BLOCK_LENGTH_LIMIT;

#[global_allocator]
static ALLOCATOR: allocator::Allocator = allocator::Allocator;

fn heading(call: &str, size: &str, other: &str) {
    println!(
        "{call:<16}{size:>4}{:>14}{:>14}{:>8}",
        "ns ours",
        format!("ns {other}"),
        "ratio"
    );
}

/// Weighbridge files, by their count of columns.
fn files() {
    heading("call", "cols", "second");
    csv::run();
}

/// Steps from grower to grower.
fn steps() {
    heading("call", "K", "second");
    [1, 8, 64].into_iter().for_each(growers::run);
}

/// Scans of a column without records.
fn gaps() {
    heading("empty column", "K", "second");
    [1, 8, 64].into_iter().for_each(empty::run);
}

/// Settlement sheets.
fn settlements() {
    heading("sheet", "K", "second");
    [1, 64].into_iter().for_each(sheets::run);
}

fn calls() {
    heading("call", "K", "second");
    [1, 8, 64].into_iter().for_each(columns::run);
    [1, 64].into_iter().for_each(snapshots::run);
    println!();
    steps();
    println!();
    gaps();
    println!();
    settlements();
    println!();
    files();
    println!();
    heading("call", "K", "SSE2");
    [1, 64].into_iter().for_each(sse2::run);
    println!();
    planner();
    println!();
    layouts_listed();
}

/// Inserts at K 64, by the block length and by where the slices lie.
fn inserts() {
    heading("insert, K 64", "B", "second");
    [4_096, 4_032].into_iter().for_each(columns::inserts);
}

/// The planner, by the count of blocks.
fn planner() {
    heading("call", "N", "second");
    [8, 16, 32, 64].into_iter().for_each(plans::run);
}

/// Listings of every layout, by the count of blocks.
fn layouts_listed() {
    heading("call", "N", "second");
    [4, 8, 12].into_iter().for_each(listings::run);
}

fn main() {
    let arguments: Vec<String> = std::env::args().skip(1).collect();
    let arguments: Vec<&str> = arguments.iter().map(String::as_str).collect();
    match arguments[..] {
        [] | ["calls"] => calls(),
        ["inserts"] => inserts(),
        ["growers"] => steps(),
        ["empty"] => gaps(),
        ["sheets"] => settlements(),
        ["csv"] => files(),
        ["plans"] => planner(),
        ["listings"] => layouts_listed(),
        ["calibrate"] => calibrate::survey(),
        ["calibrate", block] => match block.parse() {
            Ok(block @ 1..=BLOCK_LENGTH_LIMIT) => calibrate::run(block),
            _ => fail("the block length is 1 to 4096"),
        },
        ["weeks"] => weeks::run(),
        ["cards"] => weeks::cards(),
        _ => fail(
            "bench [calls | inserts | growers | empty | sheets | csv | plans | listings | calibrate [BLOCK_LENGTH] | weeks | cards]",
        ),
    }
}

fn fail(message: &str) -> ! {
    eprintln!("{message}");
    std::process::exit(2);
}
