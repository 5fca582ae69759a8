//! Checks the library against the paper's examples, against plain models on
//! random cases, and the checks themselves against wrong variants.
//!
//! The first argument, if any, multiplies the number of random cases.

#[path = "selfcheck/checks.rs"]
mod checks;
#[path = "selfcheck/csv.rs"]
mod csv;
#[path = "selfcheck/days.rs"]
mod days;
#[path = "selfcheck/groups.rs"]
mod groups;
#[path = "selfcheck/growers.rs"]
mod growers;
#[path = "selfcheck/increases.rs"]
mod increases;
#[path = "selfcheck/listings.rs"]
mod listings;
#[path = "selfcheck/model.rs"]
mod model;
#[path = "selfcheck/mutants.rs"]
mod mutants;
#[path = "selfcheck/random.rs"]
mod random;
#[path = "selfcheck/sheets.rs"]
mod sheets;
#[path = "selfcheck/subject.rs"]
mod subject;
#[path = "selfcheck/terms.rs"]
mod terms;
#[path = "selfcheck/wrong_days.rs"]
mod wrong_days;
#[path = "selfcheck/wrong_listings.rs"]
mod wrong_listings;

use groups::Outcome;
use subject::{Library, Subject};

type Group = fn(&dyn Subject, u64) -> Outcome;

/// Name, function, number of random cases at scale 1.
const GROUPS: &[(&str, Group, u64)] = &[
    ("example: find and range", groups::example_reads, 1),
    (
        "example: insert, delete and move",
        groups::example_writes,
        1,
    ),
    ("example: plans, limits and costs", groups::example_plans, 1),
    ("example: layplan output", groups::example_layplan, 1),
    ("recorder against its rules", groups::recorder_model, 20_000),
    (
        "cost against equations 16 and 17",
        groups::cost_equation,
        10_000,
    ),
    (
        "cost and planner against priced reports",
        groups::cost_reports,
        4_000,
    ),
    (
        "planner by listing and by table, recorded lists",
        groups::planner_recorded,
        6_000,
    ),
    (
        "planner by listing and by table, raw histograms",
        groups::planner_raw,
        6_000,
    ),
    (
        "planner by table, up to 64 blocks",
        groups::planner_large,
        2_000,
    ),
    ("example: listings", listings::listing_examples, 1),
    (
        "listing against all boundary bits",
        listings::listing_bits,
        2_000,
    ),
    (
        "cheapest of a listing against the planner",
        listings::listing_least,
        4_000,
    ),
    ("listing of any set", listings::listing_refused, 4_000),
    ("listing of 1 to 12 blocks", listings::listing_sizes, 1),
    (
        "example: calls added to a list",
        increases::increase_examples,
        1,
    ),
    (
        "calls added to recorded lists",
        increases::increase_bounds,
        6_000,
    ),
    (
        "column against ledger, any sound column",
        groups::column_ledger,
        20_000,
    ),
    (
        "column against ledger, laid column",
        groups::laid_ledger,
        20_000,
    ),
    ("column against slot model", groups::column_slots, 20_000),
    ("column at edges of shape", groups::column_edges, 300),
    ("column of largest size", groups::column_largest, 1),
    ("partition slice", groups::partition_slices, 10_000),
    (
        "example: next and previous grower",
        growers::grower_examples,
        1,
    ),
    (
        "next and previous grower against slot model",
        growers::grower_slots,
        40_000,
    ),
    (
        "next and previous grower against ledger",
        growers::grower_ledger,
        20_000,
    ),
    (
        "stepping through all growers",
        growers::grower_stepping,
        20_000,
    ),
    ("growers at edges of shape", growers::grower_edges, 1),
    (
        "snapshot there and back",
        groups::snapshot_round_trip,
        20_000,
    ),
    ("snapshot damaged", groups::snapshot_damaged, 60_000),
    ("example: settlement sheets", sheets::sheet_examples, 1),
    ("sheet against a map", sheets::sheet_columns, 20_000),
    ("sheet against finds", sheets::sheet_finds, 10_000),
    ("sheet of any column", sheets::sheet_refused, 40_000),
    ("sheet at edges of shape and size", sheets::sheet_edges, 1),
    ("example: settlement output", sheets::settlement_examples, 1),
    ("settlement of books", sheets::settlement_books, 40_000),
    ("example: dates and terms", days::calendar_examples, 1),
    ("every date of the century", days::calendar_century, 1),
    ("example: ranges over days", days::range_examples, 1),
    ("example: 8 of all, then 19 of all", days::order_examples, 1),
    ("example: the same of a set", days::set_examples, 1),
    ("example: days in moves", days::match_examples, 1),
    ("ranges over days against ranges", days::range_spans, 20_000),
    ("example: sheets of terms", terms::term_examples, 1),
    ("sheet of a term against a map", terms::term_sheets, 10_000),
    ("sheets of every term of four years", terms::term_years, 500),
    ("sheet of a term of any column", terms::term_refused, 40_000),
    ("books and days", days::book_days, 20_000),
    ("weighbridge files and days", days::export_days, 20_000),
    ("example: weighbridge files", csv::csv_examples, 1),
    (
        "weighbridge file there and back",
        csv::csv_round_trip,
        20_000,
    ),
    ("weighbridge file damaged", csv::csv_damaged, 100_000),
    ("layplan against its pieces", groups::layplan_pieces, 60_000),
    ("tally", groups::tally_sums, 100_000),
];

fn main() {
    let scale: f64 = match std::env::args().nth(1) {
        None => 1.0,
        Some(text) => match text.parse() {
            Ok(n) if n > 0.0 => n,
            _ => {
                eprintln!("usage: selfcheck [scale above 0]");
                std::process::exit(2);
            }
        },
    };
    let mut passed = 0u64;
    let mut failed = 0u64;
    let mut report = |name: &str, outcome: Outcome| match outcome {
        Ok(()) => {
            passed += 1;
            println!("ok    {name}");
        }
        Err(why) => {
            failed += 1;
            println!("FAIL  {name}: {why}");
        }
    };
    for (name, group, cases) in GROUPS {
        let cases = ((*cases as f64 * scale) as u64).max(1);
        report(name, groups::guarded(|| group(&Library, cases)));
    }
    for (name, outcome) in checks::all() {
        report(&name, outcome);
    }
    for (name, outcome) in mutants::all() {
        report(&name, outcome);
    }
    println!("{passed} passed, {failed} failed");
    if failed > 0 {
        std::process::exit(1);
    }
}
