//! Compares the program settlement with the second implementation. The first
//! argument is the program. From the root of the repository, after `rt run`
//! in crates/settlement:
//!
//! CARGO_TARGET_DIR=target/programs cargo run --release --offline
//! --manifest-path tests/programs/Cargo.toml --bin compare-settlement
//! crates/settlement/out/settlement
//!
//! `--time PROGRAM SECOND` times it against the second implementation's
//! process, which is built as `second-settlement` in tests/second.

mod book;
mod damage;
mod sheets;

use book::LONGEST;
use programs::damage::Input as _;
use programs::{Program, Tests};
use sheets::EXPECTED;

const SETTLEMENT: Program = Program {
    name: "settlement",
    second: second::settlement,
    good: include_bytes!("../../../../examples/campaign.txt"),
    longest: LONGEST,
    largest: |r| book::largest(r).text(),
};

fn main() {
    programs::main(
        &SETTLEMENT,
        &Tests {
            tests: vec![sheets::TESTS],
            damages: damage::run,
            expected: EXPECTED,
        },
    );
}
