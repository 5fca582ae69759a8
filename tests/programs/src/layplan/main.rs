//! Compares the program layplan with the second implementation. The first
//! argument is the program. From the root of the repository, after `rt run`
//! in crates/layplan:
//!
//! CARGO_TARGET_DIR=target/programs cargo run --release --offline
//! --manifest-path tests/programs/Cargo.toml --bin compare-layplan
//! crates/layplan/out/layplan
//!
//! `--time PROGRAM SECOND` times it against the second implementation's
//! process, which is built as `second-layplan` in tests/second.

mod damage;
mod input;
mod plans;
mod refusals;

use input::LONGEST;
use plans::EXPECTED;
use programs::damage::Input as _;
use programs::{Program, Tests};

const LAYPLAN: Program = Program {
    name: "layplan",
    second: second::layplan,
    good: include_bytes!("../../../../examples/main-case.txt"),
    longest: LONGEST,
    largest: |r| input::largest(r).text(),
};

fn main() {
    programs::main(
        &LAYPLAN,
        &Tests {
            tests: vec![plans::TESTS, refusals::TESTS],
            damages: damage::run,
            expected: EXPECTED,
        },
    );
}
