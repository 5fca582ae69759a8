//! Compares a program, one process for each input, with the second
//! implementation: standard output byte for byte, standard error empty, status
//! 0. Most inputs are damaged.

pub mod damage;
mod process;
pub mod run;
pub mod seen;
mod streams;
mod timing;

use crate::run::{Run, Test};
use crate::seen::Expected;
use second::random::Random;
use std::path::{Path, PathBuf};

/// A program and what it is held to.
pub struct Program {
    pub name: &'static str,
    /// The same by the second implementation.
    pub second: fn(&[u8]) -> Vec<u8>,
    /// An input that is accepted.
    pub good: &'static [u8],
    /// Bytes of the longest input that is accepted.
    pub longest: usize,
    /// An input of so many bytes.
    pub largest: fn(&mut Random) -> Vec<u8>,
}

/// The tests of one program; streams that fail are tested of each.
pub struct Tests {
    pub tests: Vec<&'static [(&'static str, Test)]>,
    /// Makes the tests of damaged inputs.
    pub damages: fn(&mut Run),
    pub expected: Expected,
}

/// Makes all tests. Answers how many passed and failed.
fn run_tests(program: &'static Program, path: &Path, tests: &Tests) -> [usize; 2] {
    let mut run = Run::new(program, path);
    for (name, test) in tests.tests.concat() {
        run.test(name, test);
    }
    (tests.damages)(&mut run);
    let name = format!(
        "every answer and every kind of input among {} inputs, {} damaged",
        run.seen.inputs, run.seen.damaged
    );
    run.test(&name, |run| run.seen.complete(&tests.expected));
    for (name, test) in streams::TESTS {
        run.test(name, test);
    }
    run.tally()
}

/// The process of a comparison: `PROGRAM`, or `--time PROGRAM SECOND`.
pub fn main(program: &'static Program, tests: &Tests) {
    let arguments: Vec<PathBuf> = std::env::args_os().skip(1).map(PathBuf::from).collect();
    match &arguments[..] {
        [time, ours, second] if time.as_os_str() == "--time" => {
            if let Err(why) = timing::run(program, ours, second) {
                eprintln!("error: {why}");
                std::process::exit(1);
            }
        }
        [path] => {
            let [passed, failed] = run_tests(program, path, tests);
            println!("{passed} passed, {failed} failed");
            if failed > 0 {
                std::process::exit(1);
            }
        }
        _ => {
            eprintln!("usage: compare-{} PROGRAM", program.name);
            eprintln!("       compare-{} --time PROGRAM SECOND", program.name);
            std::process::exit(2);
        }
    }
}
