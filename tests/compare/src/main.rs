//! Compares the compiled library, through its C interface, with the second
//! implementation: answers, slices, directory and guard elements after every
//! call, refused calls too.
//!
//! The first argument, if any, multiplies the number of random cases; below
//! 1, the number of texts read and the share of damaged ones are not asked.
//! From the root of the repository, after `rt lib` in crates/c_api:
//!
//! MELTUSK_LIB=crates/c_api/out CARGO_TARGET_DIR=target/compare cargo run
//! --release --offline --manifest-path tests/compare/Cargo.toml
//!
//! Under valgrind, a test in which it sees an error fails: a read or write
//! beside the lent slices, or a decision on what was never written. Every test
//! is made, but no slice of ends past 32 bits is lent. With few cases:
//!
//! valgrind --quiet --error-exitcode=1 target/compare/release/compare 0.1

mod bad;
mod broken;
mod calls;
mod csv;
mod days;
mod growers;
mod header;
mod inputs;
mod layouts;
mod lists;
mod long;
mod memory;
mod plan;
mod scans;
mod seen;
mod sheets;
mod snapshots;
mod tallies;
mod terms;
mod text;
mod valgrind;

use csv::seen::Files;
use meltusk::Seen;
use second::random::{case_seed, Random};
use snapshots::seen::Damages;
use std::io::{BufRead, BufReader};
use std::panic::{catch_unwind, AssertUnwindSafe};
use std::process::{Command, Stdio};

/// How the line of a test begins.
const PASSED: &str = "ok    ";
const FAILED: &str = "FAIL  ";
const LEFT_OUT: &str = "left out  ";
/// Set in the process that makes the tests.
const CHILD: &str = "MELTUSK_COMPARE_CHILD";

pub struct Run {
    scale: f64,
    pub seen: Seen,
    pub damages: Damages,
    pub files: Files,
    /// What the present test does not try here, and why.
    pub left_out: Option<&'static str>,
}

pub type Test = fn(&mut Run) -> Result<(), String>;

impl Run {
    /// Random cases of one test, each with its own seed. `count` is that of
    /// scale 1.
    pub fn cases(
        &mut self,
        test: u64,
        count: u64,
        case: impl Fn(&mut Run, &mut Random) -> Result<(), String>,
    ) -> Result<(), String> {
        let count = ((count as f64 * self.scale) as u64).max(1);
        for i in 0..count {
            let seed = case_seed(test, i);
            let mut r = Random::new(seed);
            catch_unwind(AssertUnwindSafe(|| case(self, &mut r)))
                .unwrap_or_else(|_| Err("panicked".into()))
                .map_err(|why| format!("seed {seed:#x}, case {i}: {why}"))?;
        }
        Ok(())
    }
}

fn every_answer(run: &mut Run) -> Result<(), String> {
    seen::complete(&run.seen)
}

fn tests() -> Vec<(&'static str, Test)> {
    let mut tests: Vec<(&str, Test)> = Vec::new();
    tests.extend(lists::TESTS);
    tests.extend(scans::TESTS);
    tests.extend(broken::TESTS);
    tests.extend(long::TESTS);
    tests.extend(layouts::TESTS);
    tests.extend(growers::TESTS);
    tests.extend(days::TESTS);
    tests.push(("every answer of every call has occurred", every_answer));
    tests.extend(snapshots::TESTS);
    tests.extend(sheets::TESTS);
    tests.extend(terms::TESTS);
    tests.extend(csv::TESTS);
    tests.extend(tallies::TESTS);
    tests.extend(plan::TESTS);
    tests.extend(header::TESTS);
    tests
}

/// Makes a test; one in which valgrind sees an error has failed.
fn made(run: &mut Run, test: Test) -> Result<(), String> {
    let before = valgrind::errors();
    test(run)?;
    match valgrind::errors() - before {
        0 => Ok(()),
        errors => Err(format!("valgrind: {errors} errors")),
    }
}

/// Makes all tests, each with one line.
fn run_tests(scale: f64) -> Tally {
    let mut run = Run {
        scale,
        seen: Seen::default(),
        damages: Damages::default(),
        files: Files::default(),
        left_out: None,
    };
    let mut tally = Tally::default();
    for (name, test) in tests() {
        let before = run.seen.calls;
        let outcome = made(&mut run, test);
        let calls = run.seen.calls - before;
        let line = match (outcome, run.left_out.take()) {
            (Err(why), _) => format!("{FAILED}{name}: {why}"),
            (Ok(()), None) if calls == 0 => format!("{PASSED}{name}"),
            (Ok(()), None) => format!("{PASSED}{name}: {calls} calls"),
            (Ok(()), Some(what)) if calls == 0 => format!("{LEFT_OUT}{name}: {what}"),
            (Ok(()), Some(what)) => format!("{PASSED}{name}: {calls} calls; left out: {what}"),
        };
        tally.note(&line);
        println!("{line}");
    }
    tally
}

/// The lines of tests.
#[derive(Default)]
struct Tally {
    passed: usize,
    failed: usize,
    left_out: usize,
}

impl Tally {
    fn note(&mut self, line: &str) {
        self.passed += usize::from(line.starts_with(PASSED));
        self.failed += usize::from(line.starts_with(FAILED));
        self.left_out += usize::from(line.starts_with(LEFT_OUT));
    }

    fn lines(&self) -> usize {
        self.passed + self.failed + self.left_out
    }
}

/// Runs the tests in a process of their own, so that the totals are printed
/// even if the library ends it.
fn supervise(scale: f64) -> std::io::Result<Tally> {
    let mut child = Command::new(std::env::current_exe()?)
        .arg(scale.to_string())
        .env(CHILD, "1")
        .stdout(Stdio::piped())
        .spawn()?;
    let mut tally = Tally::default();
    if let Some(output) = child.stdout.take() {
        for line in BufReader::new(output).lines() {
            let line = line?;
            tally.note(&line);
            println!("{line}");
        }
    }
    let status = child.wait()?;
    if let Some((name, _)) = tests().get(tally.lines()) {
        println!("{FAILED}{name}: the run ended, {status}");
        tally.failed += 1;
    } else if !status.success() {
        println!("{FAILED}the run: {status}");
        tally.failed += 1;
    }
    Ok(tally)
}

fn main() {
    let scale = match std::env::args().nth(1) {
        None => 1.0,
        Some(text) => match text.parse() {
            Ok(n) if n > 0.0 && f64::is_finite(n) => n,
            _ => {
                eprintln!("usage: compare [scale above 0]");
                std::process::exit(2);
            }
        },
    };
    if std::env::var_os(CHILD).is_some() {
        run_tests(scale);
        return;
    }
    // Valgrind does not follow into another process.
    let tally = match valgrind::runs() {
        true => Ok(run_tests(scale)),
        false => supervise(scale),
    };
    let tally = tally.unwrap_or_else(|error| {
        println!("{FAILED}the tests: {error}");
        Tally {
            failed: 1,
            ..Tally::default()
        }
    });
    println!("{} passed, {} failed", tally.passed, tally.failed);
    if tally.failed > 0 {
        std::process::exit(1);
    }
}
