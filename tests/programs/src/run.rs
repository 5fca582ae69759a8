//! Inputs given to both, and the tests that they are made in.

use crate::process::{self, Scratch, FEEDS};
use crate::seen::Seen;
use crate::Program;
use second::random::{case_seed, Random};
use std::fs;
use std::panic::{catch_unwind, AssertUnwindSafe};
use std::path::{Path, PathBuf};

/// How the line of a test begins.
const PASSED: &str = "ok    ";
const FAILED: &str = "FAIL  ";

pub type Test = fn(&mut Run) -> Result<(), String>;

pub struct Run {
    pub program: &'static Program,
    pub path: PathBuf,
    pub seen: Seen,
    scratch: Scratch,
    /// Inputs kept of failed tests.
    kept: u32,
    /// Tests passed and failed.
    tally: [usize; 2],
}

/// The refusal number of an output, or 0.
fn refusal(output: &[u8]) -> Option<u32> {
    match output.get(11)? {
        b'\n' => {
            let number = std::str::from_utf8(&output[..11]).ok()?;
            number.trim_start().parse().ok()
        }
        _ => Some(0),
    }
}

/// The start of an output.
pub fn shown(output: &[u8]) -> String {
    let start = &output[..output.len().min(100)];
    format!("{:?}", String::from_utf8_lossy(start))
}

impl Run {
    pub fn new(program: &'static Program, path: &Path) -> Run {
        Run {
            program,
            path: path.to_path_buf(),
            seen: Seen::default(),
            scratch: Scratch::new(),
            kept: 0,
            tally: [0; 2],
        }
    }

    /// Tests passed and failed.
    pub fn tally(&self) -> [usize; 2] {
        self.tally
    }

    /// Gives the text to both. Answers the output of both.
    pub fn compare(&mut self, r: &mut Random, text: &[u8]) -> Result<Vec<u8>, String> {
        let feed = r.pick(&FEEDS);
        let second = (self.program.second)(text);
        let ended = process::run(r, &self.path, &self.scratch, text, feed)?;
        let refusal = refusal(&second).ok_or("the second implementation prints no answer")?;
        self.seen.note_answer(feed, refusal);
        let why = if ended.output != second {
            let outputs = [&ended.output, &second].map(|output| shown(output));
            format!("prints {}, not {}", outputs[0], outputs[1])
        } else if !ended.errors.is_empty() {
            format!("standard error {}", shown(&ended.errors))
        } else if ended.status.code() != Some(0) {
            format!("{}", ended.status)
        } else {
            return Ok(second);
        };
        Err(self.with_input(text, why))
    }

    /// The reason, with a file that keeps the input.
    pub fn with_input(&mut self, text: &[u8], why: String) -> String {
        self.kept += 1;
        let path = process::scratch_path(&format!("failed-{}", self.kept));
        match fs::write(&path, text) {
            Ok(()) => format!("{why}; the input is {}", path.display()),
            Err(_) => why,
        }
    }

    /// The text gets this refusal of both.
    pub fn refused(&mut self, r: &mut Random, text: &[u8], number: u32) -> Result<(), String> {
        let expected = format!("{number:>11}\n");
        self.prints(r, text, expected.as_bytes())
    }

    /// The text gets this output of both.
    pub fn prints(&mut self, r: &mut Random, text: &[u8], expected: &[u8]) -> Result<(), String> {
        let output = self.compare(r, text)?;
        if output == expected {
            return Ok(());
        }
        let why = format!("both print {}, not {}", shown(&output), shown(expected));
        Err(self.with_input(text, why))
    }

    /// Random cases of one test, each with its own seed.
    pub fn cases(
        &mut self,
        test: u64,
        count: u64,
        case: impl Fn(&mut Run, &mut Random) -> Result<(), String>,
    ) -> Result<(), String> {
        for i in 0..count {
            let seed = case_seed(test, i);
            case(self, &mut Random::new(seed))
                .map_err(|why| format!("seed {seed:#x}, case {i}: {why}"))?;
        }
        Ok(())
    }

    /// Makes one test and prints its line.
    pub fn test(&mut self, name: &str, test: impl FnOnce(&mut Run) -> Result<(), String>) {
        let before = self.seen.inputs;
        let outcome = catch_unwind(AssertUnwindSafe(|| test(self)));
        let outcome = outcome.unwrap_or_else(|_| Err("panicked".into()));
        self.tally[usize::from(outcome.is_err())] += 1;
        match (outcome, self.seen.inputs - before) {
            (Ok(()), 0) => println!("{PASSED}{name}"),
            (Ok(()), inputs) => println!("{PASSED}{name}: {inputs} inputs"),
            (Err(why), _) => println!("{FAILED}{name}: {why}"),
        }
    }
}
