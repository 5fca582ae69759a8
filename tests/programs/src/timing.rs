//! Both programs as processes on the largest input, in turn.

use crate::process::{command, Scratch};
use crate::Program;
use second::random::{case_seed, Random};
use std::path::Path;
use std::time::Instant;

const WARM_UP: usize = 5;
const RUNS: usize = 60;

/// Milliseconds from the start of a process to its end, and its output.
fn timed(program: &Path, scratch: &Scratch, text: &[u8]) -> Result<(f64, Vec<u8>), String> {
    let input = scratch.hold(text)?;
    let started = Instant::now();
    let ended = command(program, input).output();
    let milliseconds = started.elapsed().as_secs_f64() * 1e3;
    let ended = ended.map_err(|error| error.to_string())?;
    if !ended.status.success() || !ended.stderr.is_empty() {
        return Err(format!("{}", ended.status));
    }
    Ok((milliseconds, ended.stdout))
}

/// Least and median.
fn summary(mut times: Vec<f64>) -> [f64; 2] {
    times.sort_unstable_by(f64::total_cmp);
    [times[0], times[times.len() / 2]]
}

/// Times `ours` and `second` and prints least, median and ratio.
pub fn run(program: &Program, ours: &Path, second: &Path) -> Result<(), String> {
    let text = (program.largest)(&mut Random::new(case_seed(90, 0)));
    assert_eq!(text.len(), program.longest);
    let scratch = Scratch::new();
    let expected = (program.second)(&text);
    let mut times = [Vec::new(), Vec::new()];
    for i in 0..WARM_UP + RUNS {
        for (program, times) in [ours, second].into_iter().zip(&mut times) {
            let (milliseconds, output) = timed(program, &scratch, &text)
                .map_err(|why| format!("{}: {why}", program.display()))?;
            if output != expected {
                return Err(format!("{}: another output", program.display()));
            }
            if i >= WARM_UP {
                times.push(milliseconds);
            }
        }
    }
    let [ours, second] = times.map(summary);
    println!("{} bytes, {RUNS} runs each", text.len());
    println!(
        "{:<8}{:>10}{:>10}{:>8}",
        "", "ms ours", "ms second", "ratio"
    );
    for (i, name) in ["least", "median"].into_iter().enumerate() {
        println!(
            "{name:<8}{:>10.2}{:>10.2}{:>8.2}",
            ours[i],
            second[i],
            ours[i] / second[i]
        );
    }
    Ok(())
}
