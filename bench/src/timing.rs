//! Batches timed in turn; of several repetitions the least median.

use std::time::Instant;

/// Repetitions, as many on one column as on the other, and rounds of each.
pub const REPETITIONS: usize = 12;
pub const ROUNDS: usize = 21;

/// Nanoseconds a call of one batch.
pub fn timed<T>(calls: usize, batch: impl FnOnce() -> T) -> (f64, T) {
    let start = Instant::now();
    let result = batch();
    let nanoseconds = start.elapsed().as_nanos() as f64;
    (nanoseconds / calls as f64, result)
}

/// The times of one call, ours and the second implementation's.
#[derive(Default)]
pub struct Times {
    /// Least median so far.
    least: [Option<f64>; 2],
    /// Times of the present repetition.
    present: [Vec<f64>; 2],
}

impl Times {
    pub fn add(&mut self, side: usize, nanoseconds: f64) {
        self.present[side].push(nanoseconds);
    }

    /// Ends a repetition.
    pub fn close(&mut self) {
        for (times, least) in self.present.iter_mut().zip(&mut self.least) {
            times.sort_unstable_by(f64::total_cmp);
            let median = times[times.len() / 2];
            *least = Some(least.map_or(median, |held| held.min(median)));
            times.clear();
        }
    }

    /// The least median of either side.
    pub fn least(&self) -> f64 {
        self.least
            .iter()
            .flatten()
            .fold(f64::INFINITY, |a, &b| a.min(b))
    }

    /// A line of both times and their ratio.
    fn line(&self, call: &str, size: usize) -> String {
        let [ours, second] = self.least.map(|time| time.unwrap_or(f64::NAN));
        format!(
            "{call:<16}{size:>4}{ours:>14.1}{second:>14.1}{:>8.2}",
            ours / second
        )
    }

    pub fn print(&self, call: &str, size: usize) {
        println!("{}", self.line(call, size));
    }

    /// With how many MB/s of a text are ours.
    pub fn print_rate(&self, call: &str, size: usize, bytes: usize) {
        let ours = self.least[0].unwrap_or(f64::NAN);
        let rate = 1_000.0 * bytes as f64 / ours;
        println!("{}{rate:>8.0} MB/s", self.line(call, size));
    }
}
