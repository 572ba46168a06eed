//! Rounds of repeated calls, and the medians, quartiles and ratios of their times.

use crate::versions::Version;
use std::array;
use std::fmt;
use std::thread;
use std::time::{Duration, Instant};
use tranche_weights::SHEET_WORDS;

/// How many rounds to take and how long each should be.
pub struct Plan {
    /// Rounds of each measured time per sheet.
    pub rounds: usize,
    round_time: Duration,
    /// Runs of each measured rate.
    pub runs: usize,
    run_time: Duration,
}

/// The plan without flags. The rounds are short, so that most of them pass without a switch to another program.
pub const FULL: Plan = Plan {
    rounds: 299,
    round_time: Duration::from_millis(1),
    runs: 11,
    run_time: Duration::from_millis(250),
};

/// The plan of `--quick`.
pub const QUICK: Plan = Plan {
    rounds: 31,
    round_time: Duration::from_millis(1),
    runs: 3,
    run_time: Duration::from_millis(50),
};

/// What is timed: something that can be done again and again, on any thread.
pub trait Repeated: Sync {
    /// Does it so many times.
    fn repeat(&self, times: u64);
}

impl<T: Repeated + ?Sized> Repeated for Box<T> {
    /// Does what is in the box.
    fn repeat(&self, times: u64) {
        (**self).repeat(times);
    }
}

/// A version and the sheet that it weighs.
#[derive(Clone, Copy)]
pub struct Work<'a> {
    pub version: Version,
    pub sheet: &'a [u64],
}

impl Repeated for Work<'_> {
    /// Weighs the sheet again and again, with results of its own.
    fn repeat(&self, times: u64) {
        let mut results = [0; SHEET_WORDS];
        for _ in 0..times {
            (self.version)(self.sheet, &mut results);
        }
    }
}

/// How many repetitions take about `target`, found by doubling; the trials also warm the caches.
fn repetitions(work: &impl Repeated, target: Duration) -> u64 {
    let mut times = 1;
    loop {
        let start = Instant::now();
        work.repeat(times);
        let taken = start.elapsed();
        if taken >= target / 2 {
            let scaled = times as f64 * target.as_secs_f64() / taken.as_secs_f64();
            return (scaled as u64).max(1);
        }
        times *= 2;
    }
}

/// The times of one repetition in nanoseconds, a list for each work. A round times every work once, and each round begins with
/// the next one, so that other work on the machine slows all alike.
pub fn rounds(works: &[impl Repeated], plan: &Plan) -> Vec<Vec<f64>> {
    let repetitions: Vec<u64> = works.iter().map(|work| repetitions(work, plan.round_time)).collect();
    let mut times = vec![Vec::with_capacity(plan.rounds); works.len()];
    let turns = (0..plan.rounds).flat_map(|round| (0..works.len()).map(move |step| (round + step) % works.len()));
    for turn in turns {
        let start = Instant::now();
        works[turn].repeat(repetitions[turn]);
        times[turn].push(start.elapsed().as_nanos() as f64 / repetitions[turn] as f64);
    }
    times
}

/// Sheets per second with each number of threads, every thread weighing the same count of sheets; medians of runs that
/// alternate.
pub fn rates<const KINDS: usize>(work: &Work, threads: [usize; KINDS], plan: &Plan) -> [f64; KINDS] {
    let repetitions = repetitions(work, plan.run_time);
    let mut rates: [Vec<f64>; KINDS] = array::from_fn(|_| Vec::with_capacity(plan.runs));
    for kind in (0..plan.runs).flat_map(|_| 0..KINDS) {
        let start = Instant::now();
        thread::scope(|scope| {
            (0..threads[kind]).for_each(|_| drop(scope.spawn(|| work.repeat(repetitions))));
        });
        rates[kind].push(threads[kind] as f64 * repetitions as f64 / start.elapsed().as_secs_f64());
    }
    rates.map(|rates| median(&rates))
}

/// The middle of a list that is not empty.
pub fn median(values: &[f64]) -> f64 {
    quantile(values, 0.5)
}

/// The value that the given share of the list lies below; between two values it runs linearly.
fn quantile(values: &[f64], share: f64) -> f64 {
    let mut sorted = values.to_vec();
    sorted.sort_by(f64::total_cmp);
    let position = share * (sorted.len() - 1) as f64;
    let (below, above) = (sorted[position.floor() as usize], sorted[position.ceil() as usize]);
    below + (above - below) * position.fract()
}

/// A ratio of two medians, with the quartiles of the ratio round by round.
#[derive(Debug, PartialEq)]
pub struct Ratio {
    medians: f64,
    quartiles: [f64; 2],
}

/// The ratio of two works that were timed in the same rounds.
pub fn ratio(one: &[f64], other: &[f64]) -> Ratio {
    let by_round: Vec<f64> = one.iter().zip(other).map(|(one, other)| one / other).collect();
    Ratio {
        medians: median(one) / median(other),
        quartiles: [0.25, 0.75].map(|share| quantile(&by_round, share)),
    }
}

impl fmt::Display for Ratio {
    /// Two digits after the point, or four where the ratio is below a tenth.
    fn fmt(&self, out: &mut fmt::Formatter) -> fmt::Result {
        let digits = if self.medians < 0.1 { 4 } else { 2 };
        let [first, third] = self.quartiles;
        write!(out, "{:.digits$} ({first:.digits$} to {third:.digits$})", self.medians)
    }
}

#[cfg(test)]
mod tests {
    use super::*;

    /// Five values have their quartiles at whole places; two have their median between them.
    #[test]
    fn quantiles_of_an_unsorted_list() {
        let values = [5.0, 1.0, 3.0, 2.0, 4.0];
        assert_eq!(
            [0.0, 0.25, 0.5, 1.0].map(|share| quantile(&values, share)),
            [1.0, 2.0, 3.0, 5.0]
        );
        assert_eq!(median(&[4.0, 1.0]), 2.5);
    }

    /// The medians are 6 and 2; round by round the ratios are 2, 4 and 2.
    #[test]
    fn ratio_takes_medians_and_goes_round_by_round() {
        let found = ratio(&[2.0, 8.0, 6.0], &[1.0, 2.0, 3.0]);
        assert_eq!(
            found,
            Ratio {
                medians: 3.0,
                quartiles: [2.0, 3.0]
            }
        );
        assert_eq!(found.to_string(), "3.00 (2.00 to 3.00)");
    }
}
