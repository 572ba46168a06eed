//! How the time per sheet of the proved version grows with rows and with tranches.

use crate::agreement;
use crate::deals;
use crate::table::{duration, table};
use crate::timing::{median, rounds, Plan, Work};
use crate::versions;
use tranche_weights::{MOST_ROWS, MOST_TRANCHES};

/// The steps of each series.
const STEPS: usize = 6;

/// Sheets that differ in one count.
pub struct Series {
    title: &'static str,
    /// What is counted, in the singular.
    unit: &'static str,
    counts: [u64; STEPS],
    sheet: fn(u64) -> Vec<u64>,
}

/// More and more rows, at three tranches.
pub fn by_rows() -> Series {
    Series {
        title: "Growth with the pool's rows, at 3 tranches (proved):",
        unit: "row",
        counts: [1, 10, 100, 250, 500, MOST_ROWS as u64],
        sheet: deals::with_rows,
    }
}

/// More and more tranches, all SEC-SA, at three rows.
pub fn by_tranches() -> Series {
    Series {
        title: "Growth with the tranches, all SEC-SA, at 3 rows (proved):",
        unit: "tranche",
        counts: [1, 2, 4, 8, 16, MOST_TRANCHES as u64],
        sheet: deals::with_tranches,
    }
}

impl Series {
    /// The table of the series, measured now, and the line through it.
    pub fn measured(&self, plan: &Plan) -> Result<String, String> {
        let sheets = self.counts.map(self.sheet);
        for (sheet, count) in sheets.iter().zip(self.counts) {
            agreement::check(&format!("{count} {}s", self.unit), sheet)?;
        }
        let version = versions::proved;
        let works: Vec<Work> = sheets.iter().map(|sheet| Work { version, sheet }).collect();
        let times: Vec<f64> = rounds(&works, plan).iter().map(|times| median(times)).collect();
        Ok(self.text(&times))
    }

    /// The text of a series whose times per sheet are given in nanoseconds.
    fn text(&self, times: &[f64]) -> String {
        let points: Vec<(f64, f64)> = self
            .counts
            .iter()
            .map(|&count| count as f64)
            .zip(times.iter().copied())
            .collect();
        let added = points
            .windows(2)
            .map(|pair| (pair[1].1 - pair[0].1) / (pair[1].0 - pair[0].0));
        let added = [String::new()].into_iter().chain(added.map(duration));
        let cells = self.counts.iter().zip(times).zip(added);
        let lines: Vec<Vec<String>> = cells
            .map(|((count, &time), added)| vec![count.to_string(), duration(time), added])
            .collect();
        let head = [
            &format!("{}s", self.unit),
            "time per sheet",
            &format!("per added {}", self.unit),
        ];
        format!(
            "{}\n\n{}\n{}",
            self.title,
            table(&head, &lines),
            fitted(&points, self.unit)
        )
    }
}

/// The line through points of count and time, for each of what is counted, and how far the points are off it.
pub fn fitted(points: &[(f64, f64)], unit: &str) -> String {
    let line = Line::through(points);
    format!(
        "Least-squares line: {} + {} per {unit}; largest relative deviation from it {:.1}%.",
        duration(line.start),
        duration(line.slope),
        100.0 * line.deviation(points),
    )
}

/// A straight line: time = start + slope × count.
struct Line {
    start: f64,
    slope: f64,
}

impl Line {
    /// The least-squares line through points of count and time. Deviations are squared relative to the time, so that
    /// the short times count as much as the long ones.
    fn through(points: &[(f64, f64)]) -> Self {
        let sum = |part: fn(f64, f64) -> f64| points.iter().map(|&(count, time)| part(count, time)).sum::<f64>();
        let ones = sum(|_, time| 1.0 / (time * time));
        let counts = sum(|count, time| count / (time * time));
        let squares = sum(|count, time| count * count / (time * time));
        let times = sum(|_, time| 1.0 / time);
        let products = sum(|count, time| count / time);
        let slope = (ones * products - counts * times) / (ones * squares - counts * counts);
        Line {
            start: (times - slope * counts) / ones,
            slope,
        }
    }

    /// The largest distance of a time from the line, relative to that time.
    fn deviation(&self, points: &[(f64, f64)]) -> f64 {
        let deviations = points
            .iter()
            .map(|&(count, time)| ((self.start + self.slope * count) / time - 1.0).abs());
        deviations.fold(0.0, f64::max)
    }
}

#[cfg(test)]
mod tests {
    use super::*;

    /// The fit finds a line that is there.
    #[test]
    fn points_on_a_line_give_that_line() {
        let points = [1.0, 2.0, 10.0, 32.0].map(|count| (count, 7.0 + 3.0 * count));
        let line = Line::through(&points);
        assert!((line.start - 7.0).abs() < 1e-9 && (line.slope - 3.0).abs() < 1e-9);
        assert!(line.deviation(&points) < 1e-9);
    }

    /// The deviation shows growth that is not linear.
    #[test]
    fn quadratic_growth_is_seen_as_a_deviation() {
        let points = [1.0, 10.0, 100.0, 1_000.0].map(|count| (count, 5.0 + count * count));
        assert!(Line::through(&points).deviation(&points) > 0.5);
    }

    /// Times of 8 + 2 × rows give 2 for each added row, and that line.
    #[test]
    fn text_gives_the_cost_of_each_added_row() {
        let text = by_rows().text(&[10.0, 28.0, 208.0, 508.0, 1_008.0, 2_008.0]);
        assert!(text.contains("| 100  |         208 ns |       2.00 ns |"), "{text}");
        assert!(
            text.ends_with("8.00 ns + 2.00 ns per row; largest relative deviation from it 0.0%."),
            "{text}"
        );
    }
}
