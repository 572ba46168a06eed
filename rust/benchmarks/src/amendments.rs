//! The time of an amendment of an opened pool, with the charge or with all lines after it, by the proved and by the plain
//! version, and against that of a fresh load of the amended sheet.

use crate::agreement;
use crate::deals::{self, Amendment, ROOM};
use crate::growth::fitted;
use crate::table::{duration, table};
use crate::timing::{median, ratio, rounds, Plan, Repeated};
use crate::versions::{self, Step};
use tranche_weights::{OpenedPool, BLOCK_ROWS, MOST_ROWS, MOST_TRANCHES};

/// A deal that is amended.
struct Shape {
    rows: u64,
    tranches: usize,
    /// The sheet with so many rows.
    sheet: fn(u64) -> Vec<u64>,
}

/// A deal of three tranches.
const fn small_of(rows: u64) -> Shape {
    Shape {
        rows,
        tranches: 3,
        sheet: deals::with_rows,
    }
}

/// A deal of the most tranches.
const fn large_of(rows: u64) -> Shape {
    Shape {
        rows,
        tranches: MOST_TRANCHES,
        sheet: deals::large_of,
    }
}

/// The deals that are amended.
const SHAPES: [Shape; 6] = [
    small_of(1),
    small_of(MOST_ROWS as u64),
    large_of(1),
    large_of(BLOCK_ROWS as u64),
    large_of(250),
    large_of(MOST_ROWS as u64),
];

impl Shape {
    /// The deal's name in the tables.
    fn name(&self) -> String {
        let plural = if self.rows == 1 { "" } else { "s" };
        format!("{} row{plural}, {} tranches", self.rows, self.tranches)
    }

    /// Its sheet, and the amendments of its pool.
    fn deal(&self) -> (Vec<u64>, Vec<Amendment>) {
        ((self.sheet)(self.rows), deals::amendments(self.rows))
    }
}

/// What is timed for each deal: an amendment with the charge after it by the proved and by the plain version, one with all
/// lines by both, and a fresh load by the proved version.
const KINDS: usize = 5;

/// The times of one deal's kinds, round by round.
type Times = [Vec<f64>; KINDS];

/// A deal that is kept and amended, step by step.
struct Kept<'a, Deal> {
    deal: Deal,
    amendments: &'a [Amendment],
    step: Step<Deal>,
}

impl<Deal: Clone + Sync> Repeated for Kept<'_, Deal> {
    /// Amends the deal again and again, a copy of its own with results of its own.
    fn repeat(&self, times: u64) {
        let mut deal = self.deal.clone();
        let mut results = [0; ROOM];
        for amendment in self.amendments.iter().cycle().take(times as usize) {
            (self.step)(&mut deal, amendment, &mut results);
        }
    }
}

/// The tables of times and of ratios, measured now, and how the time of an amendment with the charge grows with the rows.
pub fn measured(plan: &Plan) -> Result<String, String> {
    let deals = SHAPES.each_ref().map(Shape::deal);
    let mut remarks = String::new();
    let mut works = Vec::new();
    for ((sheet, amendments), shape) in deals.iter().zip(&SHAPES) {
        let remark = agreement::check_amendments(&shape.name(), sheet, amendments)?;
        remarks.extend(remark.map(|remark| format!("\n{remark}")));
        works.extend(kinds(sheet, amendments)?);
    }
    let times = rounds(&works, plan);
    Ok(text(times.as_chunks().0, plan.rounds) + &remarks)
}

/// The works of one deal, in the order of the kinds.
fn kinds<'a>(sheet: &[u64], amendments: &'a [Amendment]) -> Result<[Box<dyn Repeated + 'a>; KINDS], String> {
    let proved = OpenedPool::open(sheet).map_err(|refusal| refusal.to_string())?;
    let plain = agreement::plain_opened(sheet)?;
    Ok([
        kept(&proved, amendments, versions::proved_charge),
        kept(&plain, amendments, versions::plain_charge),
        kept(&proved, amendments, versions::proved_lines),
        kept(&plain, amendments, versions::plain_lines),
        kept(&sheet.into(), amendments, versions::proved_load),
    ])
}

/// One work of a deal, which is copied.
fn kept<'a, Deal: Clone + Sync + 'a>(
    deal: &Deal,
    amendments: &'a [Amendment],
    step: Step<Deal>,
) -> Box<dyn Repeated + 'a> {
    let deal = deal.clone();
    Box::new(Kept { deal, amendments, step })
}

/// The text of all times.
fn text(times: &[Times], rounds: usize) -> String {
    let head = [
        "deal",
        "charge: proved",
        "plain",
        "proved/plain",
        "lines: proved",
        "plain",
        "proved/plain",
    ];
    let load_head = ["deal", "fresh load", "load/charge", "load/lines"];
    format!(
        "Amendments of one row of an opened pool: time of an amendment with the charge after it, and of one with all lines.\n\
         Median of {rounds} rounds; all timed in turn. Ratios: of the medians; in brackets the quartiles of the ratio round \
         by round.\n\n{}\nA fresh load of the amended sheet, which gives both (all proved), and how many times as long it \
         takes as an amendment.\n\n{}\n{}",
        table(&head, &lines(times, compared)),
        table(&load_head, &lines(times, loaded)),
        growth(times),
    )
}

/// A line of a table for each deal: its name, then its cells.
fn lines(times: &[Times], cells: fn(&Times) -> Vec<String>) -> Vec<Vec<String>> {
    let line = |(shape, times): (&Shape, &Times)| [vec![shape.name()], cells(times)].concat();
    SHAPES.iter().zip(times).map(line).collect()
}

/// Proved and plain time of each amendment with their ratio.
fn compared([charge, plain_charge, lines, plain_lines, _]: &Times) -> Vec<String> {
    let pairs = [(charge, plain_charge), (lines, plain_lines)];
    let cells = pairs.map(|(proved, plain)| {
        [
            duration(median(proved)),
            duration(median(plain)),
            ratio(proved, plain).to_string(),
        ]
    });
    cells.concat()
}

/// The time of a fresh load, and how many times as long it takes as an amendment with the charge, and as one with all lines.
fn loaded([charge, _, lines, _, load]: &Times) -> Vec<String> {
    let ratios = [charge, lines].map(|amended| ratio(load, amended).to_string());
    [&[duration(median(load))][..], &ratios].concat()
}

/// How the time of a proved amendment with the charge grows with the rows at the most tranches: the line through the
/// medians, and the most rows against the fewest.
fn growth(times: &[Times]) -> String {
    let deals = SHAPES.iter().zip(times);
    let charges: Vec<(u64, &[f64])> = deals
        .filter(|(shape, _)| shape.tranches == MOST_TRANCHES)
        .map(|(shape, [charge, ..])| (shape.rows, &charge[..]))
        .collect();
    let points: Vec<(f64, f64)> = charges
        .iter()
        .map(|&(rows, times)| (rows as f64, median(times)))
        .collect();
    let [(fewest, first), .., (most, last)] = charges[..] else {
        unreachable!("there are several deals of {MOST_TRANCHES} tranches")
    };
    format!(
        "At {MOST_TRANCHES} tranches a proved amendment with the charge takes {} times as long at {most} rows as at \
         {fewest}.\n{}",
        ratio(last, first),
        fitted(&points, "row"),
    )
}

#[cfg(test)]
mod tests {
    use super::*;

    /// Times that are the same in every round: each has its place in the tables, and the line is flat.
    #[test]
    fn text_has_times_ratios_and_growth() {
        let of_shape =
            |shape: &Shape| [20.0, 25.0, 100.0, 400.0, 1_000.0 + shape.rows as f64].map(|time| vec![time; 3]);
        let text = text(&SHAPES.each_ref().map(of_shape), 3);
        let same = |part: &str| format!("{part} ({part} to {part})");
        let of_deal = text
            .lines()
            .filter(|line| line.starts_with("| 1000 rows, 32 tranches |"));
        let cells: Vec<Vec<&str>> = of_deal
            .map(|line| line.split('|').skip(2).map(str::trim).collect())
            .collect();
        let [amended, loaded] = &cells[..] else {
            panic!("a line in each table: {text}")
        };
        assert_eq!(amended[..3], ["20.0 ns", "25.0 ns", &same("0.80")]);
        assert_eq!(amended[3..6], ["100 ns", "400 ns", &same("0.25")]);
        assert_eq!(loaded[..3], ["2.00 µs", &same("100.00"), &same("20.00")]);
        assert!(
            text.contains(" 1.00 (1.00 to 1.00) times as long at 1000 rows as at 1.\n"),
            "{text}"
        );
        assert!(text.contains(": 20.0 ns + "), "{text}");
    }

    /// The pools of every size are opened, and every amendment is made and agrees with a fresh load, in both versions.
    #[test]
    fn amended_deals_agree() {
        for shape in &SHAPES {
            let (sheet, amendments) = shape.deal();
            let name = shape.name();
            assert_eq!(agreement::check_amendments(&name, &sheet, &amendments), Ok(None));
            assert!(kinds(&sheet, &amendments).is_ok());
        }
    }
}
