//! "The deal sheet" and "Refusals": how many words there are of each sort, the highest values, and the numbers of the
//! refusals.

use std::ops::RangeInclusive;

/// The fewest facts of a sheet: all but the STC mark, the reporting date and the unit of the risk weights.
pub const FEWEST_FACTS: u64 = 4;
/// The facts of a sheet that has all up to the reporting date.
pub const DATED_FACTS: u64 = 6;
/// The most facts of a sheet.
pub const MOST_FACTS: u64 = 7;
/// The most rows that a pool can hold.
pub const MOST_ROWS: u64 = 1_000;
/// The rows of a block, by which a pool is added up; the last one may have fewer.
pub const BLOCK_ROWS: u64 = 50;
/// Words of a pool row: exposure, nominal, risk weight, status.
pub const ROW_WORDS: usize = 4;
/// The sums of a pool.
pub const SUM_WORDS: usize = 7;
/// The most tranches that a sheet can hold.
pub const MOST_TRANCHES: usize = 32;
/// The ratings of a tranche.
pub const RATINGS: usize = 3;
/// The count of the IRB section.
pub const IRB_SECTIONS: u64 = 1;
/// Words of the IRB section: IRB charge, loss given default, number of loans, retail, share, IRB average weight.
pub const IRB_WORDS: usize = 6;
/// Words of a tranche's row: amount, class, maturity, amount held, ratings.
pub const TRANCHE_WORDS: usize = 4 + RATINGS;
/// Result words for each tranche: approach, A, D, weight, risk-weighted amount, capital, and the figure after floor and
/// cap rounded down, where the weight is that figure rounded up.
pub const LINE_WORDS: usize = 7;

/// The highest amount of a pool row.
pub const MOST_POOL_AMOUNT: u64 = 10_000_000_000;
/// The highest amount of a tranche.
pub const MOST_TRANCHE_AMOUNT: u64 = 10_000_000_000_000;
/// The longest maturity, in months.
pub const MOST_MONTHS: u64 = 1_200;
/// The highest share, in millionths.
pub const MOST_SHARE: u64 = 1_000_000;
/// The most loans of a pool.
pub const MOST_LOANS: u64 = 1_000_000;
/// The highest weight, in hundredths of a percent.
pub const MOST_WEIGHT: u64 = 125_000;
/// One percent, in hundredths of a percent.
pub const PERCENT: u64 = 100;
/// The years of a date.
pub const YEARS: RangeInclusive<u64> = 2000..=2199;

/// The numbers of the refusals.
pub mod refusal {
    /// A needed word is missing.
    pub const MISSING: u64 = 1;
    /// A count is outside its limits.
    pub const COUNT: u64 = 2;
    /// Words follow the last section.
    pub const FOLLOWS: u64 = 3;
    /// A fact outside its codes.
    pub const FACT: u64 = 4;
    /// A pool amount outside its limits.
    pub const POOL_AMOUNT: u64 = 5;
    /// A risk weight above the limit of its unit.
    pub const RISK_WEIGHT: u64 = 6;
    /// A status that the deal can't have.
    pub const STATUS: u64 = 7;
    /// A tranche amount outside its limits, or held above the amount.
    pub const TRANCHE_AMOUNT: u64 = 8;
    /// A class out of order.
    pub const CLASS: u64 = 9;
    /// A maturity outside its limits.
    pub const MATURITY: u64 = 10;
    /// A rating code not listed.
    pub const RATING: u64 = 11;
    /// A tranche without thickness under SEC-SA or SEC-IRBA, above the pool charge.
    pub const NO_THICKNESS: u64 = 13;
    /// Results shorter than the lines.
    pub const ROOM: u64 = 14;
    /// An STC mark on a re-securitisation.
    pub const STC_RESECURITISATION: u64 = 16;
    /// No date, or a maturity not after the reporting date.
    pub const DATE: u64 = 17;
    /// A figure of the IRB section outside its limits.
    pub const IRB_FIGURE: u64 = 18;
}
