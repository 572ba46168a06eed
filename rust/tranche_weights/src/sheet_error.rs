//! What keeps a value, a tranche or a sheet from being made.

use std::error::Error;
use std::fmt;

use crate::date::{dashed, Date};
use crate::limits::{self, MOST_ROWS, MOST_TRANCHES};
use crate::numbers::Months;

/// Why a value, a tranche or a sheet can't be made.
///
/// Each case names the refusal that the library would answer with ([`Reason`](crate::Reason)).
#[derive(Debug, Clone, Copy, PartialEq, Eq, Hash)]
#[non_exhaustive]
pub enum SheetError {
    /// A pool amount outside 1 to 10^10: the amount given (refusal 5).
    PoolAmount(u64),
    /// A risk weight above 1250 in whole percent: the weight given (refusal 6).
    RiskWeight(u64),
    /// A risk weight above 125,000 in hundredths of a percent: the weight given (refusal 6).
    RiskWeightInHundredths(u64),
    /// A tranche amount outside 1 to 10^13: the amount given (refusal 8).
    TrancheAmount(u64),
    /// More is held than the tranche's amount (refusal 8).
    HeldAboveAmount {
        /// The amount held, as given.
        held: u64,
        /// The tranche's amount.
        amount: u64,
    },
    /// A maturity outside 1 to 1200 months: the months given (refusal 10).
    Months(u64),
    /// A date that does not exist, or outside the years 2000 to 2199 (refusal 17).
    Date {
        /// The year, as given.
        year: u64,
        /// The month, as given.
        month: u64,
        /// The day of the month, as given.
        day: u64,
    },
    /// A maturity that is not after the reporting date (refusal 17).
    MaturityNotAfter {
        /// The maturity, as given.
        maturity: Date,
        /// The deal's reporting date.
        reporting_date: Date,
    },
    /// A maturity more than 1200 months after the reporting date (refusal 10).
    MaturityTooLate {
        /// The maturity, as given.
        maturity: Date,
        /// The deal's reporting date.
        reporting_date: Date,
    },
    /// A maturity in months in a deal with a reporting date: the months given (refusal 17).
    MonthsWithReportingDate(Months),
    /// A maturity as a date in a deal without a reporting date: the date given (refusal 10).
    DateWithoutReportingDate(Date),
    /// A figure in millionths above 10^6: the figure given (refusal 18).
    Millionths(u64),
    /// An effective number of loans outside 1 to 10^6: the number given (refusal 18).
    Loans(u64),
    /// An average weight above 125,000 hundredths of a percent: the weight given (refusal 18).
    AverageWeight(u64),
    /// A rating code outside 1 to 18 and 21 to 24: the code given (refusal 11).
    Rating(u64),
    /// A first tranche placed in the same class as the one before it: there is none (refusal 9).
    NoTrancheBefore,
    /// A pool without rows (refusal 2).
    NoRows,
    /// One more row for a pool that has all of its [`MOST_ROWS`] (refusal 2).
    TooManyRows,
    /// A deal without tranches (refusal 2).
    NoTranches,
    /// One more tranche for a deal that has all of its [`MOST_TRANCHES`] (refusal 2).
    TooManyTranches,
}

impl fmt::Display for SheetError {
    /// Says in one line what was given and what is admitted.
    fn fmt(&self, f: &mut fmt::Formatter<'_>) -> fmt::Result {
        match *self {
            SheetError::PoolAmount(given) => outside(f, "a pool amount", given, limits::POOL_AMOUNT),
            SheetError::RiskWeight(given) => outside(f, "a risk weight in percent", given, limits::RISK_WEIGHT_PERCENT),
            SheetError::RiskWeightInHundredths(given) => outside(
                f,
                "a risk weight in hundredths of a percent",
                given,
                limits::RISK_WEIGHT_HUNDREDTHS,
            ),
            SheetError::TrancheAmount(given) => outside(f, "a tranche amount", given, limits::TRANCHE_AMOUNT),
            SheetError::HeldAboveAmount { held, amount } => outside(f, "an amount held", held, (0, amount)),
            SheetError::Months(given) => outside(f, "a maturity in months", given, limits::MONTHS),
            SheetError::Date { year, month, day } => not_a_day(f, &dashed(year, month, day)),
            SheetError::MaturityNotAfter {
                maturity,
                reporting_date,
            } => write!(
                f,
                "a maturity is after the reporting date {reporting_date}, not {maturity}"
            ),
            SheetError::MaturityTooLate {
                maturity,
                reporting_date,
            } => write!(
                f,
                "a maturity is at most {} months after the reporting date {reporting_date}, not {maturity}",
                limits::MONTHS.1
            ),
            SheetError::MonthsWithReportingDate(given) => {
                write!(
                    f,
                    "a maturity is a date in a deal with a reporting date, not {given} months"
                )
            }
            SheetError::DateWithoutReportingDate(given) => {
                write!(
                    f,
                    "a maturity is in months in a deal without a reporting date, not {given}"
                )
            }
            SheetError::Millionths(given) => outside(f, "a figure in millionths", given, limits::MILLIONTHS),
            SheetError::Loans(given) => outside(f, "an effective number of loans", given, limits::LOANS),
            SheetError::AverageWeight(given) => outside(
                f,
                "an average weight in hundredths of a percent",
                given,
                limits::AVERAGE_WEIGHT,
            ),
            SheetError::Rating(given) => write!(f, "a rating code is 1 to 18 or 21 to 24, not {given}"),
            SheetError::NoTrancheBefore => {
                write!(f, "the first tranche has no tranche before it to share a class with")
            }
            SheetError::NoRows => write!(f, "a pool has at least 1 row"),
            SheetError::TooManyRows => write!(f, "a pool has at most {MOST_ROWS} rows"),
            SheetError::NoTranches => write!(f, "a deal has at least 1 tranche"),
            SheetError::TooManyTranches => write!(f, "a deal has at most {MOST_TRANCHES} tranches"),
        }
    }
}

impl Error for SheetError {}

/// Writes that a date does not exist, or is outside its years.
fn not_a_day(f: &mut fmt::Formatter<'_>, given: &str) -> fmt::Result {
    let (first, last) = limits::YEARS;
    write!(f, "{given} is no day of the years {first} to {last}")
}

/// Writes that a number is outside its limits.
fn outside(f: &mut fmt::Formatter<'_>, what: &str, given: u64, (lowest, highest): (u64, u64)) -> fmt::Result {
    write!(f, "{what} is {lowest} to {highest}, not {given}")
}
