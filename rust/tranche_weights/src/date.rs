//! Dates (document 02, S-3).

use std::fmt;

use crate::limits;
use crate::numbers::Months;
use crate::sheet_error::SheetError;

/// A day of the Gregorian calendar, of the years 2000 to 2199: a reporting date, or the maturity of a tranche in a deal
/// that has one. The later of two dates is the greater.
///
/// ```
/// use tranche_weights::{Date, SheetError};
///
/// let date = Date::new(2026, 11, 16)?;
/// assert_eq!((date.word(), date.to_string()), (20_261_116, "2026-11-16".to_string()));
/// assert_eq!(Date::try_from(20_261_116), Ok(date));
/// assert!(Date::new(2100, 2, 29).is_err());
/// # Ok::<(), SheetError>(())
/// ```
#[derive(Debug, Clone, Copy, PartialEq, Eq, PartialOrd, Ord, Hash)]
pub struct Date {
    /// The word of the sheet. The order of the words is that of the calendar.
    word: u64,
}

/// What a year counts in a date's word.
const YEAR: u64 = 10_000;

/// What a month counts in a date's word.
const MONTH: u64 = 100;

impl Date {
    /// The first year.
    pub const FIRST_YEAR: u64 = limits::YEARS.0;
    /// The last year.
    pub const LAST_YEAR: u64 = limits::YEARS.1;

    /// Takes a day of the years [`FIRST_YEAR`](Self::FIRST_YEAR) to [`LAST_YEAR`](Self::LAST_YEAR); months and days are
    /// counted from 1.
    ///
    /// # Errors
    ///
    /// [`SheetError::Date`] where there is no such day, or in another year.
    pub const fn new(year: u64, month: u64, day: u64) -> Result<Date, SheetError> {
        match year {
            Self::FIRST_YEAR..=Self::LAST_YEAR if 1 <= day && day <= days(year, month) => {
                let word = year * YEAR + month * MONTH + day;
                Ok(Date { word })
            }
            _ => Err(SheetError::Date { year, month, day }),
        }
    }

    /// The date as it stands in the sheet: year × 10,000 + month × 100 + day.
    pub const fn word(self) -> u64 {
        self.word
    }

    /// The year.
    pub const fn year(self) -> u64 {
        self.word / YEAR
    }

    /// The month, from 1.
    pub const fn month(self) -> u64 {
        self.word % YEAR / MONTH
    }

    /// The day of the month, from 1.
    pub const fn day(self) -> u64 {
        self.word % MONTH
    }

    /// The months from this date, a reporting date, to a maturity, as the library counts them: 12 for each year apart and
    /// one for each month apart, and one more where the maturity's day of the month is the later.
    ///
    /// # Errors
    ///
    /// [`SheetError::MaturityNotAfter`] where the maturity is not after this date, [`SheetError::MaturityTooLate`] where
    /// it is more than 1200 months on.
    ///
    /// ```
    /// use tranche_weights::{Date, Months, SheetError};
    ///
    /// let reporting_date = Date::new(2026, 1, 31)?;
    /// assert_eq!(reporting_date.months_to(Date::new(2026, 2, 28)?), Months::new(1));
    /// assert!(reporting_date.months_to(reporting_date).is_err());
    /// # Ok::<(), SheetError>(())
    /// ```
    pub const fn months_to(self, maturity: Date) -> Result<Months, SheetError> {
        if maturity.word <= self.word {
            return Err(SheetError::MaturityNotAfter {
                maturity,
                reporting_date: self,
            });
        }
        let apart = 12 * maturity.year() + maturity.month() - (12 * self.year() + self.month());
        match Months::new(apart + (maturity.day() > self.day()) as u64) {
            Err(_) => Err(SheetError::MaturityTooLate {
                maturity,
                reporting_date: self,
            }),
            months => months,
        }
    }
}

/// The days of a month in a year; none where the number is no month.
const fn days(year: u64, month: u64) -> u64 {
    match month {
        2 if is_leap(year) => 29,
        2 => 28,
        4 | 6 | 9 | 11 => 30,
        1..=12 => 31,
        _ => 0,
    }
}

/// Whether a year of the Gregorian calendar has a 29 February.
const fn is_leap(year: u64) -> bool {
    year % 4 == 0 && (year % 100 != 0 || year % 400 == 0)
}

impl TryFrom<u64> for Date {
    type Error = SheetError;

    /// The date that a word of the sheet states; any word that states none is the error. 0 stands in a sheet for no
    /// reporting date, and is none.
    fn try_from(word: u64) -> Result<Date, SheetError> {
        Date::new(word / YEAR, word % YEAR / MONTH, word % MONTH)
    }
}

impl From<Date> for u64 {
    /// The date as it stands in the sheet.
    fn from(date: Date) -> u64 {
        date.word()
    }
}

impl fmt::Display for Date {
    /// Prints year, month and day, as in 2026-11-16.
    fn fmt(&self, f: &mut fmt::Formatter<'_>) -> fmt::Result {
        f.pad(&dashed(self.year(), self.month(), self.day()))
    }
}

/// A year, a month and a day as a date prints, whether there is such a day or not.
pub(crate) fn dashed(year: u64, month: u64, day: u64) -> String {
    format!("{year:04}-{month:02}-{day:02}")
}
