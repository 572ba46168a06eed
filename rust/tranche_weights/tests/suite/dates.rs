//! Dates, the reporting date and maturities as dates (document 02, S-3).

use crate::checked_deal::{both_facts, file_of, tranche, with_rows_and_tranches, RESULTS, TEXT, WORDS};
use crate::places::{maturities, with_facts};
use crate::results::weighed;
use tranche_weights::{report, Date, Months, Reply, SheetBuilder, SheetError, Tranche, TrancheAmount};

/// The reporting date of the deals here.
pub const REPORTING_DATE: u64 = 20_261_116;

/// A date 72 months after it, the maturity of the checked deal.
pub const MATURITY: u64 = 20_321_116;

/// A sheet of four facts with this reporting date and this maturity of every tranche; both can be any words.
pub fn dated(words: &[u64], reporting_date: u64, maturity: u64) -> Vec<u64> {
    let mut words = with_facts(words, &[0, reporting_date]);
    for place in maturities(&words) {
        words[place] = maturity;
    }
    words
}

/// An unrated tranche that matures 72 months after the reporting date.
pub fn maturing(amount: u64, held: u64) -> Result<Tranche, SheetError> {
    Tranche::maturing_on(TrancheAmount::new(amount)?, Date::try_from(MATURITY)?, held)
}

/// The words of all dates, in the order of the calendar.
fn calendar() -> Vec<u64> {
    let mut words = Vec::new();
    for year in 2000..2200 {
        let february = if year % 4 == 0 && year != 2100 { 29 } else { 28 };
        let days = [31, february, 31, 30, 31, 30, 31, 31, 30, 31, 30, 31];
        for (month, days) in (1..).zip(days) {
            words.extend((1..=days).map(|day| year * 10_000 + month * 100 + day));
        }
    }
    words
}

/// The error of a day that does not exist, or not in these years.
fn no_day(year: u64, month: u64, day: u64) -> SheetError {
    SheetError::Date { year, month, day }
}

/// The dates are the days of 200 years, 49 of them leap years, and no other words near them are.
#[test]
fn dates_are_the_days_of_200_years() {
    let words: Vec<u64> = (19_990_000..22_010_000)
        .filter(|word| Date::try_from(*word).is_ok())
        .collect();
    assert_eq!(words.len(), 200 * 365 + 49);
    assert!(words == calendar());
    assert_eq!((Date::FIRST_YEAR, Date::LAST_YEAR), (2000, 2199));
}

/// A date gives back its year, month, day and word, and the later of two is the greater.
#[test]
fn dates_keep_their_parts_and_order() -> Result<(), SheetError> {
    let mut before = None;
    for word in calendar() {
        let date = Date::try_from(word)?;
        assert_eq!((date.word(), u64::from(date)), (word, word));
        assert_eq!(Date::new(date.year(), date.month(), date.day()), Ok(date));
        assert_eq!(date.year() * 10_000 + date.month() * 100 + date.day(), word);
        assert!(before < Some(date));
        before = Some(date);
    }
    Ok(())
}

/// What is no date is answered with the year, month and day given, also where they add up to the word of a date.
#[test]
fn other_days_are_no_dates() {
    for (word, error) in [
        (0, no_day(0, 0, 0)),
        (72, no_day(0, 0, 72)),
        (19_991_231, no_day(1999, 12, 31)),
        (20_230_229, no_day(2023, 2, 29)),
        (21_000_229, no_day(2100, 2, 29)),
        (22_000_101, no_day(2200, 1, 1)),
        ((1 << 32) + MATURITY, no_day(431_528, 84, 12)),
        (u64::MAX, no_day(1_844_674_407_370_955, 16, 15)),
    ] {
        assert_eq!(Date::try_from(word), Err(error));
    }
    for (year, month, day) in [(2025, 101, 5), (2026, 1, 105), (u64::MAX, u64::MAX, u64::MAX)] {
        assert_eq!(Date::new(year, month, day), Err(no_day(year, month, day)));
    }
}

/// A date prints as year, month and day, to the width asked for.
#[test]
fn dates_print() -> Result<(), SheetError> {
    assert_eq!(Date::new(2026, 11, 16)?.to_string(), "2026-11-16");
    assert_eq!(format!("{:>11}|", Date::new(2100, 2, 3)?), " 2100-02-03|");
    Ok(())
}

/// The months that lie between two dates, by their words.
fn months_between(reporting_date: u64, maturity: u64) -> Result<Months, SheetError> {
    Date::try_from(reporting_date)?.months_to(Date::try_from(maturity)?)
}

/// Years and months apart count, and one more where the maturity's day of the month is the later.
#[test]
fn months_are_counted_by_the_day_of_the_month() -> Result<(), SheetError> {
    for (reporting_date, maturity, months) in [
        (20_260_131, 20_260_228, 1),
        (20_260_228, 20_260_331, 2),
        (20_261_116, 20_261_117, 1),
        (20_261_116, 20_261_216, 1),
        (20_261_116, 20_261_217, 2),
        (20_261_231, 20_270_101, 1),
        (20_240_229, 20_250_228, 12),
        (20_240_228, 20_240_229, 1),
        (20_261_116, 20_321_116, 72),
        (20_000_101, 21_000_101, 1200),
        (21_000_101, 21_991_231, 1200),
    ] {
        assert_eq!(months_between(reporting_date, maturity), Months::new(months));
    }
    for maturity in [21_000_102, 21_991_231] {
        let error = SheetError::MaturityTooLate {
            maturity: Date::try_from(maturity)?,
            reporting_date: Date::try_from(20_000_101)?,
        };
        assert_eq!(months_between(20_000_101, maturity), Err(error));
    }
    for maturity in [20_261_116, 20_261_115, 20_251_117] {
        let error = SheetError::MaturityNotAfter {
            maturity: Date::try_from(maturity)?,
            reporting_date: Date::try_from(20_261_116)?,
        };
        assert_eq!(months_between(20_261_116, maturity), Err(error));
    }
    Ok(())
}

/// The library counts the same months: with a maturity on any day of the next six years the checked deal's answer is that
/// of the months. From 12 to 72 each number of months has its own weights.
#[test]
fn the_library_counts_the_same_months() -> Result<(), SheetError> {
    let by_months = |months| {
        let mut words = WORDS;
        maturities(&WORDS).for_each(|place| words[place] = months);
        weighed(&words)
    };
    let by_months: Vec<_> = (1..=72).map(by_months).collect();
    let days = calendar();
    for reporting_date in [20_000_101, 20_240_229, 20_260_131, 20_990_228, 21_931_231] {
        let six_years = reporting_date + 1..=reporting_date + 60_000;
        for &maturity in days.iter().filter(|day| six_years.contains(*day)) {
            let months = months_between(reporting_date, maturity)?.get();
            let answer = weighed(&dated(&WORDS, reporting_date, maturity));
            assert!(answer == by_months[months as usize - 1], "{reporting_date} {maturity}");
        }
    }
    Ok(())
}

/// The builder makes the checked deal with dates, and its report is that of the months.
#[test]
fn the_builder_makes_the_checked_deal_with_dates() -> Result<(), SheetError> {
    let facts = both_facts().with_reporting_date(Some(Date::try_from(REPORTING_DATE)?));
    let sheet = with_rows_and_tranches(SheetBuilder::ordinary(facts), maturing)?;
    assert_eq!(sheet.words(), dated(&WORDS, REPORTING_DATE, MATURITY));
    assert_eq!(report(&sheet.to_file_bytes()), TEXT);
    Ok(())
}

/// A reporting date of 0 is the same as none: the maturities are months.
#[test]
fn a_date_of_0_is_as_none() -> Result<(), SheetError> {
    let words = with_facts(&WORDS, &[0, 0]);
    let (reply, results) = weighed(&words);
    assert_eq!(reply, Reply::accepting(3, 101_000));
    assert_eq!(results[..RESULTS.len()], RESULTS);
    assert_eq!(report(&file_of(&words)), TEXT);
    let sheet = with_rows_and_tranches(SheetBuilder::ordinary(both_facts().with_reporting_date(None)), tranche)?;
    assert_eq!(sheet.words(), WORDS);
    Ok(())
}
