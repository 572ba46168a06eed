//! What a run must meet by dates (S-3): on some refused sheet by a bad one, and on some line by those of its tranche.

use crate::answer::refusal;
use crate::dates;
use crate::seen::{Dates, Seen};
use crate::sheet::{Fact, Layout, DAYS, MONTHS};
use independent::date::{self, days_of_month, Date, YEARS};
use independent::Refusal;
use std::cmp::Ordering;

/// How a word is no date.
#[derive(Debug, Clone, Copy, PartialEq, Eq)]
pub enum NoDate {
    /// No day of a year that dates can have.
    NoDay,
    /// The same, 29 February.
    NoLeapDay,
    /// In the year before the first.
    YearBefore,
    /// In the year after the last.
    YearAfter,
    /// A word of more than 32 bits.
    Large,
}

impl NoDate {
    /// Whether a word is no date in this way.
    fn is_of(self, word: u64) -> bool {
        let year = word / 10_000;
        let is_no_day = (YEARS.0..=YEARS.1).contains(&year) && Date::of_word(word).is_none();
        match self {
            NoDate::NoDay => is_no_day,
            NoDate::NoLeapDay => is_no_day && word % 10_000 == LEAP_DAY,
            NoDate::YearBefore => year == YEARS.0 - 1,
            NoDate::YearAfter => year == YEARS.1 + 1,
            NoDate::Large => word > u64::from(u32::MAX),
        }
    }
}

/// 29 February, as a date's word has it after the year.
const LEAP_DAY: u64 = 229;

/// What must be met on some refused sheet that states a sixth fact.
#[derive(Debug, Clone, Copy, PartialEq, Eq)]
pub enum DateFeature {
    /// The reporting date is no date.
    Reporting(NoDate),
    /// A maturity is no date.
    Maturity(NoDate),
    /// A maturity in months, where a date is due.
    MaturityMonths,
    /// A maturity on the reporting date.
    MaturityOnDate,
    /// A maturity before the reporting date.
    MaturityBefore,
    /// A maturity as a date, just one month more than the most after the reporting date.
    OneMonthTooMany,
    /// A maturity as a date, more than that after the reporting date.
    MonthsTooMany,
    /// A maturity in months, outside their limits, after a sixth fact of 0.
    MonthsWithoutDate,
}

impl DateFeature {
    /// All features with their names.
    pub(crate) const TABLE: [(DateFeature, &'static str); 16] = [
        (DateFeature::Reporting(NoDate::NoDay), "reporting date refused: no day"),
        (
            DateFeature::Reporting(NoDate::NoLeapDay),
            "reporting date refused: 29 February",
        ),
        (
            DateFeature::Reporting(NoDate::YearBefore),
            "reporting date refused: year 1999",
        ),
        (
            DateFeature::Reporting(NoDate::YearAfter),
            "reporting date refused: year 2200",
        ),
        (
            DateFeature::Reporting(NoDate::Large),
            "reporting date refused: above 32 bits",
        ),
        (DateFeature::Maturity(NoDate::NoDay), "maturity refused by 17: no day"),
        (
            DateFeature::Maturity(NoDate::NoLeapDay),
            "maturity refused by 17: 29 February",
        ),
        (
            DateFeature::Maturity(NoDate::YearBefore),
            "maturity refused by 17: year 1999",
        ),
        (
            DateFeature::Maturity(NoDate::YearAfter),
            "maturity refused by 17: year 2200",
        ),
        (
            DateFeature::Maturity(NoDate::Large),
            "maturity refused by 17: above 32 bits",
        ),
        (DateFeature::MaturityMonths, "maturity refused by 17: months"),
        (DateFeature::MaturityOnDate, "maturity refused by 17: reporting date"),
        (DateFeature::MaturityBefore, "maturity refused by 17: before that date"),
        (DateFeature::OneMonthTooMany, "maturity refused by 10: 1201 months on"),
        (DateFeature::MonthsTooMany, "maturity refused by 10: more months on"),
        (DateFeature::MonthsWithoutDate, "maturity refused by 10: sixth fact 0"),
    ];

    /// Whether a refused sheet shows the feature. Words before the place of a refusal are good, so they can be read.
    pub(crate) fn shown(self, sheet: &[u64], refused: &Refusal) -> bool {
        let of_date = [refusal::DATE, refusal::MATURITY].contains(&refused.number);
        if !of_date || sheet[Layout::FACTS_COUNT] < Fact::ReportingDate.number() {
            return false;
        }
        let reporting = Layout::fact(Fact::ReportingDate);
        let word = sheet[refused.place as usize];
        match (refused.place as usize == reporting, Date::of_word(sheet[reporting])) {
            (true, _) => self.shown_by_reporting_date(word),
            (false, Some(date)) => self.shown_by_maturity(date, word),
            (false, None) => self == DateFeature::MonthsWithoutDate,
        }
    }

    /// Whether a bad reporting date shows the feature.
    fn shown_by_reporting_date(self, word: u64) -> bool {
        matches!(self, DateFeature::Reporting(no_date) if no_date.is_of(word))
    }

    /// Whether a bad maturity after this reporting date shows the feature.
    fn shown_by_maturity(self, from: Date, word: u64) -> bool {
        let months = date::months(Some(from), word);
        match self {
            DateFeature::Maturity(no_date) => no_date.is_of(word),
            DateFeature::MaturityMonths => (1..=MONTHS).contains(&word),
            DateFeature::MaturityOnDate => Date::of_word(word) == Some(from),
            DateFeature::MaturityBefore => Date::of_word(word).is_some_and(|date| date < from),
            DateFeature::OneMonthTooMany => months == Some(MONTHS + 1),
            DateFeature::MonthsTooMany => months > Some(MONTHS + 1),
            DateFeature::Reporting(_) | DateFeature::MonthsWithoutDate => false,
        }
    }
}

/// What must be met on some line of a sheet with a reporting date.
#[derive(Debug, Clone, Copy, PartialEq, Eq)]
pub enum DatedLineFeature {
    /// The maturity's day of the month is later than the reporting date's.
    LaterDay,
    /// They are the same.
    EqualDay,
    /// The maturity's day of the month is earlier.
    EarlierDay,
    /// The maturity is the last day of a month that has not the reporting date's day.
    ShorterMonth,
    /// The reporting date is 29 February.
    ReportingLeapDay,
    /// The maturity is 29 February.
    MaturityLeapDay,
    /// The maturity is the day after the reporting date.
    DayAfter,
    /// The maturity is the last day of the years.
    LastDay,
    /// The most months.
    MonthsMost,
    /// A rated tranche whose weight a month more would change, on a later day of the month.
    WeightOnLaterDay,
    /// The same, on another day of the month.
    WeightOnOtherDay,
}

impl DatedLineFeature {
    /// All features with their names, in the order of the enum.
    pub(crate) const TABLE: [(DatedLineFeature, &'static str); 11] = [
        (DatedLineFeature::LaterDay, "dated lines: later day of the month"),
        (DatedLineFeature::EqualDay, "dated lines: same day of the month"),
        (DatedLineFeature::EarlierDay, "dated lines: earlier day of the month"),
        (
            DatedLineFeature::ShorterMonth,
            "dated lines: last day of a shorter month",
        ),
        (DatedLineFeature::ReportingLeapDay, "dated lines: from 29 February"),
        (DatedLineFeature::MaturityLeapDay, "dated lines: to 29 February"),
        (DatedLineFeature::DayAfter, "dated lines: one day"),
        (DatedLineFeature::LastDay, "dated lines: to the last day"),
        (DatedLineFeature::MonthsMost, "dated lines: 1200 months"),
        (
            DatedLineFeature::WeightOnLaterDay,
            "dated lines: weight by months, later day",
        ),
        (
            DatedLineFeature::WeightOnOtherDay,
            "dated lines: weight by months, other day",
        ),
    ];

    /// Whether a line shows the feature.
    pub(crate) fn shown(self, seen: &Seen) -> bool {
        seen.dates.is_some_and(|dates| self.shown_by(&dates, seen))
    }

    /// Whether a line with these dates shows the feature.
    fn shown_by(self, dates: &Dates, seen: &Seen) -> bool {
        let Dates {
            reporting,
            maturity,
            months,
        } = *dates;
        let days = maturity.day.cmp(&reporting.day);
        let is_leap_day = |date: Date| (date.month, date.day) == (2, 29);
        match self {
            DatedLineFeature::LaterDay => days == Ordering::Greater,
            DatedLineFeature::EqualDay => days == Ordering::Equal,
            DatedLineFeature::EarlierDay => days == Ordering::Less,
            DatedLineFeature::ShorterMonth => {
                days == Ordering::Less && maturity.day == days_of_month(maturity.year, maturity.month)
            }
            DatedLineFeature::ReportingLeapDay => is_leap_day(reporting),
            DatedLineFeature::MaturityLeapDay => is_leap_day(maturity),
            DatedLineFeature::DayAfter => Date::of_word(dates::first_day(reporting, 1)) == Some(maturity),
            DatedLineFeature::LastDay => Date::of_word(DAYS.1) == Some(maturity),
            DatedLineFeature::MonthsMost => months == MONTHS,
            DatedLineFeature::WeightOnLaterDay => days == Ordering::Greater && seen.weight_by_months(),
            DatedLineFeature::WeightOnOtherDay => days != Ordering::Greater && seen.weight_by_months(),
        }
    }
}

#[cfg(test)]
mod tests {
    use super::*;
    use crate::answer::LINE_WORDS;

    /// No feature stands twice in its table, and none of those of lines is left out.
    #[test]
    fn each_feature_stands_once() {
        let once = |table: &[DateFeature]| (1..table.len()).all(|n| !table[..n].contains(&table[n]));
        assert!(once(&DateFeature::TABLE.map(|(feature, _)| feature)));
        assert!((0..)
            .zip(DatedLineFeature::TABLE)
            .all(|(place, entry)| entry.0 as usize == place));
    }

    /// A sheet with these facts and one tranche of class 1, rated AA, with this maturity.
    fn sheet(facts: &[u64], maturity: u64) -> Vec<u64> {
        let pool = [1, 1_000, 1_000, 100, 0];
        let tranche = [1, 500, 1, maturity, 0, 3, 0, 0];
        [&[facts.len() as u64], facts, &pool, &tranche].concat()
    }

    /// What a sheet refused for this reporting date or this maturity shows.
    fn refused(reporting_date: u64, maturity: u64) -> Vec<DateFeature> {
        shown_by_refused(&sheet(&[0, 0, 1, 0, 0, reporting_date], maturity))
    }

    /// What a refused sheet shows.
    fn shown_by_refused(sheet: &[u64]) -> Vec<DateFeature> {
        let refused = independent::weigh(sheet, LINE_WORDS as u64).expect_err("a refused sheet");
        let features = DateFeature::TABLE.map(|(feature, _)| feature);
        features
            .into_iter()
            .filter(|feature| feature.shown(sheet, &refused))
            .collect()
    }

    /// Bad reporting dates count by what is bad; one of another year that is not beside the years counts as nothing.
    #[test]
    fn reporting_dates_are_counted() {
        let shown = |date| refused(date, 36);
        assert_eq!(shown(20_240_431), [DateFeature::Reporting(NoDate::NoDay)]);
        let no_leap_day = [
            DateFeature::Reporting(NoDate::NoDay),
            DateFeature::Reporting(NoDate::NoLeapDay),
        ];
        assert_eq!(shown(21_000_229), no_leap_day);
        assert_eq!(shown(19_991_231), [DateFeature::Reporting(NoDate::YearBefore)]);
        assert_eq!(shown(22_000_101), [DateFeature::Reporting(NoDate::YearAfter)]);
        assert_eq!(shown((1 << 32) + 20_240_101), [DateFeature::Reporting(NoDate::Large)]);
        assert!([36, 19_980_101].into_iter().all(|date| shown(date).is_empty()));
    }

    /// Bad maturities after a reporting date count by what is bad, whether by 17 or by 10.
    #[test]
    fn maturities_are_counted() {
        let shown = |maturity| refused(20_240_131, maturity);
        assert_eq!(shown(20_250_100), [DateFeature::Maturity(NoDate::NoDay)]);
        let no_leap_day = [
            DateFeature::Maturity(NoDate::NoDay),
            DateFeature::Maturity(NoDate::NoLeapDay),
        ];
        assert_eq!(shown(20_250_229), no_leap_day);
        assert_eq!(shown(19_990_229), [DateFeature::Maturity(NoDate::YearBefore)]);
        assert_eq!(shown(22_001_301), [DateFeature::Maturity(NoDate::YearAfter)]);
        assert_eq!(shown(u64::MAX), [DateFeature::Maturity(NoDate::Large)]);
        assert_eq!([1, 1_200].map(shown), [[DateFeature::MaturityMonths]; 2]);
        assert_eq!(shown(20_240_131), [DateFeature::MaturityOnDate]);
        assert_eq!(shown(20_240_130), [DateFeature::MaturityBefore]);
        assert_eq!(shown(21_240_201), [DateFeature::OneMonthTooMany]);
        assert_eq!(shown(21_240_301), [DateFeature::MonthsTooMany]);
        assert!([0, 1_201].into_iter().all(|maturity| shown(maturity).is_empty()));
    }

    /// Months outside their limits count after a sixth fact of 0, be there a seventh or not; with fewer facts, and for
    /// another number, nothing does.
    #[test]
    fn other_refusals_are_not_counted() {
        assert_eq!(refused(0, 1_201), [DateFeature::MonthsWithoutDate]);
        let with_unit = sheet(&[0, 0, 1, 0, 0, 0, 1], 1_201);
        assert_eq!(shown_by_refused(&with_unit), [DateFeature::MonthsWithoutDate]);
        assert_eq!(refused(0, 20_240_131), [DateFeature::MonthsWithoutDate]);
        let others = [sheet(&[0, 0, 1, 0, 0], 1_201), sheet(&[0, 0, 1, 0, 2, 0], 36), vec![6]];
        assert!(others.iter().all(|sheet| shown_by_refused(sheet).is_empty()));
    }

    /// What the line of an accepted sheet with these dates shows.
    fn accepted(reporting_date: u64, maturity: u64) -> Vec<DatedLineFeature> {
        let sheet = sheet(&[0, 0, 1, 0, 0, reporting_date], maturity);
        let deal = independent::weigh(&sheet, LINE_WORDS as u64).expect("an accepted sheet");
        let seen = Seen::new(&sheet, &deal, 0);
        let features = DatedLineFeature::TABLE.map(|(feature, _)| feature);
        features.into_iter().filter(|feature| feature.shown(&seen)).collect()
    }

    /// Lines count by the days of the month, by special days and by the most months. Without a reporting date nothing
    /// does.
    #[test]
    fn lines_are_counted() {
        assert_eq!(accepted(20_240_115, 20_400_116), [DatedLineFeature::LaterDay]);
        assert_eq!(accepted(20_240_115, 20_400_115), [DatedLineFeature::EqualDay]);
        assert_eq!(accepted(20_240_115, 20_400_114), [DatedLineFeature::EarlierDay]);
        assert_eq!(
            accepted(20_240_131, 20_400_430),
            [DatedLineFeature::EarlierDay, DatedLineFeature::ShorterMonth]
        );
        assert_eq!(
            accepted(20_240_229, 20_400_229),
            [
                DatedLineFeature::EqualDay,
                DatedLineFeature::ReportingLeapDay,
                DatedLineFeature::MaturityLeapDay
            ]
        );
        assert_eq!(
            accepted(20_240_131, 20_240_201),
            [DatedLineFeature::EarlierDay, DatedLineFeature::DayAfter]
        );
        assert_eq!(
            accepted(20_991_231, DAYS.1),
            [
                DatedLineFeature::EqualDay,
                DatedLineFeature::LastDay,
                DatedLineFeature::MonthsMost
            ]
        );
        assert_eq!(accepted(0, 36), []);
    }

    /// A weight that a month more would change counts with its day of the month; at most 11 months and from 72 on none
    /// does.
    #[test]
    fn weights_by_months_are_counted() {
        let later = [DatedLineFeature::LaterDay, DatedLineFeature::WeightOnLaterDay];
        assert_eq!(accepted(20_240_115, 20_270_116), later);
        let other = [DatedLineFeature::EqualDay, DatedLineFeature::WeightOnOtherDay];
        assert_eq!(accepted(20_240_115, 20_270_115), other);
        assert_eq!(accepted(20_240_115, 20_250_115), other);
        assert_eq!(accepted(20_240_115, 20_241_215), [DatedLineFeature::EqualDay]);
        assert_eq!(accepted(20_240_115, 20_300_115), [DatedLineFeature::EqualDay]);
    }
}
