//! The dates of S-3: days of the years 2000 to 2199, Gregorian, written year x 10,000 + month x 100 + day, and the
//! months from one day to a later one.

/// The first and the last year whose days a word can name.
pub const YEARS: (u64, u64) = (2000, 2199);
/// The months of a year.
const YEAR_MONTHS: u64 = 12;

/// A day. The later of two days is the greater one: years are compared first, then months, then days of the month.
#[derive(Debug, Clone, Copy, PartialEq, Eq, PartialOrd, Ord)]
pub struct Date {
    pub year: u64,
    pub month: u64,
    pub day: u64,
}

impl Date {
    /// The day that a word names; none where there is no such day or its year is outside the years.
    pub fn of_word(word: u64) -> Option<Date> {
        let [year, month, day] = [word / 10_000, word / 100 % 100, word % 100];
        let exists = (YEARS.0..=YEARS.1).contains(&year)
            && (1..=YEAR_MONTHS).contains(&month)
            && (1..=days_of_month(year, month)).contains(&day);
        exists.then_some(Date { year, month, day })
    }

    /// The months from this day to a later one: 12 x years apart + months apart, plus one when the other's day of the
    /// month is the later. None where the other is not after this one.
    fn months_until(self, other: Date) -> Option<u64> {
        let months = |date: Date| YEAR_MONTHS * date.year + date.month;
        (other > self).then(|| months(other) - months(self) + u64::from(other.day > self.day))
    }
}

/// The months that a maturity word states: with a reporting date those from it to the day that the word names, else the
/// word itself. None where there is a reporting date and the word names no day after it.
pub fn months(reporting_date: Option<Date>, maturity: u64) -> Option<u64> {
    match reporting_date {
        Some(from) => from.months_until(Date::of_word(maturity)?),
        None => Some(maturity),
    }
}

/// The days of a month, counted from 1 for January.
pub fn days_of_month(year: u64, month: u64) -> u64 {
    match month {
        2 if is_leap(year) => 29,
        2 => 28,
        4 | 6 | 9 | 11 => 30,
        _ => 31,
    }
}

/// Whether a year is a leap year by the Gregorian rule: each fourth year, but of the full hundreds only each fourth.
fn is_leap(year: u64) -> bool {
    if year.is_multiple_of(100) {
        year.is_multiple_of(400)
    } else {
        year.is_multiple_of(4)
    }
}

#[cfg(test)]
mod tests {
    use super::*;
    use std::iter::successors;

    /// The months between the days that two words name.
    fn between(from: u64, to: u64) -> Option<u64> {
        months(Some(Date::of_word(from).expect("a day")), to)
    }

    /// The day after a day: the next one of its month, or else the first of the next month or of the next year.
    fn day_after(date: &Date) -> Option<Date> {
        let word = 10_000 * date.year + 100 * date.month + date.day;
        let first_of_next = [word - date.day + 101, 10_000 * (date.year + 1) + 101];
        Date::of_word(word + 1).or_else(|| first_of_next.into_iter().find_map(Date::of_word))
    }

    /// The days follow one another from 1 January 2000 to 31 December 2199, and are 73,049. Of them 36,525 are before
    /// the year 2100, which has 365. No other word of the years 1999 to 2200 names a day.
    #[test]
    fn days_of_all_years() {
        let days: Vec<Date> = successors(Date::of_word(20_000_101), day_after).collect();
        assert_eq!((days.len(), days.last().copied()), (73_049, Date::of_word(21_991_231)));
        let place = |word| days.iter().position(|&day| Some(day) == Date::of_word(word));
        assert_eq!((place(21_000_101), place(21_010_101)), (Some(36_525), Some(36_890)));
        let named = (19_990_000..22_010_000).filter_map(Date::of_word);
        assert!(named.eq(days));
    }

    /// From each day to the next it is one month, and from no day to itself or to the day before.
    #[test]
    fn next_day_is_one_month_on() {
        let days: Vec<Date> = successors(Date::of_word(20_000_101), day_after).collect();
        for pair in days.windows(2) {
            assert_eq!(pair[0].months_until(pair[1]), Some(1), "{pair:?}");
            assert_eq!([pair[0], pair[1]].map(|day| pair[1].months_until(day)), [None, None]);
        }
    }

    /// The request's examples: 31 January to 28 February is one month, 28 February to 31 March is two.
    #[test]
    fn examples_of_the_request() {
        for year in [20_000_000, 20_010_000, 21_000_000, 21_990_000] {
            assert_eq!(between(year + 131, year + 228), Some(1));
            assert_eq!(between(year + 228, year + 331), Some(2));
        }
    }

    /// The day of the month decides about one month more: earlier, equal, later; over the end of a year too.
    #[test]
    fn days_of_the_month_decide() {
        let to = [20_260_714, 20_260_715, 20_260_716, 20_270_115, 20_270_116, 20_300_614];
        let months = to.map(|to| between(20_260_615, to));
        assert_eq!(months, [1, 1, 2, 7, 8, 48].map(Some));
        let same_month = [20_260_615, 20_260_614, 20_260_616, 20_260_630].map(|to| between(20_260_615, to));
        assert_eq!(same_month, [None, None, Some(1), Some(1)]);
    }

    /// Ends of months: a shorter month's end is not the later day, a longer month's end is.
    #[test]
    fn ends_of_months() {
        assert_eq!(between(20_260_131, 20_260_430), Some(3));
        assert_eq!(between(20_260_430, 20_260_531), Some(2));
        assert_eq!(between(20_260_331, 20_260_401), Some(1));
        assert_eq!(between(20_261_231, 20_270_101), Some(1));
    }

    /// 29 February is a day in 2000, 2004 and 2196, and not in 2001, 2100 and 2199; counted from and to.
    #[test]
    fn leap_days() {
        let leap_day = |year: u64| Date::of_word(10_000 * year + 229);
        assert!([2000, 2004, 2096, 2104, 2196]
            .into_iter()
            .all(|year| leap_day(year).is_some()));
        assert!([2001, 2002, 2003, 2100, 2199]
            .into_iter()
            .all(|year| leap_day(year).is_none()));
        assert_eq!(between(20_000_229, 20_010_228), Some(12));
        assert_eq!(between(20_000_229, 20_010_301), Some(13));
        assert_eq!(between(20_000_228, 20_040_229), Some(49));
        assert_eq!(between(20_040_229, 21_000_228), Some(1_152));
        assert_eq!(between(20_040_229, 21_000_229), None);
    }

    /// Words that name no day: days and months that no year has, other years, and words of any size. A day with 2^32 or
    /// 2^63 added to the word or 2^16 or 2^32 to the year is none, and neither is a count of months.
    #[test]
    fn words_that_name_no_day() {
        let no_day = [
            20_240_100, 20_240_132, 20_240_230, 20_240_431, 20_240_631, 20_240_931, 20_241_131,
        ];
        let no_month = [20_240_001, 20_241_301, 20_249_901];
        let other_year = [19_991_231, 22_000_101, 101, 1_231, 99_991_231, 2_024_010_100];
        let large = [1 << 32, 1 << 63, 10_000 << 16, 10_000 << 32].map(|high| high + 20_240_101);
        let ends = [0, 1, 36, 1_200, 20_240_101 << 32, u64::MAX - 1, u64::MAX];
        for word in [&no_day[..], &no_month, &other_year, &large, &ends].concat() {
            assert_eq!(Date::of_word(word), None, "{word}");
            assert_eq!(between(20_000_101, word), None, "{word}");
            assert_eq!(months(None, word), Some(word));
        }
    }
}
