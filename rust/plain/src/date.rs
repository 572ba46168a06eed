//! S-3: dates, and the months from one to another.

use crate::limits::YEARS;

/// The parts of a date's word. The order is that of the calendar.
#[derive(Clone, Copy, PartialEq, PartialOrd)]
pub struct Date {
    year: u64,
    month: u64,
    day: u64,
}

impl From<u64> for Date {
    /// Takes any word apart, also one that is no date.
    fn from(word: u64) -> Self {
        Date {
            year: word / 10_000,
            month: word / 100 % 100,
            day: word % 100,
        }
    }
}

impl Date {
    /// Whether the calendar has such a day, in the years of a sheet.
    pub fn exists(self) -> bool {
        let days = match self.month {
            2 if self.is_in_leap_year() => 29,
            2 => 28,
            4 | 6 | 9 | 11 => 30,
            1..=12 => 31,
            _ => 0,
        };
        YEARS.contains(&self.year) && (1..=days).contains(&self.day)
    }

    /// Whether the year has a 29 February.
    fn is_in_leap_year(self) -> bool {
        self.year.is_multiple_of(4) && (!self.year.is_multiple_of(100) || self.year.is_multiple_of(400))
    }

    /// The months to a later date: one more where that one's day of the month is the later.
    pub fn months_to(self, later: Date) -> u64 {
        let months = |date: Date| 12 * date.year + date.month;
        months(later) - months(self) + u64::from(later.day > self.day)
    }
}

#[cfg(test)]
mod tests {
    use super::*;

    /// Leap years, the ends of the years and of each length of month, and words that are no date.
    #[test]
    fn dates_are_days_of_the_calendar() {
        let exist = [
            20_000_101, 20_000_229, 20_040_229, 21_000_228, 20_260_131, 20_260_430, 20_261_231, 21_991_231,
        ];
        assert!(exist.iter().all(|&word| Date::from(word).exists()));
        let others = [
            0,
            36,
            19_991_231,
            20_000_230,
            20_250_229,
            21_000_229,
            20_260_132,
            20_260_431,
            20_260_100,
            20_260_015,
            20_261_315,
            22_000_101,
            u64::MAX,
        ];
        assert!(others.iter().all(|&word| !Date::from(word).exists()));
    }

    /// The examples of S-3, and a day before, on and after the same day of the month.
    #[test]
    fn months_go_by_the_day_of_the_month() {
        for (from, to, months) in [
            (20_260_131, 20_260_228, 1),
            (20_260_228, 20_260_331, 2),
            (20_261_116, 20_261_117, 1),
            (20_261_116, 20_271_115, 12),
            (20_261_116, 20_271_116, 12),
            (20_261_116, 20_271_117, 13),
            (20_261_231, 20_270_101, 1),
        ] {
            assert_eq!(Date::from(from).months_to(Date::from(to)), months, "{from} to {to}");
        }
    }
}
