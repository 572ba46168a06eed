//! Reporting dates and maturities as dates (S-3): good ones for sound deals, bad ones for damage, and the months of a
//! sheet's maturities.

use crate::kind::Kind;
use crate::random::Random;
use crate::sheet::{Deal, Fact, Layout, TrancheWord, DAYS, MONTHS};
use independent::date::{self, days_of_month, Date, YEARS};

/// A month of any year, counted from January of the year 0.
#[derive(Clone, Copy, PartialEq, Eq, PartialOrd, Ord)]
struct Month(u64);

impl Month {
    /// The months of a year.
    const OF_YEAR: u64 = 12;
    /// The last month whose days a word can name.
    const LAST: Month = Month::new(YEARS.1, Month::OF_YEAR);

    /// The month of this number, from 1, in a year.
    const fn new(year: u64, number: u64) -> Month {
        Month(Month::OF_YEAR * year + number - 1)
    }

    /// Draws a month of the years from one to another.
    fn draw(random: &mut Random, first: u64, last: u64) -> Month {
        Month::new(random.between(first, last), random.between(1, Month::OF_YEAR))
    }

    /// The month so many months later.
    fn later(self, months: u64) -> Month {
        Month(self.0 + months)
    }

    /// The last day of the month.
    fn last_day(self) -> u64 {
        days_of_month(self.0 / Month::OF_YEAR, self.0 % Month::OF_YEAR + 1)
    }

    /// The word of a day of the month, be there such a day or not.
    fn word(self, day: u64) -> u64 {
        10_000 * (self.0 / Month::OF_YEAR) + 100 * (self.0 % Month::OF_YEAR + 1) + day
    }
}

/// The word of a date.
fn word(date: Date) -> u64 {
    Month::new(date.year, date.month).word(date.day)
}

/// The date of a word that names one.
fn of_good_word(word: u64) -> Date {
    Date::of_word(word).expect("a day of the years")
}

/// The reporting date that a sheet with these places states.
pub fn reporting_date(sheet: &[u64], layout: &Layout) -> Option<Date> {
    Date::of_word(layout.fact_word(sheet, Fact::ReportingDate))
}

/// The months of a tranche's maturity in a sheet with these places, in either form; none where it is no day after the
/// reporting date.
pub fn months(sheet: &[u64], layout: &Layout, tranche: usize) -> Option<u64> {
    let maturity = layout.tranche_words(sheet, tranche)[TrancheWord::Maturity as usize];
    date::months(reporting_date(sheet, layout), maturity)
}

/// Whether the months of a sheet can be stated in place of its dates: it has these places, states a reporting date, and
/// each maturity is a day after that.
pub fn are_good(sheet: &[u64], layout: &Layout) -> bool {
    layout.fits(sheet)
        && reporting_date(sheet, layout).is_some()
        && (0..layout.tranches).all(|tranche| months(sheet, layout, tranche).is_some())
}

/// Writes a sheet with good dates over what the list holds, with 0 for the reporting date and the months in place of
/// the other dates.
pub fn write_months(sheet: &[u64], layout: &Layout, words: &mut Vec<u64>) {
    words.clear();
    words.extend(sheet);
    words[Layout::fact(Fact::ReportingDate)] = 0;
    for tranche in 0..layout.tranches {
        let months = months(sheet, layout, tranche);
        words[layout.tranche_word(tranche, TrancheWord::Maturity)] = months.expect("a day after the reporting date");
    }
}

/// States a reporting date in half of the deals, and wherever a bad date is to come; in some of the others states that
/// there is none. The deal is of the sound kind given second.
pub fn state(kind: Kind, sound: Kind, random: &mut Random, deal: &mut Deal) {
    match random.below(8) {
        0..=2 if kind != Kind::BadDate => {}
        3 if kind != Kind::BadDate => deal.facts[Fact::ReportingDate] = 0,
        _ if sound == Kind::Limits => {
            let from = of_good_word(random.pick(&[DAYS.0, DAYS.1 - 1]));
            set(deal, from, |months| maturity_at_limit(from, months));
        }
        _ => {
            let from = draw_reporting_date(random);
            set(deal, from, |months| good_maturity(random, from, months));
        }
    }
}

/// Sets the reporting date, and in place of the months of each maturity a date.
fn set(deal: &mut Deal, from: Date, mut maturity: impl FnMut(u64) -> u64) {
    deal.facts[Fact::ReportingDate] = word(from);
    for tranche in &mut deal.tranches {
        tranche.maturity = maturity(tranche.maturity);
    }
}

/// Days at which a rule of dates changes: the first and the last days of the years, the last days of a month beside
/// them, those of the hundred years from which 1200 months are there, and the ends of February.
const SPECIAL_DAYS: &[u64] = &[
    DAYS.0,
    20_000_131,
    20_000_228,
    20_000_229,
    20_040_229,
    20_960_229,
    20_991_230,
    20_991_231,
    21_000_228,
    21_991_130,
    DAYS.1 - 1,
];

/// Draws a reporting date that has a day after it: mostly of the first hundred years, from which 1200 months are there,
/// and often at the end of a month.
fn draw_reporting_date(random: &mut Random) -> Date {
    let month = match random.once_in(8) {
        true => Month::draw(random, YEARS.0, YEARS.1),
        false => Month::draw(random, YEARS.0, YEARS.0 + MONTHS / Month::OF_YEAR - 1),
    };
    let day = match random.below(8) {
        0 => random.pick(SPECIAL_DAYS),
        1 | 2 => month.word(month.last_day()),
        _ => month.word(random.between(1, month.last_day())),
    };
    of_good_word(day.min(DAYS.1 - 1))
}

/// The first of the days so many months after a date: in the month before, where that has a later day of the month.
pub fn first_day(from: Date, months: u64) -> u64 {
    let before = Month::new(from.year, from.month).later(months - 1);
    match from.day < before.last_day() {
        true => before.word(from.day + 1),
        false => before.later(1).word(1),
    }
}

/// The last of the days so many months after a date: on the same day of the month, or at the end of a shorter month.
pub fn last_day(from: Date, months: u64) -> u64 {
    let month = Month::new(from.year, from.month).later(months);
    month.word(from.day.min(month.last_day()))
}

/// Draws one of the days so many months after a date: the first, the last, the end of a month, or any. These days are
/// those after the date's day of the month in one month, and those up to it in the next one.
fn day_after(random: &mut Random, from: Date, months: u64) -> u64 {
    let before = Month::new(from.year, from.month).later(months - 1);
    let in_both = from.day < before.last_day();
    match random.below(8) {
        0 | 1 => first_day(from, months),
        2 if in_both => before.word(before.last_day()),
        3 if in_both => before.word(random.between(from.day + 1, before.last_day())),
        4 | 5 => last_day(from, months),
        _ => random.between(before.later(1).word(1), last_day(from, months)),
    }
}

/// The first maturity for one month and the last for more, of those that the years have left.
fn maturity_at_limit(from: Date, months: u64) -> u64 {
    match months {
        1 => first_day(from, 1),
        _ => last_day(from, months).min(DAYS.1),
    }
}

/// Draws a maturity so many months after the reporting date, or as many as the years have left; in their last month
/// their last day.
fn good_maturity(random: &mut Random, from: Date, months: u64) -> u64 {
    let left = Month::LAST.0 - Month::new(from.year, from.month).0;
    match months.min(left) {
        0 => DAYS.1,
        months => day_after(random, from, months),
    }
}

/// Draws a word other than 0 that names no day: a day or month that no year has, 29 February of a year without it, a
/// day of another year, a good date with a high bit of the word or of the year set, or any word.
pub fn no_day(random: &mut Random) -> u64 {
    let month = Month::draw(random, YEARS.0, YEARS.1);
    let day = random.between(1, month.last_day());
    let large = random.word() | 1 << 32;
    match random.below(8) {
        0 => month.word(0),
        1 | 2 => month.word(month.last_day() + 1),
        3 => 10_000 * random.pick(&[2001, 2023, 2099, 2100, 2100, 2199]) + 229,
        4 => 10_000 * random.between(YEARS.0, YEARS.1) + random.pick(&[0, 1_300]) + day,
        5 => {
            let year = random.pick(&[YEARS.0 - 1, YEARS.1 + 1]);
            Month::draw(random, year, year).word(random.between(1, 28))
        }
        6 => month.word(day) + random.pick(&[1 << 32, 1 << 63, 10_000 << 16, 10_000 << 32]),
        _ => random.pick(&[1, MONTHS + 1, DAYS.1 + 1, u64::MAX - 1, u64::MAX, large]),
    }
}

/// Draws a word that is no good maturity after a reporting date: the date itself, the word before its own, a day up to
/// it, a count of months, a day too many months after it, or no day.
pub fn bad_maturity(random: &mut Random, from: Date) -> u64 {
    let too_many = random.pick(&[1, 1, 2, MONTHS / 2, MONTHS]);
    match random.below(8) {
        0 => word(from),
        1 => word(from) - 1,
        2 => {
            let month = Month::draw(random, YEARS.0, from.year);
            month.word(random.between(1, month.last_day())).min(word(from))
        }
        3 => random.between(1, MONTHS),
        4 | 5 => day_after(random, from, MONTHS + too_many),
        _ => no_day(random),
    }
}

#[cfg(test)]
mod tests {
    use super::*;
    use std::collections::BTreeSet;

    /// A stream of draws.
    fn draws<T>(count: u64, draw: impl Fn(&mut Random) -> T) -> impl Iterator<Item = T> {
        (0..count).map(move |index| draw(&mut Random::of_sheet(6, index)))
    }

    /// A month has its word and its last day, and the months follow one another over the years.
    #[test]
    fn months_follow_one_another() {
        let december = Month::new(2099, 12);
        assert_eq!(december.word(31), 20_991_231);
        assert_eq!([1, 2, 3].map(|months| december.later(months).last_day()), [31, 28, 31]);
        assert_eq!(december.later(2).word(29), 21_000_229);
        assert_eq!(word(of_good_word(20_040_229)), 20_040_229);
        assert_eq!(Month::LAST.word(31), DAYS.1);
    }

    /// The first and the last days so many months after a date: the day after it first, and each first day after the
    /// last one for a month less.
    #[test]
    fn first_and_last_days() {
        let first = |from, months| first_day(of_good_word(from), months);
        assert_eq!([first(20_270_130, 1), first(20_270_130, 2)], [20_270_131, 20_270_301]);
        assert_eq!([first(20_270_131, 1), first(20_270_131, 2)], [20_270_201, 20_270_301]);
        assert_eq!([first(20_271_231, 1), first(20_271_231, 13)], [20_280_101, 20_290_101]);
        let last = |from, months| last_day(of_good_word(from), months);
        assert_eq!([last(20_270_131, 1), last(20_270_131, 2)], [20_270_228, 20_270_331]);
        assert_eq!([last(20_270_115, 1), last(20_270_115, 1_200)], [20_270_215, 21_270_115]);
    }

    /// A drawn maturity is so many months after the reporting date, or as many as are left, and a reporting date has a
    /// day after it.
    #[test]
    fn good_maturities_have_their_months() {
        for asked in [1, 2, 11, 36, MONTHS] {
            for (from, maturity) in draws(3_000, |random| {
                let from = draw_reporting_date(random);
                (from, good_maturity(random, from, asked))
            }) {
                let left = date::months(Some(from), DAYS.1).expect("a reporting date before the last day");
                let counted = date::months(Some(from), maturity).expect("a day after the reporting date");
                let all_there = from.year < YEARS.0 + MONTHS / Month::OF_YEAR;
                assert!(
                    counted == asked || !all_there && counted <= asked.min(left),
                    "{from:?} {maturity}"
                );
            }
        }
    }

    /// Maturities come on the earlier, the same and the later day of the month, and at the first and the last day that
    /// has their months.
    #[test]
    fn maturities_come_on_all_days() {
        let from = of_good_word(20_240_115);
        let met: BTreeSet<u64> = draws(3_000, |random| good_maturity(random, from, 2)).collect();
        let all = (16..=29)
            .map(|day| 20_240_200 + day)
            .chain((1..=15).map(|day| 20_240_300 + day));
        assert_eq!(met, all.collect());
    }

    /// Words that name no day do not, are not 0, and come of each sort.
    #[test]
    fn no_days_are_none() {
        let words: BTreeSet<u64> = draws(20_000, no_day).collect();
        assert!(words.iter().all(|&word| word != 0 && Date::of_word(word).is_none()));
        let met = |like: fn(u64) -> bool| words.iter().filter(|&&word| like(word)).count();
        let sorts: [fn(u64) -> bool; 6] = [
            |word| word % 100 == 0 && word < DAYS.1,
            |word| word % 10_000 == 431,
            |word| word == 21_000_229,
            |word| word / 100 % 100 == 13,
            |word| [1_999, 2_200].contains(&(word / 10_000)),
            |word| Date::of_word(word & u64::from(u32::MAX)).is_some(),
        ];
        assert!(sorts.into_iter().all(|sort| met(sort) > 0) && words.contains(&u64::MAX));
    }

    /// A bad maturity is no day after the reporting date, or is more than 1200 months after it.
    #[test]
    fn bad_maturities_are_bad() {
        let drawn = draws(20_000, |random| {
            let from = draw_reporting_date(random);
            date::months(Some(from), bad_maturity(random, from))
        });
        let months: Vec<Option<u64>> = drawn.collect();
        assert!(months.iter().flatten().all(|&months| months > MONTHS));
        assert!(months.contains(&None) && months.contains(&Some(MONTHS + 1)));
    }

    /// Months are counted in place of dates where the sheet states good ones, and nothing else is changed.
    #[test]
    fn months_in_place_of_dates() {
        let sheet = |date, maturities: [u64; 2]| {
            let [first, second] = maturities.map(|maturity| [500, 1, maturity, 0, 0, 0, 0]);
            let facts = [6, 0, 0, 1, 1, 0, date, 1, 1_000, 1_000, 100, 0, 2];
            [&facts[..], &first, &second].concat()
        };
        let dated = sheet(20_270_131, [20_270_228, 21_991_231]);
        let layout = Layout::of_sheet(&dated);
        let mut words = vec![7];
        assert!(are_good(&dated, &layout));
        write_months(&dated, &layout, &mut words);
        assert_eq!(words, sheet(0, [1, 2_075]));
        for bad in [
            sheet(0, [1, 36]),
            sheet(20_270_230, [20_270_301, 20_270_301]),
            sheet(20_270_131, [20_270_201, 36]),
            sheet(20_270_131, [20_270_131, 20_270_201]),
            dated[1..].to_vec(),
            [&dated[..], &[0]].concat(),
        ] {
            assert!(!are_good(&bad, &layout), "{bad:?}");
        }
    }
}
