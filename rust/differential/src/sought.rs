//! A tranche that looks for ratings among those of its sheet (S-8): which it may take, and which it takes. Both are worked
//! out here from the rows, so that what a run meets does not rest on the search of the independent implementation.

use crate::dates;
use crate::sheet::{Layout, TrancheWord, RATINGS};
use independent::approach::irb_of;
use independent::charge::pool_charge;
use independent::date::Date;
use independent::sheet::{Sheet, Tranche};

/// Whether ratings are inferred in a deal, or else why not.
#[derive(Debug, Clone, Copy, PartialEq, Eq)]
pub enum Infers {
    /// They are.
    Yes,
    /// A re-securitisation, with due diligence.
    Resecuritisation,
    /// The deal is under SEC-IRBA.
    SecIrba,
    /// No due diligence.
    WithoutDiligence,
}

impl Infers {
    /// Whether ratings are inferred in a sheet's deal.
    pub fn of(sheet: &Sheet) -> Infers {
        match (sheet.facts.due_diligence_held, sheet.facts.resecuritisation) {
            (false, _) => Infers::WithoutDiligence,
            (true, true) => Infers::Resecuritisation,
            (true, false) if irb_of(sheet).is_some() => Infers::SecIrba,
            (true, false) => Infers::Yes,
        }
    }
}

/// The tranches of a sheet whose words are good, with what of the deal bears on inferred ratings.
pub struct Tranches {
    /// Whether ratings are inferred.
    pub infers: Infers,
    /// Whether the unknown exposure is above 5%.
    pub unknown_above: bool,
    rows: Vec<Tranche>,
    /// The maturity words of the rows.
    maturities: Vec<u64>,
    reporting_date: Option<Date>,
}

impl Tranches {
    /// The tranches of a sheet whose words are good.
    pub fn of(words: &[u64]) -> Tranches {
        let sheet = independent::sheet::read(words).expect("a sheet of good words");
        let layout = Layout::of_sheet(words);
        let maturity = |number| layout.tranche_words(words, number)[TrancheWord::Maturity as usize];
        Tranches {
            infers: Infers::of(&sheet),
            unknown_above: pool_charge(&sheet.pool).unknown_above_limit,
            maturities: (0..layout.tranches).map(maturity).collect(),
            reporting_date: sheet.facts.reporting_date,
            rows: sheet.tranches,
        }
    }

    /// The tranche of this number, from 0, as one that looks for ratings.
    pub fn sought(&self, number: usize) -> Sought<'_> {
        Sought { all: self, number }
    }

    /// The number of the tranche whose amount stands at this place.
    pub fn at(&self, place: u64) -> Option<usize> {
        self.rows.iter().position(|row| row.place == place)
    }
}

/// One of them, as it looks for ratings among the others.
#[derive(Clone, Copy)]
pub struct Sought<'a> {
    /// All of them.
    pub all: &'a Tranches,
    /// Its number, from 0.
    pub number: usize,
}

impl<'a> Sought<'a> {
    /// The tranche.
    pub fn own(&self) -> &'a Tranche {
        self.row(self.number)
    }

    /// The tranche of this number.
    pub fn row(&self, number: usize) -> &'a Tranche {
        &self.all.rows[number]
    }

    /// Whether the tranche has a rating of its own.
    pub fn is_rated(&self) -> bool {
        self.own().ratings != [0; RATINGS]
    }

    /// The numbers of the other rated tranches.
    pub fn rated(self) -> impl Iterator<Item = usize> + 'a {
        let others = (0..self.all.rows.len()).filter(move |&number| number != self.number);
        others.filter(move |&number| self.row(number).ratings != [0; RATINGS])
    }

    /// Those of the own class or a junior one.
    pub fn ranked(self) -> impl Iterator<Item = usize> + 'a {
        self.rated()
            .filter(move |&number| self.row(number).class >= self.own().class)
    }

    /// Those of these that have as many months or more: the tranche may take the ratings of each.
    pub fn takeable(self) -> impl Iterator<Item = usize> + 'a {
        self.ranked()
            .filter(move |&number| self.row(number).months >= self.own().months)
    }

    /// That of these whose ratings are taken, where the tranche has none: the first of the most senior class.
    pub fn found(self) -> Option<usize> {
        self.takeable().min_by_key(|&number| (self.row(number).class, number))
    }

    /// Whether the ratings of two tranches differ.
    pub fn differ(&self, one: usize, other: usize) -> bool {
        self.row(one).ratings != self.row(other).ratings
    }

    /// Whether all rated tranches are of the last class, and the tranche is not.
    pub fn only_last_class(self) -> bool {
        let last = self.all.rows.last().map_or(0, |last| last.class);
        let mut rated = self.rated();
        self.own().class < last && rated.all(|number| self.row(number).class == last)
    }

    /// Whether a tranche of a senior class is rated and long enough, and none of the own class or a junior one is rated.
    pub fn only_senior_classes(self) -> bool {
        let long_enough = |number| self.row(number).months >= self.own().months;
        self.ranked().next().is_none() && self.rated().any(long_enough)
    }

    /// Whether some unrated tranche that would be taken from before the one that is, were it rated, takes other ratings
    /// than that one has. They would be handed on if ratings that are taken counted as a tranche's own.
    pub fn chained(self) -> bool {
        let Some(found) = self.found() else {
            return false;
        };
        let before = |number: usize| (self.row(number).class, number) < (self.row(found).class, found);
        let between = (0..self.all.rows.len()).filter(|&number| {
            let (row, own) = (self.row(number), self.own());
            number != self.number && before(number) && row.class >= own.class && row.months >= own.months
        });
        let mut unrated = between
            .map(|number| self.all.sought(number))
            .filter(|other| !other.is_rated());
        unrated.any(|other| other.found().is_some_and(|theirs| self.differ(theirs, found)))
    }

    /// The date of a tranche's maturity; none in a deal without a reporting date.
    pub fn date(&self, number: usize) -> Option<u64> {
        self.all.reporting_date.map(|_| self.all.maturities[number])
    }

    /// Whether a tranche matures on the day before the tranche does, and in a month less.
    pub fn day_before(&self, number: usize) -> bool {
        let months = self.own().months;
        let Some(from) = self.all.reporting_date.filter(|_| months > 1) else {
            return false;
        };
        let days = [dates::last_day(from, months - 1), dates::first_day(from, months)];
        days == [number, self.number].map(|number| self.all.maturities[number])
    }
}

#[cfg(test)]
mod tests {
    use super::*;

    /// The tranches of a sheet with these facts over loans of 100%, with these classes, maturities and first ratings.
    fn tranches(facts: &[u64], rows: &[(u64, u64, u64)]) -> Tranches {
        let pool = [1, 1_000, 1_000, 100, 3 * facts[1], rows.len() as u64];
        let mut words = [&[facts.len() as u64], facts, &pool].concat();
        for &(class, maturity, rating) in rows {
            words.extend([1, class, maturity, 0, rating, 0, 0]);
        }
        if facts[0] != 0 {
            words.extend([1, 0, 0, 1, 0, 1_000_000, 0]);
        }
        Tranches::of(&words)
    }

    /// The facts of a deal in which ratings are inferred.
    const FACTS: &[u64] = &[0, 0, 1, 0];

    /// What each tranche finds.
    fn found(rows: &[(u64, u64, u64)]) -> Vec<Option<usize>> {
        let all = tranches(FACTS, rows);
        (0..rows.len()).map(|number| all.sought(number).found()).collect()
    }

    /// Deals that infer ratings, and why others do not.
    #[test]
    fn deals_that_infer() {
        let infers = |facts: &[u64]| tranches(facts, &[(1, 1, 0)]).infers;
        assert_eq!(infers(FACTS), Infers::Yes);
        assert_eq!(infers(&[0, 0, 1, 1, 1]), Infers::Yes);
        assert_eq!(infers(&[0, 1, 1, 0]), Infers::Resecuritisation);
        assert_eq!(infers(&[1, 1, 1, 0]), Infers::Resecuritisation);
        assert_eq!(infers(&[2, 0, 1, 0]), Infers::SecIrba);
        assert!([&[1, 0, 0, 0][..], &[0, 1, 0, 0]]
            .into_iter()
            .all(|facts| infers(facts) == Infers::WithoutDiligence));
    }

    /// The first row long enough of the most senior class is found, of the own class first; none of a senior class is.
    #[test]
    fn rows_found() {
        assert_eq!(found(&[(1, 9, 5), (1, 9, 0), (2, 9, 0)]), [None, Some(0), None]);
        assert_eq!(found(&[(1, 9, 0), (2, 8, 5), (2, 9, 6), (3, 9, 7)])[0], Some(2));
        assert_eq!(found(&[(1, 9, 0), (2, 8, 5), (3, 10, 7), (3, 9, 7)])[0], Some(2));
        assert_eq!(found(&[(1, 9, 0), (1, 8, 5)])[0], None);
    }

    /// What a tranche may take, and among which it looks.
    #[test]
    fn rows_that_are_looked_at() {
        let all = tranches(FACTS, &[(1, 9, 5), (2, 9, 0), (2, 8, 5), (3, 9, 6), (3, 9, 0)]);
        let sought = all.sought(1);
        assert_eq!(sought.rated().collect::<Vec<_>>(), [0, 2, 3]);
        assert_eq!(sought.ranked().collect::<Vec<_>>(), [2, 3]);
        assert_eq!(sought.takeable().collect::<Vec<_>>(), [3]);
        assert!(sought.differ(2, 3) && !sought.differ(0, 2));
        assert!(!sought.is_rated() && all.sought(0).is_rated());
        assert_eq!((all.at(25), all.at(26)), (Some(2), None));
    }

    /// Only the last class rated, and only senior ones.
    #[test]
    fn rated_classes() {
        let of = |rows: &[(u64, u64, u64)], number| {
            let all = tranches(FACTS, rows);
            let sought = all.sought(number);
            [sought.only_last_class(), sought.only_senior_classes()]
        };
        let last = [(1, 9, 0), (2, 9, 0), (3, 9, 5), (3, 9, 0)];
        assert_eq!([0, 1, 3].map(|number| of(&last, number)[0]), [true, true, false]);
        assert!(!of(&[(1, 9, 0), (2, 9, 5), (3, 9, 5)], 0)[0]);
        let first = [(1, 9, 5), (2, 9, 0), (3, 10, 0), (3, 8, 0)];
        assert_eq!([1, 2, 3].map(|number| of(&first, number)[1]), [true, false, true]);
        assert!(!of(&[(1, 9, 5), (2, 9, 0), (2, 8, 5)], 1)[1]);
    }

    /// A chain shows where a tranche between takes other ratings: not where it takes the same or none, is rated, or is
    /// too short.
    #[test]
    fn chains() {
        let chained = |between, fourth| {
            let all = tranches(FACTS, &[(1, 9, 0), between, (3, 20, 5), (4, 40, fourth)]);
            all.sought(0).chained()
        };
        assert!(chained((2, 30, 0), 6));
        assert!(!chained((2, 30, 0), 5) && !chained((2, 20, 0), 6) && !chained((2, 41, 0), 6));
        assert!(!chained((2, 30, 7), 6) && !chained((2, 8, 0), 6));
    }

    /// The day before with a month less: the last day of its months and the first of the next.
    #[test]
    fn days_before() {
        let before = |from, own, other| {
            let all = tranches(&[0, 0, 1, 0, 0, from], &[(1, own, 0), (2, other, 5)]);
            all.sought(0).day_before(1)
        };
        assert!(before(20_240_131, 20_240_301, 20_240_229) && before(20_240_115, 20_240_216, 20_240_215));
        assert!(!before(20_240_131, 20_240_302, 20_240_229) && !before(20_240_131, 20_240_301, 20_240_228));
        assert!(!before(20_240_115, 20_240_215, 20_240_214) && !before(0, 2, 1));
        let all = tranches(&[0, 0, 1, 0, 0, 20_240_131], &[(1, 20_240_201, 0)]);
        assert_eq!(
            (all.sought(0).date(0), all.sought(0).day_before(0)),
            (Some(20_240_201), false)
        );
        assert_eq!(tranches(FACTS, &[(1, 9, 0)]).sought(0).date(0), None);
    }
}
