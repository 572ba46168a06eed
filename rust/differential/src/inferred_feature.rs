//! What a run must meet by inferred ratings (S-8): on some line whose ratings are taken from another tranche, on some line
//! of a tranche that takes none beside rated ones, and on some sheet that is refused for a tranche without thickness.

use crate::answer::{refusal, Approach};
use crate::seen::{DealKind, Rated, Seen};
use crate::sheet::SHORT_TERM;
use crate::sought::{Infers, Sought, Tranches};
use independent::rating::{self, Table};
use independent::sheet::Tranche;
use independent::{Deal, Refusal};

/// What must be met on some line of an unrated tranche that takes the ratings of another one.
#[derive(Debug, Clone, Copy, PartialEq, Eq)]
pub enum InferredFeature {
    /// They are those of an earlier row of its class.
    EarlierRow,
    /// They are those of a later row of its class.
    LaterRow,
    /// They are those of the next class.
    NextClass,
    /// They are those of a class further down.
    LowerClass,
    /// They are those of the last class, and no tranche of another one is rated.
    OnlyLastClass,
    /// Another class has other ratings that could be taken.
    SeveralClasses,
    /// Another row of the class has other ratings that could be taken.
    SeveralRows,
    /// An earlier rated row of the class is too short.
    RowTooShort,
    /// A more senior class, or the own one, has rated rows, and all are too short.
    ClassTooShort,
    /// An unrated tranche that stands before that row, and is long enough, takes other ratings.
    Chain,
    /// The row has as many months.
    EqualMonths,
    /// The row has one month more.
    OneMonthMore,
    /// The row has an earlier date, in as many months.
    EarlierDate,
    /// Class 1.
    Senior,
    /// A class below.
    NonSenior,
    /// An STC deal.
    Stc,
    /// A mixed pool that goes on as an SA pool.
    MixedPool,
    /// The unknown exposure is above 5%.
    UnknownRows,
    /// The row has two ratings.
    TwoRatings,
    /// The row has three ratings.
    ThreeRatings,
    /// The row has a short-term rating.
    ShortTerm,
    /// The weight is another one than by the row's months.
    OwnMonths,
    /// The weight is another one than by the row's seniority.
    OwnClass,
    /// The weight is another one than by the row's thickness.
    OwnThickness,
    /// A tranche without thickness, above the charge.
    NoThickness,
    /// The floor decided the weight.
    RaisedToFloor,
    /// The cap decided the weight.
    LoweredToCap,
    /// Weight and least weight differ.
    EndsApart,
}

impl InferredFeature {
    /// All features with their names, in the order of the enum.
    pub(crate) const TABLE: [(InferredFeature, &'static str); 28] = [
        (InferredFeature::EarlierRow, "inferred: earlier row of the own class"),
        (InferredFeature::LaterRow, "inferred: later row of the own class"),
        (InferredFeature::NextClass, "inferred: next class"),
        (InferredFeature::LowerClass, "inferred: class further down"),
        (InferredFeature::OnlyLastClass, "inferred: only the last class rated"),
        (
            InferredFeature::SeveralClasses,
            "inferred: another class could be taken",
        ),
        (
            InferredFeature::SeveralRows,
            "inferred: another row of the class could be",
        ),
        (
            InferredFeature::RowTooShort,
            "inferred: earlier row of the class too short",
        ),
        (InferredFeature::ClassTooShort, "inferred: more senior class too short"),
        (InferredFeature::Chain, "inferred: unrated one between takes others"),
        (InferredFeature::EqualMonths, "inferred: as many months"),
        (InferredFeature::OneMonthMore, "inferred: one month more"),
        (InferredFeature::EarlierDate, "inferred: earlier date, as many months"),
        (InferredFeature::Senior, "inferred: class 1"),
        (InferredFeature::NonSenior, "inferred: below class 1"),
        (InferredFeature::Stc, "inferred: STC deal"),
        (InferredFeature::MixedPool, "inferred: mixed pool as SA pool"),
        (InferredFeature::UnknownRows, "inferred: unknown exposure above 5%"),
        (InferredFeature::TwoRatings, "inferred: two ratings"),
        (InferredFeature::ThreeRatings, "inferred: three ratings"),
        (InferredFeature::ShortTerm, "inferred: short-term rating"),
        (InferredFeature::OwnMonths, "inferred: weight by its own months"),
        (InferredFeature::OwnClass, "inferred: weight by its own class"),
        (InferredFeature::OwnThickness, "inferred: weight by its own thickness"),
        (InferredFeature::NoThickness, "inferred: A = D above K"),
        (InferredFeature::RaisedToFloor, "inferred: raised to the floor"),
        (InferredFeature::LoweredToCap, "inferred: lowered to the cap"),
        (InferredFeature::EndsApart, "inferred: ends apart"),
    ];

    /// Whether a line of an accepted deal shows the feature.
    pub(crate) fn shown(self, sought: Sought, seen: &Seen, deal: &Deal) -> bool {
        let infers = sought.all.infers == Infers::Yes && !sought.is_rated();
        match sought.found().filter(|_| infers).zip(seen.rated.as_ref()) {
            Some((found, rated)) => {
                self.shown_by_row(sought, found)
                    || self.shown_by_deal(sought, seen, found)
                    || self.shown_by_weight(sought, seen, found, rated, deal)
            }
            None => false,
        }
    }

    /// Whether the row that is found shows the feature, by where it stands and by its months.
    fn shown_by_row(self, sought: Sought, found: usize) -> bool {
        let (own, row) = (sought.own(), sought.row(found));
        let of_class = |number: usize| sought.row(number).class == row.class;
        let other = |number: usize| sought.differ(number, found);
        match self {
            InferredFeature::EarlierRow => row.class == own.class && found < sought.number,
            InferredFeature::LaterRow => row.class == own.class && found > sought.number,
            InferredFeature::NextClass => row.class == own.class + 1,
            InferredFeature::LowerClass => row.class > own.class + 1,
            InferredFeature::OnlyLastClass => sought.only_last_class(),
            InferredFeature::SeveralClasses => sought.takeable().any(|number| !of_class(number) && other(number)),
            InferredFeature::SeveralRows => sought.takeable().any(|number| of_class(number) && other(number)),
            InferredFeature::RowTooShort => sought.ranked().any(|number| of_class(number) && number < found),
            InferredFeature::ClassTooShort => sought.ranked().any(|number| sought.row(number).class < row.class),
            InferredFeature::Chain => sought.chained(),
            InferredFeature::EqualMonths => row.months == own.months,
            InferredFeature::OneMonthMore => row.months == own.months + 1,
            InferredFeature::EarlierDate => sought.date(found) < sought.date(sought.number),
            _ => false,
        }
    }

    /// Whether the deal, the class of the tranche or the ratings of the row that is found show the feature.
    fn shown_by_deal(self, sought: Sought, seen: &Seen, found: usize) -> bool {
        let codes = sought.row(found).ratings;
        let count = codes.iter().filter(|&&code| code != 0).count();
        match self {
            InferredFeature::Senior => seen.senior,
            InferredFeature::NonSenior => !seen.senior,
            InferredFeature::Stc => seen.kind == DealKind::Stc,
            InferredFeature::MixedPool => seen.irb.is_some(),
            InferredFeature::UnknownRows => sought.all.unknown_above,
            InferredFeature::TwoRatings => count == 2,
            InferredFeature::ThreeRatings => count == 3,
            InferredFeature::ShortTerm => codes.iter().any(|&code| code >= SHORT_TERM.0),
            _ => false,
        }
    }

    /// Whether the weight shows the feature. What the tranche has of its own counts where neither floor nor cap hides it.
    fn shown_by_weight(self, sought: Sought, seen: &Seen, found: usize, rated: &Rated, deal: &Deal) -> bool {
        let row = sought.row(found);
        let [own_thickness, thickness] = [sought.number, found].map(|number| {
            let line = &deal.lines[number];
            line.detachment - line.attachment
        });
        let kept = seen.weight() == rated.weight;
        let otherwise = |class, months, thickness| {
            let ratings = row.ratings;
            let tranche = Tranche {
                class,
                months,
                ratings,
                ..*row
            };
            let table = Table::of(seen.kind == DealKind::Stc);
            let other = rating::weight(table, &tranche, thickness).max(seen.floor());
            kept && (other < rated.weight || other > rated.weight && !seen.capped)
        };
        let &Tranche { class, months, .. } = sought.own();
        match self {
            InferredFeature::OwnMonths => otherwise(class, row.months, own_thickness),
            InferredFeature::OwnClass => otherwise(row.class, months, own_thickness),
            InferredFeature::OwnThickness => otherwise(class, months, thickness),
            InferredFeature::NoThickness => own_thickness == 0 && seen.line.detachment > seen.charge,
            InferredFeature::RaisedToFloor => seen.floor_decided(),
            InferredFeature::LoweredToCap => seen.capped && seen.weight() < rated.weight.max(seen.floor()),
            InferredFeature::EndsApart => seen.ends_kept(),
            _ => false,
        }
    }
}

/// What must be met on some line of a tranche that takes no ratings, though other tranches of the sheet have some.
#[derive(Debug, Clone, Copy, PartialEq, Eq)]
pub enum UntakenFeature {
    /// Those are of senior classes, and long enough.
    SeniorClasses,
    /// One of its own or a junior class is a month shorter.
    OneMonthLess,
    /// One of these is shorter, and both are five years of tranche maturity.
    FiveYears,
    /// One of these is shorter, and both are one year of tranche maturity.
    OneYear,
    /// One of these matures in the same month of the calendar, and is shorter.
    SameMonth,
    /// One of these matures on the day before, and is shorter.
    DayBefore,
    /// SEC-SA.
    SecSa,
    /// The fallback, since the unknown exposure is above 5%.
    Fallback,
    /// There is one to take, in a re-securitisation.
    Resecuritisation,
    /// There is one to take, under SEC-IRBA.
    SecIrba,
    /// There is one to take, without due diligence.
    WithoutDiligence,
    /// A rated tranche, which would take other ratings if it had none.
    Rated,
}

impl UntakenFeature {
    /// All features with their names, in the order of the enum.
    pub(crate) const TABLE: [(UntakenFeature, &'static str); 12] = [
        (UntakenFeature::SeniorClasses, "not inferred: only senior classes rated"),
        (UntakenFeature::OneMonthLess, "not inferred: a month too short"),
        (UntakenFeature::FiveYears, "not inferred: too short, five years both"),
        (UntakenFeature::OneYear, "not inferred: too short, one year both"),
        (
            UntakenFeature::SameMonth,
            "not inferred: too short, same calendar month",
        ),
        (UntakenFeature::DayBefore, "not inferred: too short by a day"),
        (UntakenFeature::SecSa, "not inferred: SEC-SA"),
        (UntakenFeature::Fallback, "not inferred: fallback"),
        (UntakenFeature::Resecuritisation, "one to take: re-securitisation"),
        (UntakenFeature::SecIrba, "one to take: SEC-IRBA"),
        (UntakenFeature::WithoutDiligence, "one to take: no due diligence"),
        (UntakenFeature::Rated, "one to take: rated already"),
    ];

    /// Whether a line shows the feature.
    pub(crate) fn shown(self, sought: Sought, seen: &Seen) -> bool {
        let found = sought.found();
        match (sought.is_rated(), sought.all.infers, found) {
            (true, Infers::Yes, Some(found)) => self == UntakenFeature::Rated && sought.differ(found, sought.number),
            (true, _, _) => false,
            (false, Infers::Yes, None) => sought.rated().next().is_some() && self.shown_by_none(sought, seen),
            (false, Infers::Yes, Some(_)) | (false, _, None) => false,
            (false, Infers::Resecuritisation, Some(_)) => self == UntakenFeature::Resecuritisation,
            (false, Infers::SecIrba, Some(_)) => self == UntakenFeature::SecIrba,
            (false, Infers::WithoutDiligence, Some(_)) => self == UntakenFeature::WithoutDiligence,
        }
    }

    /// Whether an unrated tranche that finds no ratings to take shows the feature. All rated ones of its own or a junior
    /// class are shorter then.
    fn shown_by_none(self, sought: Sought, seen: &Seen) -> bool {
        let own = sought.own();
        let maturity = rating::maturity(own.months);
        let as_mature = |number: usize| rating::maturity(sought.row(number).months) == maturity;
        let month = |number: usize| sought.date(number).map(|date| date / 100);
        let dated = sought.date(sought.number).is_some();
        match self {
            UntakenFeature::SeniorClasses => sought.only_senior_classes(),
            UntakenFeature::OneMonthLess => sought
                .ranked()
                .any(|number| sought.row(number).months + 1 == own.months),
            UntakenFeature::FiveYears => maturity == rating::maturity(72) && sought.ranked().any(as_mature),
            UntakenFeature::OneYear => maturity == rating::maturity(12) && sought.ranked().any(as_mature),
            UntakenFeature::SameMonth => dated && sought.ranked().any(|number| month(number) == month(sought.number)),
            UntakenFeature::DayBefore => sought.ranked().any(|number| sought.day_before(number)),
            UntakenFeature::SecSa => seen.is(Approach::SecSa),
            UntakenFeature::Fallback => seen.is(Approach::Fallback),
            _ => false,
        }
    }
}

/// What must be met on some sheet that is refused for an unrated tranche without thickness.
#[derive(Debug, Clone, Copy, PartialEq, Eq)]
pub enum InferredRefusal {
    /// Only tranches of senior classes are rated, long enough.
    SeniorClasses,
    /// Tranches of its own or a junior class are rated, and too short.
    TooShort,
    /// There is one to take, in a re-securitisation.
    Resecuritisation,
    /// There is one to take, under SEC-IRBA.
    SecIrba,
}

impl InferredRefusal {
    /// All features with their names, in the order of the enum.
    pub(crate) const TABLE: [(InferredRefusal, &'static str); 4] = [
        (InferredRefusal::SeniorClasses, "refusal 13: only senior classes rated"),
        (InferredRefusal::TooShort, "refusal 13: rated ones too short"),
        (
            InferredRefusal::Resecuritisation,
            "refusal 13: one to take, re-securitisation",
        ),
        (InferredRefusal::SecIrba, "refusal 13: one to take, SEC-IRBA"),
    ];

    /// Whether a refused sheet shows the feature. All its words are good where a tranche without thickness is refused.
    pub(crate) fn shown(self, sheet: &[u64], refused: &Refusal) -> bool {
        if refused.number != refusal::THIN {
            return false;
        }
        let all = Tranches::of(sheet);
        let number = all.at(refused.place).expect("the place of a tranche");
        let sought = all.sought(number);
        !sought.is_rated() && self.shown_by(sought)
    }

    /// Whether an unrated tranche that is refused shows the feature.
    fn shown_by(self, sought: Sought) -> bool {
        let [ranked, found] = [sought.ranked().next(), sought.found()].map(|row| row.is_some());
        match (self, sought.all.infers) {
            (InferredRefusal::SeniorClasses, Infers::Yes) => sought.only_senior_classes(),
            (InferredRefusal::TooShort, Infers::Yes) => ranked,
            (InferredRefusal::Resecuritisation, Infers::Resecuritisation) => found,
            (InferredRefusal::SecIrba, Infers::SecIrba) => found,
            _ => false,
        }
    }
}

#[cfg(test)]
mod tests {
    use super::*;

    /// Features are counted by the enums' order, so the tables must follow it.
    #[test]
    fn tables_follow_the_enums() {
        assert!((0..)
            .zip(InferredFeature::TABLE)
            .all(|(place, entry)| entry.0 as usize == place));
        assert!((0..)
            .zip(UntakenFeature::TABLE)
            .all(|(place, entry)| entry.0 as usize == place));
        assert!((0..)
            .zip(InferredRefusal::TABLE)
            .all(|(place, entry)| entry.0 as usize == place));
    }

    /// A row of a tranche here: amount, class, maturity and ratings.
    type Row = (u64, u64, u64, [u64; 3]);

    /// The facts of a deal in which ratings are inferred, without a cap.
    const FACTS: &[u64] = &[0, 0, 1, 0];
    /// The same with the STC mark.
    const STC: &[u64] = &[0, 0, 1, 0, 1];
    /// A pool of a million at 100%: its amount, its risk weight, and its status in an ordinary deal.
    const POOL: [u64; 3] = [1_000_000, 100, 0];

    /// A sheet with these facts, pool and tranches, of another pool than SA with a section of this share.
    fn sheet(facts: &[u64], [amount, percent, status]: [u64; 3], rows: &[Row], share: u64) -> Vec<u64> {
        let status = if facts[1] == 1 { 3 } else { status };
        let pool = [1, amount, amount, percent, status, rows.len() as u64];
        let mut words = [&[facts.len() as u64], facts, &pool].concat();
        for &(amount, class, maturity, ratings) in rows {
            words.extend([amount, class, maturity, 0]);
            words.extend(ratings);
        }
        if facts[0] != 0 {
            words.extend([1, 80_000, 0, 25, 0, share, 125_000]);
        }
        words
    }

    /// What a line of an accepted sheet shows; tranches are counted from 0.
    fn shown(sheet: &[u64], number: usize) -> (Vec<InferredFeature>, Vec<UntakenFeature>) {
        let deal = independent::weigh(sheet, u64::MAX).expect("an accepted sheet");
        let all = Tranches::of(sheet);
        let (sought, seen) = (all.sought(number), Seen::new(sheet, &deal, number));
        let inferred = InferredFeature::TABLE.map(|(feature, _)| feature).into_iter();
        let untaken = UntakenFeature::TABLE.map(|(feature, _)| feature).into_iter();
        (
            inferred.filter(|feature| feature.shown(sought, &seen, &deal)).collect(),
            untaken.filter(|feature| feature.shown(sought, &seen)).collect(),
        )
    }

    /// What the line of a tranche shows that takes ratings, of the features from one to another.
    fn taken(sheet: &[u64], number: usize, ends: [InferredFeature; 2]) -> Vec<InferredFeature> {
        let (mut inferred, untaken) = shown(sheet, number);
        assert_eq!(untaken, []);
        let [first, last] = ends.map(|feature| feature as usize);
        inferred.retain(|&feature| (first..=last).contains(&(feature as usize)));
        inferred
    }

    /// The rows of tranches with these classes, maturities and first ratings, equally thick.
    fn equal(rows: &[(u64, u64, u64)]) -> Vec<Row> {
        let amount = POOL[0] / rows.len() as u64;
        let row = |&(class, maturity, rating): &(u64, u64, u64)| (amount, class, maturity, [rating, 0, 0]);
        rows.iter().map(row).collect()
    }

    /// What such tranches show by the row that is found.
    fn by_row(facts: &[u64], rows: &[(u64, u64, u64)], number: usize) -> Vec<InferredFeature> {
        let sheet = sheet(facts, POOL, &equal(rows), 0);
        taken(
            &sheet,
            number,
            [InferredFeature::EarlierRow, InferredFeature::EarlierDate],
        )
    }

    /// The row counts by its class and its place in it, and by its months.
    #[test]
    fn rows_are_counted() {
        use InferredFeature::*;
        let of = |rows: &[(u64, u64, u64)], number| by_row(FACTS, rows, number);
        assert_eq!(of(&[(1, 36, 5), (1, 36, 0)], 1), [EarlierRow, EqualMonths]);
        assert_eq!(of(&[(1, 36, 0), (1, 36, 5)], 0), [LaterRow, EqualMonths]);
        assert_eq!(
            of(&[(1, 36, 0), (2, 37, 5)], 0),
            [NextClass, OnlyLastClass, OneMonthMore]
        );
        assert_eq!(
            of(&[(1, 36, 0), (2, 36, 0), (3, 38, 5)], 0),
            [LowerClass, OnlyLastClass]
        );
        assert_eq!(of(&[(1, 36, 5), (2, 36, 0), (3, 38, 5)], 1), [NextClass]);
        let dated = [0, 0, 1, 0, 0, 20_240_131];
        assert_eq!(
            by_row(&dated, &[(1, 20_270_228, 0), (2, 20_270_201, 5)], 0),
            [NextClass, OnlyLastClass, EqualMonths, EarlierDate]
        );
        assert_eq!(
            by_row(&dated, &[(1, 20_270_201, 0), (2, 20_270_228, 5)], 0),
            [NextClass, OnlyLastClass, EqualMonths]
        );
    }

    /// Other rows count that could be taken with other ratings, that are too short, or that take others.
    #[test]
    fn rows_beside_are_counted() {
        use InferredFeature::*;
        let of = |rows: &[(u64, u64, u64)]| by_row(FACTS, rows, 0);
        assert_eq!(
            of(&[(1, 36, 0), (2, 36, 5), (3, 36, 6)]),
            [NextClass, SeveralClasses, EqualMonths]
        );
        assert_eq!(of(&[(1, 36, 0), (2, 36, 5), (3, 36, 5)]), [NextClass, EqualMonths]);
        assert_eq!(of(&[(1, 36, 0), (2, 36, 5), (3, 35, 6)]), [NextClass, EqualMonths]);
        let last = [NextClass, OnlyLastClass];
        assert_eq!(
            of(&[(1, 36, 0), (2, 36, 5), (2, 36, 6)]),
            [&last[..], &[SeveralRows, EqualMonths]].concat()
        );
        assert_eq!(
            of(&[(1, 36, 0), (2, 35, 5), (2, 36, 6)]),
            [&last[..], &[RowTooShort, EqualMonths]].concat()
        );
        assert_eq!(
            of(&[(1, 36, 0), (2, 35, 5), (3, 36, 6)]),
            [LowerClass, ClassTooShort, EqualMonths]
        );
        assert_eq!(
            of(&[(1, 36, 0), (2, 60, 0), (3, 36, 5), (4, 72, 6)]),
            [LowerClass, SeveralClasses, Chain, EqualMonths]
        );
    }

    /// Deals count by their sort, classes by their seniority, and rows by their ratings.
    #[test]
    fn deals_and_ratings_are_counted() {
        use InferredFeature::*;
        let of = |facts: &[u64], pool, ratings, number| {
            let rows = [
                (500_000, 1, 36, [9 * number as u64, 0, 0]),
                (250_000, 2, 36, [0; 3]),
                (250_000, 2, 36, ratings),
            ];
            taken(&sheet(facts, pool, &rows, 949_999), number, [Senior, ShortTerm])
        };
        assert_eq!(of(FACTS, POOL, [5, 0, 0], 0), [Senior]);
        assert_eq!(of(FACTS, POOL, [0, 5, 6], 1), [NonSenior, TwoRatings]);
        assert_eq!(of(STC, POOL, [21, 5, 6], 0), [Senior, Stc, ThreeRatings, ShortTerm]);
        assert_eq!(
            of(&[2, 0, 1, 0], POOL, [0, 0, 24], 1),
            [NonSenior, MixedPool, ShortTerm]
        );
        assert_eq!(of(FACTS, [1_000_000, 100, 2], [18, 0, 0], 0), [Senior, UnknownRows]);
    }

    /// What the line of a tranche shows by its weight.
    fn by_weight(facts: &[u64], pool: [u64; 3], rows: &[Row], number: usize) -> Vec<InferredFeature> {
        let sheet = sheet(facts, pool, rows, 0);
        taken(&sheet, number, [InferredFeature::OwnMonths, InferredFeature::EndsApart])
    }

    /// Weights count where they are by what the tranche has of its own. Senior A+ is 44% at 36 months and 50% at five
    /// years; non-senior it is half of 100%. BBB of five years is 310% x 0.9 a tenth thick, and 310% x 0.6 four tenths.
    #[test]
    fn own_figures_are_counted() {
        use InferredFeature::*;
        let senior = [(500_000, 1, 36, [0; 3]), (500_000, 2, 72, [5, 0, 0])];
        assert_eq!(by_weight(FACTS, POOL, &senior, 0), [OwnMonths, OwnClass]);
        let second = [
            (500_000, 1, 72, [1, 0, 0]),
            (100_000, 2, 72, [0; 3]),
            (400_000, 3, 72, [9, 0, 0]),
        ];
        assert_eq!(by_weight(FACTS, POOL, &second, 1), [OwnThickness]);
        let thin = [
            (1_000_001, 1, 72, [1, 0, 0]),
            (1, 2, 72, [0; 3]),
            (1_000_000, 3, 72, [9, 0, 0]),
        ];
        let pool = [10_000_000_000, 100, 0];
        assert_eq!(by_weight(FACTS, pool, &thin, 1), [OwnThickness, NoThickness]);
    }

    /// Weights count by floor, cap and ends. The first short-term grade is 10% in an STC deal; senior AAA is 20% at five
    /// years and 15.0833% at 13 months.
    #[test]
    fn floor_cap_and_ends_are_counted() {
        use InferredFeature::*;
        let floor = [
            (500_000, 1, 37, [0; 3]),
            (100_000, 2, 36, [0; 3]),
            (400_000, 3, 36, [21, 0, 0]),
        ];
        assert_eq!(by_weight(STC, POOL, &floor, 1), [RaisedToFloor]);
        let senior = |months| [(500_000, 1, months, [0; 3]), (500_000, 2, months, [1, 0, 0])];
        let capped = [0, 0, 1, 1];
        assert_eq!(by_weight(&capped, [1_000_000, 10, 0], &senior(72), 0), [LoweredToCap]);
        assert_eq!(by_weight(&capped, POOL, &senior(13), 0), [EndsApart]);
    }

    /// What the line of a tranche shows that takes no ratings.
    fn untaken(facts: &[u64], pool: [u64; 3], rows: &[(u64, u64, u64)], number: usize) -> Vec<UntakenFeature> {
        let (inferred, untaken) = shown(&sheet(facts, pool, &equal(rows), 1_000_000), number);
        assert_eq!(inferred, []);
        untaken
    }

    /// A tranche that finds nothing counts by what is rated: senior classes, or classes that are too short.
    #[test]
    fn tranches_without_ratings_to_take_are_counted() {
        use UntakenFeature::*;
        let of = |rows: &[(u64, u64, u64)], number| untaken(FACTS, POOL, rows, number);
        assert_eq!(of(&[(1, 36, 5), (2, 36, 0)], 1), [SeniorClasses, SecSa]);
        assert_eq!(of(&[(1, 36, 5), (2, 37, 0)], 1), [SecSa]);
        assert_eq!(of(&[(1, 36, 0), (2, 36, 0)], 0), []);
        let shorter = |own, other| of(&[(1, own, 0), (2, other, 5)], 0);
        assert_eq!(shorter(36, 35), [OneMonthLess, SecSa]);
        assert_eq!(shorter(36, 34), [SecSa]);
        assert_eq!(shorter(74, 73), [OneMonthLess, FiveYears, SecSa]);
        assert_eq!(
            [shorter(1_200, 72), shorter(1_200, 71)],
            [vec![FiveYears, SecSa], vec![SecSa]]
        );
        assert_eq!([shorter(12, 10), shorter(13, 11)], [vec![OneYear, SecSa], vec![SecSa]]);
        let unknown = untaken(FACTS, [1_000_000, 100, 2], &[(1, 36, 0), (2, 34, 5)], 0);
        assert_eq!(unknown, [Fallback]);
    }

    /// Dates count where they are near and a month is missing: from 15 January there are 36 months up to 15 January, and
    /// 37 from the day after on.
    #[test]
    fn near_dates_are_counted() {
        use UntakenFeature::*;
        let shorter = |own, other| {
            let facts = [0, 0, 1, 0, 0, 20_240_115];
            untaken(&facts, POOL, &[(1, own, 0), (2, other, 5)], 0)
        };
        assert_eq!(shorter(20_270_120, 20_270_110), [OneMonthLess, SameMonth, SecSa]);
        assert_eq!(
            shorter(20_270_116, 20_270_115),
            [OneMonthLess, SameMonth, DayBefore, SecSa]
        );
        assert_eq!(shorter(20_270_120, 20_270_115), [OneMonthLess, SameMonth, SecSa]);
        assert_eq!(shorter(20_270_210, 20_270_110), [OneMonthLess, SecSa]);
    }

    /// One to take counts in the deals in which nothing is inferred, and beside a rating of its own that differs.
    #[test]
    fn ratings_that_are_not_taken_are_counted() {
        let of = |facts: &[u64], rating| untaken(facts, POOL, &[(1, 36, rating), (2, 36, 5)], 0);
        assert_eq!(of(&[0, 1, 1, 0], 0), [UntakenFeature::Resecuritisation]);
        assert_eq!(of(&[1, 0, 1, 0], 0), [UntakenFeature::SecIrba]);
        assert_eq!(of(&[1, 0, 0, 0], 0), [UntakenFeature::WithoutDiligence]);
        assert_eq!(of(FACTS, 6), [UntakenFeature::Rated]);
        assert_eq!([of(FACTS, 5), of(&[0, 1, 1, 0], 6)], [[], []]);
    }

    /// What a sheet shows that is refused for its second tranche, without thickness and far above the charge, which has
    /// this rating; the others have these months and ratings.
    fn refused(facts: &[u64], rating: u64, others: [(u64, u64); 2]) -> Vec<InferredRefusal> {
        let [senior, junior] = others;
        let rows = [
            (1_000_001, 1, senior.0, [senior.1, 0, 0]),
            (1, 2, 36, [rating, 0, 0]),
            (1_000_000, 3, junior.0, [junior.1, 0, 0]),
        ];
        let sheet = sheet(facts, [10_000_000_000, 10, 0], &rows, 1_000_000);
        let refused = independent::weigh(&sheet, u64::MAX).expect_err("a refused sheet");
        assert_eq!(refused.number, refusal::THIN);
        let features = InferredRefusal::TABLE.map(|(feature, _)| feature).into_iter();
        features.filter(|feature| feature.shown(&sheet, &refused)).collect()
    }

    /// A refused tranche counts by what is rated; with no rating in the sheet, or one of its own, it does not.
    #[test]
    fn refusals_are_counted() {
        assert_eq!(refused(FACTS, 0, [(36, 5), (36, 0)]), [InferredRefusal::SeniorClasses]);
        assert_eq!(refused(FACTS, 0, [(36, 0), (35, 5)]), [InferredRefusal::TooShort]);
        assert_eq!(refused(FACTS, 0, [(36, 0), (36, 0)]), []);
        let one_to_take = [(36, 0), (36, 5)];
        assert_eq!(
            refused(&[0, 1, 1, 0], 0, one_to_take),
            [InferredRefusal::Resecuritisation]
        );
        assert_eq!(refused(&[1, 0, 1, 0], 0, one_to_take), [InferredRefusal::SecIrba]);
        assert_eq!(refused(&[0, 1, 1, 0], 9, one_to_take), []);
        let other = Refusal { number: 1, place: 0 };
        assert!(InferredRefusal::TABLE
            .iter()
            .all(|(feature, _)| !feature.shown(&[], &other)));
    }
}
