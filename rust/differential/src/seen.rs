//! A line of an accepted sheet with what of the sheet bears on its weight ("Which approach, then floor, then cap", with
//! S-1 for STC deals, S-2 for several ratings, S-3 for dates, S-5 for SEC-IRBA, S-6 for the least weight and S-8 for
//! inferred ratings).

use crate::answer::Approach;
use crate::dates;
use crate::sheet::{Fact, IrbWord, Layout, TrancheWord, RATINGS};
use independent::date::Date;
use independent::formula::{raw_weights, Terms, HIGHEST_WEIGHT};
use independent::inferred::ratings_that_count;
use independent::irba::Sum;
use independent::rating::{self, Table};
use independent::sheet::{Irb, Tranche};
use independent::{Deal, Line};

/// The kinds of deals that have floors and parameters of their own.
#[derive(Debug, Clone, Copy, PartialEq, Eq)]
pub enum DealKind {
    /// An ordinary securitisation without the STC mark.
    Ordinary,
    /// An STC deal.
    Stc,
    /// A re-securitisation.
    Resecuritisation,
}

impl DealKind {
    /// The kind of an accepted sheet's deal.
    pub fn of_sheet(sheet: &[u64]) -> DealKind {
        let layout = Layout::of_sheet(sheet);
        let answers = [Fact::Resecuritisation, Fact::Stc].map(|fact| layout.fact_word(sheet, fact));
        match answers {
            [0, 0] => DealKind::Ordinary,
            [0, _] => DealKind::Stc,
            _ => DealKind::Resecuritisation,
        }
    }

    /// The floor of class 1, or else of the classes below.
    fn floor(self, senior: bool) -> u64 {
        match (self, senior) {
            (DealKind::Ordinary, _) => 1_500,
            (DealKind::Stc, true) => 1_000,
            (DealKind::Stc, false) => 1_500,
            (DealKind::Resecuritisation, _) => 10_000,
        }
    }

    /// The supervisory parameter under SEC-SA, in millionths.
    fn parameter(self) -> u64 {
        match self {
            DealKind::Ordinary => 1_000_000,
            DealKind::Stc => 500_000,
            DealKind::Resecuritisation => 1_500_000,
        }
    }
}

/// What the deal's rating table gives a tranche by the ratings that count for it.
pub struct Rated {
    /// The weight before floor and cap.
    pub weight: u64,
    /// The weight before floor and cap that the tranche would have in class 1: its senior figure.
    pub senior_weight: u64,
    /// The weight before floor and cap that the tranche would have with a month more.
    pub longer_weight: u64,
    /// The tranche's maturity in months.
    pub months: u64,
    /// The rating words that count.
    pub codes: [u64; RATINGS],
    /// The weight by each of the words alone, before floor and cap; none where the word is no rating.
    pub weights: [Option<u64>; RATINGS],
    /// The least weight before floor and cap.
    pub least_weight: u64,
    /// The least weight by each of the words alone, before floor and cap; none where the word is no rating.
    pub least_weights: [Option<u64>; RATINGS],
}

impl Rated {
    /// What the table of the deal gives the tranche, so thick.
    fn new(kind: DealKind, tranche: &Tranche, thickness: u64) -> Rated {
        let &Tranche {
            class,
            months,
            ratings: codes,
            ..
        } = tranche;
        let table = Table::of(kind == DealKind::Stc);
        let with = |class, months, ratings| Tranche {
            class,
            months,
            ratings,
            ..*tranche
        };
        let weight = |tranche: Tranche| rating::weight(table, &tranche, thickness);
        let least_weight = |tranche: Tranche| rating::least_weight(table, &tranche, thickness);
        let alone = codes.map(|code| (code != 0).then(|| with(class, months, [code, 0, 0])));
        Rated {
            weight: weight(*tranche),
            senior_weight: weight(with(1, months, codes)),
            longer_weight: weight(with(class, months + 1, codes)),
            months,
            codes,
            weights: alone.map(|tranche| tranche.map(weight)),
            least_weight: least_weight(*tranche),
            least_weights: alone.map(|tranche| tranche.map(least_weight)),
        }
    }

    /// The code of the only rating that counts; none where there are several.
    pub fn only_code(&self) -> Option<u64> {
        let mut codes = self.codes.into_iter().filter(|&code| code != 0);
        codes.next().filter(|_| codes.next().is_none())
    }
}

/// The tranche with these words and months, as the independent implementation reads it, but for its place.
fn tranche_of(words: &[u64; TrancheWord::COUNT], months: u64) -> Tranche {
    let &[amount, class, _, held, first, second, third] = words;
    Tranche {
        amount,
        class,
        months,
        held,
        ratings: [first, second, third],
        place: 0,
    }
}

/// A tranche of a sheet, counted from 0, but for its place.
fn tranche_at(sheet: &[u64], layout: &Layout, tranche: usize) -> Tranche {
    let months = dates::months(sheet, layout, tranche).expect("a good maturity");
    tranche_of(layout.tranche_words(sheet, tranche), months)
}

/// A tranche of a sheet in which ratings are inferred, with those that count for it.
fn with_ratings_that_count(sheet: &[u64], layout: &Layout, tranche: &Tranche) -> Tranche {
    let all: Vec<Tranche> = (0..layout.tranches)
        .map(|number| tranche_at(sheet, layout, number))
        .collect();
    Tranche {
        ratings: ratings_that_count(&all, tranche),
        ..*tranche
    }
}

/// The IRB section with these words, as the independent implementation reads it.
fn irb_of(words: &[u64; IrbWord::COUNT]) -> Irb {
    let &[charge, loss, loans, retail, share, average] = words;
    Irb {
        charge,
        loss,
        loans,
        retail: retail == 1,
        share,
        average,
    }
}

/// The dates of a tranche.
#[derive(Debug, Clone, Copy, PartialEq, Eq)]
pub struct Dates {
    /// The deal's reporting date.
    pub reporting: Date,
    /// The tranche's maturity.
    pub maturity: Date,
    /// The months from the one to the other.
    pub months: u64,
}

/// A line of an accepted sheet with what bears on its weight.
pub struct Seen<'a> {
    /// The line.
    pub line: &'a Line,
    /// The charge.
    pub charge: u64,
    /// The kind of the deal.
    pub kind: DealKind,
    /// Whether due diligence is held.
    pub due_diligence: bool,
    /// The IRB section, where there is one.
    pub irb: Option<Irb>,
    /// The tranche, with its own ratings.
    pub tranche: Tranche,
    /// Whether the tranche is of class 1.
    pub senior: bool,
    /// Whether the cap applies to the tranche.
    pub capped: bool,
    /// The tranche's dates, in a deal with a reporting date.
    pub dates: Option<Dates>,
    /// What the deal's rating table gives, for a line under SEC-ERBA.
    pub rated: Option<Rated>,
}

impl<'a> Seen<'a> {
    /// The line of a tranche, counted from 0, of an accepted sheet.
    pub fn new(sheet: &[u64], deal: &'a Deal, tranche: usize) -> Seen<'a> {
        let layout = Layout::of_sheet(sheet);
        let line = &deal.lines[tranche];
        let words = layout.tranche_words(sheet, tranche);
        let kind = DealKind::of_sheet(sheet);
        let answered = |fact| layout.fact_word(sheet, fact) == 1;
        let tranche = tranche_at(sheet, &layout, tranche);
        let senior = tranche.class == 1;
        let maturity = Date::of_word(words[TrancheWord::Maturity as usize]);
        let dates = dates::reporting_date(sheet, &layout).zip(maturity);
        let rated = line.approach == Approach::SecErba.word();
        Seen {
            line,
            charge: deal.charge,
            kind,
            due_diligence: answered(Fact::DueDiligence),
            irb: layout.irb_words(sheet).map(irb_of),
            tranche,
            senior,
            capped: senior && answered(Fact::Composition) && kind != DealKind::Resecuritisation,
            dates: dates.map(|(reporting, maturity)| Dates {
                reporting,
                maturity,
                months: tranche.months,
            }),
            rated: rated.then(|| {
                let tranche = with_ratings_that_count(sheet, &layout, &tranche);
                Rated::new(kind, &tranche, line.detachment - line.attachment)
            }),
        }
    }

    /// The IRB section and the parameter's sum of a line under SEC-IRBA.
    pub fn irba(&self) -> Option<(Irb, Sum)> {
        let irb = self.irb.filter(|_| self.is(Approach::SecIrba))?;
        Some((irb, Sum::of(&irb, self.charge, &self.tranche)))
    }

    /// The parameter's sum that the tranche would have with this section and a month more.
    pub fn longer_sum(&self, irb: &Irb) -> Sum {
        let longer = Tranche {
            months: self.tranche.months + 1,
            ..self.tranche
        };
        Sum::of(irb, self.charge, &longer)
    }

    /// Whether the tranche has a rating of its own.
    pub fn is_rated(&self) -> bool {
        self.tranche.ratings.iter().any(|&code| code != 0)
    }

    /// The weight; the lower one where two are admitted.
    pub fn weight(&self) -> u64 {
        self.line.amounts[0].weight
    }

    /// The least weight; the lower one where two are admitted.
    pub fn least_weight(&self) -> u64 {
        self.line.least_weights[0]
    }

    /// The floor of the tranche.
    pub fn floor(&self) -> u64 {
        self.kind.floor(self.senior)
    }

    /// Whether the line is under this approach.
    pub fn is(&self, approach: Approach) -> bool {
        self.line.approach == approach.word()
    }

    /// Whether the formula applies: SEC-SA and SEC-IRBA.
    fn under_formula(&self) -> bool {
        self.is(Approach::SecSa) || self.is(Approach::SecIrba)
    }

    /// Whether the weight comes from the formula, by K = 0 or by the exponentials: D is above K.
    fn by_formula(&self) -> bool {
        self.under_formula() && self.line.detachment > self.charge
    }

    /// Whether the weight comes from the exponentials: K is at least 1 and D above K.
    fn by_exponentials(&self) -> bool {
        self.by_formula() && self.charge > 0
    }

    /// Whether the raw weight is 125,000 because D is at most K.
    fn at_most_charge(&self) -> bool {
        self.under_formula() && self.line.detachment <= self.charge
    }

    /// Whether the weight is 125,000 because D is at most K.
    pub fn below_charge(&self) -> bool {
        self.at_most_charge() && self.weight() == HIGHEST_WEIGHT
    }

    /// Whether the cap lowers a weight that is 125,000 before it because D is at most K.
    pub fn capped_below_charge(&self) -> bool {
        self.at_most_charge() && self.weight() < HIGHEST_WEIGHT
    }

    /// Whether K is 0 and D above it, under the formula.
    pub fn zero_charge(&self) -> bool {
        self.by_formula() && self.charge == 0
    }

    /// Whether K and D are 0, under the formula.
    pub fn zero_charge_and_point(&self) -> bool {
        self.under_formula() && self.charge == 0 && self.line.detachment == 0
    }

    /// Whether A is below K and D above it, under the formula.
    pub fn across_charge(&self) -> bool {
        self.by_formula() && self.line.attachment < self.charge
    }

    /// Whether A is K, and both are above 0, under the formula.
    pub fn starts_at_charge(&self) -> bool {
        self.by_exponentials() && self.line.attachment == self.charge
    }

    /// Whether K is at least 1, D above K and the thickness one millionth, the least that is accepted there.
    pub fn thin_above_charge(&self) -> bool {
        self.by_exponentials() && self.line.detachment - self.line.attachment == 1
    }

    /// Whether two raw weights pass and give two weights.
    pub fn two_weights(&self) -> bool {
        self.line.amounts.len() == 2
    }

    /// Whether the floor decided the weight: the weight by the table is below it, or the lower one by the formula is.
    /// That is so where two neighbouring raw weights, or the raw weight 0, give one weight, the floor, and there is no
    /// cap.
    pub fn floor_decided(&self) -> bool {
        let below = match &self.rated {
            Some(rated) => rated.weight < self.floor(),
            None => self.by_formula() && !self.two_weights(),
        };
        below && !self.capped && self.weight() == self.floor()
    }

    /// Whether the weight is the table's, and the floor as well: no figure of class 1 of an STC deal is below its floor.
    pub fn table_at_floor(&self) -> bool {
        let at_floor = |rated: &Rated| rated.weight == self.floor();
        self.rated.as_ref().is_some_and(at_floor) && self.weight() == self.floor()
    }

    /// Whether a non-senior tranche has by the table just the weight that it would have in class 1.
    pub fn at_senior(&self) -> bool {
        let at_senior = |rated: &Rated| rated.weight == rated.senior_weight;
        !self.senior && self.rated.as_ref().is_some_and(at_senior)
    }

    /// The senior figure of a non-senior tranche whose weight is below it.
    pub fn senior_above(&self) -> Option<u64> {
        let senior = self.rated.as_ref()?.senior_weight;
        (!self.senior && self.weight() < senior).then_some(senior)
    }

    /// Whether the weight is the table's, and a month more would change it.
    pub fn weight_by_months(&self) -> bool {
        let changes = |rated: &Rated| rated.weight == self.weight() && rated.weight != rated.longer_weight;
        self.rated.as_ref().is_some_and(changes)
    }

    /// Whether the cap decided a weight below the floor.
    pub fn capped_below_floor(&self) -> bool {
        self.capped && !self.is(Approach::Fallback) && self.weight() < self.floor()
    }

    /// Whether two numbers pass for the least weight and give two.
    pub fn two_least_weights(&self) -> bool {
        self.line.least_weights.len() == 2
    }

    /// Whether weight and least weight start from different numbers: they come from the exponentials, or the exact figure
    /// of the table is not whole.
    fn ends_differ(&self) -> bool {
        match &self.rated {
            Some(rated) => rated.least_weight < rated.weight,
            None => self.by_exponentials(),
        }
    }

    /// Whether they do, and neither floor nor cap changes them. By the formula that is so where two weights are left,
    /// neither of which the cap then lowers, and a least weight above the floor.
    pub fn ends_kept(&self) -> bool {
        let kept = match &self.rated {
            Some(rated) => (self.weight(), self.least_weight()) == (rated.weight, rated.least_weight),
            None => self.two_weights() && self.least_weight() > self.floor(),
        };
        self.ends_differ() && kept
    }

    /// Whether they start from one number that the table gives, and neither floor nor cap changes it.
    pub fn whole_figure_kept(&self) -> bool {
        let kept = |rated: &Rated| rated.least_weight == rated.weight && self.weight() == rated.weight;
        self.rated.as_ref().is_some_and(kept)
    }

    /// Whether they start from different numbers, and the floor makes weight and least weight equal.
    pub fn equal_by_floor(&self) -> bool {
        let raised = match &self.rated {
            Some(rated) => rated.weight <= self.floor(),
            None => !self.two_weights(),
        };
        self.ends_differ() && raised && !self.capped && self.weight() == self.floor()
    }

    /// Whether they start from different numbers, which the floor leaves different, and the cap makes weight and least
    /// weight equal. By the formula this counts above the floor.
    pub fn equal_by_cap(&self) -> bool {
        let left_different = match &self.rated {
            Some(rated) => rated.weight > self.floor(),
            None => self.weight() > self.floor(),
        };
        let equal = !self.two_weights() && self.line.least_weights == [self.weight()];
        self.ends_differ() && left_different && equal
    }

    /// Whether the cap leaves one of two weights, above the floor, and every least weight below it. Without the cap one
    /// weight alone is above the floor at 125,000 only.
    pub fn cap_between(&self) -> bool {
        let taken = self.capped && !self.two_weights() && self.weight() < HIGHEST_WEIGHT;
        let below = self.line.least_weights.iter().all(|&least| least < self.weight());
        self.by_exponentials() && taken && self.weight() > self.floor() && below
    }

    /// The supervisory parameter of a line under the formula, in millionths.
    fn parameter(&self) -> u64 {
        let stc = self.kind == DealKind::Stc;
        self.irba().map_or(self.kind.parameter(), |(_, sum)| sum.parameter(stc))
    }

    /// Whether the exact value of the formula is below 1, so that the least weight starts from 0. The raw weights are 1
    /// and 2 then, of which the floor makes one.
    pub fn value_below_one(&self) -> bool {
        let terms = || Terms {
            charge: self.charge,
            attachment: self.line.attachment,
            detachment: self.line.detachment,
            parameter: self.parameter(),
        };
        self.by_exponentials() && !self.two_weights() && raw_weights(&terms()).least_weights == [0]
    }

    /// The code of the only rating that counts and the tranche's months, where the cap did not lower its weight.
    pub fn grade(&self) -> Option<(u64, u64)> {
        let rated = self.rated.as_ref()?;
        let code = rated.only_code()?;
        (self.weight() == rated.weight.max(self.floor())).then_some((code, rated.months))
    }
}

#[cfg(test)]
mod tests {
    use super::*;
    use crate::answer::LINE_WORDS;

    /// A sheet of two tranches over a pool of 1,000 at 100%: class 1 of 500, then class 2 of 500, each with a rating
    /// and 12 months.
    fn sheet(facts: &[u64], ratings: [u64; 2]) -> Vec<u64> {
        let status = if facts[1] == 1 { 3 } else { 0 };
        let tranche = |class, rating| [500, class, 12, 0, rating, 0, 0];
        let tranches = [tranche(1, ratings[0]), tranche(2, ratings[1])];
        let pool = [1, 1_000, 1_000, 100, status, 2];
        [&[facts.len() as u64], facts, &pool, tranches.as_flattened()].concat()
    }

    /// Sees the two lines of such a sheet.
    fn see<T>(facts: &[u64], ratings: [u64; 2], see: impl Fn(Seen) -> T) -> [T; 2] {
        let sheet = sheet(facts, ratings);
        let deal = independent::weigh(&sheet, 2 * LINE_WORDS as u64).expect("an accepted sheet");
        [0, 1].map(|tranche| see(Seen::new(&sheet, &deal, tranche)))
    }

    /// The kind of the deal, its floors and its cap, with four, five and six facts; and its parameter.
    #[test]
    fn kinds_and_floors() {
        let terms = |facts: &[u64]| see(facts, [0, 0], |seen| (seen.kind, seen.floor(), seen.capped));
        let parameter = |facts: &[u64]| see(facts, [0, 0], |seen| seen.parameter())[0];
        let parameters = [&[0, 0, 1, 1][..], &[0, 0, 1, 1, 1], &[0, 1, 1, 1]].map(parameter);
        assert_eq!(parameters, [1_000_000, 500_000, 1_500_000]);
        let ordinary = |floor, capped| (DealKind::Ordinary, floor, capped);
        assert_eq!(terms(&[0, 0, 1, 1]), [ordinary(1_500, true), ordinary(1_500, false)]);
        assert_eq!(
            terms(&[0, 0, 1, 0, 0]),
            [ordinary(1_500, false), ordinary(1_500, false)]
        );
        let stc = |floor, capped| (DealKind::Stc, floor, capped);
        assert_eq!(terms(&[0, 0, 1, 1, 1]), [stc(1_000, true), stc(1_500, false)]);
        let resecuritisation = (DealKind::Resecuritisation, 10_000, false);
        assert_eq!(terms(&[0, 1, 1, 1]), [resecuritisation; 2]);
        assert_eq!(terms(&[0, 1, 1, 1, 0]), [resecuritisation; 2]);
        assert_eq!(terms(&[0, 1, 1, 1, 0, 0]), [resecuritisation; 2]);
        assert_eq!(terms(&[0, 0, 1, 1, 1, 0]), [stc(1_000, true), stc(1_500, false)]);
    }

    /// What the table gives a rated line, as it stands and in class 1: A+ half thick, whose weight is the senior figure,
    /// or in an STC deal lies below it. These figures are whole, so that each is its least weight too.
    #[test]
    fn table_weights() {
        let weights = |rated: Rated| {
            assert_eq!(rated.least_weight, rated.weight);
            (rated.weight, rated.senior_weight)
        };
        let rated = |facts: &[u64]| see(facts, [5, 5], |seen| seen.rated.map(weights));
        assert_eq!(rated(&[0, 0, 1, 0]), [Some((4_000, 4_000)); 2]);
        assert_eq!(rated(&[0, 0, 1, 0, 1]), [Some((2_000, 2_000)), Some((1_750, 2_000))]);
        assert_eq!(rated(&[0, 1, 1, 0]), [None; 2]);
        assert_eq!(rated(&[0, 0, 0, 0]), [None; 2]);
    }

    /// The senior figure above a weight is seen below class 1 and in an STC deal only.
    #[test]
    fn senior_figures() {
        let above = |facts: &[u64]| see(facts, [5, 5], |seen| (seen.at_senior(), seen.senior_above()));
        assert_eq!(above(&[0, 0, 1, 0]), [(false, None), (true, None)]);
        assert_eq!(above(&[0, 0, 1, 0, 1]), [(false, None), (false, Some(2_000))]);
    }

    /// The floor decides where the weight before it is below it: class 2 with the first short-term grade in an STC deal;
    /// not class 1, whose figure is the floor.
    #[test]
    fn floors_that_decide() {
        let decided = |facts: &[u64], ratings| see(facts, ratings, |seen| seen.floor_decided());
        let at_floor = |facts: &[u64], ratings| see(facts, ratings, |seen| seen.table_at_floor());
        assert_eq!(decided(&[0, 0, 1, 0, 1], [21, 21]), [false, true]);
        assert_eq!(at_floor(&[0, 0, 1, 0, 1], [21, 21]), [true, false]);
        assert_eq!(decided(&[0, 0, 1, 0], [21, 21]), [false, false]);
        assert_eq!(decided(&[0, 0, 1, 0, 1], [0, 0]), [true, false]);
        assert_eq!(decided(&[0, 0, 1, 0], [0, 0]), [true, false]);
    }

    /// Dates are seen with their months, by which the table is read; without a reporting date the word is the months.
    #[test]
    fn months_of_dates() {
        let facts = |date| [0, 0, 1, 0, 0, date];
        let see_at = |date, maturity| {
            let mut sheet = sheet(&facts(date), [3, 3]);
            let layout = Layout::of_sheet(&sheet);
            for tranche in 0..layout.tranches {
                sheet[layout.tranche_word(tranche, TrancheWord::Maturity)] = maturity;
            }
            let deal = independent::weigh(&sheet, 2 * LINE_WORDS as u64).expect("an accepted sheet");
            let seen = Seen::new(&sheet, &deal, 0);
            let weights = seen.rated.as_ref().map(|rated| (rated.weight, rated.longer_weight));
            (seen.dates.map(|dates| dates.months), weights, seen.weight_by_months())
        };
        assert_eq!(see_at(20_240_131, 20_270_131), (Some(36), Some((3_100, 3_125)), true));
        assert_eq!(see_at(20_240_131, 20_270_201), (Some(37), Some((3_125, 3_150)), true));
        assert_eq!(see_at(20_240_131, 20_240_201), (Some(1), Some((2_500, 2_500)), false));
        assert_eq!(see_at(0, 36), (None, Some((3_100, 3_125)), true));
    }

    /// The IRB section is seen with any approach, and the sum under SEC-IRBA alone: here of a wholesale senior tranche
    /// with one loan, at one year and a month more, 0.11 + 2.61 - 2.91 + 0.34 + 0.07 x years.
    #[test]
    fn sections_and_sums() {
        let see_section = |facts: &[u64], share| {
            let section = [1, 1_000_000, 500_000, 1, 0, share, 7];
            let sheet = [&sheet(facts, [0, 9])[..], &section].concat();
            let deal = independent::weigh(&sheet, 2 * LINE_WORDS as u64).expect("an accepted sheet");
            let seen = Seen::new(&sheet, &deal, 0);
            let parameter = |sum: Sum| sum.numerator / sum.denominator;
            assert_eq!(
                seen.parameter(),
                if seen.irba().is_some() { 300_000 } else { 1_000_000 }
            );
            let sums = seen
                .irba()
                .map(|(irb, sum)| [sum, seen.longer_sum(&irb)].map(parameter));
            let rated = Seen::new(&sheet, &deal, 1).is_rated();
            (seen.irb.map(|irb| irb.average), sums, seen.is_rated(), rated)
        };
        let sums = Some([220_000, 224_666]);
        assert_eq!(see_section(&[1, 0, 1, 0], 1_000_000), (Some(7), sums, false, true));
        assert_eq!(see_section(&[2, 0, 1, 0], 949_999), (Some(7), None, false, true));
        assert_eq!(see_section(&[1, 0, 0, 0], 1_000_000), (Some(7), None, false, true));
        assert!(see(&[0, 0, 1, 0], [0, 0], |seen| seen.irb.is_none()) == [true; 2]);
    }

    /// A grade is seen where it alone gives the weight, be it through the floor or to a tranche that takes it: not at the
    /// cap, not beside another.
    #[test]
    fn grades_that_decide() {
        let grades = |facts: &[u64], ratings| see(facts, ratings, |seen| seen.grade());
        assert_eq!(grades(&[0, 0, 1, 0, 1], [21, 21]), [Some((21, 12)); 2]);
        assert_eq!(grades(&[0, 0, 1, 1], [18, 18]), [None, Some((18, 12))]);
        assert_eq!(grades(&[0, 0, 1, 1], [0, 7]), [Some((7, 12)); 2]);
        assert_eq!(grades(&[0, 0, 1, 1], [7, 0]), [Some((7, 12)), None]);
        assert_eq!(grades(&[0, 0, 1, 1], [0, 0]), [None; 2]);
        let several = Rated::new(DealKind::Stc, &tranche_of(&[1, 2, 12, 0, 5, 5, 0], 12), 0);
        assert_eq!((several.weight, several.only_code()), (3_500, None));
        assert_eq!(several.weights, [Some(3_500), Some(3_500), None]);
        let near = Rated::new(DealKind::Ordinary, &tranche_of(&[1, 2, 72, 0, 1, 0, 22], 72), 285_715);
        assert_eq!((near.weights, near.weight), ([Some(5_000), None, Some(5_000)], 5_000));
        assert_eq!(
            (near.least_weights, near.least_weight),
            ([Some(4_999), None, Some(5_000)], 5_000)
        );
    }
}
