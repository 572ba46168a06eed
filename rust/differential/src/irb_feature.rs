//! What a run must meet by the pool kind and the IRB section (S-5): on some refused sheet, on some accepted one, on
//! some line, and by each row of the parameter's coefficients.

use crate::answer::{refusal, Approach};
use crate::seen::{DealKind, Seen};
use crate::sheet::{
    pool_kind, status, Fact, IrbWord, Layout, RowWord, IRB_AVERAGE, IRB_COUNT, IRB_SHARE, LOANS, MANY_LOANS, WHOLE,
};
use independent::approach::irb_of;
use independent::irba::Sum;
use independent::sheet::Irb;
use independent::{Deal, Refusal};

/// What must be met on some refused sheet.
#[derive(Debug, Clone, Copy, PartialEq, Eq)]
pub enum IrbRefusal {
    /// A word of the section has this value, the first outside its limits.
    Figure(IrbWord, u64),
    /// The share has this value, the first outside the limits of a pool of this kind.
    Share {
        /// The pool kind.
        kind: u64,
        /// The value.
        value: u64,
    },
    /// A word of the section is outside its limits, in a re-securitisation.
    FigureOfResecuritisation,
    /// A word of the section is outside its limits, without due diligence.
    FigureWithoutDiligence,
    /// The section's count is 0.
    CountNone,
    /// The section's count is one more than it must be.
    CountMore,
    /// The sheet of a pool other than SA ends after the tranches.
    CountMissing,
    /// The sheet ends within the section.
    WordMissing,
    /// Words follow the section.
    WordsFollow,
    /// A whole section follows the tranches of an SA pool.
    SectionOfSaPool,
    /// The first number that is no pool kind.
    NoPoolKind,
    /// A tranche without thickness under SEC-IRBA.
    Thin,
    /// The same in an STC deal.
    StcThin,
    /// The same, where the tranche is rated.
    RatedThin,
    /// A tranche without thickness of a deal that has a section and is not under SEC-IRBA.
    ThinOfSecSa,
}

impl IrbRefusal {
    /// All features with their names.
    pub(crate) const TABLE: [(IrbRefusal, &'static str); 22] = [
        (
            IrbRefusal::Figure(IrbWord::Charge, WHOLE + 1),
            "refusal 18 for an IRB charge of 1,000,001",
        ),
        (
            IrbRefusal::Figure(IrbWord::Loss, WHOLE + 1),
            "refusal 18 for a loss of 1,000,001",
        ),
        (IrbRefusal::Figure(IrbWord::Loans, 0), "refusal 18 for 0 loans"),
        (
            IrbRefusal::Figure(IrbWord::Loans, LOANS + 1),
            "refusal 18 for 1,000,001 loans",
        ),
        (IrbRefusal::Figure(IrbWord::Retail, 2), "refusal 18 for retail 2"),
        (
            IrbRefusal::Figure(IrbWord::Average, IRB_AVERAGE + 1),
            "refusal 18 for an IRB average of 125,001",
        ),
        (
            IrbRefusal::Share {
                kind: pool_kind::IRB,
                value: WHOLE - 1,
            },
            "refusal 18 for a share of 999,999, IRB pool",
        ),
        (
            IrbRefusal::Share {
                kind: pool_kind::IRB,
                value: WHOLE + 1,
            },
            "refusal 18 for a share of 1,000,001, IRB pool",
        ),
        (
            IrbRefusal::Share {
                kind: pool_kind::MIXED,
                value: WHOLE + 1,
            },
            "refusal 18 for a share of 1,000,001, mixed pool",
        ),
        (
            IrbRefusal::FigureOfResecuritisation,
            "refusal 18 in a re-securitisation",
        ),
        (IrbRefusal::FigureWithoutDiligence, "refusal 18 without due diligence"),
        (IrbRefusal::CountNone, "refusal 2 for an IRB section's count of 0"),
        (IrbRefusal::CountMore, "refusal 2 for an IRB section's count of 2"),
        (IrbRefusal::CountMissing, "refusal 1 for the IRB section's count"),
        (IrbRefusal::WordMissing, "refusal 1 within the IRB section"),
        (IrbRefusal::WordsFollow, "refusal 3 after the IRB section"),
        (IrbRefusal::SectionOfSaPool, "refusal 3 for the section of an SA pool"),
        (IrbRefusal::NoPoolKind, "refusal 4 for pool kind 3"),
        (IrbRefusal::Thin, "refusal 13 under SEC-IRBA"),
        (IrbRefusal::StcThin, "refusal 13 under SEC-IRBA, STC deal"),
        (IrbRefusal::RatedThin, "refusal 13 under SEC-IRBA, rated"),
        (IrbRefusal::ThinOfSecSa, "refusal 13 with a section, SEC-SA"),
    ];

    /// Whether a refused sheet shows the feature. Words before the place of a refusal are good, so they can be read.
    pub(crate) fn shown(self, sheet: &[u64], refused: &Refusal) -> bool {
        let place = refused.place as usize;
        let kind = Layout::fact(Fact::PoolKind);
        match (self, refused.number) {
            (_, refusal::THIN) => self.shown_by_thin(sheet, refused),
            (IrbRefusal::NoPoolKind, refusal::FACT) => place == kind && sheet[kind] == pool_kind::MIXED + 1,
            _ => {
                let layout = Layout::before(sheet, place).filter(|layout| place >= layout.irb_count());
                layout.is_some_and(|layout| self.shown_after_tranches(sheet, &layout, refused))
            }
        }
    }

    /// Whether a sheet refused for a tranche without thickness shows the feature. All its words are good.
    fn shown_by_thin(self, sheet: &[u64], refused: &Refusal) -> bool {
        let read = independent::sheet::read(sheet).expect("a sheet of good words");
        let irba = irb_of(&read).is_some();
        let mut refused_ones = read.tranches.iter().filter(|tranche| tranche.place == refused.place);
        match self {
            IrbRefusal::Thin => irba,
            IrbRefusal::StcThin => irba && read.facts.stc,
            IrbRefusal::RatedThin => irba && refused_ones.any(|tranche| tranche.ratings != [0; 3]),
            IrbRefusal::ThinOfSecSa => read.irb.is_some() && !irba,
            _ => false,
        }
    }

    /// Whether a sheet refused at a place after its tranches shows the feature.
    fn shown_after_tranches(self, sheet: &[u64], layout: &Layout, refused: &Refusal) -> bool {
        let (number, place) = (refused.number, refused.place as usize);
        let at_count = |of_number| (number, place) == (of_number, layout.irb_count());
        let word = sheet.get(place).copied();
        let figure = number == refusal::IRB_FIGURE;
        let figure_is = |of, value| figure && place == layout.irb_word(of) && word == Some(value);
        let fact_is = |fact, word| layout.fact_word(sheet, fact) == word;
        match self {
            IrbRefusal::Figure(of, value) => figure_is(of, value),
            IrbRefusal::Share { kind, value } => fact_is(Fact::PoolKind, kind) && figure_is(IrbWord::Share, value),
            IrbRefusal::FigureOfResecuritisation => figure && fact_is(Fact::Resecuritisation, 1),
            IrbRefusal::FigureWithoutDiligence => figure && fact_is(Fact::DueDiligence, 0),
            IrbRefusal::CountNone => at_count(refusal::COUNT) && word == Some(0),
            IrbRefusal::CountMore => at_count(refusal::COUNT) && word == Some(IRB_COUNT + 1),
            IrbRefusal::CountMissing => at_count(refusal::MISSING),
            IrbRefusal::WordMissing => number == refusal::MISSING && place > layout.irb_count(),
            IrbRefusal::WordsFollow => number == refusal::WORDS_FOLLOW && layout.irb,
            IrbRefusal::SectionOfSaPool => {
                let section = sheet.len() == layout.irb_count() + 1 + IrbWord::COUNT && word == Some(IRB_COUNT);
                number == refusal::WORDS_FOLLOW && !layout.irb && section
            }
            _ => false,
        }
    }
}

/// What must be met on some accepted sheet.
#[derive(Debug, Clone, Copy, PartialEq, Eq)]
pub enum IrbFeature {
    /// An IRB pool under SEC-IRBA.
    IrbPool,
    /// A mixed pool under SEC-IRBA.
    MixedPool,
    /// The same, with another charge than the IRB charge.
    MixedCharge,
    /// The same, with the least share.
    LeastShare,
    /// A mixed pool with one millionth less than the least share, in an ordinary deal with due diligence.
    ShareBelow,
    /// Late rows under SEC-IRBA.
    LateRows,
    /// Unknown rows above 5% of the exposure under SEC-IRBA.
    UnknownRows,
    /// All rows unknown under SEC-IRBA.
    AllUnknown,
    /// A re-securitisation of an IRB pool.
    IrbResecuritisation,
    /// A re-securitisation of a mixed pool.
    MixedResecuritisation,
    /// An ordinary deal of an IRB pool without due diligence.
    IrbWithoutDiligence,
    /// An ordinary deal of a mixed pool without due diligence.
    MixedWithoutDiligence,
    /// The cap decided a weight under SEC-IRBA.
    CapDecided,
}

impl IrbFeature {
    /// All features with their names, in the order of the enum.
    pub(crate) const TABLE: [(IrbFeature, &'static str); 13] = [
        (IrbFeature::IrbPool, "SEC-IRBA: IRB pool"),
        (IrbFeature::MixedPool, "SEC-IRBA: mixed pool"),
        (IrbFeature::MixedCharge, "SEC-IRBA: mixed charge"),
        (IrbFeature::LeastShare, "SEC-IRBA: share 950,000"),
        (IrbFeature::ShareBelow, "mixed pool: share 949,999"),
        (IrbFeature::LateRows, "SEC-IRBA: late rows"),
        (IrbFeature::UnknownRows, "SEC-IRBA: unknown exposure above 5%"),
        (IrbFeature::AllUnknown, "SEC-IRBA: all rows unknown"),
        (IrbFeature::IrbResecuritisation, "IRB pool accepted, re-securitisation"),
        (
            IrbFeature::MixedResecuritisation,
            "mixed pool accepted, re-securitisation",
        ),
        (
            IrbFeature::IrbWithoutDiligence,
            "IRB pool accepted without due diligence",
        ),
        (
            IrbFeature::MixedWithoutDiligence,
            "mixed pool accepted without due diligence",
        ),
        (IrbFeature::CapDecided, "SEC-IRBA: cap decided"),
    ];

    /// Whether an accepted sheet shows the feature. Whether the cap decided is not told from the answer alone.
    pub(crate) fn shown(self, sheet: &[u64], deal: &Deal) -> bool {
        let layout = Layout::of_sheet(sheet);
        let section = layout.irb_words(sheet);
        section.is_some_and(|irb| match is_under_irba(deal) {
            true => self.shown_under_irba(sheet, &layout, irb, deal),
            false => self.shown_by_other(sheet, &layout, irb),
        })
    }

    /// Whether an accepted sheet with this section, under SEC-IRBA, shows the feature.
    fn shown_under_irba(self, sheet: &[u64], layout: &Layout, irb: &[u64; IrbWord::COUNT], deal: &Deal) -> bool {
        let mixed = layout.fact_word(sheet, Fact::PoolKind) == pool_kind::MIXED;
        let exposure = |counts: fn(u64) -> bool| exposure(layout.pool(sheet), counts);
        let unknown = || exposure(|code| code == status::NOT_KNOWN);
        match self {
            IrbFeature::IrbPool => !mixed,
            IrbFeature::MixedPool => mixed,
            IrbFeature::MixedCharge => mixed && deal.charge != irb[IrbWord::Charge as usize],
            IrbFeature::LeastShare => mixed && irb[IrbWord::Share as usize] == IRB_SHARE,
            IrbFeature::LateRows => exposure(|code| code == status::DELINQUENT) > 0,
            IrbFeature::UnknownRows => 20 * unknown() > exposure(|_| true),
            IrbFeature::AllUnknown => unknown() == exposure(|_| true),
            _ => false,
        }
    }

    /// Whether an accepted sheet with this section, not under SEC-IRBA, shows the feature.
    fn shown_by_other(self, sheet: &[u64], layout: &Layout, irb: &[u64; IrbWord::COUNT]) -> bool {
        let facts = [Fact::PoolKind, Fact::Resecuritisation, Fact::DueDiligence];
        let [kind, resecuritisation, due_diligence] = facts.map(|fact| layout.fact_word(sheet, fact));
        let ordinary = |of_kind, diligence| [kind, resecuritisation, due_diligence] == [of_kind, 0, diligence];
        match self {
            IrbFeature::ShareBelow => ordinary(pool_kind::MIXED, 1) && irb[IrbWord::Share as usize] == IRB_SHARE - 1,
            IrbFeature::IrbResecuritisation => [kind, resecuritisation] == [pool_kind::IRB, 1],
            IrbFeature::MixedResecuritisation => [kind, resecuritisation] == [pool_kind::MIXED, 1],
            IrbFeature::IrbWithoutDiligence => ordinary(pool_kind::IRB, 0),
            IrbFeature::MixedWithoutDiligence => ordinary(pool_kind::MIXED, 0),
            _ => false,
        }
    }
}

/// Whether a deal is under SEC-IRBA: all its lines are, if one is.
pub fn is_under_irba(deal: &Deal) -> bool {
    deal.lines[0].approach == Approach::SecIrba.word()
}

/// The exposure of the rows whose status counts.
fn exposure(rows: &[[u64; RowWord::COUNT]], counts: fn(u64) -> bool) -> u64 {
    let counted = rows.iter().filter(|row| counts(row[RowWord::Status as usize]));
    counted.map(|row| row[RowWord::Exposure as usize]).sum()
}

/// What must be met on some line. Under SEC-IRBA a feature of the parameter counts where two weights are admitted, so
/// that the exponentials decide the weight.
#[derive(Debug, Clone, Copy, PartialEq, Eq)]
pub enum IrbLineFeature {
    /// A mixed pool with less than the least share goes on as an SA pool: SEC-ERBA.
    SaPoolRated,
    /// The same: SEC-SA.
    SaPoolUnrated,
    /// The same: the fallback, with due diligence.
    SaPoolFallback,
    /// SEC-IRBA of a rated tranche.
    Rated,
    /// SEC-IRBA of a wholesale pool with the most loans that are few.
    MostOfFew,
    /// SEC-IRBA of a wholesale pool with the fewest loans that are many.
    FewestOfMany,
    /// SEC-IRBA of a retail pool with few loans.
    RetailFew,
    /// SEC-IRBA with the least share.
    LeastShare,
    /// The parameter's sum is negative.
    NegativeSum,
    /// The parameter's sum is negative in an STC deal.
    StcNegativeSum,
    /// The sum is within five millionths below 0.3, or at it.
    NearLeast,
    /// The sum is within five millionths above 0.3.
    AboveLeast,
    /// Half of the sum of an STC deal is within five millionths below 0.3, or at it.
    StcNearLeast,
    /// Half of the sum of an STC deal is within five millionths above 0.3.
    StcAboveLeast,
    /// The sum of an STC deal is above 0.3 and half of it below.
    HalfBelowLeast,
    /// The parameter is above 2.
    LargeParameter,
    /// The sum that the deal takes is above 0.3 and no whole number of millionths.
    RoundedUp,
    /// A dated deal whose parameter a month more would change.
    ParameterByMonths,
    /// Raw weight 125,000 because D is at most K.
    BelowCharge,
    /// K is 0 and D above it.
    ZeroCharge,
    /// K and D are 0.
    ZeroChargeAndPoint,
    /// A below K and D above it.
    AcrossCharge,
    /// A equal to K.
    FromCharge,
    /// One millionth thick above K.
    ThinAboveCharge,
    /// The floor decided a weight of class 1.
    SeniorFloor,
    /// The floor decided a weight below class 1.
    Floor,
    /// The floor decided a weight of class 1 of an STC deal.
    StcSeniorFloor,
    /// The floor decided a weight below class 1 of an STC deal.
    StcFloor,
    /// The cap decided a weight below the floor.
    CapBelowFloor,
    /// The cap decided a weight of 0.
    CapZero,
}

impl IrbLineFeature {
    /// All features with their names, in the order of the enum.
    pub(crate) const TABLE: [(IrbLineFeature, &'static str); 30] = [
        (IrbLineFeature::SaPoolRated, "mixed pool as SA pool: SEC-ERBA"),
        (IrbLineFeature::SaPoolUnrated, "mixed pool as SA pool: SEC-SA"),
        (IrbLineFeature::SaPoolFallback, "mixed pool as SA pool: fallback"),
        (IrbLineFeature::Rated, "SEC-IRBA lines: rated"),
        (IrbLineFeature::MostOfFew, "SEC-IRBA lines: wholesale, 24 loans"),
        (IrbLineFeature::FewestOfMany, "SEC-IRBA lines: wholesale, 25 loans"),
        (IrbLineFeature::RetailFew, "SEC-IRBA lines: retail, under 25 loans"),
        (IrbLineFeature::LeastShare, "SEC-IRBA lines: share 950,000"),
        (IrbLineFeature::NegativeSum, "SEC-IRBA lines: negative sum"),
        (IrbLineFeature::StcNegativeSum, "SEC-IRBA lines: negative sum, STC"),
        (IrbLineFeature::NearLeast, "SEC-IRBA lines: sum just below 0.3"),
        (IrbLineFeature::AboveLeast, "SEC-IRBA lines: sum just above 0.3"),
        (IrbLineFeature::StcNearLeast, "SEC-IRBA lines: half just below 0.3, STC"),
        (
            IrbLineFeature::StcAboveLeast,
            "SEC-IRBA lines: half just above 0.3, STC",
        ),
        (
            IrbLineFeature::HalfBelowLeast,
            "SEC-IRBA lines: half alone below 0.3, STC",
        ),
        (IrbLineFeature::LargeParameter, "SEC-IRBA lines: parameter above 2"),
        (IrbLineFeature::RoundedUp, "SEC-IRBA lines: parameter rounded up"),
        (
            IrbLineFeature::ParameterByMonths,
            "SEC-IRBA lines: parameter by dated months",
        ),
        (IrbLineFeature::BelowCharge, "SEC-IRBA lines: 125,000 with D at most K"),
        (IrbLineFeature::ZeroCharge, "SEC-IRBA lines: K = 0 and D above 0"),
        (IrbLineFeature::ZeroChargeAndPoint, "SEC-IRBA lines: K = 0 and D = 0"),
        (IrbLineFeature::AcrossCharge, "SEC-IRBA lines: A below K and D above K"),
        (IrbLineFeature::FromCharge, "SEC-IRBA lines: A = K and D above K"),
        (
            IrbLineFeature::ThinAboveCharge,
            "SEC-IRBA lines: one millionth thick above K",
        ),
        (IrbLineFeature::SeniorFloor, "SEC-IRBA lines: class 1, floor 1,500"),
        (IrbLineFeature::Floor, "SEC-IRBA lines: below class 1, floor 1,500"),
        (IrbLineFeature::StcSeniorFloor, "SEC-IRBA lines: STC, floor 1,000"),
        (IrbLineFeature::StcFloor, "SEC-IRBA lines: STC, floor 1,500"),
        (IrbLineFeature::CapBelowFloor, "SEC-IRBA lines: cap below the floor"),
        (IrbLineFeature::CapZero, "SEC-IRBA lines: cap 0"),
    ];

    /// Whether a line shows the feature.
    pub(crate) fn shown(self, seen: &Seen) -> bool {
        match seen.irba() {
            Some((irb, sum)) => self.shown_by_place(seen) || seen.two_weights() && self.shown_by_sum(seen, &irb, &sum),
            None => self.shown_as_sa_pool(seen),
        }
    }

    /// Whether a line of a mixed pool that goes on as an SA pool shows the feature.
    fn shown_as_sa_pool(self, seen: &Seen) -> bool {
        let goes_on = seen.irb.is_some() && seen.kind != DealKind::Resecuritisation && seen.due_diligence;
        goes_on
            && match self {
                IrbLineFeature::SaPoolRated => seen.is(Approach::SecErba),
                IrbLineFeature::SaPoolUnrated => seen.is(Approach::SecSa),
                IrbLineFeature::SaPoolFallback => seen.is(Approach::Fallback),
                _ => false,
            }
    }

    /// Whether a line under SEC-IRBA shows the feature by its ratings, its points, floor or cap.
    fn shown_by_place(self, seen: &Seen) -> bool {
        let floor_decided = |kind, senior| (seen.kind, seen.senior) == (kind, senior) && seen.floor_decided();
        match self {
            IrbLineFeature::Rated => seen.is_rated(),
            IrbLineFeature::BelowCharge => seen.below_charge(),
            IrbLineFeature::ZeroCharge => seen.zero_charge(),
            IrbLineFeature::ZeroChargeAndPoint => seen.zero_charge_and_point(),
            IrbLineFeature::AcrossCharge => seen.across_charge(),
            IrbLineFeature::FromCharge => seen.starts_at_charge(),
            IrbLineFeature::ThinAboveCharge => seen.thin_above_charge(),
            IrbLineFeature::SeniorFloor => floor_decided(DealKind::Ordinary, true),
            IrbLineFeature::Floor => floor_decided(DealKind::Ordinary, false),
            IrbLineFeature::StcSeniorFloor => floor_decided(DealKind::Stc, true),
            IrbLineFeature::StcFloor => floor_decided(DealKind::Stc, false),
            IrbLineFeature::CapBelowFloor => seen.capped_below_floor(),
            IrbLineFeature::CapZero => seen.capped_below_floor() && seen.weight() == 0,
            _ => false,
        }
    }

    /// Whether a line under SEC-IRBA with this section and sum shows the feature.
    fn shown_by_sum(self, seen: &Seen, irb: &Irb, sum: &Sum) -> bool {
        let stc = seen.kind == DealKind::Stc;
        let wholesale = |loans| !irb.retail && irb.loans == loans;
        let near = |of_stc, from| stc == of_stc && is_near_least(sum, stc, from);
        match self {
            IrbLineFeature::MostOfFew => wholesale(MANY_LOANS - 1),
            IrbLineFeature::FewestOfMany => wholesale(MANY_LOANS),
            IrbLineFeature::RetailFew => irb.retail && irb.loans < MANY_LOANS,
            IrbLineFeature::LeastShare => irb.share == IRB_SHARE,
            IrbLineFeature::NegativeSum => !stc && sum.numerator < 0,
            IrbLineFeature::StcNegativeSum => stc && sum.numerator < 0,
            IrbLineFeature::NearLeast => near(false, -5),
            IrbLineFeature::AboveLeast => near(false, 0),
            IrbLineFeature::StcNearLeast => near(true, -5),
            IrbLineFeature::StcAboveLeast => near(true, 0),
            IrbLineFeature::HalfBelowLeast => stc && !is_raised(sum, false) && is_raised(sum, true),
            IrbLineFeature::LargeParameter => sum.parameter(stc) > 2 * WHOLE,
            IrbLineFeature::RoundedUp => !is_raised(sum, stc) && sum.numerator % denominator(sum, stc) != 0,
            IrbLineFeature::ParameterByMonths => {
                let longer = seen.longer_sum(irb).parameter(stc);
                seen.dates.is_some() && sum.parameter(stc) != longer
            }
            _ => false,
        }
    }
}

/// The least parameter, in millionths.
const LEAST: i128 = 300_000;

/// The denominator of the sum that a deal takes: twice that of the sum in an STC deal.
fn denominator(sum: &Sum, stc: bool) -> i128 {
    sum.denominator * if stc { 2 } else { 1 }
}

/// Whether the sum that a deal takes is above 0.3 by more than so many millionths and by at most five more.
fn is_near_least(sum: &Sum, stc: bool, from: i128) -> bool {
    let one = denominator(sum, stc);
    let above = sum.numerator - LEAST * one;
    from * one < above && above <= (from + 5) * one
}

/// Whether the sum that a deal takes is raised to 0.3, or is that already.
fn is_raised(sum: &Sum, stc: bool) -> bool {
    sum.numerator <= LEAST * denominator(sum, stc)
}

/// The rows of the parameter's coefficients.
const ROWS: [&str; 6] = [
    "wholesale senior",
    "wholesale senior, few loans",
    "wholesale non-senior",
    "wholesale non-senior, few loans",
    "retail senior",
    "retail non-senior",
];
/// The deals that take the sum as it is, and those that halve it.
const DEALS: [&str; 2] = ["whole", "half"];
/// Whether the sum is raised to 0.3.
const RAISED: [&str; 2] = ["above", "raised"];

/// By how many places parameters are counted: rows of coefficients, deals, and whether the sum is raised.
pub(crate) const PARAMETERS: usize = ROWS.len() * DEALS.len() * RAISED.len();

/// The names of these places.
pub(crate) fn parameter_names() -> Vec<String> {
    let mut names = Vec::new();
    for row in ROWS {
        for deal in DEALS {
            names.extend(RAISED.map(|raised| format!("p: {row}, {deal}, {raised}")));
        }
    }
    names
}

/// The place of the parameter of a line under SEC-IRBA whose weight the exponentials decide.
pub(crate) fn parameter_place(seen: &Seen) -> Option<usize> {
    let (irb, sum) = seen.irba().filter(|_| seen.two_weights())?;
    let row = match (irb.retail, seen.senior) {
        (false, true) => usize::from(irb.loans < MANY_LOANS),
        (false, false) => 2 + usize::from(irb.loans < MANY_LOANS),
        (true, true) => 4,
        (true, false) => 5,
    };
    let stc = seen.kind == DealKind::Stc;
    Some((row * DEALS.len() + usize::from(stc)) * RAISED.len() + usize::from(is_raised(&sum, stc)))
}

#[cfg(test)]
mod tests {
    use super::*;
    use crate::answer::LINE_WORDS;
    use crate::sheet::{TrancheWord, DAYS};

    /// Features are counted by the enums' order, so the tables must follow it; those of refusals stand once.
    #[test]
    fn tables_follow_the_enums() {
        assert!((0..)
            .zip(IrbFeature::TABLE)
            .all(|(place, entry)| entry.0 as usize == place));
        assert!((0..)
            .zip(IrbLineFeature::TABLE)
            .all(|(place, entry)| entry.0 as usize == place));
        let refusals = IrbRefusal::TABLE.map(|(feature, _)| feature);
        assert!((1..refusals.len()).all(|n| !refusals[..n].contains(&refusals[n])));
    }

    /// A section with a charge of 100,000, a loss of one half, 25 loans and the whole as its share.
    const SECTION: [u64; IrbWord::COUNT] = [100_000, 500_000, 25, 0, 1_000_000, 125_000];

    /// That section with one word set.
    fn section(word: IrbWord, value: u64) -> [u64; IrbWord::COUNT] {
        let mut section = SECTION;
        section[word as usize] = value;
        section
    }

    /// A sheet with these facts, one row of this status, two tranches about the charge and one below it, all of 36
    /// months or of the last day, the second with this rating, and at the end these words.
    fn sheet(facts: &[u64], status: u64, rating: u64, end: &[u64]) -> Vec<u64> {
        let dated = facts.get(Fact::ReportingDate as usize).is_some_and(|&date| date != 0);
        let maturity = if dated { DAYS.1 } else { 36 };
        let pool = [1, 1_000_000, 1_000_000, 100, status, 3];
        let tranche = |amount, class, rating| [amount, class, maturity, 0, rating, 0, 0];
        let tranches = [
            tranche(880_000, 1, 0),
            tranche(70_000, 2, rating),
            tranche(50_000, 3, 0),
        ];
        [&[facts.len() as u64], facts, &pool, tranches.as_flattened(), end].concat()
    }

    /// Such a sheet with a whole section.
    fn with_section(facts: &[u64], status: u64, section: [u64; IrbWord::COUNT]) -> Vec<u64> {
        sheet(facts, status, 0, &[&[IRB_COUNT], &section[..]].concat())
    }

    /// What a refused sheet shows.
    fn refused(sheet: &[u64]) -> Vec<IrbRefusal> {
        let refused = independent::weigh(sheet, u64::MAX).expect_err("a refused sheet");
        let features = IrbRefusal::TABLE.map(|(feature, _)| feature);
        features
            .into_iter()
            .filter(|feature| feature.shown(sheet, &refused))
            .collect()
    }

    /// What an accepted sheet shows.
    fn accepted(sheet: &[u64]) -> Vec<IrbFeature> {
        let deal = independent::weigh(sheet, u64::MAX).expect("an accepted sheet");
        let features = IrbFeature::TABLE.map(|(feature, _)| feature);
        features
            .into_iter()
            .filter(|feature| feature.shown(sheet, &deal))
            .collect()
    }

    /// Sees a line of an accepted sheet; tranches are counted from 0.
    fn see<T>(sheet: &[u64], tranche: usize, see: impl Fn(&Seen) -> T) -> T {
        let deal = independent::weigh(sheet, 3 * LINE_WORDS as u64).expect("an accepted sheet");
        see(&Seen::new(sheet, &deal, tranche))
    }

    /// What a line of an accepted sheet shows.
    fn line(sheet: &[u64], tranche: usize) -> Vec<IrbLineFeature> {
        let features = IrbLineFeature::TABLE.map(|(feature, _)| feature);
        see(sheet, tranche, |seen| {
            features.into_iter().filter(|feature| feature.shown(seen)).collect()
        })
    }

    /// The first values outside the limits count by the word, those of the share by the pool kind too; the next ones do
    /// not. Any value outside counts by the deal.
    #[test]
    fn figures_are_counted() {
        let of = |kind, word, value| refused(&with_section(&[kind, 0, 1, 0], 0, section(word, value)));
        for (word, value) in [
            (IrbWord::Charge, 1_000_001),
            (IrbWord::Loss, 1_000_001),
            (IrbWord::Loans, 1_000_001),
            (IrbWord::Retail, 2),
            (IrbWord::Average, 125_001),
        ] {
            assert_eq!(
                [1, 2].map(|kind| of(kind, word, value)),
                [[IrbRefusal::Figure(word, value)]; 2]
            );
            assert_eq!(of(1, word, value + 1), []);
        }
        assert_eq!(of(2, IrbWord::Loans, 0), [IrbRefusal::Figure(IrbWord::Loans, 0)]);
        for (kind, value) in [(1, 999_999), (1, 1_000_001), (2, 1_000_001)] {
            assert_eq!(of(kind, IrbWord::Share, value), [IrbRefusal::Share { kind, value }]);
        }
        assert!([950_000, 999_998, 1_000_002]
            .into_iter()
            .all(|share| of(1, IrbWord::Share, share).is_empty()));
        let charge = section(IrbWord::Charge, u64::MAX);
        assert_eq!(
            refused(&with_section(&[1, 1, 0, 0], 3, charge)),
            [IrbRefusal::FigureOfResecuritisation, IrbRefusal::FigureWithoutDiligence]
        );
    }

    /// The section's count, missing words, words that follow and pool kinds count; other refusals do not.
    #[test]
    fn sections_are_counted() {
        let of = |kind, end: &[u64]| refused(&sheet(&[kind, 0, 1, 0], 0, 0, end));
        assert_eq!(of(1, &[0]), [IrbRefusal::CountNone]);
        assert_eq!(of(2, &[2, 7]), [IrbRefusal::CountMore]);
        assert_eq!(of(1, &[]), [IrbRefusal::CountMissing]);
        assert_eq!(of(2, &[1]), [IrbRefusal::WordMissing]);
        assert_eq!(of(2, &[1, 0, 0, 1, 0, 0]), [IrbRefusal::WordMissing]);
        assert_eq!(of(2, &[1, 0, 0, 1, 0, 0, 0, 7]), [IrbRefusal::WordsFollow]);
        assert_eq!(of(0, &[1, 0, 0, 1, 0, 0, 0]), [IrbRefusal::SectionOfSaPool]);
        assert_eq!(of(3, &[]), [IrbRefusal::NoPoolKind]);
        assert!([&[1][..], &[2, 0, 0, 1, 0, 0, 0]]
            .into_iter()
            .all(|end| of(0, end).is_empty()));
        assert!(of(4, &[]).is_empty() && of(1, &[3, 0]).is_empty());
        for other in [&[][..], &[3], &[4, 1], &[4, 1, 2], &[4, 1, 0, 1, 0, 0]] {
            assert_eq!(refused(other), [], "{other:?}");
        }
    }

    /// A tranche without thickness counts by the approach, the mark and the tranche's own rating.
    #[test]
    fn thin_tranches_are_counted() {
        let thin = |facts: &[u64], rating, end: &[u64]| {
            let status = 3 * facts[1];
            let pool = [1, 10_000_000_000, 10_000_000_000, 10, status, 2];
            let tranches = [[1_000_001, 1, 72, 0, 0, 0, 0], [1, 2, 72, 0, rating, 0, 0]];
            refused(&[&[facts.len() as u64], facts, &pool, tranches.as_flattened(), end].concat())
        };
        let end = [&[1], &SECTION[..]].concat();
        assert_eq!(thin(&[1, 0, 1, 0], 0, &end), [IrbRefusal::Thin]);
        assert_eq!(
            thin(&[1, 0, 1, 0, 1], 9, &end),
            [IrbRefusal::Thin, IrbRefusal::StcThin, IrbRefusal::RatedThin]
        );
        assert_eq!(thin(&[2, 1, 1, 0], 9, &end), [IrbRefusal::ThinOfSecSa]);
        let below = [&[1], &section(IrbWord::Share, 949_999)[..]].concat();
        assert_eq!(thin(&[2, 0, 1, 0], 0, &below), [IrbRefusal::ThinOfSecSa]);
        assert_eq!(thin(&[0, 0, 1, 0], 0, &[]), []);
    }

    /// Accepted sheets count by pool kind, share, status and deal; those of an SA pool do not.
    #[test]
    fn accepted_sheets_are_counted() {
        let of = |facts: &[u64], status, share| accepted(&with_section(facts, status, section(IrbWord::Share, share)));
        assert_eq!(of(&[1, 0, 1, 0], 0, WHOLE), [IrbFeature::IrbPool]);
        assert_eq!(of(&[2, 0, 1, 0], 0, WHOLE), [IrbFeature::MixedPool]);
        let least = [IrbFeature::MixedPool, IrbFeature::MixedCharge, IrbFeature::LeastShare];
        assert_eq!(of(&[2, 0, 1, 0], 0, 950_000), least);
        assert_eq!(of(&[2, 0, 1, 0], 0, 949_999), [IrbFeature::ShareBelow]);
        assert_eq!(of(&[2, 0, 1, 0], 0, 949_998), []);
        assert_eq!(of(&[1, 0, 1, 0], 1, WHOLE), [IrbFeature::IrbPool, IrbFeature::LateRows]);
        let unknown = [IrbFeature::IrbPool, IrbFeature::UnknownRows, IrbFeature::AllUnknown];
        assert_eq!(of(&[1, 0, 1, 0], 2, WHOLE), unknown);
        assert_eq!(of(&[1, 1, 1, 0], 3, WHOLE), [IrbFeature::IrbResecuritisation]);
        assert_eq!(of(&[2, 1, 0, 0], 3, 949_999), [IrbFeature::MixedResecuritisation]);
        assert_eq!(of(&[1, 0, 0, 0], 1, WHOLE), [IrbFeature::IrbWithoutDiligence]);
        assert_eq!(of(&[2, 0, 0, 0], 2, 949_999), [IrbFeature::MixedWithoutDiligence]);
        assert_eq!(accepted(&sheet(&[0, 0, 1, 0], 1, 0, &[])), []);
    }

    /// Unknown rows count above 5% of the exposure alone.
    #[test]
    fn unknown_rows_are_counted() {
        let with_unknown = |exposure| {
            let pool = [2, 95, 1_000_000, 100, 0, exposure, 1, 100, 2, 1];
            let tranche = [1_000_001, 1, 36, 0, 0, 0, 0, 1];
            accepted(&[&[4, 1, 0, 1, 0][..], &pool, &tranche, &SECTION].concat())
        };
        assert_eq!(with_unknown(5), [IrbFeature::IrbPool]);
        assert_eq!(with_unknown(6), [IrbFeature::IrbPool, IrbFeature::UnknownRows]);
    }

    /// Lines of a mixed pool below the least share count by approach; those of re-securitisations and without due
    /// diligence do not.
    #[test]
    fn lines_as_of_an_sa_pool() {
        let end = [&[1], &section(IrbWord::Share, 949_999)[..]].concat();
        let of = |facts: &[u64], status, rating| line(&sheet(facts, status, rating, &end), 1);
        assert_eq!(of(&[2, 0, 1, 0], 0, 9), [IrbLineFeature::SaPoolRated]);
        assert_eq!(of(&[2, 0, 1, 0], 0, 0), [IrbLineFeature::SaPoolUnrated]);
        assert_eq!(of(&[2, 0, 1, 0], 2, 0), [IrbLineFeature::SaPoolFallback]);
        assert!(of(&[2, 1, 1, 0], 3, 0).is_empty() && of(&[2, 0, 0, 0], 0, 0).is_empty());
        assert!(line(&sheet(&[0, 0, 1, 0], 0, 9, &[]), 1).is_empty());
    }

    /// Lines under SEC-IRBA count by loans, share and rating. The sums are 0.4144 of the first tranche and 0.4588 of
    /// the second, which lies across the charge.
    #[test]
    fn lines_by_the_section() {
        let mixed = |section| with_section(&[2, 0, 1, 0], 0, section);
        assert_eq!(line(&mixed(SECTION), 0), [IrbLineFeature::FewestOfMany]);
        let second = [IrbLineFeature::FewestOfMany, IrbLineFeature::AcrossCharge];
        assert_eq!(line(&mixed(SECTION), 1), second);
        assert_eq!(line(&mixed(SECTION), 2), [IrbLineFeature::BelowCharge]);
        let few = [
            IrbLineFeature::MostOfFew,
            IrbLineFeature::RoundedUp,
            IrbLineFeature::AcrossCharge,
        ];
        assert_eq!(line(&mixed(section(IrbWord::Loans, 24)), 1), few);
        assert_eq!(
            line(&mixed(section(IrbWord::Loans, 26)), 0),
            [IrbLineFeature::RoundedUp]
        );
        assert_eq!(
            line(&mixed(section(IrbWord::Loans, 1)), 0),
            [IrbLineFeature::LargeParameter]
        );
        let least = line(&mixed(section(IrbWord::Share, 950_000)), 0);
        assert!(least.contains(&IrbLineFeature::LeastShare));
        let rated = sheet(&[1, 0, 1, 0], 0, 9, &[&[1], &SECTION[..]].concat());
        assert!(line(&rated, 1).contains(&IrbLineFeature::Rated) && !line(&rated, 0).contains(&IrbLineFeature::Rated));
    }

    /// Sums count about 0.3, and by their half in STC deals. Retail non-senior at 36 months and a charge of 0.1 has 0.124 +
    /// 0.55 x loss: 0.3 at a loss of 0.32, and 0.6 between the losses 0.865454 and 0.865455.
    #[test]
    fn lines_by_the_sum() {
        let of = |facts: &[u64], loss| {
            let end = [1, 100_000, loss, 7, 1, WHOLE, 125_000];
            let mut shown = line(&sheet(facts, 0, 0, &end), 1);
            shown.retain(|feature| ![IrbLineFeature::RetailFew, IrbLineFeature::AcrossCharge].contains(feature));
            shown
        };
        let (whole, half) = (&[1, 0, 1, 0][..], &[1, 0, 1, 0, 1][..]);
        assert_eq!(of(whole, 320_000), [IrbLineFeature::NearLeast]);
        assert_eq!(of(whole, 319_992), [IrbLineFeature::NearLeast]);
        assert_eq!(of(whole, 319_990), []);
        let above = [IrbLineFeature::AboveLeast, IrbLineFeature::RoundedUp];
        assert_eq!(of(whole, 320_001), above);
        assert_eq!(of(whole, 320_010), [IrbLineFeature::RoundedUp]);
        assert_eq!(of(whole, 320_020), []);
        let half_below = [IrbLineFeature::StcNearLeast, IrbLineFeature::HalfBelowLeast];
        assert_eq!(of(half, 865_454), half_below);
        assert_eq!(
            of(half, 865_455),
            [IrbLineFeature::StcAboveLeast, IrbLineFeature::RoundedUp]
        );
        assert_eq!(of(half, 320_001), [IrbLineFeature::HalfBelowLeast]);
        assert_eq!(of(half, 320_000), []);
        assert_eq!([whole, half].map(|facts| of(facts, 0)), [[], []]);
    }

    /// Negative sums of retail senior tranches: -0.748 + 0.624 at a loss of 0.
    #[test]
    fn lines_with_a_negative_sum() {
        let of = |facts: &[u64]| line(&sheet(facts, 0, 0, &[1, 100_000, 0, 30, 1, WHOLE, 125_000]), 0);
        assert_eq!(of(&[1, 0, 1, 0]), [IrbLineFeature::NegativeSum]);
        assert_eq!(of(&[1, 0, 1, 0, 1]), [IrbLineFeature::StcNegativeSum]);
    }

    /// Points, floors and cap under SEC-IRBA.
    #[test]
    fn lines_by_points_floor_and_cap() {
        let zero = section(IrbWord::Charge, 0);
        let of = |facts: &[u64], section, tranche| line(&with_section(facts, 0, section), tranche);
        assert_eq!(
            of(&[1, 0, 1, 0], zero, 0),
            [IrbLineFeature::ZeroCharge, IrbLineFeature::SeniorFloor]
        );
        assert_eq!(
            of(&[1, 0, 1, 0], zero, 2),
            [IrbLineFeature::ZeroCharge, IrbLineFeature::Floor]
        );
        assert_eq!(
            of(&[1, 0, 1, 0, 1], zero, 0),
            [IrbLineFeature::ZeroCharge, IrbLineFeature::StcSeniorFloor]
        );
        assert_eq!(
            of(&[1, 0, 1, 0, 1], zero, 1),
            [IrbLineFeature::ZeroCharge, IrbLineFeature::StcFloor]
        );
        let capped = |average| of(&[1, 0, 1, 1], section(IrbWord::Average, average), 0);
        assert_eq!(capped(1_499), [IrbLineFeature::CapBelowFloor]);
        assert_eq!(capped(0), [IrbLineFeature::CapBelowFloor, IrbLineFeature::CapZero]);
        let at_attachment = section(IrbWord::Charge, 120_000);
        assert!(of(&[1, 0, 1, 0], at_attachment, 0).contains(&IrbLineFeature::FromCharge));
    }

    /// A parameter by dated months counts where a month more changes it: not from 72 months on.
    #[test]
    fn lines_by_dated_months() {
        let of = |date| {
            let sheet = sheet(&[1, 0, 1, 0, 0, date], 0, 0, &[&[1], &SECTION[..]].concat());
            line(&sheet, 1).contains(&IrbLineFeature::ParameterByMonths)
        };
        assert!(of(21_970_101) && !of(21_900_101) && !of(0));
    }

    /// Each row of coefficients, deal and least parameter has a place of its own, in the order of the names: with a
    /// loss of 1 and five years the sums are above 0.6, with a loss of 0 and a year they are below 0.3. A line whose
    /// weight the exponentials do not decide has no place.
    #[test]
    fn parameters_have_their_places() {
        let place = |retail, tranche, loans, stc, (loss, months)| {
            let end = [1, 100_000, loss, loans, retail, WHOLE, 125_000];
            let mut sheet = sheet(&[1, 0, 1, 0, stc], 0, 0, &end);
            let maturity = Layout::of_sheet(&sheet).tranche_word(tranche, TrancheWord::Maturity);
            sheet[maturity] = months;
            see(&sheet, tranche, parameter_place)
        };
        let rows = [
            (0, 0, LOANS, MANY_LOANS),
            (0, 0, 24, 24),
            (0, 1, LOANS, MANY_LOANS),
            (0, 1, 24, 24),
            (1, 0, LOANS, 1),
            (1, 1, LOANS, 1),
        ];
        let mut places = Vec::new();
        for (retail, tranche, raised, above) in rows {
            for stc in [0, 1] {
                places.push(place(retail, tranche, above, stc, (WHOLE, 72)));
                places.push(place(retail, tranche, raised, stc, (0, 12)));
            }
        }
        assert_eq!(places, (0..PARAMETERS).map(Some).collect::<Vec<_>>());
        assert_eq!(parameter_names().len(), PARAMETERS);
        assert_eq!(see(&with_section(&[1, 0, 1, 0], 0, SECTION), 2, parameter_place), None);
    }
}
