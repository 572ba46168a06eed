//! What a run must meet by the unit of risk weights (S-9): on some accepted sheet, and on some refused one.

use crate::answer::{refusal, Approach};
use crate::irb_feature::is_under_irba;
use crate::seen::DealKind;
use crate::sheet::{unit, Fact, IrbWord, Layout, RowWord, FACTS, ONE_PERCENT, RISK_WEIGHT, RISK_WEIGHT_PERCENT};
use independent::approach::irb_of;
use independent::{Deal, Refusal};

/// What sort of deal a sheet with all facts states.
#[derive(Debug, Clone, Copy, PartialEq, Eq)]
pub enum DealForm {
    /// An ordinary securitisation without the STC mark.
    Ordinary,
    /// An STC deal.
    Stc,
    /// A re-securitisation.
    Resecuritisation,
    /// A deal with a reporting date.
    Dated,
    /// A deal under SEC-IRBA.
    SecIrba,
    /// The same, with another charge than the IRB charge, so that the risk weights count.
    MixedCharge,
}

impl DealForm {
    /// Whether an accepted sheet with this answer states such a deal.
    fn is_of(self, sheet: &[u64], layout: &Layout, deal: &Deal) -> bool {
        let kind = DealKind::of_sheet(sheet);
        let irb_charge = || layout.irb_words(sheet).map(|irb| irb[IrbWord::Charge as usize]);
        match self {
            DealForm::Ordinary => kind == DealKind::Ordinary,
            DealForm::Stc => kind == DealKind::Stc,
            DealForm::Resecuritisation => kind == DealKind::Resecuritisation,
            DealForm::Dated => layout.fact_word(sheet, Fact::ReportingDate) != 0,
            DealForm::SecIrba => is_under_irba(deal),
            DealForm::MixedCharge => is_under_irba(deal) && irb_charge() != Some(deal.charge),
        }
    }
}

/// What must be met on some accepted sheet.
#[derive(Debug, Clone, Copy, PartialEq, Eq)]
pub enum UnitFeature {
    /// The unit is stated, in such a deal.
    Stated(u64, DealForm),
    /// Some risk weight has this word in this unit, stated or not.
    Weight(u64, u64),
    /// All risk weights of a sheet in hundredths are whole percents, and not all are 0.
    AllWhole,
    /// Some risk weight is no whole percent, and some line is under this approach.
    PartPercent(Approach),
    /// Some risk weight is no whole percent, the pool's average decided a weight as the cap, and cut to whole percents the
    /// risk weights have another average.
    PartPercentCap,
    /// The IRB average decided a weight as the cap, in a sheet in hundredths.
    IrbCap,
}

impl UnitFeature {
    /// All features with their names.
    pub(crate) const TABLE: [(UnitFeature, &'static str); 30] = [
        (stated(DealForm::Ordinary), "percent stated: ordinary"),
        (stated(DealForm::Stc), "percent stated: STC deal"),
        (stated(DealForm::Resecuritisation), "percent stated: re-securitisation"),
        (stated(DealForm::Dated), "percent stated: reporting date"),
        (stated(DealForm::SecIrba), "percent stated: SEC-IRBA"),
        (stated(DealForm::MixedCharge), "percent stated: SEC-IRBA, mixed charge"),
        (hundredths(DealForm::Ordinary), "hundredths: ordinary"),
        (hundredths(DealForm::Stc), "hundredths: STC deal"),
        (hundredths(DealForm::Resecuritisation), "hundredths: re-securitisation"),
        (hundredths(DealForm::Dated), "hundredths: reporting date"),
        (hundredths(DealForm::SecIrba), "hundredths: SEC-IRBA"),
        (hundredths(DealForm::MixedCharge), "hundredths: SEC-IRBA, mixed charge"),
        (UnitFeature::Weight(unit::PERCENT, 0), "percent: risk weight 0"),
        (
            UnitFeature::Weight(unit::PERCENT, RISK_WEIGHT_PERCENT),
            "percent: risk weight 1,250",
        ),
        (weight(0), "hundredths: risk weight 0"),
        (weight(1), "hundredths: risk weight 1"),
        (weight(100), "hundredths: risk weight 100"),
        (weight(1_250), "hundredths: risk weight 1,250"),
        (weight(1_251), "hundredths: risk weight 1,251"),
        (weight(3_750), "hundredths: risk weight 3,750"),
        (weight(12_550), "hundredths: risk weight 12,550"),
        (weight(124_999), "hundredths: risk weight 124,999"),
        (weight(125_000), "hundredths: risk weight 125,000"),
        (UnitFeature::AllWhole, "hundredths: all whole percents"),
        (
            UnitFeature::PartPercent(Approach::Fallback),
            "no whole percent: fallback",
        ),
        (
            UnitFeature::PartPercent(Approach::SecErba),
            "no whole percent: SEC-ERBA",
        ),
        (UnitFeature::PartPercent(Approach::SecSa), "no whole percent: SEC-SA"),
        (
            UnitFeature::PartPercent(Approach::SecIrba),
            "no whole percent: SEC-IRBA",
        ),
        (UnitFeature::PartPercentCap, "no whole percent: cap decided"),
        (UnitFeature::IrbCap, "hundredths: SEC-IRBA, cap decided"),
    ];

    /// Whether an accepted sheet with this answer shows the feature. Whether the cap decided is not told from the answer
    /// alone.
    pub(crate) fn shown(self, sheet: &[u64], deal: &Deal) -> bool {
        let layout = Layout::of_sheet(sheet);
        let in_hundredths = unit_of(sheet, &layout) == unit::HUNDREDTHS;
        let mut weights = weights(sheet, &layout);
        match self {
            UnitFeature::Stated(of, form) => {
                let stated = layout.facts as u64 == FACTS && unit_of(sheet, &layout) == of;
                stated && form.is_of(sheet, &layout, deal)
            }
            UnitFeature::Weight(of, word) => unit_of(sheet, &layout) == of && weights.any(|weight| weight == word),
            UnitFeature::AllWhole => in_hundredths && !is_part_percent(sheet) && weights.any(|weight| weight != 0),
            UnitFeature::PartPercent(approach) => {
                let mut lines = deal.lines.iter();
                lines.any(|line| line.approach == approach.word()) && is_part_percent(sheet)
            }
            UnitFeature::PartPercentCap | UnitFeature::IrbCap => false,
        }
    }

    /// Whether an accepted sheet with this answer shows the feature, some line of which the cap decided.
    pub(crate) fn shown_by_cap(self, sheet: &[u64], deal: &Deal) -> bool {
        let in_hundredths = || unit_of(sheet, &Layout::of_sheet(sheet)) == unit::HUNDREDTHS;
        match self {
            UnitFeature::PartPercentCap => !is_under_irba(deal) && in_hundredths() && cut_average_differs(sheet),
            UnitFeature::IrbCap => is_under_irba(deal) && in_hundredths(),
            _ => false,
        }
    }
}

/// The feature of a unit of whole percent that is stated in such a deal.
const fn stated(form: DealForm) -> UnitFeature {
    UnitFeature::Stated(unit::PERCENT, form)
}

/// The feature of a unit of hundredths in such a deal.
const fn hundredths(form: DealForm) -> UnitFeature {
    UnitFeature::Stated(unit::HUNDREDTHS, form)
}

/// The feature of a risk weight of this word in hundredths.
const fn weight(word: u64) -> UnitFeature {
    UnitFeature::Weight(unit::HUNDREDTHS, word)
}

/// The unit of a sheet with these places.
fn unit_of(sheet: &[u64], layout: &Layout) -> u64 {
    layout.fact_word(sheet, Fact::Unit)
}

/// The risk weight words of a sheet with these places.
fn weights<'a>(sheet: &'a [u64], layout: &Layout) -> impl Iterator<Item = u64> + 'a {
    layout.pool(sheet).iter().map(|row| row[RowWord::RiskWeight as usize])
}

/// Whether an accepted sheet is in hundredths, with a risk weight that is no whole percent.
fn is_part_percent(sheet: &[u64]) -> bool {
    let layout = Layout::of_sheet(sheet);
    let in_hundredths = unit_of(sheet, &layout) == unit::HUNDREDTHS;
    in_hundredths && weights(sheet, &layout).any(|weight| !weight.is_multiple_of(ONE_PERCENT))
}

/// Whether the average risk weight of the pool of an accepted sheet in hundredths, rounded up, is another one where each
/// risk weight is cut to whole percents.
fn cut_average_differs(sheet: &[u64]) -> bool {
    let layout = Layout::of_sheet(sheet);
    let sum = |of: fn(&[u64; RowWord::COUNT]) -> u64| -> u128 {
        let rows = layout.pool(sheet).iter();
        rows.map(|row| u128::from(row[RowWord::Exposure as usize]) * u128::from(of(row)))
            .sum()
    };
    let exposure = sum(|_| 1);
    let whole = sum(|row| row[RowWord::RiskWeight as usize]);
    let cut = sum(|row| row[RowWord::RiskWeight as usize] / ONE_PERCENT * ONE_PERCENT);
    whole.div_ceil(exposure) != cut.div_ceil(exposure)
}

/// What must be met on some refused sheet.
#[derive(Debug, Clone, Copy, PartialEq, Eq)]
pub enum UnitRefusal {
    /// The seventh fact has this value, which is no unit.
    NoUnit(u64),
    /// A risk weight has this word in a sheet that does not state the unit.
    WeightUnstated(u64),
    /// A risk weight has this word in a sheet that states this unit.
    Weight(u64, u64),
    /// A tranche without thickness, in a sheet in hundredths: SEC-SA.
    Thin,
    /// The same: SEC-IRBA.
    IrbThin,
}

impl UnitRefusal {
    /// All features with their names.
    pub(crate) const TABLE: [(UnitRefusal, &'static str); 9] = [
        (UnitRefusal::NoUnit(2), "refusal 4 for a seventh fact of 2"),
        (UnitRefusal::NoUnit(100), "refusal 4 for a seventh fact of 100"),
        (UnitRefusal::NoUnit(u64::MAX), "refusal 4 for the highest seventh fact"),
        (
            UnitRefusal::WeightUnstated(RISK_WEIGHT_PERCENT + 1),
            "refusal 6 for 1,251, no unit stated",
        ),
        (
            UnitRefusal::Weight(unit::PERCENT, RISK_WEIGHT_PERCENT + 1),
            "refusal 6 for 1,251, percent stated",
        ),
        (
            UnitRefusal::Weight(unit::PERCENT, RISK_WEIGHT),
            "refusal 6 for 125,000, percent stated",
        ),
        (
            UnitRefusal::Weight(unit::HUNDREDTHS, RISK_WEIGHT + 1),
            "refusal 6 for 125,001, hundredths",
        ),
        (UnitRefusal::Thin, "refusal 13 in hundredths, SEC-SA"),
        (UnitRefusal::IrbThin, "refusal 13 in hundredths, SEC-IRBA"),
    ];

    /// Whether a refused sheet shows the feature. Words before the place of a refusal are good, so they can be read.
    pub(crate) fn shown(self, sheet: &[u64], refused: &Refusal) -> bool {
        let place = refused.place as usize;
        let unit = Layout::fact(Fact::Unit);
        let stated = || (sheet[Layout::FACTS_COUNT] == FACTS).then(|| sheet[unit]);
        match (self, refused.number) {
            (UnitRefusal::NoUnit(word), refusal::FACT) => place == unit && sheet[place] == word,
            (UnitRefusal::WeightUnstated(word), refusal::RISK_WEIGHT) => stated().is_none() && sheet[place] == word,
            (UnitRefusal::Weight(of, word), refusal::RISK_WEIGHT) => stated() == Some(of) && sheet[place] == word,
            (UnitRefusal::Thin, refusal::THIN) => stated() == Some(unit::HUNDREDTHS) && !is_irba(sheet),
            (UnitRefusal::IrbThin, refusal::THIN) => stated() == Some(unit::HUNDREDTHS) && is_irba(sheet),
            _ => false,
        }
    }
}

/// Whether a sheet of good words states a deal under SEC-IRBA.
fn is_irba(sheet: &[u64]) -> bool {
    let read = independent::sheet::read(sheet).expect("a sheet of good words");
    irb_of(&read).is_some()
}

#[cfg(test)]
mod tests {
    use super::*;
    use crate::answer::LINE_WORDS;
    use crate::sheet::{NO_UNITS, WEIGHT_EDGES};

    /// No feature stands twice in its table. Risk weights must be met of the words that the generator makes about limits,
    /// and seventh facts of the numbers that it makes.
    #[test]
    fn each_feature_stands_once() {
        let features = UnitFeature::TABLE.map(|(feature, _)| feature);
        assert!((1..features.len()).all(|n| !features[..n].contains(&features[n])));
        assert!(WEIGHT_EDGES.iter().all(|&word| features.contains(&weight(word))));
        let refusals = UnitRefusal::TABLE.map(|(feature, _)| feature);
        assert!((1..refusals.len()).all(|n| !refusals[..n].contains(&refusals[n])));
        assert!(NO_UNITS
            .iter()
            .all(|&word| refusals.contains(&UnitRefusal::NoUnit(word))));
    }

    /// A sheet with these facts, two rows of a million with these risk weights, a tranche of 80% with this first rating and
    /// these months, and this section.
    fn sheet(facts: &[u64], weights: [u64; 2], rating: u64, months: u64, section: &[u64]) -> Vec<u64> {
        let status = 3 * facts[1];
        let [first, second] = weights.map(|weight| [1_000_000, 1_000_000, weight, status]);
        let tranche = [1, 1_600_000, 1, months, 0, rating, 0, 0];
        [&[facts.len() as u64], facts, &[2], &first, &second, &tranche, section].concat()
    }

    /// What an accepted sheet shows, and what it shows where the cap decided.
    fn shown_with_cap(sheet: &[u64]) -> [Vec<UnitFeature>; 2] {
        let deal = independent::weigh(sheet, LINE_WORDS as u64).expect("an accepted sheet");
        let shown = |by: fn(UnitFeature, &[u64], &Deal) -> bool| {
            let features = UnitFeature::TABLE.map(|(feature, _)| feature);
            features
                .into_iter()
                .filter(|feature| by(*feature, sheet, &deal))
                .collect()
        };
        [shown(UnitFeature::shown), shown(UnitFeature::shown_by_cap)]
    }

    /// What an accepted sheet of an unrated deal shows by its facts, whose risk weights are of 35%.
    fn shown_by_facts(facts: &[u64], months: u64, section: &[u64]) -> Vec<UnitFeature> {
        let weight = if facts.get(6) == Some(&1) { 3_500 } else { 35 };
        let [mut shown, _] = shown_with_cap(&sheet(facts, [weight; 2], 0, months, section));
        shown.retain(|feature| *feature != UnitFeature::AllWhole);
        shown
    }

    /// Sheets that state the unit count by their deals; with fewer facts none does.
    #[test]
    fn deals_are_counted() {
        for (code, of) in [(0, stated as fn(DealForm) -> UnitFeature), (1, hundredths)] {
            let shown = |facts: [u64; 6], section: &[u64]| {
                let months = if facts[5] == 0 { 36 } else { 20_300_101 };
                shown_by_facts(&[&facts[..], &[code]].concat(), months, section)
            };
            assert_eq!(shown([0, 0, 1, 1, 0, 0], &[]), [of(DealForm::Ordinary)]);
            assert_eq!(shown([0, 0, 1, 1, 1, 0], &[]), [of(DealForm::Stc)]);
            assert_eq!(shown([0, 1, 1, 1, 0, 0], &[]), [of(DealForm::Resecuritisation)]);
            let dated = [DealForm::Ordinary, DealForm::Dated].map(of);
            assert_eq!(shown([0, 0, 1, 1, 0, 20_240_101], &[]), dated);
            let section = |share| [1, 100_000, 0, 25, 0, share, 7_000];
            let irba = [DealForm::Ordinary, DealForm::SecIrba].map(of);
            assert_eq!(shown([1, 0, 1, 1, 0, 0], &section(1_000_000)), irba);
            assert_eq!(shown([2, 0, 1, 1, 0, 0], &section(949_999)), [of(DealForm::Ordinary)]);
            assert_eq!(
                shown([1, 1, 1, 1, 0, 0], &section(1_000_000)),
                [of(DealForm::Resecuritisation)]
            );
        }
        assert_eq!(shown_by_facts(&[0, 0, 1, 1, 0, 0], 36, &[]), []);
        assert_eq!(shown_by_facts(&[0, 0, 1, 1], 36, &[]), []);
    }

    /// A mixed pool under SEC-IRBA counts where the charge is not the IRB charge, which the base charge can be too.
    #[test]
    fn mixed_charges_are_counted() {
        let shown = |irb_charge| {
            let section = [1, irb_charge, 0, 25, 0, 950_000, 0];
            shown_with_cap(&sheet(&[2, 0, 1, 0, 0, 0, 1], [3_500; 2], 0, 36, &section))[0]
                .contains(&hundredths(DealForm::MixedCharge))
        };
        assert!(shown(100_000) && !shown(28_000));
    }

    /// Facts of a deal with a cap, in hundredths.
    const CAPPED: &[u64] = &[0, 0, 1, 1, 0, 0, 1];

    /// What sheets with these facts and risk weights show by their risk weights and by a cap that decided.
    fn shown_by_weights(facts: &[u64], weights: [u64; 2], rating: u64) -> Vec<UnitFeature> {
        let [shown, by_cap] = shown_with_cap(&sheet(facts, weights, rating, 36, &[]));
        let features = shown.into_iter().chain(by_cap);
        features
            .filter(|feature| !matches!(feature, UnitFeature::Stated(..)))
            .collect()
    }

    /// Risk weights count by their words in their unit, and where one is no whole percent by the approach.
    #[test]
    fn weights_are_counted() {
        let in_percent = [0, 1_250].map(|word| UnitFeature::Weight(unit::PERCENT, word));
        assert_eq!(shown_by_weights(&[0, 0, 1, 1], [0, 1_250], 0), in_percent);
        assert_eq!(shown_by_weights(&[0, 0, 1, 1, 0, 0, 0], [1, 100], 0), []);
        let [none, most] = [0, 125_000].map(weight);
        assert_eq!(
            shown_by_weights(CAPPED, [0, 125_000], 0),
            [none, most, UnitFeature::AllWhole]
        );
        assert_eq!(shown_by_weights(CAPPED, [0, 0], 0), [none]);
        let part = |words: [u64; 2], approach| {
            let words = words.map(weight);
            let others = [UnitFeature::PartPercent(approach), UnitFeature::PartPercentCap];
            [words, others].concat()
        };
        assert_eq!(shown_by_weights(CAPPED, [1, 100], 0), part([1, 100], Approach::SecSa));
        assert_eq!(
            shown_by_weights(CAPPED, [1_251, 1_250], 9),
            part([1_250, 1_251], Approach::SecErba)
        );
        let undiligent = &[0, 0, 0, 1, 0, 0, 1];
        assert_eq!(
            shown_by_weights(undiligent, [12_550, 3_750], 9),
            part([3_750, 12_550], Approach::Fallback)
        );
        assert_eq!(
            shown_by_weights(CAPPED, [124_999, 101], 0)[1..],
            [UnitFeature::PartPercent(Approach::SecSa), UnitFeature::PartPercentCap]
        );
    }

    /// A cap counts where cutting the risk weights to whole percents would change it: not where only a small row has one
    /// that is cut. Under SEC-IRBA the IRB average is the cap, and counts apart.
    #[test]
    fn caps_are_counted() {
        let mut capped = sheet(CAPPED, [150, 10_000], 0, 36, &[]);
        assert_eq!(shown_with_cap(&capped)[1], [UnitFeature::PartPercentCap]);
        let exposure = Layout::of_sheet(&capped).row(0) + RowWord::Exposure as usize;
        capped[exposure] = 1;
        assert_eq!(shown_with_cap(&capped)[1], []);
        let section = [1, 100_000, 0, 25, 0, 1_000_000, 7_000];
        let irba = sheet(&[1, 0, 1, 1, 0, 0, 1], [10_001, 10_000], 0, 36, &section);
        assert_eq!(shown_with_cap(&irba)[1], [UnitFeature::IrbCap]);
    }

    /// What a refused sheet shows.
    fn refused(sheet: &[u64]) -> Vec<UnitRefusal> {
        let refused = independent::weigh(sheet, u64::MAX).expect_err("a refused sheet");
        let features = UnitRefusal::TABLE.map(|(feature, _)| feature);
        features
            .into_iter()
            .filter(|feature| feature.shown(sheet, &refused))
            .collect()
    }

    /// Seventh facts that are no unit count by their values, risk weights by their words and by the unit, stated or not.
    #[test]
    fn refused_words_are_counted() {
        let with_unit = |unit| [7, 0, 0, 0, 0, 0, 0, unit];
        for unit in NO_UNITS {
            assert_eq!(refused(&with_unit(unit)), [UnitRefusal::NoUnit(unit)]);
        }
        assert_eq!(refused(&with_unit(3)), []);
        let with_weight = |facts: &[u64], weight| {
            let words = [&[facts.len() as u64], facts, &[1, 1, 1, weight]].concat();
            refused(&words)
        };
        let [four, percent, hundredths] = [&[0; 4][..], &[0; 7], &[0, 0, 0, 0, 0, 0, 1]];
        assert_eq!(with_weight(four, 1_251), [UnitRefusal::WeightUnstated(1_251)]);
        assert_eq!(with_weight(&[0; 6], 1_251), [UnitRefusal::WeightUnstated(1_251)]);
        assert_eq!(with_weight(percent, 1_251), [UnitRefusal::Weight(unit::PERCENT, 1_251)]);
        assert_eq!(
            with_weight(percent, 125_000),
            [UnitRefusal::Weight(unit::PERCENT, 125_000)]
        );
        assert_eq!(
            with_weight(hundredths, 125_001),
            [UnitRefusal::Weight(unit::HUNDREDTHS, 125_001)]
        );
        assert_eq!([with_weight(four, 1_252), with_weight(hundredths, 1_251)], [[], []]);
        assert_eq!([refused(&[]), refused(&[4, 0, 0, 0, 2])], [[], []]);
    }

    /// A tranche without thickness counts in hundredths, by the approach.
    #[test]
    fn thin_tranches_are_counted() {
        let thin = |kind, unit, section: &[u64]| {
            let pool = [1, 10_000_000_000, 10_000_000_000, 100, 0];
            let tranches = [2, 1_000_001, 1, 72, 0, 0, 0, 0, 1, 2, 72, 0, 0, 0, 0];
            refused(&[&[7, kind, 0, 1, 0, 0, 0, unit][..], &pool, &tranches, section].concat())
        };
        let section = [1, 8_000, 0, 1, 0, 1_000_000, 0];
        assert_eq!(thin(0, 1, &[]), [UnitRefusal::Thin]);
        assert_eq!(thin(1, 1, &section), [UnitRefusal::IrbThin]);
        assert_eq!([thin(0, 0, &[]), thin(1, 0, &section)], [[], []]);
    }
}
