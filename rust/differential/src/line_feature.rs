//! What a run must meet on some accepted line, and on some accepted sheet where a line alone does not tell.

use crate::answer::Approach;
use crate::seen::{DealKind, Seen};
use independent::formula::HIGHEST_WEIGHT;

/// What must be met on lines of any deal that is not under SEC-IRBA, which has features of its own. Those of the formula
/// are met under SEC-SA.
#[derive(Debug, Clone, Copy, PartialEq, Eq)]
pub enum Feature {
    /// The floor of an ordinary securitisation decided a weight.
    OrdinaryFloor,
    /// The floor of a re-securitisation decided a weight.
    ResecuritisationFloor,
    /// The cap decided a weight.
    CapDecided,
    /// The cap decided a weight below the floor.
    CapBelowFloor,
    /// A non-senior weight of an ordinary securitisation is the senior figure.
    AtSenior,
    /// Raw weight 125,000 because D is at most K.
    BelowCharge,
    /// K is 0 and D above it: raw weight 0.
    ZeroCharge,
    /// K and D are 0: raw weight 125,000.
    ZeroChargeAndPoint,
    /// SEC-SA with A below K and D above it.
    AcrossCharge,
    /// SEC-SA with A equal to K.
    FromCharge,
    /// SEC-SA with K at least 1, D above K and a thickness D − A of one millionth, the least that is accepted there.
    ThinAboveCharge,
    /// Two raw weights pass and give two weights.
    TwoWeights,
    /// The unknown exposure is exactly 5% of all exposure.
    UnknownAtLimit,
}

impl Feature {
    /// All features with their names, in the order of the enum.
    pub(crate) const TABLE: [(Feature, &'static str); 13] = [
        (Feature::OrdinaryFloor, "lines: ordinary, floor 1,500 decided"),
        (Feature::ResecuritisationFloor, "lines: floor 10,000 decided"),
        (Feature::CapDecided, "sheets: cap decided"),
        (Feature::CapBelowFloor, "lines: cap below the floor decided"),
        (Feature::AtSenior, "lines: ordinary, at the senior figure"),
        (Feature::BelowCharge, "lines: weight 125,000 with D at most K"),
        (Feature::ZeroCharge, "lines: K = 0 and D above 0"),
        (Feature::ZeroChargeAndPoint, "lines: K = 0 and D = 0"),
        (Feature::AcrossCharge, "lines: A below K and D above K"),
        (Feature::FromCharge, "lines: A = K and D above K"),
        (Feature::ThinAboveCharge, "lines: one millionth thick above K"),
        (Feature::TwoWeights, "lines: two weights admitted"),
        (Feature::UnknownAtLimit, "sheets: unknown exposure exactly 5%"),
    ];

    /// Whether a line shows the feature. Whether the cap decided and how much is unknown are not told from the line
    /// alone.
    pub(crate) fn shown(self, seen: &Seen) -> bool {
        !seen.is(Approach::SecIrba) && self.shown_by_other(seen)
    }

    /// Whether a line under another approach than SEC-IRBA shows the feature.
    fn shown_by_other(self, seen: &Seen) -> bool {
        match self {
            Feature::OrdinaryFloor => seen.kind == DealKind::Ordinary && seen.floor_decided(),
            Feature::ResecuritisationFloor => seen.kind == DealKind::Resecuritisation && seen.floor_decided(),
            Feature::CapDecided | Feature::UnknownAtLimit => false,
            Feature::CapBelowFloor => seen.capped_below_floor(),
            Feature::AtSenior => seen.kind == DealKind::Ordinary && seen.at_senior(),
            Feature::BelowCharge => seen.below_charge(),
            Feature::ZeroCharge => seen.zero_charge(),
            Feature::ZeroChargeAndPoint => seen.zero_charge_and_point(),
            Feature::AcrossCharge => seen.across_charge(),
            Feature::FromCharge => seen.starts_at_charge(),
            Feature::ThinAboveCharge => seen.thin_above_charge(),
            Feature::TwoWeights => seen.two_weights(),
        }
    }
}

/// What must be met on lines of STC deals that are not under SEC-IRBA.
#[derive(Debug, Clone, Copy, PartialEq, Eq)]
pub enum StcFeature {
    /// Class 1 under the fallback.
    SeniorFallback,
    /// A class below under the fallback.
    Fallback,
    /// Class 1 under SEC-ERBA.
    SeniorSecErba,
    /// A class below under SEC-ERBA.
    SecErba,
    /// Class 1 under SEC-SA.
    SeniorSecSa,
    /// A class below under SEC-SA.
    SecSa,
    /// The floor of class 1 decided a SEC-SA weight.
    SeniorFloorSecSa,
    /// The floor of the classes below decided a SEC-SA weight.
    FloorSecSa,
    /// A SEC-ERBA weight is at the floor of class 1. No senior figure lies below it, so it decides none.
    SeniorFloorSecErba,
    /// The floor of the classes below decided a SEC-ERBA weight.
    FloorSecErba,
    /// The cap decided a weight.
    CapDecided,
    /// The cap decided a weight below the floor.
    CapBelowFloor,
    /// A non-senior weight is below the senior figure, to which the comparison of other deals would have raised it.
    BelowSenior,
    /// The same above the floor, where the senior figure is below 1250%.
    BelowSeniorAboveFloor,
    /// Two raw weights pass and give two weights.
    TwoWeights,
}

impl StcFeature {
    /// All features with their names, in the order of the enum.
    pub(crate) const TABLE: [(StcFeature, &'static str); 15] = [
        (StcFeature::SeniorFallback, "STC lines: class 1, fallback"),
        (StcFeature::Fallback, "STC lines: below class 1, fallback"),
        (StcFeature::SeniorSecErba, "STC lines: class 1, SEC-ERBA"),
        (StcFeature::SecErba, "STC lines: below class 1, SEC-ERBA"),
        (StcFeature::SeniorSecSa, "STC lines: class 1, SEC-SA"),
        (StcFeature::SecSa, "STC lines: below class 1, SEC-SA"),
        (StcFeature::SeniorFloorSecSa, "STC lines: floor 1,000 decided, SEC-SA"),
        (StcFeature::FloorSecSa, "STC lines: floor 1,500 decided, SEC-SA"),
        (
            StcFeature::SeniorFloorSecErba,
            "STC lines: at the floor 1,000, SEC-ERBA",
        ),
        (StcFeature::FloorSecErba, "STC lines: floor 1,500 decided, SEC-ERBA"),
        (StcFeature::CapDecided, "STC sheets: cap decided"),
        (StcFeature::CapBelowFloor, "STC lines: cap below the floor decided"),
        (StcFeature::BelowSenior, "STC lines: below the senior figure"),
        (
            StcFeature::BelowSeniorAboveFloor,
            "STC lines: below it and above the floor",
        ),
        (StcFeature::TwoWeights, "STC lines: two weights admitted"),
    ];

    /// Whether a line shows the feature. Whether the cap decided is not told from the line alone.
    pub(crate) fn shown(self, seen: &Seen) -> bool {
        seen.kind == DealKind::Stc && !seen.is(Approach::SecIrba) && self.shown_by_stc(seen)
    }

    /// Whether a line of an STC deal that is not under SEC-IRBA shows the feature.
    fn shown_by_stc(self, seen: &Seen) -> bool {
        match self {
            StcFeature::SeniorFallback => seen.senior && seen.is(Approach::Fallback),
            StcFeature::Fallback => !seen.senior && seen.is(Approach::Fallback),
            StcFeature::SeniorSecErba => seen.senior && seen.is(Approach::SecErba),
            StcFeature::SecErba => !seen.senior && seen.is(Approach::SecErba),
            StcFeature::SeniorSecSa => seen.senior && seen.is(Approach::SecSa),
            StcFeature::SecSa => !seen.senior && seen.is(Approach::SecSa),
            StcFeature::SeniorFloorSecSa => seen.senior && seen.is(Approach::SecSa) && seen.floor_decided(),
            StcFeature::FloorSecSa => !seen.senior && seen.is(Approach::SecSa) && seen.floor_decided(),
            StcFeature::SeniorFloorSecErba => seen.senior && seen.table_at_floor(),
            StcFeature::FloorSecErba => !seen.senior && seen.is(Approach::SecErba) && seen.floor_decided(),
            StcFeature::CapDecided => false,
            StcFeature::CapBelowFloor => seen.capped_below_floor(),
            StcFeature::BelowSenior => seen.senior_above().is_some(),
            StcFeature::BelowSeniorAboveFloor => {
                let below = seen.senior_above().is_some_and(|senior| senior < HIGHEST_WEIGHT);
                below && seen.weight() > seen.floor()
            }
            StcFeature::TwoWeights => seen.two_weights(),
        }
    }
}

#[cfg(test)]
mod tests {
    use super::*;
    use crate::answer::LINE_WORDS;
    use independent::sheet::Tranche;
    use independent::{Amounts, Line};

    /// Features are counted by the enums' order, so the tables must follow it.
    #[test]
    fn tables_follow_the_enums() {
        assert!((0..)
            .zip(Feature::TABLE)
            .all(|(place, entry)| entry.0 as usize == place));
        assert!((0..)
            .zip(StcFeature::TABLE)
            .all(|(place, entry)| entry.0 as usize == place));
    }

    /// A SEC-SA line of one millionth counts from the charge on; one further down, a thicker one, one over a charge of
    /// 0, a rated one and one under SEC-IRBA do not.
    #[test]
    fn thin_lines_above_the_charge_are_counted() {
        let thin = |approach: Approach, charge, attachment, detachment| {
            let line = Line {
                approach: approach.word(),
                attachment,
                detachment,
                amounts: vec![Amounts {
                    weight: 1_500,
                    risk_weighted: 0,
                    capital: 0,
                }],
                least_weights: vec![1_500],
            };
            Feature::ThinAboveCharge.shown(&Seen {
                line: &line,
                charge,
                kind: DealKind::Ordinary,
                due_diligence: true,
                irb: None,
                tranche: Tranche {
                    amount: 1,
                    class: 2,
                    months: 1,
                    held: 0,
                    ratings: [0; 3],
                    place: 0,
                },
                senior: false,
                capped: false,
                dates: None,
                rated: None,
            })
        };
        let formula = Approach::SecSa;
        assert!(thin(formula, 50, 50, 51) && thin(formula, 50, 60, 61));
        assert!(!thin(formula, 50, 49, 50) && !thin(formula, 50, 60, 62));
        assert!(!thin(formula, 0, 60, 61) && !thin(Approach::SecErba, 50, 60, 61));
        assert!(!thin(Approach::SecIrba, 50, 60, 61));
    }

    /// What the line of a tranche shows that covers a pool of this risk weight down to 12% of it, by its own features
    /// and by those of STC deals; and whether it has two weights, its floor decided, and its cap decided below the
    /// floor. The pool kind, the composition and the mark are as given. An IRB section gives the charge and the average
    /// of the pool.
    fn shown([pool_kind, composition, stc]: [u64; 3], risk_weight: u64) -> (Vec<Feature>, Vec<StcFeature>, [bool; 3]) {
        let facts = [5, pool_kind, 0, 1, composition, stc];
        let rows = [1, 1_000_000, 1_000_000, risk_weight, 0];
        let tranches = [1, 880_000, 1, 36, 0, 0, 0, 0];
        let section = [1, 800 * risk_weight, 1_000_000, 1, 0, 1_000_000, 100 * risk_weight];
        let section = if pool_kind == 0 { &[][..] } else { &section };
        let sheet = [&facts[..], &rows, &tranches, section].concat();
        let deal = independent::weigh(&sheet, LINE_WORDS as u64).expect("an accepted sheet");
        let seen = Seen::new(&sheet, &deal, 0);
        let features = Feature::TABLE.map(|(feature, _)| feature).into_iter();
        let stc_features = StcFeature::TABLE.map(|(feature, _)| feature).into_iter();
        (
            features.filter(|feature| feature.shown(&seen)).collect(),
            stc_features.filter(|feature| feature.shown(&seen)).collect(),
            [seen.two_weights(), seen.floor_decided(), seen.capped_below_floor()],
        )
    }

    /// Two weights, floors and caps below the floor count under SEC-SA. Under SEC-IRBA the line has them too and none
    /// counts.
    #[test]
    fn lines_under_irba_are_not_counted() {
        let senior = StcFeature::SeniorSecSa;
        let two_weights = [true, false, false];
        let features = vec![Feature::TwoWeights];
        assert_eq!(shown([0, 0, 0], 100), (features.clone(), vec![], two_weights));
        let stc = vec![senior, StcFeature::TwoWeights];
        assert_eq!(shown([0, 0, 1], 100), (features, stc, two_weights));
        let floor = [false, true, false];
        let features = vec![Feature::OrdinaryFloor, Feature::ZeroCharge];
        assert_eq!(shown([0, 0, 0], 0), (features, vec![], floor));
        let stc = vec![senior, StcFeature::SeniorFloorSecSa];
        assert_eq!(shown([0, 0, 1], 0), (vec![Feature::ZeroCharge], stc, floor));
        let capped = [false, false, true];
        let features = vec![Feature::CapBelowFloor];
        assert_eq!(shown([0, 1, 0], 9), (features.clone(), vec![], capped));
        let stc = vec![senior, StcFeature::CapBelowFloor];
        assert_eq!(shown([0, 1, 1], 9), (features, stc, capped));
        for stc in [0, 1] {
            assert_eq!(shown([1, 0, stc], 100), (vec![], vec![], two_weights));
            assert_eq!(shown([1, 0, stc], 0), (vec![], vec![], floor));
            assert_eq!(shown([1, 1, stc], 9), (vec![], vec![], capped));
        }
    }
}
