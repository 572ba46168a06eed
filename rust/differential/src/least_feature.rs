//! What a run must meet on some accepted line by its two ends, the weight and the least weight (S-6).

use crate::answer::Approach;
use crate::seen::{Rated, Seen};

/// What must be met by the two ends of some line. The numbers that they start from are those before floor and cap. Every
/// library meets these, whichever of the admitted numbers it takes.
#[derive(Debug, Clone, Copy, PartialEq, Eq)]
pub enum Ends {
    /// They start apart, neither floor nor cap changes them, and those written differ: by the table they are one apart,
    /// by the formula one, two or three, which is left to the library.
    Apart,
    /// They start apart, and the floor makes them equal.
    EqualByFloor,
    /// They start apart, and the cap makes them equal.
    EqualByCap,
    /// The cap leaves one of two weights, and a least weight below it.
    CapBetween,
    /// Two least weights are admitted.
    TwoLeastWeights,
    /// The exact value of the formula is below 1, so that the least weight starts from 0.
    ValueBelowOne,
    /// Both start from 0 since K is 0, and are the floor.
    ZeroChargeFloor,
    /// Both start from 0 since K is 0, and are a cap of 0.
    ZeroChargeCap,
    /// Both are 125,000 since D is at most K.
    BelowCharge,
    /// Both start from 125,000 since D is at most K, and are the cap.
    BelowChargeCap,
    /// Both are the exact figure of the table, which is whole.
    Whole,
    /// Any: both are 125,000 under the fallback.
    Any,
}

impl Ends {
    /// Whether a line shows this whose written weight and least weight are so far apart.
    fn shown(self, seen: &Seen, apart: u64) -> bool {
        match self {
            Ends::Apart => seen.ends_kept() && apart > 0,
            Ends::EqualByFloor => seen.equal_by_floor(),
            Ends::EqualByCap => seen.equal_by_cap(),
            Ends::CapBetween => seen.cap_between(),
            Ends::TwoLeastWeights => seen.two_least_weights(),
            Ends::ValueBelowOne => seen.value_below_one(),
            Ends::ZeroChargeFloor => seen.zero_charge() && seen.least_weight() == seen.floor(),
            Ends::ZeroChargeCap => seen.zero_charge() && seen.least_weight() == 0,
            Ends::BelowCharge => seen.below_charge(),
            Ends::BelowChargeCap => seen.capped_below_charge(),
            Ends::Whole => seen.whole_figure_kept(),
            Ends::Any => true,
        }
    }
}

/// Which two ratings of a tranche are near: of one weight, with least weights that differ.
#[derive(Debug, Clone, Copy, PartialEq, Eq)]
pub enum NearPair {
    /// The only two, of which the higher counts.
    OfTwo,
    /// The two lowest of three, of which the higher counts.
    LowestOfThree,
    /// The two highest of three, of which the lower counts.
    HighestOfThree,
}

/// What must be met by the least weight of some line.
#[derive(Debug, Clone, Copy, PartialEq, Eq)]
pub enum LeastFeature {
    /// The ends of a line under this approach.
    Ends(Approach, Ends),
    /// Two ratings are near, and neither floor nor cap hides which one counts.
    Near {
        /// Which two.
        pair: NearPair,
        /// Whether the lower of them stands in the earlier word.
        lower_first: bool,
    },
}

impl LeastFeature {
    /// All features with their names.
    pub(crate) const TABLE: [(LeastFeature, &'static str); 29] = [
        (table(Ends::Apart), "SEC-ERBA ends: apart"),
        (table(Ends::Whole), "SEC-ERBA ends: exact figure whole"),
        (table(Ends::EqualByFloor), "SEC-ERBA ends: equal by the floor"),
        (table(Ends::EqualByCap), "SEC-ERBA ends: equal by the cap"),
        (sa(Ends::Apart), "SEC-SA ends: apart"),
        (sa(Ends::TwoLeastWeights), "SEC-SA ends: two least weights admitted"),
        (sa(Ends::EqualByFloor), "SEC-SA ends: equal by the floor"),
        (sa(Ends::EqualByCap), "SEC-SA ends: equal by the cap"),
        (sa(Ends::ValueBelowOne), "SEC-SA ends: exact value below 1"),
        (sa(Ends::ZeroChargeFloor), "SEC-SA ends: K = 0, the floor"),
        (sa(Ends::ZeroChargeCap), "SEC-SA ends: K = 0, a cap of 0"),
        (sa(Ends::BelowCharge), "SEC-SA ends: D at most K"),
        (irba(Ends::Apart), "SEC-IRBA ends: apart"),
        (irba(Ends::TwoLeastWeights), "SEC-IRBA ends: two least weights admitted"),
        (irba(Ends::EqualByFloor), "SEC-IRBA ends: equal by the floor"),
        (irba(Ends::EqualByCap), "SEC-IRBA ends: equal by the cap"),
        (irba(Ends::CapBetween), "SEC-IRBA ends: the cap between them"),
        (irba(Ends::ValueBelowOne), "SEC-IRBA ends: exact value below 1"),
        (irba(Ends::ZeroChargeFloor), "SEC-IRBA ends: K = 0, the floor"),
        (irba(Ends::ZeroChargeCap), "SEC-IRBA ends: K = 0, a cap of 0"),
        (irba(Ends::BelowCharge), "SEC-IRBA ends: D at most K"),
        (irba(Ends::BelowChargeCap), "SEC-IRBA ends: D at most K, the cap"),
        (
            LeastFeature::Ends(Approach::Fallback, Ends::Any),
            "fallback ends: 125,000",
        ),
        (near(NearPair::OfTwo, true), "two near ratings: lower first"),
        (near(NearPair::OfTwo, false), "two near ratings: higher first"),
        (near(NearPair::LowestOfThree, true), "three, lowest near: lower first"),
        (near(NearPair::LowestOfThree, false), "three, lowest near: higher first"),
        (near(NearPair::HighestOfThree, true), "three, highest near: lower first"),
        (
            near(NearPair::HighestOfThree, false),
            "three, highest near: higher first",
        ),
    ];

    /// The place of the feature in the table, by which it is counted.
    pub fn place(self) -> usize {
        let place = LeastFeature::TABLE.iter().position(|&(feature, _)| feature == self);
        place.unwrap_or_else(|| panic!("{self:?} is not in the table"))
    }

    /// Whether a line shows the feature whose written weight and least weight are so far apart.
    pub(crate) fn shown(self, seen: &Seen, apart: u64) -> bool {
        match self {
            LeastFeature::Ends(approach, ends) => seen.is(approach) && ends.shown(seen, apart),
            LeastFeature::Near { pair, lower_first } => near_kept(seen) == Some((pair, lower_first)),
        }
    }
}

/// The feature of these ends under SEC-ERBA.
const fn table(ends: Ends) -> LeastFeature {
    LeastFeature::Ends(Approach::SecErba, ends)
}

/// The feature of these ends under SEC-SA.
const fn sa(ends: Ends) -> LeastFeature {
    LeastFeature::Ends(Approach::SecSa, ends)
}

/// The feature of these ends under SEC-IRBA.
const fn irba(ends: Ends) -> LeastFeature {
    LeastFeature::Ends(Approach::SecIrba, ends)
}

/// The feature of this pair in this order.
const fn near(pair: NearPair, lower_first: bool) -> LeastFeature {
    LeastFeature::Near { pair, lower_first }
}

/// The near pair of a line whose ends are those of the table, and whether the lower one stands first.
fn near_kept(seen: &Seen) -> Option<(NearPair, bool)> {
    let rated = seen.rated.as_ref()?;
    let kept = (seen.weight(), seen.least_weight()) == (rated.weight, rated.least_weight);
    near_pair(rated).filter(|_| kept)
}

/// The near pair of a tranche's ratings, and whether the lower one stands first. Ratings are put in the order of their
/// weights and then of their least weights, each with its word.
fn near_pair(rated: &Rated) -> Option<(NearPair, bool)> {
    let ends = rated.weights.into_iter().zip(rated.least_weights);
    let mut order: Vec<([u64; 2], usize)> = (0..)
        .zip(ends)
        .filter_map(|(word, (weight, least_weight))| Some(([weight?, least_weight?], word)))
        .collect();
    order.sort_unstable();
    let [weight, least_weight] = [0, 1].map(|end| order.iter().map(|(ends, _)| ends[end]).collect::<Vec<_>>());
    let is_near = |low: usize| weight[low] == weight[low + 1] && least_weight[low] < least_weight[low + 1];
    let (pair, low) = match order.len() {
        2 if is_near(0) => (NearPair::OfTwo, 0),
        3 if is_near(0) && weight[1] < weight[2] => (NearPair::LowestOfThree, 0),
        3 if is_near(1) && weight[0] < weight[1] => (NearPair::HighestOfThree, 1),
        _ => return None,
    };
    Some((pair, order[low].1 < order[low + 1].1))
}

#[cfg(test)]
mod tests {
    use super::*;
    use crate::answer::LINE_WORDS;

    /// Features are counted by their places in the table, so each stands there once.
    #[test]
    fn features_stand_once() {
        assert!((0..)
            .zip(LeastFeature::TABLE)
            .all(|(place, entry)| entry.0.place() == place));
    }

    /// A sheet with these facts over a pool of a million at this risk weight, with this section at the end. Each tranche
    /// is of a class of its own, given by its amount, months and ratings.
    fn sheet(facts: &[u64], percent: u64, tranches: &[(u64, u64, [u64; 3])], section: &[u64]) -> Vec<u64> {
        let mut words = [&[facts.len() as u64], facts].concat();
        words.extend([1, 1_000_000, 1_000_000, percent, 3 * facts[1], tranches.len() as u64]);
        for (class, &(amount, months, ratings)) in (1..).zip(tranches) {
            words.extend([amount, class, months, 0]);
            words.extend(ratings);
        }
        words.extend(section);
        words
    }

    /// What the last line of a sheet shows whose written ends are as far apart as is said.
    fn shown_apart(sheet: &[u64], apart: impl Fn(&Seen) -> u64) -> Vec<LeastFeature> {
        let deal = independent::weigh(sheet, 3 * LINE_WORDS as u64).expect("an accepted sheet");
        let seen = Seen::new(sheet, &deal, deal.lines.len() - 1);
        let features = LeastFeature::TABLE.map(|(feature, _)| feature).into_iter();
        features.filter(|feature| feature.shown(&seen, apart(&seen))).collect()
    }

    /// What the last line of a sheet shows whose written ends are the nearest that are admitted.
    fn shown(sheet: &[u64]) -> Vec<LeastFeature> {
        let nearest = |seen: &Seen| seen.line.least_weights.last().copied().expect("a least weight");
        shown_apart(sheet, |seen| seen.weight() - nearest(seen))
    }

    /// The facts of a deal without a cap.
    const UNCAPPED: &[u64] = &[0, 0, 1, 0];
    /// The facts of a deal with a cap.
    const CAPPED: &[u64] = &[0, 0, 1, 1];
    /// The facts of an STC deal without a cap.
    const STC: &[u64] = &[0, 0, 1, 0, 1];

    /// What the last line of a deal over loans of this risk weight shows. The tranches are given by their amounts, and
    /// all have these months and ratings.
    fn rated(facts: &[u64], percent: u64, amounts: &[u64], months: u64, ratings: [u64; 3]) -> Vec<LeastFeature> {
        let tranches: Vec<_> = amounts.iter().map(|&amount| (amount, months, ratings)).collect();
        shown(&sheet(facts, percent, &tranches, &[]))
    }

    /// What the last line of such a deal shows where no tranche is rated, with this section.
    fn unrated(facts: &[u64], percent: u64, amounts: &[u64], section: &[u64]) -> Vec<LeastFeature> {
        let tranches: Vec<_> = amounts.iter().map(|&amount| (amount, 72, [0; 3])).collect();
        shown(&sheet(facts, percent, &tranches, section))
    }

    /// Ends by the table: senior AAA is 15.0833% at 13 months and 20% at 72. A cap of 16% leaves the first as it is, one
    /// of 15% or 10% does not. Non-senior AAA of an STC deal, a tenth and a millionth thick, is 13.499985% at 12 months.
    #[test]
    fn ends_by_the_table() {
        let senior = |facts, percent, months| rated(facts, percent, &[1_000_000], months, [1, 0, 0]);
        assert_eq!(senior(UNCAPPED, 1, 13), [table(Ends::Apart)]);
        assert_eq!(senior(UNCAPPED, 1, 72), [table(Ends::Whole)]);
        assert_eq!(senior(CAPPED, 16, 13), [table(Ends::Apart)]);
        assert_eq!(senior(CAPPED, 15, 13), [table(Ends::EqualByCap)]);
        assert_eq!(senior(CAPPED, 10, 13), [table(Ends::EqualByCap)]);
        assert_eq!(senior(CAPPED, 10, 72), []);
        let second = |rating| rated(STC, 100, &[899_999, 100_001], 12, [rating, 0, 0]);
        assert_eq!(second(1), [table(Ends::EqualByFloor)]);
        assert_eq!(second(21), []);
    }

    /// Ends under SEC-SA. Over loans of 125% the charge is 100,000 and the cap 12,500: the values are 79,015.07 and
    /// 111,683.67, then of class 1 13,283.6 and 12,499.9, of which the cap leaves the second one's least weight. Over
    /// loans of 100% and 1% they are 454.8 and next to nothing.
    #[test]
    fn ends_under_sec_sa() {
        let of = |facts, percent, amounts: &[u64]| unrated(facts, percent, amounts, &[]);
        let two = [Ends::Apart, Ends::TwoLeastWeights].map(sa);
        assert_eq!(of(UNCAPPED, 125, &[800_000, 100_000]), two);
        assert_eq!(of(UNCAPPED, 125, &[850_000, 100_000]), [sa(Ends::Apart)]);
        assert_eq!(of(UNCAPPED, 125, &[900_000, 100_000]), [sa(Ends::BelowCharge)]);
        assert_eq!(of(CAPPED, 125, &[895_000]), [sa(Ends::EqualByCap)]);
        assert_eq!(of(CAPPED, 125, &[888_152]), []);
        assert_eq!(of(UNCAPPED, 100, &[200_000, 400_000]), [sa(Ends::EqualByFloor)]);
        let nothing = [Ends::EqualByFloor, Ends::ValueBelowOne].map(sa);
        assert_eq!(of(UNCAPPED, 1, &[800_000]), nothing);
        assert_eq!(of(CAPPED, 1, &[800_000]), [sa(Ends::ValueBelowOne)]);
        assert_eq!(of(UNCAPPED, 0, &[800_000]), [sa(Ends::ZeroChargeFloor)]);
        assert_eq!(of(CAPPED, 0, &[800_000]), [sa(Ends::ZeroChargeCap)]);
        assert_eq!(of(&[0, 1, 1, 1], 0, &[800_000]), [sa(Ends::ZeroChargeFloor)]);
    }

    /// Ends under SEC-IRBA. With a charge of 100,000 class 1 has parameter 0.3, and the values are 2,187.86, 2,051.42 and
    /// 833.27.
    #[test]
    fn ends_under_sec_irba() {
        let of = |composition, charge, average, amounts: &[u64]| {
            let section = [1, charge, 0, 1_000_000, 0, 1_000_000, average];
            unrated(&[1, 0, 1, composition], 100, amounts, &section)
        };
        let two = [Ends::Apart, Ends::TwoLeastWeights].map(irba);
        assert_eq!(of(0, 100_000, 0, &[880_000]), [irba(Ends::Apart)]);
        assert_eq!(of(0, 100_000, 0, &[878_000]), two);
        assert_eq!(of(1, 100_000, 2_053, &[878_000]), two);
        let between = [Ends::TwoLeastWeights, Ends::CapBetween].map(irba);
        assert_eq!(of(1, 100_000, 2_052, &[878_000]), between);
        assert_eq!(of(1, 100_000, 2_051, &[878_000]), [irba(Ends::TwoLeastWeights)]);
        assert_eq!(of(1, 100_000, 2_188, &[880_000]), [irba(Ends::CapBetween)]);
        assert_eq!(of(1, 100_000, 2_050, &[878_000]), [irba(Ends::EqualByCap)]);
        assert_eq!(of(0, 100_000, 0, &[850_000]), [irba(Ends::EqualByFloor)]);
        assert_eq!(of(0, 100_000, 0, &[950_000, 50_000]), [irba(Ends::BelowCharge)]);
        assert_eq!(of(1, 1_000_000, 7_000, &[1_000_000]), [irba(Ends::BelowChargeCap)]);
        let nothing = [Ends::EqualByFloor, Ends::ValueBelowOne].map(irba);
        assert_eq!(of(0, 1, 0, &[880_000]), nothing);
        assert_eq!(of(0, 0, 0, &[880_000]), [irba(Ends::ZeroChargeFloor)]);
        assert_eq!(of(1, 0, 0, &[880_000]), [irba(Ends::ZeroChargeCap)]);
        assert_eq!(of(1, 0, 700, &[880_000]), []);
    }

    /// Ends are apart where the written ones differ, however far.
    #[test]
    fn ends_further_apart() {
        let sheet = sheet(UNCAPPED, 125, &[(800_000, 72, [0; 3])], &[]);
        assert_eq!(shown_apart(&sheet, |_| 0), [sa(Ends::TwoLeastWeights)]);
        for apart in 1..=3 {
            let both = [Ends::Apart, Ends::TwoLeastWeights].map(sa);
            assert_eq!(shown_apart(&sheet, |_| apart), both);
        }
    }

    /// The ends of the fallback, whatever the cap would be.
    #[test]
    fn ends_of_the_fallback() {
        let fallback = [LeastFeature::Ends(Approach::Fallback, Ends::Any)];
        assert_eq!(unrated(&[0, 0, 0, 1], 10, &[1_000_000], &[]), fallback);
    }

    /// Near ratings by their pair and order: non-senior AAA of 72 months, 285,715 millionths thick, is 49.99995%, and the
    /// short-term grade 22 is 50%. Three of one weight are no pair, and neither are ratings of one figure.
    #[test]
    fn near_ratings() {
        let second = |ratings| {
            let mut shown = rated(UNCAPPED, 100, &[714_285, 285_715], 72, ratings);
            shown.retain(|feature| matches!(feature, LeastFeature::Near { .. }));
            shown
        };
        for (lower_first, two) in [(true, [1, 22]), (false, [22, 1])] {
            let [one, other] = two;
            for ratings in [[0, one, other], [one, 0, other], [one, other, 0]] {
                assert_eq!(second(ratings), [near(NearPair::OfTwo, lower_first)]);
            }
            assert_eq!(second([one, 23, other]), [near(NearPair::LowestOfThree, lower_first)]);
            assert_eq!(second([21, one, other]), [near(NearPair::HighestOfThree, lower_first)]);
        }
        for ratings in [[1, 1, 22], [22, 1, 22], [1, 1, 0], [22, 23, 0], [1, 0, 0]] {
            assert_eq!(second(ratings), [], "{ratings:?}");
        }
    }

    /// A near pair that the floor hides is not counted: non-senior AAA of an STC deal, 333,334 millionths thick, is
    /// 9.99999% at 12 months, and the short-term grade 21 is 10%.
    #[test]
    fn hidden_near_ratings() {
        assert_eq!(rated(STC, 100, &[666_666, 333_334], 12, [1, 21, 0]), []);
    }
}
