//! What a run must meet on some line under SEC-ERBA by the tranche's ratings (S-2). Unless a feature is about floor or cap,
//! it counts where these leave the weight that counts among the ratings as it is.

use crate::seen::{DealKind, Rated, Seen};
use crate::sheet::{LONG_TERM, SHORT_TERM};
use std::cmp::Ordering;

/// What must be met by the ratings of some line.
#[derive(Debug, Clone, Copy, PartialEq, Eq)]
pub enum RatingFeature {
    /// Two ratings of different weights, none in the first word.
    TwoNoneFirst,
    /// The same, none in the second word.
    TwoNoneSecond,
    /// The same, none in the third word.
    TwoNoneThird,
    /// Three different weights, the middle one in the first word.
    MiddleFirst,
    /// The same, the middle one in the second word.
    MiddleSecond,
    /// The same, the middle one in the third word.
    MiddleThird,
    /// Two equal weights and a lower one.
    EqualAndLower,
    /// Two equal weights and a higher one.
    EqualAndHigher,
    /// Three equal weights.
    ThreeEqual,
    /// Three ratings, long-term and short-term.
    BothTerms,
    /// Three ratings, and the one with the middle code has another weight than the middle one.
    OtherByCode,
    /// Two ratings of different weights in an STC deal.
    StcTwo,
    /// Three different weights in an STC deal.
    StcThree,
    /// Three ratings, and the floor decided the weight.
    RaisedToFloor,
    /// Three ratings, and the cap decided the weight.
    LoweredToCap,
}

impl RatingFeature {
    /// All features with their names, in the order of the enum.
    pub(crate) const TABLE: [(RatingFeature, &'static str); 15] = [
        (RatingFeature::TwoNoneFirst, "lines: two ratings, none in word 1"),
        (RatingFeature::TwoNoneSecond, "lines: two ratings, none in word 2"),
        (RatingFeature::TwoNoneThird, "lines: two ratings, none in word 3"),
        (RatingFeature::MiddleFirst, "lines: three ratings, middle in word 1"),
        (RatingFeature::MiddleSecond, "lines: three ratings, middle in word 2"),
        (RatingFeature::MiddleThird, "lines: three ratings, middle in word 3"),
        (RatingFeature::EqualAndLower, "lines: two equal ratings and a lower one"),
        (
            RatingFeature::EqualAndHigher,
            "lines: two equal ratings and a higher one",
        ),
        (RatingFeature::ThreeEqual, "lines: three equal ratings"),
        (RatingFeature::BothTerms, "lines: three, long-term and short-term"),
        (RatingFeature::OtherByCode, "lines: three, another one by code"),
        (RatingFeature::StcTwo, "STC lines: two ratings"),
        (RatingFeature::StcThree, "STC lines: three ratings"),
        (RatingFeature::RaisedToFloor, "STC lines: three, raised to the floor"),
        (RatingFeature::LoweredToCap, "lines: three, lowered to the cap"),
    ];

    /// Whether a line shows the feature.
    pub(crate) fn shown(self, seen: &Seen) -> bool {
        let Some(rated) = &seen.rated else {
            return false;
        };
        let raised = rated.weight.max(seen.floor());
        match self {
            RatingFeature::RaisedToFloor => three(rated).is_some() && seen.floor_decided(),
            RatingFeature::LoweredToCap => three(rated).is_some() && seen.weight() < raised,
            _ => seen.weight() == rated.weight && self.shown_by(seen.kind, rated),
        }
    }

    /// Whether ratings show the feature in a deal of this kind.
    fn shown_by(self, kind: DealKind, rated: &Rated) -> bool {
        let stc = kind == DealKind::Stc;
        match self {
            RatingFeature::TwoNoneFirst => none_of_two(rated) == Some(0),
            RatingFeature::TwoNoneSecond => none_of_two(rated) == Some(1),
            RatingFeature::TwoNoneThird => none_of_two(rated) == Some(2),
            RatingFeature::MiddleFirst => middle(rated) == Some(0),
            RatingFeature::MiddleSecond => middle(rated) == Some(1),
            RatingFeature::MiddleThird => middle(rated) == Some(2),
            RatingFeature::EqualAndLower => steps(rated) == Some([Ordering::Less, Ordering::Equal]),
            RatingFeature::EqualAndHigher => steps(rated) == Some([Ordering::Equal, Ordering::Less]),
            RatingFeature::ThreeEqual => steps(rated) == Some([Ordering::Equal, Ordering::Equal]),
            RatingFeature::BothTerms => three(rated).is_some() && both_terms(rated),
            RatingFeature::OtherByCode => other_by_code(rated),
            RatingFeature::StcTwo => stc && none_of_two(rated).is_some(),
            RatingFeature::StcThree => stc && middle(rated).is_some(),
            RatingFeature::RaisedToFloor | RatingFeature::LoweredToCap => false,
        }
    }
}

/// The word of two ratings of different weights that has none, from 0.
fn none_of_two(rated: &Rated) -> Option<usize> {
    match rated.weights {
        [None, Some(one), Some(other)] if one != other => Some(0),
        [Some(one), None, Some(other)] if one != other => Some(1),
        [Some(one), Some(other), None] if one != other => Some(2),
        _ => None,
    }
}

/// The weights of three ratings, in the order of their words.
fn three(rated: &Rated) -> Option<[u64; 3]> {
    match rated.weights {
        [Some(first), Some(second), Some(third)] => Some([first, second, third]),
        _ => None,
    }
}

/// How the weights of three ratings rise, from the lowest to the next and on to the highest.
fn steps(rated: &Rated) -> Option<[Ordering; 2]> {
    let mut weights = three(rated)?;
    weights.sort_unstable();
    let [low, middle, high] = weights;
    Some([low.cmp(&middle), middle.cmp(&high)])
}

/// The word of the middle one of three different weights, from 0.
fn middle(rated: &Rated) -> Option<usize> {
    let weights = three(rated)?;
    let lower = |than: u64| weights.iter().filter(|&&weight| weight < than).count();
    let higher = |than: u64| weights.iter().filter(|&&weight| weight > than).count();
    weights
        .iter()
        .position(|&weight| lower(weight) == 1 && higher(weight) == 1)
}

/// Whether there are ratings of both terms.
fn both_terms(rated: &Rated) -> bool {
    let within = |(least, most): (u64, u64)| rated.codes.iter().any(|code| (least..=most).contains(code));
    within(LONG_TERM) && within(SHORT_TERM)
}

/// Whether, of three ratings, the one with the middle code has another weight than the one that counts.
fn other_by_code(rated: &Rated) -> bool {
    let Some(weights) = three(rated) else {
        return false;
    };
    let mut by_code = [0, 1, 2].map(|word| (rated.codes[word], weights[word]));
    by_code.sort_unstable();
    by_code[1].1 != rated.weight
}

#[cfg(test)]
mod tests {
    use super::*;
    use crate::answer::LINE_WORDS;

    /// Features are counted by the enum's order, so the table must follow it.
    #[test]
    fn table_follows_the_enum() {
        assert!((0..)
            .zip(RatingFeature::TABLE)
            .all(|(place, entry)| entry.0 as usize == place));
    }

    /// What the ratings of class 2, a fifth thick and of 12 months, or else of class 1, show, in a deal with these facts
    /// over loans of this weight.
    fn shown(facts: &[u64], percent: u64, class: u64, ratings: [u64; 3]) -> Vec<RatingFeature> {
        let unrated = [0; 3];
        let (senior, junior) = if class == 1 {
            (ratings, unrated)
        } else {
            (unrated, ratings)
        };
        let tranche = |amount, class, ratings: [u64; 3]| [&[amount, class, 12, 0][..], &ratings].concat();
        let pool = [1, 1_000, 1_000, percent, 0, 2];
        let tranches = [tranche(800, 1, senior), tranche(200, 2, junior)].concat();
        let sheet = [&[facts.len() as u64], facts, &pool, &tranches].concat();
        let deal = independent::weigh(&sheet, 2 * LINE_WORDS as u64).expect("an accepted sheet");
        let seen = Seen::new(&sheet, &deal, class as usize - 1);
        let features = RatingFeature::TABLE.map(|(feature, _)| feature);
        features.into_iter().filter(|feature| feature.shown(&seen)).collect()
    }

    /// The facts of a deal without a cap.
    const UNCAPPED: &[u64] = &[0, 0, 1, 0];
    /// The same with the STC mark.
    const STC: &[u64] = &[0, 0, 1, 0, 1];

    /// Two ratings by the word that has none; equal ones, one and none show nothing.
    #[test]
    fn two_ratings() {
        let two = |ratings| shown(UNCAPPED, 100, 2, ratings);
        assert_eq!(two([0, 6, 9]), [RatingFeature::TwoNoneFirst]);
        assert_eq!(two([6, 0, 9]), [RatingFeature::TwoNoneSecond]);
        assert_eq!(two([9, 6, 0]), [RatingFeature::TwoNoneThird]);
        assert_eq!(
            shown(STC, 100, 2, [9, 6, 0]),
            [RatingFeature::TwoNoneThird, RatingFeature::StcTwo]
        );
        assert!([[9, 9, 0], [9, 0, 0], [0, 0, 0]]
            .into_iter()
            .all(|ratings| two(ratings).is_empty()));
    }

    /// Three ratings by the word of the middle weight, and equal ones.
    #[test]
    fn three_ratings() {
        let three = |ratings| shown(UNCAPPED, 100, 2, ratings);
        assert_eq!(three([6, 5, 9]), [RatingFeature::MiddleFirst]);
        assert_eq!(three([9, 6, 5]), [RatingFeature::MiddleSecond]);
        assert_eq!(three([5, 9, 6]), [RatingFeature::MiddleThird]);
        assert_eq!(three([5, 9, 9]), [RatingFeature::EqualAndLower]);
        assert_eq!(three([9, 5, 5]), [RatingFeature::EqualAndHigher]);
        assert_eq!(three([9, 9, 9]), [RatingFeature::ThreeEqual]);
        assert_eq!(
            shown(STC, 100, 2, [6, 5, 9]),
            [RatingFeature::MiddleFirst, RatingFeature::StcThree]
        );
    }

    /// Ratings of both terms, whose middle code has another weight than the middle one: 48%, 176% and 100%, then 15%, 64%
    /// and 1250%. Of the short-term grades alone the middle code has the middle weight.
    #[test]
    fn both_terms_and_codes() {
        let both = [RatingFeature::MiddleThird, RatingFeature::BothTerms];
        assert_eq!(
            shown(UNCAPPED, 100, 2, [5, 9, 23]),
            [&both[..], &[RatingFeature::OtherByCode]].concat()
        );
        let short = [
            RatingFeature::MiddleSecond,
            RatingFeature::BothTerms,
            RatingFeature::OtherByCode,
        ];
        assert_eq!(shown(UNCAPPED, 100, 2, [21, 6, 24]), short);
        assert_eq!(shown(UNCAPPED, 100, 2, [23, 22, 21]), [RatingFeature::MiddleSecond]);
    }

    /// Floor and cap that decide the weight of three ratings, and nothing else then.
    #[test]
    fn floor_and_cap() {
        assert_eq!(shown(STC, 100, 2, [21, 21, 9]), [RatingFeature::RaisedToFloor]);
        assert_eq!(shown(&[0, 0, 1, 1], 30, 1, [5, 6, 9]), [RatingFeature::LoweredToCap]);
        assert!(shown(&[0, 0, 1, 1], 30, 1, [5, 9, 0]).is_empty());
    }
}
