//! A weighed deal and its lines (document 01, "The deal sheet", the results; document 02, S-6 and S-8).

use std::fmt;

use crate::limits::LINE_WORDS;

/// A weighed deal.
#[derive(Debug, Clone, PartialEq, Eq, Hash)]
#[non_exhaustive]
pub struct Deal {
    /// The pool charge, in millionths: 80,000 is 8%. Under SEC-IRBA it is the mixed one: the IRB charge and the base
    /// charge of the pool, by their shares of the exposure.
    pub charge: u64,
    /// A line for each tranche, in the sheet's order.
    pub lines: Vec<Line>,
}

impl Deal {
    /// The deal of this charge and these lines.
    pub(crate) const fn new(charge: u64, lines: Vec<Line>) -> Deal {
        Deal { charge, lines }
    }

    /// The sum of the lines' risk-weighted amounts, in whole currency units. It is wide enough for lines of any
    /// amounts.
    pub fn total_risk_weighted_amount(&self) -> u128 {
        self.lines
            .iter()
            .map(|line| u128::from(line.risk_weighted_amount))
            .sum()
    }

    /// The sum of the lines' capital, in whole currency units. It is wide enough for lines of any amounts.
    pub fn total_capital(&self) -> u128 {
        self.lines.iter().map(|line| u128::from(line.capital)).sum()
    }
}

/// The line of a tranche.
///
/// ```
/// use tranche_weights::weigh_file;
///
/// // One loan of 1,000,000 at 100%; a senior tranche of 500,000, and below it one of 285,715 that is held in full, both
/// // six years, AAA.
/// let facts_and_pool = [4, 0, 0, 1, 1, 1, 1_000_000, 1_000_000, 100, 0];
/// let tranches = [2, 500_000, 1, 72, 0, 1, 0, 0, 285_715, 2, 72, 285_715, 1, 0, 0];
/// let words = facts_and_pool.into_iter().chain(tranches);
/// let file: Vec<u8> = words.flat_map(u64::to_le_bytes).collect();
///
/// // The tranche is 28.5715% thick, and 70% times 1 less that is 49.99995%.
/// let line = weigh_file(&file)?.lines[1];
/// assert_eq!((line.attachment, line.detachment), (214_285, 500_000));
/// assert_eq!((line.least_weight, line.weight), (4_999, 5_000));
/// // The amounts come from the weight.
/// assert_eq!((line.risk_weighted_amount, line.capital), (142_858, 11_429));
/// # Ok::<(), tranche_weights::Refusal>(())
/// ```
#[derive(Debug, Clone, Copy, PartialEq, Eq, Hash)]
#[non_exhaustive]
pub struct Line {
    /// The approach that gave the weight.
    pub approach: Approach,
    /// The attachment point A: the share of the pool's nominal amount that bears losses before this tranche does, in
    /// millionths, rounded down.
    pub attachment: u64,
    /// The detachment point D: the share of the pool's nominal amount at whose loss nothing of this tranche is left, in
    /// millionths, rounded down.
    pub detachment: u64,
    /// The risk weight after floor and cap, in hundredths of a percent: 125,000 is 1250%.
    ///
    /// Under the formula (SEC-SA or SEC-IRBA), the weight before floor and cap is no lower than the formula's exact
    /// value and less than 2 above it. By a rating table it is the exact figure rounded up.
    pub weight: u64,
    /// The risk-weighted amount of what is held, in whole currency units, rounded up.
    pub risk_weighted_amount: u64,
    /// The capital for what is held, 8% of held amount times weight, in whole currency units, rounded up.
    pub capital: u64,
    /// The least weight: the weight is certainly no lower than this, in hundredths of a percent.
    ///
    /// It shows how near [`weight`](Line::weight) is to the exact one: what is exact, after floor and cap, lies between
    /// the two or is one of them. Exact is the formula's value or the rating table's figure for points, charge, parameter
    /// and cap as they are, already rounded; how far these were rounded, it does not show.
    ///
    /// Floor and cap act on it as on the weight. Before floor and cap it is
    ///
    /// - under the formula no higher than the formula's exact value and less than 1.5 below it; where that value is
    ///   125,000, since no part of the tranche lies above the pool charge, or 0, since all of it lies above a charge of
    ///   0, it is that value;
    /// - by a rating table the exact figure rounded down. Of several ratings the exact figures are compared: of two the
    ///   higher counts, of three the middle one.
    ///
    /// So it is never above the weight, under the formula at most 2 below it, both being worked out together (the rules
    /// alone would allow 3), and by a rating table at most 1. In the fallback, which has neither floor nor cap, both are
    /// 125,000.
    ///
    /// No amount comes from it: risk-weighted amount and capital come from the weight.
    pub least_weight: u64,
}

impl Line {
    /// The line that its result words state.
    pub(crate) fn of(words: &[u64; LINE_WORDS]) -> Line {
        let &[approach, attachment, detachment, weight, risk_weighted_amount, capital, least_weight] = words;
        Line {
            approach: approach.into(),
            attachment,
            detachment,
            weight,
            risk_weighted_amount,
            capital,
            least_weight,
        }
    }
}

/// The approach that gave a tranche its weight.
#[derive(Debug, Clone, Copy, PartialEq, Eq, Hash)]
#[non_exhaustive]
pub enum Approach {
    /// 0: the fallback of 1250%.
    Fallback,
    /// 1: SEC-ERBA, the deal's rating table. Of two ratings the higher weight counts, of three the middle one. On a tranche
    /// without a rating of its own, the ratings are those that it takes of another one
    /// ([inferred ratings](crate::Tranche#inferred-ratings)).
    SecErba,
    /// 2: SEC-SA, the formula by the standardised approach: of a tranche that neither has a rating nor takes one, or of a
    /// re-securitisation.
    SecSa,
    /// 3: SEC-IRBA, the formula by the figures of an IRB or mixed pool ([`PoolKind`](crate::PoolKind)).
    SecIrba,
    /// A word that is not listed. The library never gives one; one would mean that another archive was linked in its
    /// place. The word is kept here, so that nothing false is said of it.
    Unlisted(u64),
}

impl Approach {
    /// The result word that states the approach.
    pub const fn word(self) -> u64 {
        match self {
            Approach::Fallback => 0,
            Approach::SecErba => 1,
            Approach::SecSa => 2,
            Approach::SecIrba => 3,
            Approach::Unlisted(word) => word,
        }
    }
}

/// Every listed approach with its name in the standard, by word from 0.
const LISTED: &[(Approach, &str)] = &[
    (Approach::Fallback, "fallback"),
    (Approach::SecErba, "SEC-ERBA"),
    (Approach::SecSa, "SEC-SA"),
    (Approach::SecIrba, "SEC-IRBA"),
];

impl From<u64> for Approach {
    /// The approach that a result word states.
    fn from(word: u64) -> Approach {
        let listed = LISTED.iter().find(|(approach, _)| approach.word() == word);
        listed.map_or(Approach::Unlisted(word), |(approach, _)| *approach)
    }
}

impl fmt::Display for Approach {
    /// Prints the approach as the standard names it.
    fn fmt(&self, f: &mut fmt::Formatter<'_>) -> fmt::Result {
        match LISTED.iter().find(|(approach, _)| approach == self) {
            Some((_, name)) => f.pad(name),
            None => f.pad(&format!("unlisted approach {}", self.word())),
        }
    }
}

#[cfg(test)]
mod tests {
    use super::{Approach, Deal, Line, LINE_WORDS, LISTED};

    /// The first word that document 01 does not list as an approach, and the highest.
    const UNLISTED: [u64; 2] = [LISTED.len() as u64, u64::MAX];

    /// The word of a line that document 01 does not list as an approach is kept.
    #[test]
    fn an_unlisted_approach_is_kept() {
        for word in UNLISTED {
            let approach = Line::of(&[word; LINE_WORDS]).approach;
            assert_eq!((approach, approach.word()), (Approach::Unlisted(word), word));
            assert_eq!(approach.to_string(), format!("unlisted approach {word}"));
        }
    }

    /// The list has the words from 0 on in order, and each states its own approach.
    #[test]
    fn the_list_has_each_word_once() {
        for ((approach, name), word) in LISTED.iter().zip(0..) {
            assert_eq!((approach.word(), Approach::from(word)), (word, *approach));
            assert_eq!(approach.to_string(), *name);
        }
    }

    /// The totals of lines of any amounts are exact.
    #[test]
    fn totals_are_wide_enough() {
        let line = Line {
            risk_weighted_amount: u64::MAX,
            capital: u64::MAX - 1,
            ..Line::of(&[0; LINE_WORDS])
        };
        let deal = Deal::new(0, vec![line; 3]);
        assert_eq!(deal.total_risk_weighted_amount(), 3 * u128::from(u64::MAX));
        assert_eq!(deal.total_capital(), 3 * u128::from(u64::MAX - 1));
    }
}
