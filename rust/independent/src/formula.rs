//! "The formula and its series" of document 01, with both ends of S-6. Shares are in millionths, weights in hundredths
//! of a percent.
//!
//! # Which whole numbers pass
//!
//! Let K be at least 1 and D above K, and let v be the exact value
//! 125,000 x (max(K - A, 0) + s x (e^(-l/s) - e^(-u/s))) / (D - A). A whole number w up to 125,000 passes as a raw weight
//! if some k, admitted for both exponents, has its upper end at most w and its lower end more than w - 2. A whole number
//! n from 0 passes as the number from which the least weight starts if some k, admitted for both exponents, has its
//! lower end at least n and its upper end less than n + 1.5; this k need not be the other.
//!
//! **w passes just when w - 2 < v < w, and n passes just when n < v < n + 1.5.**
//!
//! - Low(k) rises to e^q, and is below it for q > 0, since all terms left out are above 0. Up(k) is above e^q for
//!   q > 0 and admitted k: each term left out is at most half the one before it (q / (i + 1) is at most 1/2 from i = k + 1
//!   on, and less than 1/2 after that), so they sum to less than 2 x q^(k+1) / (k+1)!. Up(k) tends to e^q, since that
//!   last term tends to 0.
//! - u is above 0 here, so the bounds for e^(-u/s) never meet it. The bounds for e^(-l/s) meet it only for l = 0, where
//!   both are 1. So every upper end is above v and every lower end is below v, and both tend to v as k grows.
//! - If w passes by some k, then v < upper end <= w, and v > lower end > w - 2. If n passes by some k, then
//!   v > lower end >= n, and v < upper end < n + 1.5.
//! - If w - 2 < v < w, then for all large k the upper end is at most w and the lower end is more than w - 2. If
//!   n < v < n + 1.5, then for all large k the lower end is at least n and the upper end is less than n + 1.5. All large
//!   k are admitted. So w passes, and n does.
//!
//! **v is never a whole number, and never a whole number and a half.** Both would be rational. s, l, u, A, D and K are
//! rational. If v were rational, then e^(-l/s) - e^(-u/s) would be rational too. For l = 0 that makes e^(-u/s) rational
//! with a rational exponent other than 0, which Lambert excludes. For l > 0 it makes a relation with rational factors
//! between e^0, e^(-l/s) and e^(-u/s), whose exponents are three different rationals; the theorem of Lindemann and
//! Weierstrass excludes that.
//!
//! **v is above 0 and below 125,000.** s x (e^(-l/s) - e^(-u/s)) is the area under e^(-x/s) from l to u, which is above 0
//! and less than u - l. And max(K - A, 0) + u - l is D - A in both cases, A below K or not.
//!
//! Let c be 2 x v rounded up: the halves of v, rounded up. Then c - 1 < 2 x v < c, c is from 1 to 250,000, and
//! - w passes just when 2 x w - 4 < 2 x v < 2 x w, that is c <= 2 x w <= c + 3: for w = c / 2 rounded up, and for one more
//!   unless that is above 125,000;
//! - n passes just when 2 x n < 2 x v < 2 x n + 3, that is c - 3 <= 2 x n <= c - 1: for n = (c - 1) / 2 rounded down, which
//!   is v rounded down; and, unless that is 0, for one less where c is odd, which is where v is less than a half above it.
//!
//! So the whole task is to find c.

mod fixed;
pub mod rational;
pub mod series;
mod terms;

use crate::sheet::WHOLE;
use fixed::{decay, Fixed};
pub use terms::{Terms, HIGHEST_WEIGHT};

/// The whole numbers that the papers admit, each list in rising order.
#[derive(Debug, Clone, PartialEq, Eq)]
pub struct Admitted {
    /// The weights; before floor and cap, the raw weights.
    pub weights: Vec<u64>,
    /// The least weights; before floor and cap, the numbers from which they start.
    pub least_weights: Vec<u64>,
}

impl Admitted {
    /// One number for both.
    pub fn both(weight: u64) -> Admitted {
        Admitted {
            weights: vec![weight],
            least_weights: vec![weight],
        }
    }
}

/// What document 01 and S-6 admit before floor and cap: 125,000 if D <= K; 0 if K = 0; else the one or two whole numbers
/// that pass. A equal to D above K is refused before (refusal 13) and must not come here.
pub fn raw_weights(terms: &Terms) -> Admitted {
    if terms.detachment <= terms.charge {
        return Admitted::both(HIGHEST_WEIGHT);
    }
    assert!(
        terms.thickness() > 0,
        "a tranche without thickness above the charge is refused"
    );
    if terms.charge == 0 {
        return Admitted::both(0);
    }
    let halves = halves_rounded_up(terms);
    Admitted {
        weights: (halves.div_ceil(2)..=HIGHEST_WEIGHT.min((halves + 3) / 2)).collect(),
        least_weights: (halves.saturating_sub(3).div_ceil(2)..=(halves - 1) / 2).collect(),
    }
}

/// The halves of the exact value v, rounded up. Each try holds v between closer bounds: 64, 128, 256, 512, then 1,024
/// bits after the point. Since v is never whole and never a whole number and a half, close enough bounds decide. No
/// bound is known on how close v can come to one of these, so the last try may fail in principle; then the program stops
/// rather than guess.
fn halves_rounded_up(terms: &Terms) -> u64 {
    halves_within::<2>(terms)
        .or_else(|| halves_within::<3>(terms))
        .or_else(|| halves_within::<5>(terms))
        .or_else(|| halves_within::<9>(terms))
        .or_else(|| halves_within::<17>(terms))
        .unwrap_or_else(|| {
            panic!("1,024 bits do not tell on which side of a whole number or a half the raw weight lies: {terms:?}")
        })
}

/// The halves of v rounded up, or nothing where this precision does not decide it.
///
/// Lengths in millionths of a millionth are 10^6 times as many, and 125,000 is an eighth of that. So with the whole
/// number t = 4 x (D - A), 2 x v x t = max(K - A, 0) + s x (e^(-l/s) - e^(-u/s)), where s and K - A are counted that way.
/// Sums and products of the bounds are exact, so 2 x v x t lies between `low` and `high` (either may be met, as the ends
/// of the exponentials' bounds may). The difference of the exponentials is above 0, so a lower bound below 0 is
/// replaced by 0.
///
/// Let c be high / t rounded up. Then 2 x v <= c. Dividing by a whole number, `high` may be rounded up to a whole number
/// first without changing c. If also low >= (c - 1) x t, then c - 1 <= 2 x v <= c, and 2 x v is not whole, so c is that
/// rounded up. Since (c - 1) x t is whole, `low` may be rounded down first.
///
/// A large u/s needs no case of its own. Its exponential lies from 0 to one unit of the last place. For A <= K, `high` is
/// then the whole number (K - A) + s, and `low` is less than 1 below it, s being below 2^43: this decides at once, even
/// where v lies below a whole number or a half by less than e^(-300,000).
fn halves_within<const LIMBS: usize>(terms: &Terms) -> Option<u64> {
    let at_attachment = decay::<LIMBS>(terms.l(), terms.s());
    let at_detachment = decay::<LIMBS>(terms.u(), terms.s());
    let below = Fixed::whole(terms.below_charge());
    let scaled = |difference: Fixed<LIMBS>| below.plus(difference.times(terms.s()));
    let high = scaled(at_attachment.high.minus_or_zero(at_detachment.low));
    let low = scaled(at_attachment.low.minus_or_zero(at_detachment.high));
    let t = WHOLE / (2 * HIGHEST_WEIGHT) * terms.thickness();
    let halves = high.rounded_up().div_ceil(t);
    (low.rounded_down() >= (halves - 1) * t).then_some(halves)
}

#[cfg(test)]
mod tests;
