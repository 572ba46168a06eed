//! The ends of the raw weight for a given k, with exact fractions, as document 01 writes them. This is slow and decides
//! nothing in the calculator: the tests hold the quick decision to it.

use super::rational::{Natural, Ratio};
use super::terms::{Terms, HIGHEST_WEIGHT};
use crate::sheet::WHOLE;

/// Low(k) and Up(k) for q = numerator / denominator. Low(k) is the sum of q^i / i! for i from 0 to k. Up(k) is
/// Low(k) + 2 x q^(k+1) / (k+1)!. Both are worked over the common denominator of their terms.
pub fn low_and_up(numerator: u64, denominator: u64, k: u64) -> (Ratio, Ratio) {
    let mut power = Natural::new(1); // numerator^i
    let mut divisor = Natural::new(1); // denominator^i x i!
    let mut sum = Natural::new(1); // Low(i) x divisor
    for i in 1..=k {
        let step = Natural::new(denominator * i);
        power = power.times(&Natural::new(numerator));
        divisor = divisor.times(&step);
        sum = sum.times(&step).plus(&power);
    }
    let step = Natural::new(denominator * (k + 1));
    let twice_next = power.times(&Natural::new(2 * numerator));
    let up = Ratio::new(sum.times(&step).plus(&twice_next), divisor.times(&step));
    (Ratio::new(sum, divisor), up)
}

/// One end of the raw weight: `gain` less `loss`. Kept apart, since the difference may be below 0.
pub struct End {
    gain: Ratio,
    loss: Ratio,
}

impl End {
    /// 125,000 x (max(K - A, 0) + s x (at_attachment - at_detachment)) / (D - A), for the given bounds of e^(-l/s) and
    /// e^(-u/s).
    pub fn new(terms: &Terms, at_attachment: &Ratio, at_detachment: &Ratio) -> Self {
        let scale = Ratio::of_words(HIGHEST_WEIGHT, terms.thickness());
        let s = Ratio::of_words(terms.s(), WHOLE);
        let below_charge = Ratio::of_words(terms.below_charge(), WHOLE);
        Self {
            gain: scale.times(&below_charge.plus(&s.times(at_attachment))),
            loss: scale.times(&s.times(at_detachment)),
        }
    }

    /// Whether this end is at most the number.
    pub fn at_most(&self, number: &Ratio) -> bool {
        self.gain.at_most(&number.plus(&self.loss))
    }

    /// Whether this end is at least the number.
    pub fn at_least(&self, number: &Ratio) -> bool {
        number.plus(&self.loss).at_most(&self.gain)
    }

    /// Whether this end is more than the whole number less two.
    pub fn more_than_less_two(&self, whole: u64) -> bool {
        !self
            .gain
            .plus(&Ratio::of_words(2, 1))
            .at_most(&Ratio::of_words(whole, 1).plus(&self.loss))
    }
}

/// The ends for one k.
pub struct Ends {
    pub upper: End,
    pub lower: End,
}

impl Ends {
    /// The ends for K at least 1, D above K and the given k, or nothing where k is not admitted for both exponents.
    /// e^(-q) lies between 1/Up and 1/Low. The upper end takes the larger bound for e^(-l/s) and the smaller for
    /// e^(-u/s); the lower end takes them the other way round.
    pub fn new(terms: &Terms, k: u64) -> Option<Self> {
        let admitted = |distance: u64| (k + 2) * terms.s() >= 2 * distance; // k + 2 >= 2q, q = distance / s
        if !(admitted(terms.l()) && admitted(terms.u())) {
            return None;
        }
        let (low_l, up_l) = low_and_up(terms.l(), terms.s(), k);
        let (low_u, up_u) = low_and_up(terms.u(), terms.s(), k);
        Some(Self {
            upper: End::new(terms, &low_l.inverse(), &up_u.inverse()),
            lower: End::new(terms, &up_l.inverse(), &low_u.inverse()),
        })
    }

    /// Whether a whole number passes by this k as a raw weight: it is not above 125,000, the upper end is at most it, and
    /// the lower end is more than it minus 2.
    pub fn pass(&self, weight: u64) -> bool {
        let at_most = self.upper.at_most(&Ratio::of_words(weight, 1));
        weight <= HIGHEST_WEIGHT && at_most && self.lower.more_than_less_two(weight)
    }

    /// Whether the least weight may start from a whole number by this k: the lower end is at least it, and the upper end
    /// is less than it plus 1.5.
    pub fn pass_least(&self, weight: u64) -> bool {
        let at_least = self.lower.at_least(&Ratio::of_words(weight, 1));
        at_least && !self.upper.at_least(&Ratio::of_words(2 * weight + 3, 2))
    }
}
