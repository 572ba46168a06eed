//! Exact whole numbers of any length and exact fractions of them, none below 0. Slow and simple: for the series' ends.

use std::cmp::Ordering;

/// A whole number: 64-bit limbs, lowest first, the last one not 0. No limbs is 0.
#[derive(Debug, Clone, PartialEq, Eq)]
pub struct Natural(Vec<u64>);

impl Natural {
    /// The number of one word.
    pub fn new(value: u64) -> Self {
        Self(vec![value]).trimmed()
    }

    /// Without the limbs at the top that are 0.
    fn trimmed(mut self) -> Self {
        while self.0.last() == Some(&0) {
            self.0.pop();
        }
        self
    }

    /// The sum.
    pub fn plus(&self, other: &Self) -> Self {
        let mut limbs = self.0.clone();
        limbs.resize(self.0.len().max(other.0.len()) + 1, 0);
        add_product(&mut limbs, &other.0, 1);
        Self(limbs).trimmed()
    }

    /// The product, limb by limb. The limbs up to `place` of this number, times the other one, need no limb above
    /// `place` plus the other one's length.
    pub fn times(&self, other: &Self) -> Self {
        let mut limbs = vec![0; self.0.len() + other.0.len()];
        for (place, &factor) in self.0.iter().enumerate() {
            add_product(&mut limbs[place..=place + other.0.len()], &other.0, factor);
        }
        Self(limbs).trimmed()
    }
}

/// Adds `factor` times a number to the number in `target`, which has room for the result.
fn add_product(target: &mut [u64], limbs: &[u64], factor: u64) {
    let (places, above) = target.split_at_mut(limbs.len());
    let mut carry = 0;
    for (place, &limb) in places.iter_mut().zip(limbs) {
        (*place, carry) = limb.carrying_mul_add(factor, *place, carry);
    }
    for place in above {
        let (sum, over) = place.overflowing_add(carry);
        (*place, carry) = (sum, u64::from(over));
    }
    assert!(carry == 0, "the target has room for the result");
}

impl Ord for Natural {
    /// The longer number is the larger; of equal lengths, the first difference from the top decides.
    fn cmp(&self, other: &Self) -> Ordering {
        let lengths = self.0.len().cmp(&other.0.len());
        lengths.then_with(|| self.0.iter().rev().cmp(other.0.iter().rev()))
    }
}

impl PartialOrd for Natural {
    /// The same order.
    fn partial_cmp(&self, other: &Self) -> Option<Ordering> {
        Some(self.cmp(other))
    }
}

/// A fraction, not brought to lowest terms. The denominator is not 0.
#[derive(Debug, Clone)]
pub struct Ratio {
    numerator: Natural,
    denominator: Natural,
}

impl Ratio {
    /// numerator / denominator.
    pub fn new(numerator: Natural, denominator: Natural) -> Self {
        assert!(denominator != Natural::new(0), "a denominator is not 0");
        Self { numerator, denominator }
    }

    /// numerator / denominator, of one word each.
    pub fn of_words(numerator: u64, denominator: u64) -> Self {
        Self::new(Natural::new(numerator), Natural::new(denominator))
    }

    /// The sum.
    pub fn plus(&self, other: &Self) -> Self {
        let left = self.numerator.times(&other.denominator);
        let right = other.numerator.times(&self.denominator);
        Self::new(left.plus(&right), self.denominator.times(&other.denominator))
    }

    /// The product.
    pub fn times(&self, other: &Self) -> Self {
        Self::new(
            self.numerator.times(&other.numerator),
            self.denominator.times(&other.denominator),
        )
    }

    /// One over this fraction, which is not 0.
    pub fn inverse(&self) -> Self {
        Self::new(self.denominator.clone(), self.numerator.clone())
    }

    /// Whether this fraction is at most the other: by the cross products.
    pub fn at_most(&self, other: &Self) -> bool {
        self.numerator.times(&other.denominator) <= other.numerator.times(&self.denominator)
    }
}

#[cfg(test)]
mod tests {
    use super::*;

    /// (2^64 - 1)^2 = 2^128 - 2^65 + 1, sums that carry through, and the order of lengths.
    #[test]
    fn naturals_carry() {
        let top = Natural::new(u64::MAX);
        assert_eq!(top.times(&top), Natural(vec![1, u64::MAX - 1]));
        assert_eq!(top.plus(&Natural::new(1)), Natural(vec![0, 1]));
        assert_eq!(
            Natural(vec![u64::MAX, u64::MAX]).plus(&Natural::new(1)),
            Natural(vec![0, 0, 1])
        );
        assert_eq!(top.times(&Natural::new(0)), Natural::new(0));
        assert!(Natural(vec![0, 1]) > top);
        assert!(Natural(vec![5, 1]) < Natural(vec![4, 2]));
    }

    /// Sums, products, inverses and comparisons of fractions.
    #[test]
    fn ratios() {
        let [third, half] = [Ratio::of_words(1, 3), Ratio::of_words(2, 4)];
        let is = |left: &Ratio, numerator, denominator| {
            let right = Ratio::of_words(numerator, denominator);
            left.at_most(&right) && right.at_most(left)
        };
        assert!(is(&third.plus(&half), 5, 6));
        assert!(is(&third.times(&half), 1, 6));
        assert!(is(&half.inverse(), 2, 1));
        assert!(third.at_most(&half) && !half.at_most(&third));
    }
}
