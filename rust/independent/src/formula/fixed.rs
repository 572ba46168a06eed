//! Fixed-point numbers of a chosen length, and bounds for e^(-q) in them. Every rounding goes outward: a lower bound is
//! rounded down, an upper bound is rounded up. So the exact value stays between the two, whatever the precision.

/// A number not below 0: 64-bit limbs, lowest first. The last limb is the whole part, the others follow the point. One
/// unit of the last place is 2^(-64 x (LIMBS - 1)).
#[derive(Debug, Clone, Copy, PartialEq, Eq)]
pub struct Fixed<const LIMBS: usize>([u64; LIMBS]);

/// Which way a result is rounded that does not fit the last place.
#[derive(Debug, Clone, Copy, PartialEq, Eq)]
enum Rounding {
    Down,
    Up,
}

impl<const LIMBS: usize> Fixed<LIMBS> {
    /// The number 0.
    const ZERO: Self = Self([0; LIMBS]);

    /// A whole number.
    pub fn whole(value: u64) -> Self {
        let mut limbs = [0; LIMBS];
        limbs[LIMBS - 1] = value;
        Self(limbs)
    }

    /// One unit of the last place.
    fn last_place() -> Self {
        let mut limbs = [0; LIMBS];
        limbs[0] = 1;
        Self(limbs)
    }

    /// The sum, exact.
    pub fn plus(self, other: Self) -> Self {
        let mut limbs = self.0;
        let mut carry = false;
        for (limb, &added) in limbs.iter_mut().zip(&other.0) {
            (*limb, carry) = limb.carrying_add(added, carry);
        }
        assert!(!carry, "the sum has too large a whole part");
        Self(limbs)
    }

    /// The difference, exact, or 0 where it is below 0.
    pub fn minus_or_zero(self, other: Self) -> Self {
        let mut limbs = self.0;
        let mut borrow = false;
        for (limb, &taken) in limbs.iter_mut().zip(&other.0) {
            (*limb, borrow) = limb.borrowing_sub(taken, borrow);
        }
        if borrow {
            Self::ZERO
        } else {
            Self(limbs)
        }
    }

    /// The product with a whole number, exact.
    pub fn times(self, factor: u64) -> Self {
        let mut limbs = self.0;
        let mut carry = 0;
        for limb in &mut limbs {
            (*limb, carry) = limb.carrying_mul(factor, carry);
        }
        assert!(carry == 0, "the product has too large a whole part");
        Self(limbs)
    }

    /// The quotient by a whole number above 0, by long division from the highest limb.
    fn over(self, divisor: u64, rounding: Rounding) -> Self {
        let divisor = u128::from(divisor);
        let mut limbs = self.0;
        let mut rest: u128 = 0;
        for limb in limbs.iter_mut().rev() {
            let dividend = (rest << 64) | u128::from(*limb);
            let quotient = dividend / divisor; // below 2^64, since rest is below the divisor
            rest = dividend - quotient * divisor;
            *limb = quotient as u64;
        }
        Self(limbs).raised_if(rest != 0 && rounding == Rounding::Up)
    }

    /// The square. Column `c` of the product has the weight of limb `c - (LIMBS - 1)` of the result; the columns below
    /// limb 0 are cut off, which rounds down.
    fn square(self, rounding: Rounding) -> Self {
        let mut limbs = [0; LIMBS];
        let mut cut_off = false;
        let mut sum = Columns::default();
        for column in 0..2 * LIMBS - 1 {
            for i in (column + 1).saturating_sub(LIMBS)..=column.min(LIMBS - 1) {
                sum.add(u128::from(self.0[i]) * u128::from(self.0[column - i]));
            }
            let limb = sum.next_limb();
            match column.checked_sub(LIMBS - 1) {
                Some(place) => limbs[place] = limb,
                None => cut_off |= limb != 0,
            }
        }
        assert!(sum == Columns::default(), "the square has too large a whole part");
        Self(limbs).raised_if(cut_off && rounding == Rounding::Up)
    }

    /// One unit of the last place more, where that is asked for.
    fn raised_if(self, raise: bool) -> Self {
        if raise {
            self.plus(Self::last_place())
        } else {
            self
        }
    }

    /// The whole part.
    pub fn rounded_down(self) -> u64 {
        self.0[LIMBS - 1]
    }

    /// The least whole number that is not below this one.
    pub fn rounded_up(self) -> u64 {
        let above = self.0[..LIMBS - 1].iter().any(|&limb| limb != 0);
        self.rounded_down() + u64::from(above)
    }
}

/// A running sum of products of limbs, from which the limbs of a product are taken, lowest first.
#[derive(Debug, Default, PartialEq, Eq)]
struct Columns {
    sum: u128,
    carries: u64,
}

impl Columns {
    /// Adds a product of two limbs.
    fn add(&mut self, product: u128) {
        let (sum, carry) = self.sum.overflowing_add(product);
        self.sum = sum;
        self.carries += u64::from(carry);
    }

    /// Takes the lowest limb away and moves to the next column.
    fn next_limb(&mut self) -> u64 {
        let limb = self.sum as u64; // the low 64 bits
        self.sum = (self.sum >> 64) | (u128::from(self.carries) << 64);
        self.carries = 0;
        limb
    }
}

/// Two numbers that hold an exact one: low <= exact <= high.
#[derive(Debug, Clone, Copy, PartialEq, Eq)]
pub struct Bounds<const LIMBS: usize> {
    pub low: Fixed<LIMBS>,
    pub high: Fixed<LIMBS>,
}

impl<const LIMBS: usize> Bounds<LIMBS> {
    /// Bounds for a whole number: that number, twice.
    fn whole(value: u64) -> Self {
        Self {
            low: Fixed::whole(value),
            high: Fixed::whole(value),
        }
    }

    /// Bounds for the sum.
    fn plus(self, other: Self) -> Self {
        Self {
            low: self.low.plus(other.low),
            high: self.high.plus(other.high),
        }
    }

    /// Bounds for the product with factor / divisor.
    fn times_ratio(self, factor: u64, divisor: u64) -> Self {
        Self {
            low: self.low.times(factor).over(divisor, Rounding::Down),
            high: self.high.times(factor).over(divisor, Rounding::Up),
        }
    }

    /// Bounds for the square. Squares keep the order of numbers that are not below 0.
    fn square(self) -> Self {
        Self {
            low: self.low.square(Rounding::Down),
            high: self.high.square(Rounding::Up),
        }
    }
}

/// How far q is halved: the series is worked for at most 1/16, so that few terms are needed.
const SERIES_SHARE: u64 = 16;

/// Bounds for e^(-q), q = numerator / denominator.
///
/// For q of at least the number of bits after the point: e is above 2, so e^(-q) < 2^(-q), at most one unit of the last
/// place; and it is above 0. Else e^(-q) is the square of e^(-q/2), taken as often as it takes to bring q to 1/16. The
/// numerator is below 2^40 and the denominator below 2^43; this one grows here to less than 2^45, and by the number of
/// terms in the series, below 2^9: no overflow.
pub fn decay<const LIMBS: usize>(numerator: u64, denominator: u64) -> Bounds<LIMBS> {
    let bits = 64 * (LIMBS as u64 - 1);
    if numerator / denominator >= bits {
        return Bounds {
            low: Fixed::ZERO,
            high: Fixed::last_place(),
        };
    }
    let mut divisor = denominator;
    let mut halvings = 0;
    while SERIES_SHARE * numerator > divisor {
        divisor *= 2;
        halvings += 1;
    }
    (0..halvings).fold(alternating_series(numerator, divisor), |bounds, _| bounds.square())
}

/// Bounds for e^(-x), x = numerator / denominator at most 1: 1 - x + x^2/2! - x^3/3! + ...
///
/// The terms fall in size and their signs alternate, so what follows after a term is, in size, at most the next term.
/// The sum stops where that next term's lower bound is 0 to the last place, and its upper bound is allowed both ways.
/// For x = 0 all bounds are exact.
fn alternating_series<const LIMBS: usize>(numerator: u64, denominator: u64) -> Bounds<LIMBS> {
    let mut term = Bounds::whole(1);
    let mut sums = [Bounds::whole(0); 2]; // of the terms with plus, of the terms with minus
    let mut count = 0;
    while term.low != Fixed::ZERO {
        let signed = &mut sums[count as usize % 2];
        *signed = signed.plus(term);
        count += 1;
        term = term.times_ratio(numerator, denominator * count);
    }
    let [plus, minus] = sums;
    Bounds {
        low: plus.low.minus_or_zero(minus.high).minus_or_zero(term.high),
        high: plus.high.minus_or_zero(minus.low).plus(term.high),
    }
}

#[cfg(test)]
mod tests {
    use super::*;

    /// e^(-1) and e^(-1/2) to 18 decimals, from published tables: 0.367879441171442321, 0.606530659712633423.
    #[test]
    fn published_values() {
        let billion_billion = 1_000_000_000_000_000_000;
        for (numerator, denominator, digits) in [(1, 1, 367_879_441_171_442_321), (1, 2, 606_530_659_712_633_423)] {
            let bounds = decay::<3>(numerator, denominator);
            assert_eq!(bounds.low.times(billion_billion).rounded_down(), digits);
            assert_eq!(bounds.high.times(billion_billion).rounded_down(), digits);
        }
    }

    /// e^0 is 1 without any rounding.
    #[test]
    fn decay_of_zero_is_exact() {
        assert_eq!(decay::<2>(0, 7), Bounds::whole(1));
        assert_eq!(decay::<5>(0, 3_000_000), Bounds::whole(1));
    }

    /// An exponent beyond the last place is held between 0 and one unit of it; one just short of that is worked.
    #[test]
    fn decay_beyond_the_last_place() {
        let beyond = Bounds {
            low: Fixed::ZERO,
            high: Fixed::last_place(),
        };
        assert_eq!(decay::<2>(1_000_000, 1), beyond);
        assert_eq!(decay::<2>(64, 1), beyond);
        assert_ne!(decay::<3>(64, 1).low, Fixed::ZERO);
    }

    /// The high limbs of a longer number, rounded down: the same number in the shorter form.
    fn shortened<const LONG: usize, const SHORT: usize>(number: Fixed<LONG>) -> Fixed<SHORT> {
        Fixed(number.0[LONG - SHORT..].try_into().expect("SHORT limbs"))
    }

    /// Bounds of low precision hold those of high precision, and are close: within 2^8 units of the last place.
    #[test]
    fn bounds_hold_the_closer_ones() {
        let mut apart = 0;
        for (numerator, denominator) in (1..400).map(|n: u64| (n * n * 5, 3 + n * 977)) {
            let coarse = decay::<2>(numerator, denominator);
            let fine = decay::<5>(numerator, denominator);
            let not_below = |upper: Fixed<2>, lower: Fixed<2>| lower.minus_or_zero(upper) == Fixed::ZERO;
            assert!(not_below(shortened(fine.low), coarse.low), "{numerator}/{denominator}");
            assert!(not_below(
                coarse.high,
                shortened::<5, 2>(fine.high).plus(Fixed::last_place())
            ));
            apart = apart.max(coarse.high.minus_or_zero(coarse.low).0[0]);
            assert_eq!(coarse.high.minus_or_zero(coarse.low).0[1], 0);
        }
        assert!((1..256).contains(&apart), "{apart}");
    }

    /// What follows after the last term counts. For x = 2^(-33) the terms 1 and x are exact and x^2/2 = 2^(-67) follows
    /// with plus; for x = 2^(-31) the terms up to x^2/2 = 2^(-63) are exact and x^3/6 follows with minus.
    #[test]
    fn rest_of_the_series_is_allowed_for() {
        let one_less = |bits: u32| Fixed::<2>::whole(1).minus_or_zero(Fixed([1 << (64 - bits), 0]));
        let last_place = Fixed::last_place();
        assert_eq!(alternating_series::<2>(1, 1 << 33).high, one_less(33).plus(last_place));
        assert_eq!(alternating_series::<2>(1, 1 << 31).low, one_less(31).plus(last_place));
    }

    /// Squares and quotients against 128-bit arithmetic: 1.5^2 and 0.1^2 are exact or rounded the way asked.
    #[test]
    fn rounding_goes_the_way_asked() {
        let one_and_half = Fixed::<2>([1 << 63, 1]);
        assert_eq!(one_and_half.square(Rounding::Down), Fixed([1 << 62, 2]));
        assert_eq!(one_and_half.square(Rounding::Up), Fixed([1 << 62, 2]));
        let tenth_down = Fixed::<2>::whole(1).over(10, Rounding::Down);
        let tenth_up = Fixed::<2>::whole(1).over(10, Rounding::Up);
        assert_eq!(tenth_up, tenth_down.plus(Fixed::last_place()));
        assert_eq!(tenth_down, Fixed([((1u128 << 64) / 10) as u64, 0]));
        let square = u128::from(tenth_down.0[0]).pow(2);
        assert_eq!(tenth_down.square(Rounding::Down), Fixed([(square >> 64) as u64, 0]));
        assert_eq!(tenth_down.square(Rounding::Up), Fixed([(square >> 64) as u64 + 1, 0]));
    }
}
