//! SEC-IRBA, by S-5: the charge and the supervisory parameter. Shares, charge and parameter are in millionths.

use crate::charge::{base_charge, to_word, WHOLE};
use crate::rating::{self, ONE_YEAR};
use crate::sheet::{Irb, Row, Tranche};

/// The charge: (share x IRB charge + (10^6 - share) x base charge) / 10^6, rounded up, with the base charge over all
/// rows.
pub fn charge(irb: &Irb, pool: &[Row]) -> u64 {
    let [share, charge] = [irb.share, irb.charge].map(u128::from);
    to_word((share * charge + (WHOLE - share) * base_charge(pool)).div_ceil(WHOLE))
}

/// The coefficients of the parameter's sum, in hundredths.
#[derive(Debug, Clone, Copy, PartialEq, Eq)]
struct Coefficients {
    constant: i128,
    per_inverse_loans: i128,
    per_charge: i128,
    per_loss: i128,
    per_year: i128,
}

impl Coefficients {
    /// The coefficients in the order of the request.
    const fn new(figures: [i128; 5]) -> Coefficients {
        let [constant, per_inverse_loans, per_charge, per_loss, per_year] = figures;
        Coefficients {
            constant,
            per_inverse_loans,
            per_charge,
            per_loss,
            per_year,
        }
    }
}

/// Wholesale, senior.
const WHOLESALE_SENIOR: Coefficients = Coefficients::new([0, 356, -185, 55, 7]);
/// Wholesale, senior, under 25 loans.
const WHOLESALE_SENIOR_FEW: Coefficients = Coefficients::new([11, 261, -291, 68, 7]);
/// Wholesale, non-senior.
const WHOLESALE: Coefficients = Coefficients::new([16, 287, -103, 21, 7]);
/// Wholesale, non-senior, under 25 loans.
const WHOLESALE_FEW: Coefficients = Coefficients::new([22, 235, -246, 48, 7]);
/// Retail, senior.
const RETAIL_SENIOR: Coefficients = Coefficients::new([0, 0, -748, 71, 24]);
/// Retail, non-senior.
const RETAIL: Coefficients = Coefficients::new([0, 0, -578, 55, 27]);

/// The effective number of loans from which a wholesale pool has many.
const MANY_LOANS: u64 = 25;

/// The coefficients of a senior or non-senior tranche.
fn coefficients(irb: &Irb, senior: bool) -> Coefficients {
    match (irb.retail, senior, irb.loans < MANY_LOANS) {
        (false, true, false) => WHOLESALE_SENIOR,
        (false, true, true) => WHOLESALE_SENIOR_FEW,
        (false, false, false) => WHOLESALE,
        (false, false, true) => WHOLESALE_FEW,
        (true, true, _) => RETAIL_SENIOR,
        (true, false, _) => RETAIL,
    }
}

/// The least parameter: 0.3.
const LEAST_PARAMETER: u64 = 300_000;
/// The hundredths of one.
const HUNDREDTHS: i128 = 100;
/// The fifths of a month in one year.
const YEAR: i128 = ONE_YEAR as i128;

/// The parameter's sum as an exact fraction, in millionths. The denominator is above 0; the numerator may be negative.
#[derive(Debug, Clone, Copy, PartialEq, Eq)]
pub struct Sum {
    pub numerator: i128,
    pub denominator: i128,
}

impl Sum {
    /// The sum of a tranche: constant, per 1/number of loans, per charge, per loss, per year of tranche maturity. Each
    /// term is brought to the denominator 100 x 60 x number of loans, since coefficients are hundredths and maturities
    /// sixtieths of a year. Every numerator is below 10^17.
    pub fn of(irb: &Irb, charge: u64, tranche: &Tranche) -> Sum {
        let Coefficients {
            constant,
            per_inverse_loans,
            per_charge,
            per_loss,
            per_year,
        } = coefficients(irb, tranche.class == 1);
        let [charge, loss, loans] = [charge, irb.loss, irb.loans].map(i128::from);
        let maturity = i128::from(rating::maturity(tranche.months));
        let one = WHOLE as i128;
        let without_loans = YEAR * (constant * one + per_charge * charge + per_loss * loss) + per_year * maturity * one;
        Sum {
            numerator: loans * without_loans + YEAR * per_inverse_loans * one,
            denominator: HUNDREDTHS * YEAR * loans,
        }
    }

    /// Half of the sum.
    fn half(self) -> Sum {
        Sum {
            denominator: 2 * self.denominator,
            ..self
        }
    }

    /// The least whole number that is not below the sum. Rounding the opposite number down makes no difference between
    /// sums below and above 0.
    fn rounded_up(self) -> i128 {
        -(-self.numerator).div_euclid(self.denominator)
    }

    /// The parameter: the sum, halved for an STC deal, rounded up, and at least 0.3.
    pub fn parameter(self, stc: bool) -> u64 {
        let sum = if stc { self.half() } else { self };
        let rounded_up = u64::try_from(sum.rounded_up()).unwrap_or(0);
        rounded_up.max(LEAST_PARAMETER)
    }
}

#[cfg(test)]
mod tests {
    use super::*;
    use crate::sheet::Status;

    /// A section with these figures of the sum. The others are at values that the sum must not read.
    fn section(retail: bool, loans: u64, loss: u64) -> Irb {
        Irb {
            charge: 999_999,
            loss,
            loans,
            retail,
            share: 960_000,
            average: 1,
        }
    }

    /// A tranche of which only class and maturity matter.
    fn tranche(class: u64, months: u64) -> Tranche {
        Tranche {
            amount: 1,
            class,
            months,
            held: 0,
            ratings: [0; 3],
            place: 0,
        }
    }

    /// The mixed charge is rounded up, over a base that is rounded up before it: rows (2, 100%) and (1, 50%), whatever
    /// their status, have base 66,667. Six tenths of that are 40,000.2, where 66,666.67 would leave 40,000.
    #[test]
    fn charge_of_a_mixed_pool() {
        let row = |exposure, risk_weight, status| Row {
            exposure,
            nominal: 1,
            risk_weight,
            status,
        };
        let pool = [row(2, 10_000, Status::Unknown), row(1, 5_000, Status::Delinquent)];
        let mixed = |share, charge| {
            let irb = Irb {
                charge,
                share,
                ..section(false, 1, 0)
            };
            super::charge(&irb, &pool)
        };
        assert_eq!(mixed(1_000_000, 123_456), 123_456);
        assert_eq!(mixed(950_000, 70_000), 69_834); // 66,500 + 3,333.35
        assert_eq!(mixed(400_000, 0), 40_001);
        assert_eq!(mixed(999_999, 0), 1);
        assert_eq!(mixed(0, 1_000_000), 66_667);
    }

    /// Each row of coefficients, term by term: constant and 1/number at one year, then what charge, loss and four years
    /// more add. The number of loans times the sum is whole.
    #[test]
    fn rows_of_coefficients() {
        let sum = |retail, class, loans, charge, loss, months| {
            let sum = Sum::of(&section(retail, loans, loss), charge, &tranche(class, months));
            assert_eq!(sum.numerator * loans as i128 % sum.denominator, 0);
            sum.numerator * loans as i128 / sum.denominator
        };
        for (retail, class, loans, [a, b, c, d, e]) in [
            (false, 1, 25, [0, 356, -185, 55, 7]),
            (false, 1, 24, [11, 261, -291, 68, 7]),
            (false, 2, 25, [16, 287, -103, 21, 7]),
            (false, 2, 24, [22, 235, -246, 48, 7]),
            (true, 1, 25, [0, 0, -748, 71, 24]),
            (true, 1, 24, [0, 0, -748, 71, 24]),
            (true, 2, 25, [0, 0, -578, 55, 27]),
            (true, 2, 24, [0, 0, -578, 55, 27]),
        ] {
            let at = |charge, loss, months| sum(retail, class, loans, charge, loss, months);
            let hundredth = 10_000;
            let n = loans as i128;
            assert_eq!(at(0, 0, 1), hundredth * (n * (a + e) + b), "{retail} {class} {loans}");
            assert_eq!(at(1_000_000, 0, 12) - at(0, 0, 12), hundredth * n * c);
            assert_eq!(at(0, 1_000_000, 12) - at(0, 0, 12), hundredth * n * d);
            assert_eq!(at(0, 0, 72) - at(0, 0, 12), hundredth * n * 4 * e);
            assert_eq!(at(0, 0, 1_200), at(0, 0, 72));
        }
    }

    /// Wholesale senior from 25 loans on and under 25: 3.56/25 + 0.07 = 0.2124 and 0.11 + 2.61/24 + 0.07 = 0.28875 at
    /// one year, then with a loss of one half 0.4874 and 0.62875.
    #[test]
    fn loans_24_and_25() {
        let parameter = |loans, loss, stc| Sum::of(&section(false, loans, loss), 0, &tranche(1, 12)).parameter(stc);
        assert_eq!([25, 24].map(|loans| parameter(loans, 0, false)), [300_000; 2]);
        assert_eq!(
            [25, 24].map(|loans| parameter(loans, 500_000, false)),
            [487_400, 628_750]
        );
        assert_eq!(
            [25, 24].map(|loans| parameter(loans, 500_000, true)),
            [300_000, 314_375]
        );
        assert_eq!(parameter(1, 1_000_000, false), 3_470_000);
    }

    /// The sum is halved, rounded up and then raised to 0.3. Non-senior retail at one year has 0.27 + 0.55 x loss:
    /// just below 0.3 at a loss of 0.054545, just below 0.6 at 0.599999.
    #[test]
    fn rounded_up_then_raised() {
        let parameter = |loss, stc| Sum::of(&section(true, 1, loss), 0, &tranche(2, 12)).parameter(stc);
        assert_eq!(parameter(54_545, false), 300_000); // 0.29999975
        assert_eq!(parameter(54_546, false), 300_001); // 0.3000003
        assert_eq!(parameter(54_548, false), 300_002); // 0.3000014
        assert_eq!(parameter(599_999, true), 300_000); // half of 0.59999945
        assert_eq!(parameter(600_000, true), 300_000);
        assert_eq!(parameter(600_001, true), 300_001); // half of 0.60000055
        assert_eq!(parameter(600_004, true), 300_002); // half of 0.6000022
        assert_eq!(parameter(1_000_000, true), 410_000);
        assert_eq!(parameter(1_000_000, false), 820_000);
    }

    /// A sum below 0 gives the least parameter: a charge of 1 takes 7.48 from 0.24. It is rounded toward 0 there.
    #[test]
    fn sums_below_zero() {
        let sum = Sum::of(&section(true, 1, 0), 1_000_000, &tranche(1, 12));
        assert_eq!((sum.rounded_up(), sum.half().rounded_up()), (-7_240_000, -3_620_000));
        assert_eq!((sum.parameter(false), sum.parameter(true)), (300_000, 300_000));
        let third = Sum {
            numerator: -1,
            denominator: 3,
        };
        assert_eq!((third.rounded_up(), third.parameter(false)), (0, 300_000));
    }

    /// A negative term does not end the sum: 0.24 x 5 years + 0.71 - 7.48 x 0.2 = 0.414.
    #[test]
    fn terms_below_zero() {
        let sum = Sum::of(&section(true, 7, 1_000_000), 200_000, &tranche(1, 72));
        assert_eq!(sum.parameter(false), 414_000);
    }
}
