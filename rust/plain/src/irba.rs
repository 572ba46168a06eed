//! SEC-IRBA (S-5): the deals that take it, its charge and its parameter.

use crate::limits::MOST_SHARE;
use crate::pool::Pool;
use crate::sheet::Irb;

/// The least share of exposure with an IRB charge, in millionths.
const LEAST_SHARE: u64 = 950_000;

/// The number of loans below which a wholesale pool has coefficients of its own.
const FEW_LOANS: u64 = 25;

/// The least parameter, in millionths.
const LEAST_PARAMETER: f64 = 300_000.0;

/// The coefficients of the parameter, in hundredths.
struct Coefficients {
    constant: f64,
    per_number: f64,
    per_charge: f64,
    per_loss: f64,
    per_year: f64,
}

/// Names coefficients that stand in the order of S-5.
const fn row([constant, per_number, per_charge, per_loss, per_year]: [f64; 5]) -> Coefficients {
    Coefficients {
        constant,
        per_number,
        per_charge,
        per_loss,
        per_year,
    }
}

/// Class 1 and the classes below, of a wholesale pool.
static WHOLESALE: [Coefficients; 2] = [
    row([0.0, 356.0, -185.0, 55.0, 7.0]),
    row([16.0, 287.0, -103.0, 21.0, 7.0]),
];

/// The same with fewer than 25 loans.
static WHOLESALE_FEW: [Coefficients; 2] = [
    row([11.0, 261.0, -291.0, 68.0, 7.0]),
    row([22.0, 235.0, -246.0, 48.0, 7.0]),
];

/// The same of a retail pool, whatever the number of its loans.
static RETAIL: [Coefficients; 2] = [row([0.0, 0.0, -748.0, 71.0, 24.0]), row([0.0, 0.0, -578.0, 55.0, 27.0])];

impl Irb {
    /// Whether the share is high enough. That of an IRB pool is.
    pub fn suffices(&self) -> bool {
        self.share >= LEAST_SHARE
    }

    /// The charge: the IRB charge for the share and the base charge for the rest, in millionths.
    pub fn mixed_charge(&self, pool: &Pool) -> f64 {
        let of_share = (self.share * self.charge) as f64;
        let of_rest = (MOST_SHARE - self.share) as f64 * pool.base();
        ((of_share + of_rest) / 1e6).ceil()
    }

    /// The coefficients of class 1 and of the classes below.
    fn coefficients(&self) -> &'static [Coefficients; 2] {
        if self.retail {
            &RETAIL
        } else if self.loans < FEW_LOANS {
            &WHOLESALE_FEW
        } else {
            &WHOLESALE
        }
    }
}

/// The supervisory parameter of a deal's tranches, but for their maturities.
pub struct Parameter {
    senior: Sum,
    other: Sum,
    /// What the sums are over: 300 for each loan, and 600 in an STC deal, where they are halved.
    over: f64,
}

/// A sum of the parameter, in millionths times [`Parameter::over`]. Its terms are whole numbers below 2^53, so it is exact.
struct Sum {
    /// All but the maturity.
    fixed: f64,
    /// For each fifth of a month, a sixtieth of a year.
    per_fifth: f64,
}

impl Parameter {
    /// The sums of a deal with this charge.
    pub fn of(irb: &Irb, charge: f64, stc: bool) -> Self {
        let (loans, loss) = (irb.loans as f64, irb.loss as f64);
        let sum = |row: &Coefficients| Sum {
            fixed: 3e6 * (row.constant * loans + row.per_number)
                + 3.0 * loans * (row.per_charge * charge + row.per_loss * loss),
            per_fifth: 50_000.0 * row.per_year * loans,
        };
        let [senior, other] = irb.coefficients();
        Parameter {
            senior: sum(senior),
            other: sum(other),
            over: if stc { 600.0 } else { 300.0 } * loans,
        }
    }

    /// The parameter at a maturity in fifths of a month, as a share: rounded up to a millionth, and at least 0.3.
    pub fn at(&self, senior: bool, fifths: f64) -> f64 {
        let sum = if senior { &self.senior } else { &self.other };
        let millionths = ((sum.fixed + sum.per_fifth * fifths) / self.over).ceil();
        millionths.max(LEAST_PARAMETER) / 1e6
    }
}

#[cfg(test)]
mod tests {
    use super::*;

    /// A section with a loss of 45%, all of it with an IRB charge.
    fn section(loans: u64, retail: bool) -> Irb {
        Irb {
            charge: 60_000,
            loss: 450_000,
            loans,
            retail,
            share: 1_000_000,
            average: 8_500,
        }
    }

    /// The parameters in millionths of class 1 at 300 fifths of a month and of the classes below at 156.
    fn parameters(irb: &Irb, charge: f64, stc: bool) -> [f64; 2] {
        let parameter = Parameter::of(irb, charge, stc);
        [parameter.at(true, 300.0), parameter.at(false, 156.0)].map(|share| (share * 1e6).round())
    }

    /// Each row of coefficients, worked by hand; wholesale is split at 25 loans and retail is not.
    #[test]
    fn every_row_of_coefficients() {
        for (loans, retail, expected) in [
            (25, false, [628_900.0, 489_500.0]),
            (24, false, [700_150.0, 568_317.0]),
            (25, true, [1_070_700.0, 602_700.0]),
            (24, true, [1_070_700.0, 602_700.0]),
            (1, false, [3_201_400.0, 2_820_400.0]),
        ] {
            let irb = section(loans, retail);
            assert_eq!(parameters(&irb, 60_000.0, false), expected, "{loans} loans");
        }
    }

    /// Part of a millionth counts as a whole one: 0.71500356.
    #[test]
    fn parameter_rounds_up_to_a_millionth() {
        let irb = Irb {
            loss: 1_000_000,
            ..section(1_000_000, false)
        };
        let [senior, _] = parameters(&irb, 100_000.0, false);
        assert_eq!(senior, 715_004.0);
    }

    /// A negative sum, and in an STC deal half of a sum, below 0.3 and above it.
    #[test]
    fn parameter_is_halved_and_then_at_least_three_tenths() {
        let retail = section(100, true);
        assert_eq!(parameters(&retail, 600_000.0, false), [300_000.0, 300_000.0]);
        assert_eq!(parameters(&retail, 60_000.0, true), [535_350.0, 301_350.0]);
        assert_eq!(parameters(&section(100, false), 60_000.0, true), [300_000.0, 300_000.0]);
    }
}
