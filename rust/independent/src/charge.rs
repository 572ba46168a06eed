//! "Points and pool charge" of document 01. All shares are in millionths, and risk weights, by S-9, in hundredths of a
//! percent.

use crate::sheet::{self, Row, Status, Tranche};

/// One whole, in millionths, for sums and products.
pub const WHOLE: u128 = sheet::WHOLE as u128;
/// The charge of a delinquent part: one half, in millionths.
const LATE_CHARGE: u128 = 500_000;

/// A tranche's attachment point A and detachment point D in millionths.
#[derive(Debug, Clone, Copy, PartialEq, Eq)]
pub struct Points {
    pub attachment: u64,
    pub detachment: u64,
}

/// The pool charge in millionths, and whether the unknown rows are above 5% of all exposure.
#[derive(Debug, Clone, Copy, PartialEq, Eq)]
pub struct PoolCharge {
    pub charge: u64,
    pub unknown_above_limit: bool,
}

/// The sum of nominal amounts; over all rows it is N.
pub fn nominal_sum(rows: &[Row]) -> u128 {
    sum(rows.iter(), |row| row.nominal.into())
}

/// The sum of exposure.
pub fn exposure_sum(rows: &[Row]) -> u128 {
    sum(rows.iter(), |row| row.exposure.into())
}

/// The sum of exposure x risk weight, in hundredths of a percent.
pub fn weighted_exposure_sum(rows: &[Row]) -> u128 {
    sum(rows.iter(), |row| {
        u128::from(row.exposure) * u128::from(row.risk_weight)
    })
}

/// A is max(0, N minus all tranches of this or a senior class) x 10^6 / N, rounded down. D is the same with senior
/// classes only. Class 1 is the senior class, so senior classes have the lower numbers.
pub fn points(nominal: u128, tranches: &[Tranche], class: u64) -> Points {
    let share_left = |counts: fn(u64, u64) -> bool| {
        let ahead: u128 = tranches
            .iter()
            .filter(|other| counts(other.class, class))
            .map(|t| u128::from(t.amount))
            .sum();
        to_word(nominal.saturating_sub(ahead) * WHOLE / nominal)
    };
    Points {
        attachment: share_left(|other, this| other <= this),
        detachment: share_left(|other, this| other < this),
    }
}

/// The pool charge. Unknown rows up to and including 5% of all exposure: (known exposure x charge + unknown exposure x
/// 10^6) / all exposure, rounded up. Above 5%: reported as 1,000,000.
///
/// Every exposure is at least 1, so a pool without a known row is 100% unknown and takes the second case. The first
/// case therefore never divides by zero.
pub fn pool_charge(pool: &[Row]) -> PoolCharge {
    let known = known_rows(pool);
    let exposure = exposure_sum(pool);
    let known_exposure = exposure_sum(&known);
    let unknown_exposure = exposure - known_exposure;
    if unknown_exposure * 100 > exposure * 5 {
        return PoolCharge {
            charge: to_word(WHOLE),
            unknown_above_limit: true,
        };
    }
    let charge = (known_exposure * known_charge(&known) + unknown_exposure * WHOLE).div_ceil(exposure);
    PoolCharge {
        charge: to_word(charge),
        unknown_above_limit: false,
    }
}

/// The charge of the rows with known status: ((10^6 - W) x base + 500,000 x W) / 10^6, rounded up.
fn known_charge(known: &[Row]) -> u128 {
    let late = late_share(known);
    ((WHOLE - late) * base_charge(known) + LATE_CHARGE * late).div_ceil(WHOLE)
}

/// The base charge of some rows: 8 x (sum of exposure x risk weight) / (sum of exposure), rounded up, which is document
/// 01's 800 for weights in whole percent. A risk weight of 100% gives 8%, which is 80,000 millionths.
pub fn base_charge(rows: &[Row]) -> u128 {
    average_risk_weight_times(8, rows)
}

/// The rows with known status.
pub fn known_rows(rows: &[Row]) -> Vec<Row> {
    let known = rows.iter().copied().filter(|row| row.status != Status::Unknown);
    known.collect()
}

/// The late share W: delinquent nominal x 10^6 / nominal, rounded up.
fn late_share(known: &[Row]) -> u128 {
    (late_nominal_sum(known) * WHOLE).div_ceil(nominal_sum(known))
}

/// The sum of nominal amounts over the delinquent rows. Status 3 counts as not delinquent.
pub fn late_nominal_sum(rows: &[Row]) -> u128 {
    let late = rows.iter().filter(|row| row.status == Status::Delinquent);
    sum(late, |row| row.nominal.into())
}

/// `factor` x (sum of exposure x risk weight) / (sum of exposure), rounded up. The base charge takes it with 8, the cap
/// with 1 over all rows.
pub fn average_risk_weight_times(factor: u128, rows: &[Row]) -> u128 {
    (factor * weighted_exposure_sum(rows)).div_ceil(exposure_sum(rows))
}

/// The sum of one figure over some rows.
fn sum<'a>(rows: impl Iterator<Item = &'a Row>, figure: impl Fn(&Row) -> u128) -> u128 {
    rows.map(figure).sum()
}

/// A result as a word. Every result of the calculator fits (the largest, a weighted exposure, is 1.25 x 10^18).
pub fn to_word(value: u128) -> u64 {
    u64::try_from(value).expect("a result fits a word")
}

#[cfg(test)]
mod tests {
    use super::*;

    /// A row whose exposure and nominal amounts are equal.
    fn row(amount: u64, risk_weight: u64, status: Status) -> Row {
        Row {
            exposure: amount,
            nominal: amount,
            risk_weight,
            status,
        }
    }

    /// Checked deal: rows (2, 100%) and (1, 50%) have base charge 66,667.
    #[test]
    fn base_charge_is_rounded_up() {
        let pool = [row(2, 10_000, Status::Paying), row(1, 5_000, Status::Paying)];
        assert_eq!(base_charge(&pool), 66_667);
        assert_eq!(
            pool_charge(&pool),
            PoolCharge {
                charge: 66_667,
                unknown_above_limit: false
            }
        );
    }

    /// Parts of a percent count in the base charge, which is rounded up once: rows (2, 37.5%) and (1, 0.01%) have an
    /// average of 2,500.33 hundredths, and eight times that is 20,002.67.
    #[test]
    fn base_charge_counts_parts_of_a_percent() {
        let pool = |part| [row(2, 3_750, Status::Paying), row(1, part, Status::Paying)];
        assert_eq!([0, 1, 2].map(|part| base_charge(&pool(part))), [20_000, 20_003, 20_006]);
    }

    /// Checked deal: base 80,000, none late. 5% unknown gives 126,000; 5.1% is above the limit.
    #[test]
    fn unknown_rows_up_to_five_percent() {
        let pool = |unknown| {
            [
                row(1000 - unknown, 10_000, Status::Paying),
                row(unknown, 10_000, Status::Unknown),
            ]
        };
        assert_eq!(base_charge(&pool(50)[..1]), 80_000);
        assert_eq!(
            pool_charge(&pool(50)),
            PoolCharge {
                charge: 126_000,
                unknown_above_limit: false
            }
        );
        assert_eq!(
            pool_charge(&pool(51)),
            PoolCharge {
                charge: 1_000_000,
                unknown_above_limit: true
            }
        );
    }

    /// A pool of unknown rows only has no base charge and needs none.
    #[test]
    fn all_rows_unknown() {
        let pool = [row(7, 10_000, Status::Unknown)];
        assert_eq!(
            pool_charge(&pool),
            PoolCharge {
                charge: 1_000_000,
                unknown_above_limit: true
            }
        );
    }

    /// The late share is over the nominal amounts of the known rows, rounded up, and raises the charge.
    #[test]
    fn late_share_counts_known_nominal() {
        let late = Row {
            exposure: 900,
            nominal: 1,
            risk_weight: 0,
            status: Status::Delinquent,
        };
        let paying = Row {
            exposure: 100,
            nominal: 2,
            risk_weight: 0,
            status: Status::Paying,
        };
        let unknown = Row {
            exposure: 1,
            nominal: 10,
            risk_weight: 0,
            status: Status::Unknown,
        };
        assert_eq!(late_share(&[late, paying]), 333_334);
        assert_eq!(known_charge(&[late, paying]), 166_667);
        // (1000 x 166,667 + 1 x 1,000,000) / 1001 = 167,499.5
        assert_eq!(pool_charge(&[late, paying, unknown]).charge, 167_500);
    }

    /// The charge of the known rows is rounded up: 1 millionth late gives (999,999 x 80,000 + 500,000) / 10^6 = 80,000.42.
    #[test]
    fn known_charge_is_rounded_up() {
        let pool = [row(999_999, 10_000, Status::Paying), row(1, 10_000, Status::Delinquent)];
        assert_eq!((late_share(&pool), base_charge(&pool)), (1, 80_000));
        assert_eq!(known_charge(&pool), 80_001);
    }

    /// A securitisation tranche in the pool counts as not delinquent.
    #[test]
    fn securitisation_tranche_is_not_late() {
        let pool = [row(3, 10_000, Status::SecuritisationTranche)];
        assert_eq!(
            pool_charge(&pool),
            PoolCharge {
                charge: 80_000,
                unknown_above_limit: false
            }
        );
    }

    /// A tranche of which only amount and class matter.
    fn tranche(amount: u64, class: u64) -> Tranche {
        Tranche {
            amount,
            class,
            months: 1,
            held: 0,
            ratings: [0; 3],
            place: 0,
        }
    }

    /// Both points are rounded down, equal classes rank together, and tranches beyond the pool leave 0.
    #[test]
    fn points_by_class() {
        let tranches = [
            tranche(1, 1),
            tranche(1, 2),
            tranche(2, 2),
            tranche(9, 3),
            tranche(1, 4),
        ];
        let of_class = |class| {
            let Points { attachment, detachment } = points(7, &tranches, class);
            (attachment, detachment)
        };
        assert_eq!(of_class(1), (857_142, 1_000_000));
        assert_eq!(of_class(2), (428_571, 857_142));
        assert_eq!(of_class(3), (0, 428_571));
        assert_eq!(of_class(4), (0, 0));
    }
}
