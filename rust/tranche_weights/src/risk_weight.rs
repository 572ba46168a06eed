//! The risk weight of a pool row, and the unit of risk weights in a sheet (document 01, "The deal sheet"; document 02,
//! S-9).

use std::fmt;

use crate::limits::{HUNDREDTHS_PER_PERCENT, RISK_WEIGHT_HUNDREDTHS, RISK_WEIGHT_PERCENT};
use crate::sheet_error::SheetError;

/// Risk weight of a pool row: 0 to 1250%, in whole hundredths of a percent.
///
/// It is given in whole percent by [`new`](Self::new), in hundredths of a percent by
/// [`from_hundredths`](Self::from_hundredths). It prints in percent, with the decimals that it needs: `100`, `37.5`.
///
/// ```
/// use tranche_weights::{
///     Facts, LongTerm, Months, PoolAmount, RiskWeight, Row, SheetBuilder, Status, Tranche, TrancheAmount,
/// };
///
/// # fn main() -> Result<(), Box<dyn std::error::Error>> {
/// let amount = PoolAmount::new(1_000)?;
/// let home_loans = Row::new(amount, amount, RiskWeight::from_hundredths(3_750)?);
/// let business_loans = Row::new(amount, amount, RiskWeight::new(85)?);
/// assert_eq!(home_loans.risk_weight.to_string(), "37.5");
///
/// let senior = Tranche::new(TrancheAmount::new(1_700)?, Months::new(60)?, 1_700)?;
/// let facts = Facts::new().with_due_diligence_held(true).with_pool_composition_known(true);
/// let mut deal = SheetBuilder::ordinary(facts);
/// deal.row(home_loans, Status::Paying)?
///     .row(business_loans, Status::Paying)?
///     .next_class(senior.with_ratings([Some(LongTerm::A.into()), None, None]))?;
/// let sheet = deal.build()?;
///
/// // 37.5% is no whole percent: the seventh fact says that the weights are in hundredths, and so they are.
/// assert_eq!(sheet.words()[..8], [7, 0, 0, 1, 1, 0, 0, 1]);
/// assert_eq!(sheet.words()[8..17], [2, 1_000, 1_000, 3_750, 0, 1_000, 1_000, 8_500, 0]);
///
/// // The average weight is 61.25%: times 8% it is the charge, and it is the cap of the senior class, which has 62% by A.
/// let deal = sheet.weigh()?;
/// assert_eq!((deal.charge, deal.lines[0].weight), (49_000, 6_125));
/// # Ok(())
/// # }
/// ```
#[derive(Debug, Clone, Copy, PartialEq, Eq, PartialOrd, Ord, Hash)]
pub struct RiskWeight {
    hundredths: u64,
}

impl RiskWeight {
    /// The highest weight in whole percent.
    pub const HIGHEST_PERCENT: u64 = RISK_WEIGHT_PERCENT.1;
    /// The highest weight in hundredths of a percent.
    pub const HIGHEST_HUNDREDTHS: u64 = RISK_WEIGHT_HUNDREDTHS.1;

    /// Takes a weight in whole percent, up to [`HIGHEST_PERCENT`](Self::HIGHEST_PERCENT).
    ///
    /// # Errors
    ///
    /// [`SheetError::RiskWeight`] with any other value.
    pub const fn new(percent: u64) -> Result<RiskWeight, SheetError> {
        match percent {
            0..=Self::HIGHEST_PERCENT => Self::from_hundredths(percent * HUNDREDTHS_PER_PERCENT),
            _ => Err(SheetError::RiskWeight(percent)),
        }
    }

    /// Takes a weight in hundredths of a percent, up to [`HIGHEST_HUNDREDTHS`](Self::HIGHEST_HUNDREDTHS).
    ///
    /// # Errors
    ///
    /// [`SheetError::RiskWeightInHundredths`] with any other value.
    pub const fn from_hundredths(hundredths: u64) -> Result<RiskWeight, SheetError> {
        match hundredths {
            0..=Self::HIGHEST_HUNDREDTHS => Ok(RiskWeight { hundredths }),
            _ => Err(SheetError::RiskWeightInHundredths(hundredths)),
        }
    }

    /// The weight in hundredths of a percent.
    pub const fn hundredths(self) -> u64 {
        self.hundredths
    }

    /// Whether the weight is a whole number of percent.
    pub(crate) const fn is_whole_percent(self) -> bool {
        self.hundredths % HUNDREDTHS_PER_PERCENT == 0
    }

    /// The word of the weight in a sheet of this unit; in whole percent, that of a weight that is a whole percent.
    pub(crate) const fn word(self, unit: Unit) -> u64 {
        match unit {
            Unit::WholePercent => self.hundredths / HUNDREDTHS_PER_PERCENT,
            Unit::Hundredths => self.hundredths,
        }
    }
}

impl fmt::Display for RiskWeight {
    /// Prints the weight in percent, with the decimals that it needs, as a number prints.
    fn fmt(&self, f: &mut fmt::Formatter<'_>) -> fmt::Result {
        let percent = self.hundredths / HUNDREDTHS_PER_PERCENT;
        let rest = self.hundredths % HUNDREDTHS_PER_PERCENT;
        let text = match (rest / 10, rest % 10) {
            (0, 0) => format!("{percent}"),
            (tenths, 0) => format!("{percent}.{tenths}"),
            (tenths, last) => format!("{percent}.{tenths}{last}"),
        };
        f.pad_integral(true, "", &text)
    }
}

/// The unit of the risk weights in a sheet, its seventh fact.
#[derive(Debug, Clone, Copy, PartialEq, Eq)]
pub(crate) enum Unit {
    /// Whole percent.
    WholePercent = 0,
    /// Hundredths of a percent.
    Hundredths = 1,
}
