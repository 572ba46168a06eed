//! The pool kind and the figures of the IRB section (document 01, "The deal sheet"; document 02, S-5).

use crate::limits::IRB_WORDS;
use crate::numbers::{AverageWeight, Loans, Millionths};

/// The approach to credit risk that the pool's loans are under: the standardised one (SA), the internal ratings-based
/// one (IRB), or some under each. The list is whole.
///
/// With due diligence held, a deal that is no re-securitisation is weighed by SEC-IRBA where its pool is under the IRB
/// approach, or mixed and at least 95% of its exposure has an IRB charge. Ratings, and the statuses of the rows, then
/// play no part. Any other deal is weighed as if its pool were under the standardised approach.
///
/// ```
/// use tranche_weights::{
///     Approach, AverageWeight, Facts, IrbFigures, Loans, Millionths, Months, PoolAmount, PoolKind, RiskWeight, Row,
///     SheetBuilder, Status, Tranche, TrancheAmount,
/// };
///
/// # fn main() -> Result<(), Box<dyn std::error::Error>> {
/// let figures = IrbFigures {
///     charge: Millionths::new(150_000)?,
///     loss: Millionths::new(450_000)?,
///     loans: Loans::new(25)?,
///     retail: false,
///     average: AverageWeight::new(12_000)?,
/// };
/// let share = Millionths::new(950_000)?;
/// let hundred = PoolAmount::new(100)?;
/// let loans = Row::new(hundred, hundred, RiskWeight::new(100)?);
///
/// let facts = Facts::new()
///     .with_pool_kind(PoolKind::Mixed { share, figures })
///     .with_due_diligence_held(true);
/// let mut deal = SheetBuilder::ordinary(facts);
/// deal.row(loans, Status::Paying)?
///     .next_class(Tranche::new(TrancheAmount::new(80)?, Months::new(60)?, 80)?)?;
/// let sheet = deal.build()?;
///
/// // The pool kind is the first fact, and the IRB section follows the tranches, after its count.
/// assert_eq!(sheet.words()[..2], [4, 2]);
/// assert_eq!(sheet.words()[18..], [1, 150_000, 450_000, 25, 0, 950_000, 12_000]);
///
/// // The charge is 95% of 15% and 5% of 8%; the formula gives 39.025% with the parameter 0.412875.
/// let deal = sheet.weigh()?;
/// assert_eq!(deal.charge, 146_500);
/// assert_eq!((deal.lines[0].approach, deal.lines[0].weight), (Approach::SecIrba, 3_903));
/// # Ok(())
/// # }
/// ```
#[derive(Debug, Clone, Copy, Default, PartialEq, Eq, Hash)]
pub enum PoolKind {
    /// 0: all loans are under the standardised approach.
    #[default]
    Sa,
    /// 1: all loans are under the IRB approach.
    Irb(IrbFigures),
    /// 2: some loans are under the IRB approach.
    Mixed {
        /// Share of the pool's exposure with an IRB charge.
        share: Millionths,
        /// The other figures.
        figures: IrbFigures,
    },
}

impl PoolKind {
    /// The word of the kind in the sheet.
    pub(crate) const fn word(&self) -> u64 {
        match self {
            PoolKind::Sa => 0,
            PoolKind::Irb(_) => 1,
            PoolKind::Mixed { .. } => 2,
        }
    }

    /// The words of the IRB section in the sheet, where the kind has one.
    pub(crate) const fn irb_words(&self) -> Option<[u64; IRB_WORDS]> {
        match self {
            PoolKind::Sa => None,
            PoolKind::Irb(figures) => Some(figures.words(Millionths::HIGHEST)),
            PoolKind::Mixed { share, figures } => Some(figures.words(share.get())),
        }
    }
}

/// The figures of the IRB section but the share of exposure with an IRB charge. The list is whole.
#[derive(Debug, Clone, Copy, PartialEq, Eq, Hash)]
pub struct IrbFigures {
    /// IRB charge: the capital charge under the IRB approach of the loans that have one, per unit of their exposure.
    pub charge: Millionths,
    /// Average loss given default.
    pub loss: Millionths,
    /// Effective number of loans. The supervisory parameter depends on it where the pool is not retail, with other
    /// coefficients under 25 loans.
    pub loans: Loans,
    /// The pool is retail.
    pub retail: bool,
    /// IRB average weight: the average weight of the pool's loans, those under the standardised approach at their
    /// weights there. Under SEC-IRBA it is the cap of the senior class.
    pub average: AverageWeight,
}

impl IrbFigures {
    /// The words of the section in the sheet, with the word given for the share.
    const fn words(&self, share: u64) -> [u64; IRB_WORDS] {
        [
            self.charge.get(),
            self.loss.get(),
            self.loans.get(),
            self.retail as u64,
            share,
            self.average.get(),
        ]
    }
}
