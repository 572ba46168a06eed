//! Opened pools (document 02, S-10).

use crate::amendment::Amendment;
use crate::amendment_error::AmendmentError;
use crate::amendment_refusal::AmendmentRefusal;
use crate::calls::{converted, deal_of};
use crate::deal::Deal;
use crate::library::Opened;
use crate::limits::{MOST_FACTS, SUM_WORDS};
use crate::refusal::Refusal;
use crate::reply::{AmendmentReply, Reply, Weighed};
use crate::risk_weight::Unit;
use crate::sums::BlockSums;

/// A whole sheet with the sums of its pool, of which single rows can be replaced.
///
/// An amendment corrects the sums by the one row, and charge and lines are worked out from the sums: the other rows are not
/// read again. Nothing differs from a fresh load: after any run of amendments sums and charge are those of the rows as they
/// now stand, and the deal is weighed as [`weigh_words`](crate::weigh_words) weighs its words.
///
/// It is made by opening a sheet ([`open`](Self::open), [`Sheet::open`](crate::Sheet::open)) and changed by amendments, and
/// in no other way, so that its sums are always those of its rows.
///
/// ```
/// use tranche_weights::{
///     Amendment, Facts, LongTerm, Months, PoolAmount, RiskWeight, Row, SheetBuilder, Status, Tranche, TrancheAmount,
/// };
///
/// # fn main() -> Result<(), Box<dyn std::error::Error>> {
/// let loan = |amount| -> Result<Row, Box<dyn std::error::Error>> {
///     let amount = PoolAmount::new(amount)?;
///     Ok(Row::new(amount, amount, RiskWeight::new(100)?))
/// };
/// let senior = Tranche::new(TrancheAmount::new(800)?, Months::new(60)?, 800)?;
/// let mut deal = SheetBuilder::ordinary(Facts::new().with_due_diligence_held(true));
/// deal.row(loan(950)?, Status::Paying)?
///     .row(loan(50)?, Status::Delinquent)?
///     .next_class(senior.with_ratings([Some(LongTerm::A.into()), None, None]))?;
/// let mut pool = deal.build()?.open()?;
/// assert_eq!((pool.row_count(), pool.charge()), (2, 101_000));
///
/// // The second loan pays again, and half of it has been repaid.
/// pool.amend(Amendment::ordinary(2, loan(25)?, Status::Paying))?;
/// assert_eq!((pool.sums().all.exposure, pool.sums().late_nominal), (975, 0));
/// assert_eq!(pool.charge(), 80_000);
/// assert_eq!(pool.weigh()?.lines[0].attachment, 179_487);
///
/// // There is no third row: nothing changes.
/// let error = pool.amend(Amendment::ordinary(3, loan(25)?, Status::Paying)).unwrap_err();
/// assert_eq!(
///     error.to_string(),
///     "amendment refused 2 at 0: the pool has no row of this number; rows are counted from 1"
/// );
/// # Ok(())
/// # }
/// ```
#[derive(Debug, Clone, PartialEq, Eq, Hash)]
pub struct OpenedPool {
    opened: Opened,
}

impl OpenedPool {
    /// Opens the pool of the sheet that any words state. Words that are lent as a slice are copied.
    ///
    /// # Errors
    ///
    /// The [`Refusal`] of the sheet's words or of words that follow its last section. No result words are lent and no
    /// tranche is weighed here, so [`Reason::Room`](crate::Reason::Room) and
    /// [`Reason::ThinTranche`](crate::Reason::ThinTranche) are not given.
    ///
    /// ```
    /// use tranche_weights::{OpenedPool, Reason};
    ///
    /// // One loan of 100 at 50%, one tranche of 80 that is held in full, five years, AAA.
    /// let sheet = [4, 0, 0, 1, 1, 1, 100, 100, 50, 0, 1, 80, 1, 60, 80, 1, 0, 0];
    /// let pool = OpenedPool::open(sheet)?;
    /// assert_eq!((pool.words(), pool.charge()), (&sheet[..], 40_000));
    ///
    /// let refusal = OpenedPool::open(&sheet[..7]).unwrap_err();
    /// assert_eq!((refusal.reason(), refusal.place()), (Reason::MissingWord, 7));
    /// # Ok::<(), tranche_weights::Refusal>(())
    /// ```
    pub fn open(words: impl Into<Vec<u64>>) -> Result<OpenedPool, Refusal> {
        Opened::open(words.into()).map(|opened| OpenedPool { opened })
    }

    /// The words of the sheet, with all amendments.
    pub fn words(&self) -> &[u64] {
        self.opened.words()
    }

    /// The words of the sheet, with all amendments, as a list of their own.
    pub fn into_words(self) -> Vec<u64> {
        self.opened.into_words()
    }

    /// The number of the pool's rows. No amendment changes it.
    pub fn row_count(&self) -> usize {
        let facts = self.words()[0] as usize;
        self.words()[1 + facts] as usize
    }

    /// The sums over all rows of the pool.
    pub fn sums(&self) -> BlockSums {
        BlockSums::of(self.sum_words())
    }

    /// The words of the sums: the fields of [`BlockSums`], in their order and units.
    pub fn sum_words(&self) -> [u64; SUM_WORDS] {
        self.opened.sums()
    }

    /// The pool charge, in millionths, as [`Deal::charge`] is; also of a deal that is not weighed since a tranche is too
    /// thin.
    #[inline]
    pub fn charge(&self) -> u64 {
        self.opened.charge()
    }

    /// Weighs the deal.
    ///
    /// # Errors
    ///
    /// The one refusal that an opened pool can get here is 13, [`Reason::ThinTranche`](crate::Reason::ThinTranche), at
    /// its place in the sheet. It depends on charge and points, so that an amendment can bring it or take it away.
    pub fn weigh(&self) -> Result<Deal, Refusal> {
        deal_of(|results| self.reply_into(results))
    }

    /// Weighs the deal and writes [`LINE_WORDS`](crate::LINE_WORDS) words per tranche to the results, as
    /// [`weigh_words`](crate::weigh_words) does.
    ///
    /// # Errors
    ///
    /// The [`Refusal`]: 14 where the results are too short, and then 13; then all words of the results are as they were.
    #[inline]
    pub fn weigh_into(&self, results: &mut [u64]) -> Result<Weighed, Refusal> {
        self.reply_into(results).outcome()
    }

    /// Weighs as [`weigh_into`](Self::weigh_into) does, and gives the four numbers as the C function gives them; number 0
    /// where the deal is weighed.
    #[inline]
    pub fn reply_into(&self, results: &mut [u64]) -> Reply {
        self.opened.weigh(results)
    }

    /// Replaces a row and corrects the sums.
    ///
    /// # Errors
    ///
    /// [`AmendmentError::NotWholePercent`] where the sheet is in whole percent and the row's risk weight is not, before
    /// all else. [`AmendmentError::Refused`] with [`AmendmentReason::RowNumber`] where the pool has no row of this number,
    /// and else with [`AmendmentReason::Status`] where the amendment is one of an ordinary pool and this is that of a
    /// re-securitisation, or the other way round. Then nothing changes.
    ///
    /// [`AmendmentReason::RowNumber`]: crate::AmendmentReason::RowNumber
    /// [`AmendmentReason::Status`]: crate::AmendmentReason::Status
    pub fn amend(&mut self, amendment: Amendment) -> Result<(), AmendmentError> {
        let words = amendment.words(self.unit())?;
        Ok(self.amend_words(&words)?)
    }

    /// Replaces a row and corrects the sums, by any words: an amendment has [`AMENDMENT_WORDS`](crate::AMENDMENT_WORDS),
    /// the row's number, counted from 1, then exposure amount, nominal amount, risk weight in the sheet's unit and status.
    ///
    /// # Errors
    ///
    /// The [`AmendmentRefusal`]; then nothing changes. Of several faults the first word that is wrong or missing decides.
    ///
    /// ```
    /// use tranche_weights::{AmendmentReason, OpenedPool};
    ///
    /// // One loan of 100 at 50%, one tranche of 80 that is held in full, five years, AAA.
    /// let mut pool = OpenedPool::open([4, 0, 0, 1, 1, 1, 100, 100, 50, 0, 1, 80, 1, 60, 80, 1, 0, 0])?;
    /// pool.amend_words(&[1, 90, 95, 75, 0])?;
    /// assert_eq!(pool.words()[5..11], [1, 90, 95, 75, 0, 1]);
    /// assert_eq!(pool.charge(), 60_000);
    ///
    /// // A status of 3 is that of a re-securitisation.
    /// let refusal = pool.amend_words(&[1, 80, 80, 75, 3]).unwrap_err();
    /// assert_eq!((refusal.reason(), refusal.place()), (AmendmentReason::Status, 4));
    /// assert_eq!(pool.charge(), 60_000);
    /// # Ok::<(), Box<dyn std::error::Error>>(())
    /// ```
    #[inline]
    pub fn amend_words(&mut self, amendment: &[u64]) -> Result<(), AmendmentRefusal> {
        self.reply_to_amendment(amendment).outcome()
    }

    /// Amends as [`amend_words`](Self::amend_words) does, and gives number and place as the C function gives them; number 0
    /// where the pool is amended.
    #[inline]
    pub fn reply_to_amendment(&mut self, amendment: &[u64]) -> AmendmentReply {
        self.opened.amend(amendment)
    }

    /// The pool with its sheet in the other unit of the risk weights, as [`convert_words`](crate::convert_words) writes it.
    /// Sums, charge and lines are the same.
    ///
    /// # Errors
    ///
    /// The one refusal that an opened pool can get here is 19,
    /// [`Reason::NotWholePercent`](crate::Reason::NotWholePercent), where it is in hundredths and has a risk weight that is
    /// no whole percent.
    ///
    /// ```
    /// use tranche_weights::{Amendment, AmendmentError, OpenedPool, PoolAmount, RiskWeight, Row, Status};
    ///
    /// # fn main() -> Result<(), Box<dyn std::error::Error>> {
    /// // One loan of 100 at 50%, one tranche of 80 that is held in full, five years, AAA.
    /// let mut pool = OpenedPool::open([4, 0, 0, 1, 1, 1, 100, 100, 50, 0, 1, 80, 1, 60, 80, 1, 0, 0])?;
    /// let (hundred, weight) = (PoolAmount::new(100)?, RiskWeight::from_hundredths(3_750)?);
    /// let amendment = Amendment::ordinary(1, Row::new(hundred, hundred, weight), Status::Paying);
    /// assert_eq!(pool.amend(amendment), Err(AmendmentError::NotWholePercent(weight)));
    ///
    /// pool = pool.in_other_unit()?;
    /// pool.amend(amendment)?;
    /// assert_eq!(pool.charge(), 30_000);
    /// # Ok(())
    /// # }
    /// ```
    pub fn in_other_unit(&self) -> Result<OpenedPool, Refusal> {
        OpenedPool::open(converted(self.words())?)
    }

    /// The unit of the sheet's risk weights, its last fact; whole percent where the sheet leaves it out.
    fn unit(&self) -> Unit {
        let words = self.words();
        let stated = words[0] == MOST_FACTS as u64;
        if stated && words[MOST_FACTS] == Unit::Hundredths as u64 {
            Unit::Hundredths
        } else {
            Unit::WholePercent
        }
    }
}
