//! The sheet of a deal and its builder (document 01, "The deal sheet"; document 02, S-1, S-3, S-5, S-7, S-9 and S-10).

use std::marker::PhantomData;

use crate::calls::{block_sums, converted, weigh_sheet};
use crate::date::Date;
use crate::deal::Deal;
use crate::facts::Facts;
use crate::limits::{FEWEST_FACTS, IRB_WORDS, MOST_FACTS, MOST_ROWS, MOST_TRANCHES, ROW_WORDS, TRANCHE_WORDS};
use crate::opened_pool::OpenedPool;
use crate::pool::{Row, Status, SECURITISATION_TRANCHE};
use crate::refusal::Refusal;
use crate::risk_weight::Unit;
use crate::sheet_error::SheetError;
use crate::sums::BlockSums;
use crate::tranche::Tranche;

/// Marks the builder of an ordinary deal, STC or not, whose rows have a [`Status`].
#[derive(Debug, Clone, Copy, PartialEq, Eq, Hash)]
pub enum Ordinary {}

/// Marks the builder of a re-securitisation, each of whose rows is a securitisation tranche.
#[derive(Debug, Clone, Copy, PartialEq, Eq, Hash)]
pub enum Resecuritisation {}

/// What a deal is by its facts: a re-securitisation or STC or neither, and never both.
#[derive(Clone, Copy, PartialEq, Eq)]
enum DealKind {
    Ordinary,
    Stc,
    Resecuritisation,
}

/// Builds the sheet of a deal: rows in any order, tranches from senior to junior.
///
/// The sheet states no fact that it can leave out: [`FEWEST_FACTS`] in a deal with neither STC mark nor reporting date,
/// and after them the mark where the deal is STC, or mark and date where it has a reporting date. So a deal keeps its
/// words, and each word its place, when later versions have further facts.
///
/// Its risk weights are in whole percent where all of them are whole percents. Where one is not, it states all
/// [`MOST_FACTS`] facts, the last of them the unit, and all its risk weights are in hundredths of a percent.
///
/// Where the pool kind has an IRB section, it follows the tranches.
///
/// In a deal with a reporting date each tranche's maturity is a date, and in any other a number of months.
///
/// A method that answers with an error leaves the builder as it was.
#[derive(Debug, Clone, PartialEq, Eq)]
pub struct SheetBuilder<Kind> {
    /// All facts but the unit, which the rows decide, also those that the sheet can leave out; rows of one word each.
    facts: [[u64; 1]; MOST_FACTS - 1],
    /// The rows, each with its status word.
    rows: Vec<(Row, u64)>,
    tranches: Vec<[u64; TRANCHE_WORDS]>,
    /// The IRB section, where the pool kind has one.
    irb: Option<[u64; IRB_WORDS]>,
    reporting_date: Option<Date>,
    /// The class of the last tranche placed; 0 before the first.
    class: u64,
    kind: PhantomData<Kind>,
}

impl SheetBuilder<Ordinary> {
    /// Starts an ordinary deal that is not STC, without rows and tranches.
    pub fn ordinary(facts: Facts) -> Self {
        Self::start(DealKind::Ordinary, facts)
    }

    /// Starts an STC deal, one that is simple, transparent and comparable, without rows and tranches.
    ///
    /// It is an ordinary deal with half the supervisory parameter in the formula (under SEC-IRBA no less than 0.3, as in
    /// other deals), a floor of 10% for class 1 (15% below, as in other deals), and rating tables of its own, by which a
    /// non-senior weight is not raised to the senior one. No re-securitisation is STC, and none can be started so.
    ///
    /// ```
    /// use tranche_weights::{
    ///     Facts, LongTerm, Months, PoolAmount, RiskWeight, Row, SheetBuilder, Status, Tranche, TrancheAmount,
    /// };
    ///
    /// # fn main() -> Result<(), Box<dyn std::error::Error>> {
    /// let hundred = PoolAmount::new(100)?;
    /// let loans = Row::new(hundred, hundred, RiskWeight::new(100)?);
    /// let senior = Tranche::new(TrancheAmount::new(80)?, Months::new(60)?, 80)?;
    ///
    /// let facts = Facts::new().with_due_diligence_held(true).with_pool_composition_known(true);
    /// let mut deal = SheetBuilder::stc(facts);
    /// deal.row(loans, Status::Paying)?
    ///     .next_class(senior.with_ratings([Some(LongTerm::Aaa.into()), None, None]))?;
    /// let sheet = deal.build()?;
    ///
    /// // Five facts, the last of them the STC mark; a senior AAA tranche of an STC deal has 10%.
    /// assert_eq!(sheet.words()[..6], [5, 0, 0, 1, 1, 1]);
    /// assert_eq!(sheet.weigh()?.lines[0].weight, 1_000);
    /// # Ok(())
    /// # }
    /// ```
    pub fn stc(facts: Facts) -> Self {
        Self::start(DealKind::Stc, facts)
    }

    /// Adds a row with its status.
    ///
    /// # Errors
    ///
    /// [`SheetError::TooManyRows`] where the pool is full.
    pub fn row(&mut self, row: Row, status: Status) -> Result<&mut Self, SheetError> {
        self.add_row(row, status as u64)
    }
}

impl SheetBuilder<Resecuritisation> {
    /// Starts a re-securitisation, without rows and tranches.
    pub fn resecuritisation(facts: Facts) -> Self {
        Self::start(DealKind::Resecuritisation, facts)
    }

    /// Adds a row, a securitisation tranche.
    ///
    /// # Errors
    ///
    /// [`SheetError::TooManyRows`] where the pool is full.
    pub fn row(&mut self, row: Row) -> Result<&mut Self, SheetError> {
        self.add_row(row, SECURITISATION_TRANCHE)
    }
}

impl<Kind> SheetBuilder<Kind> {
    /// Starts a deal of any kind, with the facts in the sheet's order, up to the unit.
    fn start(kind: DealKind, facts: Facts) -> Self {
        let words = [
            facts.pool_kind.word(),
            u64::from(kind == DealKind::Resecuritisation),
            u64::from(facts.due_diligence_held),
            u64::from(facts.pool_composition_known),
            u64::from(kind == DealKind::Stc),
            facts.reporting_date.map_or(0, Date::word),
        ];
        SheetBuilder {
            facts: words.map(|word| [word]),
            rows: Vec::new(),
            tranches: Vec::new(),
            irb: facts.pool_kind.irb_words(),
            reporting_date: facts.reporting_date,
            class: 0,
            kind: PhantomData,
        }
    }

    /// Adds a row with its status word, where the pool is not full.
    fn add_row(&mut self, row: Row, status: u64) -> Result<&mut Self, SheetError> {
        if self.rows.len() == MOST_ROWS {
            return Err(SheetError::TooManyRows);
        }
        self.rows.push((row, status));
        Ok(self)
    }

    /// The unit of the sheet: whole percent where every risk weight is a whole percent.
    fn unit(&self) -> Unit {
        if self.rows.iter().all(|(row, _)| row.risk_weight.is_whole_percent()) {
            Unit::WholePercent
        } else {
            Unit::Hundredths
        }
    }

    /// Places a tranche in the next class: class 1, the senior class, for the first tranche; for any other, the class
    /// that ranks just below the tranche placed before it.
    ///
    /// # Errors
    ///
    /// [`SheetError::TooManyTranches`] where the deal is full. [`SheetError::MonthsWithReportingDate`] or
    /// [`SheetError::DateWithoutReportingDate`] where the maturity is not in the form of the deal;
    /// [`SheetError::MaturityNotAfter`] or [`SheetError::MaturityTooLate`] where it is a date that is not after the
    /// reporting date, or more than 1200 months on.
    pub fn next_class(&mut self, tranche: Tranche) -> Result<&mut Self, SheetError> {
        self.place(tranche, self.class + 1)
    }

    /// Places a tranche in the class of the tranche placed before it, with which it ranks pari passu. Of the rated
    /// tranches in one class an unrated tranche takes the ratings of the first that is long enough
    /// ([inferred ratings](Tranche#inferred-ratings)), so their order can matter.
    ///
    /// # Errors
    ///
    /// [`SheetError::NoTrancheBefore`] where no tranche was placed; else as [`next_class`](Self::next_class).
    pub fn same_class(&mut self, tranche: Tranche) -> Result<&mut Self, SheetError> {
        if self.class == 0 {
            return Err(SheetError::NoTrancheBefore);
        }
        self.place(tranche, self.class)
    }

    /// Places a tranche in a class, where the deal is not full and the maturity goes with its reporting date.
    fn place(&mut self, tranche: Tranche, class: u64) -> Result<&mut Self, SheetError> {
        if self.tranches.len() == MOST_TRANCHES {
            return Err(SheetError::TooManyTranches);
        }
        self.tranches.push(tranche.words(class, self.reporting_date)?);
        self.class = class;
        Ok(self)
    }

    /// Makes the sheet of all that was added.
    ///
    /// # Errors
    ///
    /// [`SheetError::NoRows`] or [`SheetError::NoTranches`] where there are none.
    pub fn build(&self) -> Result<Sheet, SheetError> {
        if self.rows.is_empty() {
            return Err(SheetError::NoRows);
        }
        if self.tranches.is_empty() {
            return Err(SheetError::NoTranches);
        }
        let unit = self.unit();
        let facts = [&self.facts[..], &[[unit as u64]]].concat();
        let rows = self.rows.iter().map(|(row, status)| row.words(unit, *status));
        let rows: Vec<[u64; ROW_WORDS]> = rows.collect();
        Ok(Sheet {
            words: [
                section(needed(&facts)),
                section(&rows),
                section(&self.tranches),
                self.irb.map_or_else(Vec::new, |words| section(&[words])),
            ]
            .concat(),
        })
    }
}

/// The facts that a sheet has to state: without the zeros at the end, since a fact that is left out counts as 0, but no
/// fewer than the fewest.
fn needed(facts: &[[u64; 1]]) -> &[[u64; 1]] {
    match facts {
        [before @ .., [0]] if before.len() >= FEWEST_FACTS => needed(before),
        _ => facts,
    }
}

/// A section of the sheet: the count of its rows, then their words.
fn section<const WORDS: usize>(rows: &[[u64; WORDS]]) -> Vec<u64> {
    let mut words = vec![rows.len() as u64];
    words.extend(rows.as_flattened());
    words
}

/// The sheet of a deal, as [`SheetBuilder`] makes it, or the same in the other unit: every word is within its limits.
#[derive(Debug, Clone, PartialEq, Eq, Hash)]
pub struct Sheet {
    words: Vec<u64>,
}

impl Sheet {
    /// The sheet's words.
    pub fn words(&self) -> &[u64] {
        &self.words
    }

    /// The sheet as a file: its words, eight bytes each, lowest byte first.
    pub fn to_file_bytes(&self) -> Vec<u8> {
        self.words.iter().flat_map(|word| word.to_le_bytes()).collect()
    }

    /// Weighs the deal.
    ///
    /// # Errors
    ///
    /// The one refusal that such a sheet can get is 13, [`Reason::ThinTranche`](crate::Reason::ThinTranche): that one
    /// depends on the whole deal, and no single word is at fault.
    ///
    /// ```
    /// use tranche_weights::{
    ///     Facts, Months, PoolAmount, Reason, RiskWeight, Row, SheetBuilder, SheetError, Status, Tranche,
    ///     TrancheAmount,
    /// };
    ///
    /// # fn main() -> Result<(), SheetError> {
    /// let ten_billion = PoolAmount::new(10_000_000_000)?;
    /// let loans = Row::new(ten_billion, ten_billion, RiskWeight::new(100)?);
    /// let five_years = Months::new(60)?;
    /// let senior = Tranche::new(TrancheAmount::new(4_999_995_000)?, five_years, 0)?;
    /// // One unit of ten billion: both points round down to 500,000 millionths, above the pool charge of 80,000.
    /// let thin = Tranche::new(TrancheAmount::new(1)?, five_years, 1)?;
    ///
    /// let facts = Facts::new().with_due_diligence_held(true).with_pool_composition_known(true);
    /// let mut deal = SheetBuilder::ordinary(facts);
    /// deal.row(loans, Status::Paying)?.next_class(senior)?.next_class(thin)?;
    /// let refusal = deal.build()?.weigh().unwrap_err();
    ///
    /// assert_eq!(refusal.reason(), Reason::ThinTranche);
    /// assert_eq!((refusal.number(), refusal.place()), (13, 18));
    /// assert!(refusal.to_string().starts_with("refused 13 at 18: a tranche under the formula"));
    /// # Ok(())
    /// # }
    /// ```
    pub fn weigh(&self) -> Result<Deal, Refusal> {
        weigh_sheet(&self.words)
    }

    /// The sums of a block of the pool's rows, as [`block_sums`] reads them: blocks are counted from 0, and past the last
    /// one every sum is 0.
    ///
    /// # Errors
    ///
    /// None that the library gives to such a sheet: its words are within their limits, and 13 is not judged here.
    ///
    /// ```
    /// use tranche_weights::{
    ///     Facts, Months, PoolAmount, RiskWeight, Row, SheetBuilder, Status, Tranche, TrancheAmount, BLOCK_ROWS,
    /// };
    ///
    /// # fn main() -> Result<(), Box<dyn std::error::Error>> {
    /// let hundred = PoolAmount::new(100)?;
    /// let loan = Row::new(hundred, hundred, RiskWeight::new(75)?);
    /// let senior = Tranche::new(TrancheAmount::new(80)?, Months::new(60)?, 80)?;
    ///
    /// let mut deal = SheetBuilder::ordinary(Facts::new());
    /// for _ in 0..BLOCK_ROWS {
    ///     deal.row(loan, Status::Paying)?;
    /// }
    /// deal.row(loan, Status::Delinquent)?.row(loan, Status::NotKnown)?.next_class(senior)?;
    /// let sheet = deal.build()?;
    ///
    /// let [first, last, past] = [sheet.block_sums(0)?, sheet.block_sums(1)?, sheet.block_sums(2)?];
    /// assert_eq!((first.all.exposure, first.known.exposure, first.late_nominal), (5_000, 5_000, 0));
    /// assert_eq!((last.all.exposure, last.known.exposure, last.late_nominal), (200, 100, 100));
    /// assert_eq!((last.all.weighted_exposure, past.all.exposure), (200 * 7_500, 0));
    /// # Ok(())
    /// # }
    /// ```
    pub fn block_sums(&self, block: u64) -> Result<BlockSums, Refusal> {
        block_sums(&self.words, block)
    }

    /// Opens the pool, so that rows of it can be replaced. The sheet stays as it is.
    ///
    /// # Errors
    ///
    /// None that the library gives to such a sheet: its words are within their limits, and 13 is not judged here.
    pub fn open(&self) -> Result<OpenedPool, Refusal> {
        OpenedPool::open(self.words())
    }

    /// The sheet in the other unit of the risk weights, as [`convert_words`](crate::convert_words) writes it: with [`MOST_FACTS`] facts, in
    /// hundredths of a percent where this one is in whole percent, and in whole percent where it is in hundredths. It is
    /// weighed as this one is.
    ///
    /// # Errors
    ///
    /// The one refusal that such a sheet can get is 19, [`Reason::NotWholePercent`](crate::Reason::NotWholePercent), where
    /// this one is in hundredths and has a risk weight that is no whole percent. Of the sheets that are built, each one in
    /// hundredths has.
    ///
    /// ```
    /// use tranche_weights::{
    ///     Facts, Months, PoolAmount, Reason, RiskWeight, Row, SheetBuilder, Status, Tranche, TrancheAmount,
    /// };
    ///
    /// # fn main() -> Result<(), Box<dyn std::error::Error>> {
    /// let hundred = PoolAmount::new(100)?;
    /// let senior = Tranche::new(TrancheAmount::new(80)?, Months::new(60)?, 80)?;
    /// let mut deal = SheetBuilder::ordinary(Facts::new().with_due_diligence_held(true));
    /// deal.row(Row::new(hundred, hundred, RiskWeight::new(85)?), Status::Paying)?
    ///     .next_class(senior)?;
    ///
    /// let sheet = deal.build()?;
    /// let in_hundredths = sheet.in_other_unit()?;
    /// assert_eq!(sheet.words()[..10], [4, 0, 0, 1, 0, 1, 100, 100, 85, 0]);
    /// assert_eq!(in_hundredths.words()[..13], [7, 0, 0, 1, 0, 0, 0, 1, 1, 100, 100, 8_500, 0]);
    /// assert_eq!(in_hundredths.weigh(), sheet.weigh());
    ///
    /// // 37.5% can't be said in whole percent: the weight of the second row stands at 15.
    /// deal.row(Row::new(hundred, hundred, RiskWeight::from_hundredths(3_750)?), Status::Paying)?;
    /// let refusal = deal.build()?.in_other_unit().unwrap_err();
    /// assert_eq!((refusal.reason(), refusal.place()), (Reason::NotWholePercent, 15));
    /// # Ok(())
    /// # }
    /// ```
    pub fn in_other_unit(&self) -> Result<Sheet, Refusal> {
        converted(&self.words).map(|words| Sheet { words })
    }
}
