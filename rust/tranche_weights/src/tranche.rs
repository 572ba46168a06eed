//! A tranche (document 01, "The deal sheet"; document 02, S-3 and S-8).

use crate::date::Date;
use crate::limits::{MOST_RATINGS, TRANCHE_WORDS};
use crate::numbers::{Months, TrancheAmount};
use crate::rating::Rating;
use crate::sheet_error::SheetError;

/// A tranche, without its class: the class follows from where [`SheetBuilder`](crate::SheetBuilder) places it.
///
/// # Inferred ratings
///
/// A tranche without a rating takes the ratings of another one where it can, and is weighed by them with its own class,
/// maturity and thickness. It can take those of each tranche that has a rating of its own, is in its class, placed before
/// it or after it, or in a class below, and has an equal or longer maturity in months (with a reporting date, those of
/// [`Date::months_to`]). Of these the most senior class counts, and in it the tranche that is placed first; all its ratings
/// are taken. So a rating can change the lines of its own class and of those above it, and of no class below, as long as the
/// sheet is not refused.
///
/// Nothing is taken in a re-securitisation, in a deal under SEC-IRBA and without due diligence.
///
/// That ratings were taken shows in the line: its approach is SEC-ERBA, and the tranche has no rating.
///
/// ```
/// use tranche_weights::{
///     Approach, Facts, LongTerm, Months, PoolAmount, RiskWeight, Row, SheetBuilder, Status, Tranche, TrancheAmount,
/// };
///
/// # fn main() -> Result<(), Box<dyn std::error::Error>> {
/// let thousand = PoolAmount::new(1_000)?;
/// let loans = Row::new(thousand, thousand, RiskWeight::new(100)?);
/// let senior = Tranche::new(TrancheAmount::new(800)?, Months::new(36)?, 800)?;
/// let middle = Tranche::new(TrancheAmount::new(150)?, Months::new(60)?, 150)?;
/// let junior = Tranche::new(TrancheAmount::new(50)?, Months::new(36)?, 50)?;
///
/// let mut deal = SheetBuilder::ordinary(Facts::new().with_due_diligence_held(true));
/// deal.row(loans, Status::Paying)?
///     .next_class(senior)?
///     .next_class(middle.with_ratings([Some(LongTerm::Aa.into()), None, None]))?
///     .next_class(junior)?;
/// let lines = deal.build()?.weigh()?.lines;
///
/// // The senior tranche takes the AA of the class below, which is longer: as a senior tranche of 36 months it has 31%.
/// assert_eq!((lines[0].approach, lines[0].weight), (Approach::SecErba, 3_100));
/// // The junior tranche has no rated one in its class or below, and takes none of a class above.
/// assert_eq!(lines[2].approach, Approach::SecSa);
/// # Ok(())
/// # }
/// ```
#[derive(Debug, Clone, Copy, PartialEq, Eq, Hash)]
pub struct Tranche {
    amount: TrancheAmount,
    maturity: Maturity,
    held: u64,
    ratings: [Option<Rating>; MOST_RATINGS],
}

/// The final legal maturity of a tranche, in the form in which it is given.
#[derive(Debug, Clone, Copy, PartialEq, Eq, Hash)]
enum Maturity {
    Months(Months),
    Date(Date),
}

impl Maturity {
    /// The word of the sheet. An error where the form is not that of the deal, or where the months from the reporting
    /// date on are outside their limits.
    fn word(self, reporting_date: Option<Date>) -> Result<u64, SheetError> {
        match (self, reporting_date) {
            (Maturity::Months(months), None) => Ok(months.get()),
            (Maturity::Date(date), Some(reporting_date)) => reporting_date.months_to(date).map(|_| date.word()),
            (Maturity::Months(months), Some(_)) => Err(SheetError::MonthsWithReportingDate(months)),
            (Maturity::Date(date), None) => Err(SheetError::DateWithoutReportingDate(date)),
        }
    }
}

impl Tranche {
    /// An unrated tranche of a deal without a reporting date, of which so much is held, in whole currency units: 0 to the
    /// tranche's amount.
    ///
    /// # Errors
    ///
    /// [`SheetError::HeldAboveAmount`] where more is held.
    pub const fn new(amount: TrancheAmount, maturity: Months, held: u64) -> Result<Tranche, SheetError> {
        Self::unrated(amount, Maturity::Months(maturity), held)
    }

    /// The same of a deal with a reporting date ([`Facts::with_reporting_date`](crate::Facts::with_reporting_date)): the
    /// maturity is a date after it.
    ///
    /// # Errors
    ///
    /// [`SheetError::HeldAboveAmount`] where more is held.
    ///
    /// ```
    /// use tranche_weights::{
    ///     Date, Facts, LongTerm, PoolAmount, RiskWeight, Row, SheetBuilder, Status, Tranche, TrancheAmount,
    /// };
    ///
    /// # fn main() -> Result<(), Box<dyn std::error::Error>> {
    /// let hundred = PoolAmount::new(100)?;
    /// let loans = Row::new(hundred, hundred, RiskWeight::new(100)?);
    /// let senior = Tranche::maturing_on(TrancheAmount::new(80)?, Date::new(2029, 11, 16)?, 80)?;
    ///
    /// let facts = Facts::new()
    ///     .with_due_diligence_held(true)
    ///     .with_reporting_date(Some(Date::new(2026, 11, 16)?));
    /// let mut deal = SheetBuilder::ordinary(facts);
    /// deal.row(loans, Status::Paying)?
    ///     .next_class(senior.with_ratings([Some(LongTerm::Aa.into()), None, None]))?;
    /// let sheet = deal.build()?;
    ///
    /// // Six facts, the last of them the reporting date; a senior AA tranche of 36 months has 31%.
    /// assert_eq!(sheet.words()[..7], [6, 0, 0, 1, 0, 0, 20_261_116]);
    /// assert_eq!(sheet.weigh()?.lines[0].weight, 3_100);
    /// # Ok(())
    /// # }
    /// ```
    pub const fn maturing_on(amount: TrancheAmount, maturity: Date, held: u64) -> Result<Tranche, SheetError> {
        Self::unrated(amount, Maturity::Date(maturity), held)
    }

    /// An unrated tranche with its maturity in either form, where no more is held than the amount.
    const fn unrated(amount: TrancheAmount, maturity: Maturity, held: u64) -> Result<Tranche, SheetError> {
        let amount_word = amount.get();
        if held > amount_word {
            return Err(SheetError::HeldAboveAmount {
                held,
                amount: amount_word,
            });
        }
        Ok(Tranche {
            amount,
            maturity,
            held,
            ratings: [None; MOST_RATINGS],
        })
    }

    /// The same tranche with these ratings in place of those it had.
    ///
    /// With one rating its weight counts, with two the higher weight. With three the two lowest weights are picked and the
    /// higher of these counts: the middle one. Equal ratings count separately, and the order of the ratings does not
    /// matter. A tranche without a rating may take them too ([inferred ratings](Tranche#inferred-ratings)). In a
    /// re-securitisation and under SEC-IRBA they stand in the sheet and are not used.
    #[must_use]
    pub const fn with_ratings(self, ratings: [Option<Rating>; MOST_RATINGS]) -> Tranche {
        Tranche { ratings, ..self }
    }

    /// The words of the tranche's row in the sheet, in the class given. An error where the deal's reporting date, or that
    /// it has none, does not go with the maturity.
    pub(crate) fn words(&self, class: u64, reporting_date: Option<Date>) -> Result<[u64; TRANCHE_WORDS], SheetError> {
        let [first, second, third] = self.ratings.map(|rating| rating.map_or(0, Rating::code));
        Ok([
            self.amount.get(),
            class,
            self.maturity.word(reporting_date)?,
            self.held,
            first,
            second,
            third,
        ])
    }
}
