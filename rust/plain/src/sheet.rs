//! "The deal sheet" and "Refusals": reading the words in order and refusing the first bad one.

use crate::date::Date;
use crate::limits::{
    refusal, BLOCK_ROWS, DATED_FACTS, FEWEST_FACTS, IRB_SECTIONS, IRB_WORDS, MOST_FACTS, MOST_LOANS, MOST_MONTHS,
    MOST_POOL_AMOUNT, MOST_ROWS, MOST_SHARE, MOST_TRANCHES, MOST_TRANCHE_AMOUNT, MOST_WEIGHT, PERCENT, RATINGS,
    TRANCHE_WORDS,
};
use crate::pool::{status, Pool, Row};
use std::ops::RangeInclusive;

/// A refusal: its number and its place.
pub type Refusal = (u64, u64);

/// Where a tranche's words hold its amount.
pub const AMOUNT: usize = 0;
/// Where a tranche's words hold its class.
pub const CLASS: usize = 1;

/// A sheet that has no bad word: its facts, the sums of its pool, and its tranches as they stand in the sheet.
pub struct Deal<'a> {
    pub facts: Facts,
    pub pool: &'a Pool,
    pub tranches: &'a [[u64; TRANCHE_WORDS]],
    /// Place of the first tranche's amount.
    pub first_tranche: usize,
    /// The words of the IRB section, which an SA pool does not have.
    pub irb: Option<&'a [u64; IRB_WORDS]>,
}

/// The codes of a pool's kind.
mod pool_kind {
    /// Loans with a charge by the standardised approach.
    pub const SA: u64 = 0;
    /// Loans with an IRB charge.
    pub const IRB: u64 = 1;
    /// Loans of both sorts.
    pub const MIXED: u64 = 2;
}

/// The IRB section.
pub struct Irb {
    /// The IRB charge, in millionths.
    pub charge: u64,
    /// The average loss given default, in millionths.
    pub loss: u64,
    /// The effective number of loans.
    pub loans: u64,
    pub retail: bool,
    /// The share of exposure with an IRB charge, in millionths.
    pub share: u64,
    /// The IRB average weight, in hundredths of a percent.
    pub average: u64,
}

impl From<&[u64; IRB_WORDS]> for Irb {
    /// Names the words of the section.
    fn from(&[charge, loss, loans, retail, share, average]: &[u64; IRB_WORDS]) -> Self {
        Irb {
            charge,
            loss,
            loans,
            retail: retail == 1,
            share,
            average,
        }
    }
}

/// The facts of a deal.
#[derive(Clone, Copy)]
pub struct Facts {
    pool_kind: u64,
    pub resecuritisation: bool,
    pub due_diligence: bool,
    pub composition_known: bool,
    pub stc: bool,
    /// Where there is one, the maturities are dates.
    pub reporting_date: Option<Date>,
    /// Whether the risk weights are in hundredths of a percent; else they are in whole percent.
    in_hundredths: bool,
}

impl Facts {
    /// The limits of the words of a pool row. A re-securitisation holds securitisation tranches and nothing else.
    pub fn row_limits(&self) -> RowLimits {
        RowLimits {
            most_weight: MOST_WEIGHT / self.unit(),
            statuses: match self.resecuritisation {
                true => status::TRANCHE..=status::TRANCHE,
                false => status::PAYING..=status::NOT_KNOWN,
            },
        }
    }

    /// The unit of the risk weights, in hundredths of a percent.
    pub fn unit(&self) -> u64 {
        match self.in_hundredths {
            true => 1,
            false => PERCENT,
        }
    }
}

/// The limits of the words of a pool row that differ between deals.
pub struct RowLimits {
    most_weight: u64,
    statuses: RangeInclusive<u64>,
}

/// A tranche's row by its names. The amount is used in the points alone and is left out, and so are the ratings: those that
/// count may be another row's.
pub struct Tranche {
    pub class: u64,
    /// Months, or a date's word where the deal has a reporting date.
    pub maturity: u64,
    pub held: u64,
}

impl From<&[u64; TRANCHE_WORDS]> for Tranche {
    /// Names the words of a row.
    fn from(&[_, class, maturity, held, ..]: &[u64; TRANCHE_WORDS]) -> Self {
        Tranche { class, maturity, held }
    }
}

/// The ratings of a tranche's row, its last words.
pub fn ratings_of(words: &[u64; TRANCHE_WORDS]) -> &[u64; RATINGS] {
    words.last_chunk().expect("a row has its ratings")
}

/// Whether any of these is a rating.
pub fn is_rated(ratings: &[u64; RATINGS]) -> bool {
    *ratings != [0; RATINGS]
}

/// Reads the whole sheet, with the sums of its pool into `pool`. The first bad word decides; then words that follow the last
/// section are refused.
pub fn read<'a>(sheet: &'a [u64], pool: &'a mut Pool) -> Result<Deal<'a>, Refusal> {
    let mut reader = Reader { sheet, place: 0 };
    let facts = reader.facts()?;
    *pool = reader.pool(&facts)?;
    let count = reader.within(1..=MOST_TRANCHES as u64, refusal::COUNT)?;
    let first_tranche = reader.place;
    reader.check_tranches(count, facts.reporting_date)?;
    let (tranches, _) = sheet[first_tranche..reader.place].as_chunks();
    let irb = match facts.pool_kind {
        pool_kind::SA => None,
        kind => Some(reader.irb(kind)?),
    };
    reader.end()?;
    Ok(Deal {
        facts,
        pool,
        tranches,
        first_tranche,
        irb,
    })
}

/// Reads an amendment of a pool of so many rows (S-10): the row's number counted from 1, then the row. The first bad word
/// decides; then words that follow are refused.
pub fn read_amendment(words: &[u64], rows: u64, limits: &RowLimits) -> Result<(u64, Row), Refusal> {
    let mut reader = Reader { sheet: words, place: 0 };
    let number = reader.within(1..=rows, refusal::COUNT)?;
    let row = reader.row(limits)?;
    reader.end()?;
    Ok((number, row))
}

/// The words of a sheet, or of an amendment, and the place of the next one.
struct Reader<'a> {
    sheet: &'a [u64],
    place: usize,
}

impl<'a> Reader<'a> {
    /// The next word. A missing one is refused at the sheet's length.
    fn next(&mut self) -> Result<u64, Refusal> {
        let missing = (refusal::MISSING, self.sheet.len() as u64);
        let word = *self.sheet.get(self.place).ok_or(missing)?;
        self.place += 1;
        Ok(word)
    }

    /// Refuses the word that was read last.
    fn refuse<T>(&self, number: u64) -> Result<T, Refusal> {
        Err((number, self.place as u64 - 1))
    }

    /// The next word, refused by `number` where it is outside `limits`.
    fn within(&mut self, limits: RangeInclusive<u64>, number: u64) -> Result<u64, Refusal> {
        let word = self.next()?;
        if limits.contains(&word) {
            Ok(word)
        } else {
            self.refuse(number)
        }
    }

    /// Refuses words that follow those read.
    fn end(&self) -> Result<(), Refusal> {
        if self.place < self.sheet.len() {
            return Err((refusal::FOLLOWS, self.place as u64));
        }
        Ok(())
    }

    /// A fact that is 0 for no and 1 for yes.
    fn flag(&mut self) -> Result<bool, Refusal> {
        Ok(self.within(0..=1, refusal::FACT)? == 1)
    }

    /// The section of facts.
    fn facts(&mut self) -> Result<Facts, Refusal> {
        let count = self.within(FEWEST_FACTS..=MOST_FACTS, refusal::COUNT)?;
        let mut facts = Facts {
            pool_kind: self.within(pool_kind::SA..=pool_kind::MIXED, refusal::FACT)?,
            resecuritisation: self.flag()?,
            due_diligence: self.flag()?,
            composition_known: self.flag()?,
            stc: false,
            reporting_date: None,
            in_hundredths: false,
        };
        if count > FEWEST_FACTS {
            facts.stc = self.flag()?;
        }
        if facts.stc && facts.resecuritisation {
            return self.refuse(refusal::STC_RESECURITISATION);
        }
        if count >= DATED_FACTS {
            facts.reporting_date = self.reporting_date()?;
        }
        if count == MOST_FACTS {
            facts.in_hundredths = self.flag()?;
        }
        Ok(facts)
    }

    /// The reporting date; 0 is none.
    fn reporting_date(&mut self) -> Result<Option<Date>, Refusal> {
        match self.next()? {
            0 => Ok(None),
            word => self.date(word).map(Some),
        }
    }

    /// The date of the word that was read last.
    fn date(&self, word: u64) -> Result<Date, Refusal> {
        let date = Date::from(word);
        if date.exists() {
            Ok(date)
        } else {
            self.refuse(refusal::DATE)
        }
    }

    /// The section of the pool, added up block by block, and then brought to hundredths of a percent at once. The loop over
    /// the rows is kept out of `read`, with `block` inlined here; with `block` apart it is slower.
    #[inline(never)]
    fn pool(&mut self, facts: &Facts) -> Result<Pool, Refusal> {
        let limits = facts.row_limits();
        let mut left = self.within(1..=MOST_ROWS, refusal::COUNT)?;
        let mut pool = Pool::default();
        while left > 0 {
            let rows = left.min(BLOCK_ROWS);
            pool.add_block(&self.block(rows, &limits)?);
            left -= rows;
        }
        pool.scale_weighted(facts.unit());
        Ok(pool)
    }

    /// A block of so many rows, added up row by row.
    #[inline(always)]
    fn block(&mut self, rows: u64, limits: &RowLimits) -> Result<Pool, Refusal> {
        let mut block = Pool::default();
        for _ in 0..rows {
            block.add(&self.row(limits)?);
        }
        Ok(block)
    }

    /// A row of the pool.
    #[inline(always)]
    fn row(&mut self, limits: &RowLimits) -> Result<Row, Refusal> {
        Ok(Row {
            exposure: self.within(1..=MOST_POOL_AMOUNT, refusal::POOL_AMOUNT)?,
            nominal: self.within(1..=MOST_POOL_AMOUNT, refusal::POOL_AMOUNT)?,
            risk_weight: self.within(0..=limits.most_weight, refusal::RISK_WEIGHT)?,
            status: self.within(limits.statuses.clone(), refusal::STATUS)?,
        })
    }

    /// The rows of the tranches. Each class is the one before it or one more; the first is 1.
    fn check_tranches(&mut self, count: u64, reporting_date: Option<Date>) -> Result<(), Refusal> {
        let mut classes = 1..=1;
        for _ in 0..count {
            let amount = self.within(1..=MOST_TRANCHE_AMOUNT, refusal::TRANCHE_AMOUNT)?;
            let class = self.within(classes, refusal::CLASS)?;
            self.check_maturity(reporting_date)?;
            self.within(0..=amount, refusal::TRANCHE_AMOUNT)?;
            for _ in 0..RATINGS {
                if !matches!(self.next()?, 0..=18 | 21..=24) {
                    return self.refuse(refusal::RATING);
                }
            }
            classes = class..=class + 1;
        }
        Ok(())
    }

    /// The words of the IRB section. All loans of an IRB pool have an IRB charge. Not inlined: sheets without the section
    /// need none of it.
    #[inline(never)]
    fn irb(&mut self, kind: u64) -> Result<&'a [u64; IRB_WORDS], Refusal> {
        self.within(IRB_SECTIONS..=IRB_SECTIONS, refusal::COUNT)?;
        let least_share = if kind == pool_kind::IRB { MOST_SHARE } else { 0 };
        let first = self.place;
        for limits in [
            0..=MOST_SHARE,
            0..=MOST_SHARE,
            1..=MOST_LOANS,
            0..=1,
            least_share..=MOST_SHARE,
            0..=MOST_WEIGHT,
        ] {
            self.within(limits, refusal::IRB_FIGURE)?;
        }
        let (words, _) = self.sheet[first..self.place].as_chunks();
        Ok(&words[0])
    }

    /// A maturity: months, or a date after the reporting date.
    fn check_maturity(&mut self, reporting_date: Option<Date>) -> Result<(), Refusal> {
        let word = self.next()?;
        let mut months = word;
        if let Some(reporting_date) = reporting_date {
            let maturity = self.date(word)?;
            if maturity <= reporting_date {
                return self.refuse(refusal::DATE);
            }
            months = reporting_date.months_to(maturity);
        }
        if (1..=MOST_MONTHS).contains(&months) {
            Ok(())
        } else {
            self.refuse(refusal::MATURITY)
        }
    }
}
