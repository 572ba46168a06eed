//! "The deal sheet" and "Refusals, by who can cause them" of document 01, with the fifth fact and refusal 16 of S-1,
//! the sixth fact and refusal 17 of S-3, the IRB section and refusal 18 of S-5, the seventh fact of S-9 and the words of
//! S-10's amendment.
//!
//! The words are read from place 0 upward, each judged as it is read, so the first bad word decides at its own place.
//! A missing word comes after all words that are there, so it is found only when none of those is bad.

use crate::answer::Refusal;
use crate::date::{self, Date};

/// A needed word is missing.
const MISSING: u64 = 1;
/// A count is outside its limits.
const COUNT: u64 = 2;
/// Words follow the last section.
const TOO_LONG: u64 = 3;
/// A fact outside its codes.
const FACT: u64 = 4;
/// A pool amount outside its limits.
const POOL_AMOUNT: u64 = 5;
/// A risk weight above the limit of its unit.
const RISK_WEIGHT: u64 = 6;
/// A status above 3; a 3 in an ordinary deal; any other in a re-securitisation.
const STATUS: u64 = 7;
/// A tranche amount outside its limits, or held above the amount.
const TRANCHE_AMOUNT: u64 = 8;
/// A class out of order.
const CLASS: u64 = 9;
/// A maturity outside its limits.
const MATURITY: u64 = 10;
/// A rating code not listed.
const RATING: u64 = 11;
/// Results shorter than the lines, or an output shorter than the rewritten sheet.
const SHORT_ROOM: u64 = 14;
/// The file's length is not a multiple of a word's bytes or over the most.
const FILE_LENGTH: u64 = 15;
/// An STC mark on a re-securitisation.
const STC_RESECURITISATION: u64 = 16;
/// A date that does not exist or is outside its years, or a maturity not after the reporting date.
const DATE: u64 = 17;
/// A figure of the IRB section outside its limits.
const IRB_FIGURE: u64 = 18;

/// The fewest facts: all but the STC mark, the reporting date and the unit of the risk weight word.
pub const FACTS_FEWEST: usize = 4;
/// The facts of a sheet that states all up to the STC mark.
const FACTS_TO_STC: usize = 5;
/// The facts of a sheet that states all up to the reporting date.
const FACTS_TO_DATE: usize = 6;
/// The most facts: all up to the unit of the risk weight word.
pub const FACTS_MOST: usize = 7;
/// The most pool rows.
pub const ROWS_MOST: usize = 1_000;
/// The words of a pool row.
pub const ROW_WORDS: usize = 4;
/// The most tranches.
pub const TRANCHES_MOST: usize = 32;
/// The rating words of a tranche.
pub const RATINGS: usize = 3;
/// The words of a tranche row: amount, class, maturity, amount held, ratings.
pub const TRANCHE_WORDS: usize = 4 + RATINGS;
/// The count of the IRB section.
pub const IRB_COUNT: u64 = 1;
/// The words of the IRB section, after its count.
pub const IRB_WORDS: usize = 6;
/// The bytes of a word in a file.
const WORD_BYTES: usize = 8;
/// The most bytes a file may have: the most facts, rows and tranches, the IRB section, and the four counts.
pub const FILE_BYTES: usize =
    WORD_BYTES * (1 + FACTS_MOST + 1 + ROWS_MOST * ROW_WORDS + 1 + TRANCHES_MOST * TRANCHE_WORDS + 1 + IRB_WORDS);
/// How many result words a tranche takes: approach, A, D, weight, risk-weighted amount, capital, least weight.
pub const LINE_WORDS: usize = 7;
/// The largest amount of a pool row.
const POOL_AMOUNT_MOST: u64 = 10_000_000_000;
/// The highest risk weight, in hundredths of a percent: 1250%.
const RISK_WEIGHT_MOST: u64 = 125_000;
/// The largest tranche amount.
const TRANCHE_AMOUNT_MOST: u64 = 10_000_000_000_000;
/// The longest maturity, in months.
const MONTHS_MOST: u64 = 1200;
/// One whole, in millionths, as shares and charges are counted.
pub const WHOLE: u64 = 1_000_000;
/// The highest effective number of loans.
const LOANS_MOST: u64 = 1_000_000;
/// The highest IRB average weight, in hundredths of a percent.
const AVERAGE_MOST: u64 = 125_000;

/// The kind of a pool.
#[derive(Debug, Clone, Copy, PartialEq, Eq)]
pub enum PoolKind {
    Sa,
    Irb,
    Mixed,
}

/// The answers by their codes, from 0.
const ANSWERS: [bool; 2] = [false, true];
/// The pool kinds by their codes, from 0.
const POOL_KINDS: [PoolKind; 3] = [PoolKind::Sa, PoolKind::Irb, PoolKind::Mixed];

/// The unit of the risk weight word, whole percent or hundredths of a percent, with its code.
#[derive(Debug, Clone, Copy, PartialEq, Eq)]
pub enum WeightUnit {
    Percent = 0,
    Hundredths = 1,
}

/// The units of the risk weight word by their codes, from 0.
const WEIGHT_UNITS: [WeightUnit; 2] = [WeightUnit::Percent, WeightUnit::Hundredths];

impl WeightUnit {
    /// The hundredths of a percent in one of this unit.
    pub fn hundredths(self) -> u64 {
        match self {
            WeightUnit::Percent => 100,
            WeightUnit::Hundredths => 1,
        }
    }
}

/// The facts section. No re-securitisation is an STC deal.
#[derive(Debug, Clone, Copy)]
pub struct Facts {
    pub pool_kind: PoolKind,
    pub resecuritisation: bool,
    pub due_diligence_held: bool,
    pub composition_known: bool,
    pub stc: bool,
    pub reporting_date: Option<Date>,
    pub weight_unit: WeightUnit,
}

/// The status of a pool row.
#[derive(Debug, Clone, Copy, PartialEq, Eq)]
pub enum Status {
    Paying,
    Delinquent,
    Unknown,
    SecuritisationTranche,
}

/// The statuses by their codes, from 0.
const STATUSES: [Status; 4] = [
    Status::Paying,
    Status::Delinquent,
    Status::Unknown,
    Status::SecuritisationTranche,
];

/// A pool row. The risk weight is in hundredths of a percent, whatever the unit of its word.
#[derive(Debug, Clone, Copy)]
pub struct Row {
    pub exposure: u64,
    pub nominal: u64,
    pub risk_weight: u64,
    pub status: Status,
}

/// A tranche row, with its maturity in months in either form of sheet, and with the place of its amount.
#[derive(Debug, Clone, Copy)]
pub struct Tranche {
    pub amount: u64,
    pub class: u64,
    pub months: u64,
    pub held: u64,
    pub ratings: [u64; RATINGS],
    pub place: u64,
}

/// The IRB section: IRB charge, average loss given default and share of exposure with an IRB charge in millionths,
/// effective number of loans, whether the pool is retail, and the IRB average weight in hundredths of a percent.
#[derive(Debug, Clone, Copy)]
pub struct Irb {
    pub charge: u64,
    pub loss: u64,
    pub loans: u64,
    pub retail: bool,
    pub share: u64,
    pub average: u64,
}

/// A sheet in which no word is bad, none is missing and none follows. The IRB section is there just where the pool is
/// no SA pool.
#[derive(Debug, Clone)]
pub struct Sheet {
    pub facts: Facts,
    pub pool: Vec<Row>,
    pub tranches: Vec<Tranche>,
    pub irb: Option<Irb>,
}

/// The words and the place of the next one to be read.
struct Reader<'a> {
    words: &'a [u64],
    next: usize,
}

impl Reader<'_> {
    /// The place of the next word.
    fn place(&self) -> u64 {
        self.next as u64
    }

    /// Reads the next word. A missing word is refusal 1 at the sheet's length; a word that is not good is refused under
    /// `number` at its own place.
    fn word(&mut self, number: u64, good: impl Fn(u64) -> bool) -> Result<u64, Refusal> {
        let place = self.place();
        let word = *self.words.get(self.next).ok_or(Refusal { number: MISSING, place })?;
        self.next += 1;
        if good(word) {
            Ok(word)
        } else {
            Err(Refusal { number, place })
        }
    }

    /// Reads the next word as a code: the entry of `list` at that place, from 0. A word beyond the list is refused,
    /// and so is one whose entry is not good.
    fn code<T: Copy>(&mut self, number: u64, list: &[T], good: impl Fn(T) -> bool) -> Result<T, Refusal> {
        let entry = |word: u64| list.get(usize::try_from(word).ok()?).copied();
        let word = self.word(number, |word| entry(word).is_some_and(&good))?;
        Ok(entry(word).expect("a good code"))
    }

    /// Refuses words that follow the last one read (3), at the first of them.
    fn end(&self) -> Result<(), Refusal> {
        if self.next < self.words.len() {
            return Err(Refusal {
                number: TOO_LONG,
                place: self.place(),
            });
        }
        Ok(())
    }
}

/// Reads the sections in their order, then refuses words that follow the last (refusal 3, at the first of them).
pub fn read(words: &[u64]) -> Result<Sheet, Refusal> {
    let mut reader = Reader { words, next: 0 };
    let facts = read_facts(&mut reader)?;
    let rows = reader.word(COUNT, |count| (1..=ROWS_MOST as u64).contains(&count))?;
    let pool = (0..rows)
        .map(|_| read_row(&mut reader, &facts))
        .collect::<Result<Vec<_>, _>>()?;
    let tranches = read_tranches(&mut reader, facts.reporting_date)?;
    let irb = read_irb(&mut reader, facts.pool_kind)?;
    reader.end()?;
    Ok(Sheet {
        facts,
        pool,
        tranches,
        irb,
    })
}

/// Reads an amendment of a sheet's pool (S-10): the number of a row that is there, counted from 1 (else 2), then that row
/// in its new form, "as on loading". Its words are judged as a sheet's are, at their places in the amendment: the first
/// bad one decides, then one that is missing (1), then one that follows the five (3). Gives the row's number from 0.
pub fn read_amendment(words: &[u64], sheet: &Sheet) -> Result<usize, Refusal> {
    let mut reader = Reader { words, next: 0 };
    let number = reader.word(COUNT, |number| (1..=sheet.pool.len() as u64).contains(&number))?;
    read_row(&mut reader, &sheet.facts)?;
    reader.end()?;
    Ok(number as usize - 1)
}

/// How many facts a sheet states. Each stands at the place of its number, from 1, after their count.
pub fn facts_stated(words: &[u64]) -> usize {
    words[0] as usize
}

/// The place of a row's first word, rows counted from 0: they follow the facts and their own count.
pub fn row_place(words: &[u64], row: usize) -> usize {
    1 + facts_stated(words) + 1 + ROW_WORDS * row
}

/// The facts: their count, pool kind, then answers of 0 or 1, then the reporting date, then the unit of the risk weight
/// word. One that is not stated counts as 0.
fn read_facts(reader: &mut Reader) -> Result<Facts, Refusal> {
    let count = reader.word(COUNT, |count| {
        (FACTS_FEWEST as u64..=FACTS_MOST as u64).contains(&count)
    })?;
    let pool_kind = reader.code(FACT, &POOL_KINDS, |_| true)?;
    let resecuritisation = read_answer(reader)?;
    Ok(Facts {
        pool_kind,
        resecuritisation,
        due_diligence_held: read_answer(reader)?,
        composition_known: read_answer(reader)?,
        stc: count >= FACTS_TO_STC as u64 && read_stc(reader, resecuritisation)?,
        reporting_date: match count >= FACTS_TO_DATE as u64 {
            true => read_reporting_date(reader)?,
            false => None,
        },
        weight_unit: match count == FACTS_MOST as u64 {
            true => reader.code(FACT, &WEIGHT_UNITS, |_| true)?,
            false => WeightUnit::Percent,
        },
    })
}

/// A fact that is an answer: 0 no, 1 yes.
fn read_answer(reader: &mut Reader) -> Result<bool, Refusal> {
    reader.code(FACT, &ANSWERS, |_| true)
}

/// The STC mark, an answer like the others (4). A re-securitisation is refused for the answer yes (16), at the same
/// place.
fn read_stc(reader: &mut Reader, resecuritisation: bool) -> Result<bool, Refusal> {
    let place = reader.place();
    let stc = read_answer(reader)?;
    if stc && resecuritisation {
        return Err(Refusal {
            number: STC_RESECURITISATION,
            place,
        });
    }
    Ok(stc)
}

/// The reporting date; a word of 0 states none.
fn read_reporting_date(reader: &mut Reader) -> Result<Option<Date>, Refusal> {
    let word = reader.word(DATE, |word| word == 0 || Date::of_word(word).is_some())?;
    Ok(Date::of_word(word))
}

/// A pool row: exposure amount, nominal amount, risk weight, status.
fn read_row(reader: &mut Reader, facts: &Facts) -> Result<Row, Refusal> {
    let amount_good = |amount| (1..=POOL_AMOUNT_MOST).contains(&amount);
    Ok(Row {
        exposure: reader.word(POOL_AMOUNT, amount_good)?,
        nominal: reader.word(POOL_AMOUNT, amount_good)?,
        risk_weight: read_risk_weight(reader, facts.weight_unit)?,
        status: read_status(reader, facts.resecuritisation)?,
    })
}

/// A risk weight: at most 1250 in whole percent, at most 125,000 in hundredths, which are what is kept.
fn read_risk_weight(reader: &mut Reader, unit: WeightUnit) -> Result<u64, Refusal> {
    let most = RISK_WEIGHT_MOST / unit.hundredths();
    let word = reader.word(RISK_WEIGHT, |weight| weight <= most)?;
    Ok(word * unit.hundredths())
}

/// A row's status. That of a securitisation tranche stands in every row of a re-securitisation, and in no other.
fn read_status(reader: &mut Reader, resecuritisation: bool) -> Result<Status, Refusal> {
    reader.code(STATUS, &STATUSES, |status| {
        (status == Status::SecuritisationTranche) == resecuritisation
    })
}

/// The tranches, after their count. The first row has class 1; each next row has the class before it or one more.
fn read_tranches(reader: &mut Reader, reporting_date: Option<Date>) -> Result<Vec<Tranche>, Refusal> {
    let count = reader.word(COUNT, |count| (1..=TRANCHES_MOST as u64).contains(&count))?;
    let mut tranches: Vec<Tranche> = Vec::new();
    for _ in 0..count {
        let classes = tranches.last().map_or(1..=1, |before| before.class..=before.class + 1);
        tranches.push(read_tranche(reader, reporting_date, |class| classes.contains(&class))?);
    }
    Ok(tranches)
}

/// A tranche row: amount, class, maturity, amount held, rating words.
fn read_tranche(
    reader: &mut Reader,
    reporting_date: Option<Date>,
    class_good: impl Fn(u64) -> bool,
) -> Result<Tranche, Refusal> {
    let place = reader.place();
    let amount = reader.word(TRANCHE_AMOUNT, |amount| (1..=TRANCHE_AMOUNT_MOST).contains(&amount))?;
    let class = reader.word(CLASS, class_good)?;
    let months = read_maturity(reader, reporting_date)?;
    let held = reader.word(TRANCHE_AMOUNT, |held| held <= amount)?;
    let mut rating = || reader.word(RATING, |code| matches!(code, 0..=18 | 21..=24));
    let ratings = [rating()?, rating()?, rating()?];
    Ok(Tranche {
        amount,
        class,
        months,
        held,
        ratings,
        place,
    })
}

/// A maturity in months. With a reporting date the word is a date and must name a day after that one (17); then the
/// months are held to their limits (10). Both stand at the maturity's place.
fn read_maturity(reader: &mut Reader, reporting_date: Option<Date>) -> Result<u64, Refusal> {
    let place = reader.place();
    let word = reader.word(DATE, |word| date::months(reporting_date, word).is_some())?;
    let months = date::months(reporting_date, word).expect("a good date");
    if !(1..=MONTHS_MOST).contains(&months) {
        return Err(Refusal {
            number: MATURITY,
            place,
        });
    }
    Ok(months)
}

/// The IRB section, which every pool but an SA pool has: its count, then IRB charge, average loss given default,
/// effective number of loans, retail, share of exposure with an IRB charge, IRB average weight. The share of an IRB
/// pool is the whole.
fn read_irb(reader: &mut Reader, kind: PoolKind) -> Result<Option<Irb>, Refusal> {
    if kind == PoolKind::Sa {
        return Ok(None);
    }
    let least_share = if kind == PoolKind::Irb { WHOLE } else { 0 };
    reader.word(COUNT, |count| count == IRB_COUNT)?;
    Ok(Some(Irb {
        charge: reader.word(IRB_FIGURE, |charge| charge <= WHOLE)?,
        loss: reader.word(IRB_FIGURE, |loss| loss <= WHOLE)?,
        loans: reader.word(IRB_FIGURE, |loans| (1..=LOANS_MOST).contains(&loans))?,
        retail: reader.code(IRB_FIGURE, &ANSWERS, |_| true)?,
        share: reader.word(IRB_FIGURE, |share| (least_share..=WHOLE).contains(&share))?,
        average: reader.word(IRB_FIGURE, |average| average <= AVERAGE_MOST)?,
    }))
}

/// Refusal 14: room for fewer words than are to be written; place 0.
pub fn refuse_short_room(words: usize, room: u64) -> Result<(), Refusal> {
    if room < words as u64 {
        return Err(Refusal {
            number: SHORT_ROOM,
            place: 0,
        });
    }
    Ok(())
}

/// The words of a file, eight bytes each, lowest byte first; refusal 15 at place 0 for a length that is not a multiple
/// of that or over the most.
pub fn words_of_file(file: &[u8]) -> Result<Vec<u64>, Refusal> {
    let (words, rest) = file.as_chunks::<WORD_BYTES>();
    if !rest.is_empty() || file.len() > FILE_BYTES {
        return Err(Refusal {
            number: FILE_LENGTH,
            place: 0,
        });
    }
    Ok(words.iter().map(|bytes| u64::from_le_bytes(*bytes)).collect())
}
