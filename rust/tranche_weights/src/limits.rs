//! The parts of a sheet, of a line and of a report, with the sizes that follow from them, and the limits of a sheet's
//! numbers (document 01, "The deal sheet" and "Checked deals"; document 02, S-1, S-3, S-5 to S-7, S-9 and S-10).
//!
//! A size that has parts is worked out from them, so that each number stands here once.

/// The fewest facts that a sheet states, one word each.
pub const FEWEST_FACTS: usize = 4;

/// The most facts that a sheet states. A fact that it leaves out at the end of its list counts as 0.
pub const MOST_FACTS: usize = 7;

/// The most rows that a pool has; the fewest is 1.
pub const MOST_ROWS: usize = 1000;

/// The words of a pool row: exposure amount, nominal amount, risk weight, status.
pub const ROW_WORDS: usize = 4;

/// The rows of a block, in the order of the sheet; only the last block of a pool can have fewer.
pub const BLOCK_ROWS: usize = 50;

/// The most blocks that a pool has.
pub const MOST_BLOCKS: usize = MOST_ROWS.div_ceil(BLOCK_ROWS);

/// The most tranches that a deal has; the fewest is 1.
pub const MOST_TRANCHES: usize = 32;

/// The ratings that a tranche can have, one word each.
pub const MOST_RATINGS: usize = 3;

/// The words of a tranche: amount, class, maturity, amount held, then its ratings.
pub const TRANCHE_WORDS: usize = 4 + MOST_RATINGS;

/// The words of the IRB section: IRB charge, average loss given default, effective number of loans, retail, share of
/// exposure with an IRB charge, IRB average weight.
pub const IRB_WORDS: usize = 6;

/// The most words of a sheet: four sections, each after the word that counts its rows. The IRB section has one row.
pub const SHEET_WORDS: usize = section_words(MOST_FACTS, 1)
    + section_words(MOST_ROWS, ROW_WORDS)
    + section_words(MOST_TRANCHES, TRANCHE_WORDS)
    + section_words(1, IRB_WORDS);

/// The words of a section with so many rows of so many words each.
const fn section_words(rows: usize, row_words: usize) -> usize {
    1 + rows * row_words
}

/// The bytes of a word in a sheet's file.
pub const BYTES_PER_WORD: usize = 8;

/// The most bytes of a sheet's file.
pub const FILE_BYTES: usize = BYTES_PER_WORD * SHEET_WORDS;

/// The result words of one tranche, in the order of the fields of [`Line`](crate::Line).
pub const LINE_WORDS: usize = 7;

/// Result words that are enough for every sheet: the lines of the most tranches.
pub const RESULT_WORDS: usize = MOST_TRANCHES * LINE_WORDS;

/// The words of the sums of a block or of a pool, in the order of the fields of [`BlockSums`](crate::BlockSums).
pub const SUM_WORDS: usize = 7;

/// The words of an amendment: the number of a pool row, then the words of the row.
pub const AMENDMENT_WORDS: usize = 1 + ROW_WORDS;

/// The most digits of a number of 64 bits.
pub const NUMBER_DIGITS: usize = u64::MAX.ilog10() as usize + 1;

/// The most bytes of a number in a report's text, with the space or the line's end after it.
const NUMBER_BYTES: usize = NUMBER_DIGITS + 1;

/// Bytes of a report's text that are always enough: the first line, with charge and count, a line for each of the most
/// tranches, with its number before its words, and the last line, with two sums; every number of the most digits.
pub const TEXT_ROOM: usize = "charge ".len()
    + NUMBER_BYTES
    + "tranches ".len()
    + NUMBER_BYTES
    + MOST_TRANCHES * (1 + LINE_WORDS) * NUMBER_BYTES
    + "total ".len()
    + 2 * NUMBER_BYTES;

/// The lowest and the highest exposure amount or nominal amount of a pool row.
pub(crate) const POOL_AMOUNT: (u64, u64) = (1, 10_000_000_000);

/// The lowest and the highest risk weight of a pool row, in whole percent.
pub(crate) const RISK_WEIGHT_PERCENT: (u64, u64) = (0, 1250);

/// How many hundredths of a percent make a percent.
pub(crate) const HUNDREDTHS_PER_PERCENT: u64 = 100;

/// The lowest and the highest risk weight of a pool row, in hundredths of a percent.
pub(crate) const RISK_WEIGHT_HUNDREDTHS: (u64, u64) = (
    HUNDREDTHS_PER_PERCENT * RISK_WEIGHT_PERCENT.0,
    HUNDREDTHS_PER_PERCENT * RISK_WEIGHT_PERCENT.1,
);

/// The lowest and the highest amount of a tranche.
pub(crate) const TRANCHE_AMOUNT: (u64, u64) = (1, 10_000_000_000_000);

/// The lowest and the highest maturity of a tranche, in months.
pub(crate) const MONTHS: (u64, u64) = (1, 1200);

/// The lowest and the highest figure in millionths.
pub(crate) const MILLIONTHS: (u64, u64) = (0, 1_000_000);

/// The lowest and the highest effective number of loans.
pub(crate) const LOANS: (u64, u64) = (1, 1_000_000);

/// The lowest and the highest average weight, in hundredths of a percent.
pub(crate) const AVERAGE_WEIGHT: (u64, u64) = (0, 125_000);

/// The first and the last year of a date.
pub(crate) const YEARS: (u64, u64) = (2000, 2199);
