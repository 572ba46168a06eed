//! Random amendments of a pool (S-10), sound and damaged.

use crate::kind::Amendment;
use crate::random::Random;
use crate::sheet::{status, unit, Deal, Layout, RowWord, BLOCK_ROWS, ONE_PERCENT, POOL_AMOUNT, RISK_WEIGHT};

/// The words of an amendment: the row's number, counted from 1, then the row.
pub const AMENDMENT_WORDS: usize = 1 + RowWord::COUNT;

/// A number above 32 bits that is 0 where it is cut to them.
const ABOVE_32_BITS: u64 = 1 << 32;

/// What of a deal bears on the amendments of its pool.
#[derive(Debug, Clone, Copy)]
pub struct Terms {
    /// The places of its sheet.
    pub layout: Layout,
    unit: u64,
    resecuritisation: bool,
}

impl Terms {
    /// The terms of a deal.
    pub fn of(deal: &Deal) -> Terms {
        Terms {
            layout: deal.layout(),
            unit: deal.unit(),
            resecuritisation: deal.is_resecuritisation(),
        }
    }

    /// How many rows there are.
    fn rows(&self) -> u64 {
        self.layout.rows as u64
    }

    /// The words of a row, counted from 1, as the sheet has them; the least row where the sheet is cut before its end.
    fn row(&self, sheet: &[u64], number: u64) -> [u64; RowWord::COUNT] {
        let words = sheet.get(self.layout.row(number as usize - 1)..).unwrap_or_default();
        let least = [1, 1, 0, self.statuses()[0]];
        words.first_chunk().copied().unwrap_or(least)
    }

    /// The statuses that a row can have.
    fn statuses(&self) -> &'static [u64] {
        match self.resecuritisation {
            true => &[status::TRANCHE],
            false => &[status::PAYING, status::DELINQUENT, status::NOT_KNOWN],
        }
    }

    /// The number of a row that is there: often the first, the last, or one about the end of the first block.
    fn number(&self, random: &mut Random) -> u64 {
        let rows = self.rows();
        let any = random.between(1, rows);
        let edge = random.between(BLOCK_ROWS, BLOCK_ROWS + 1);
        random.pick(&[1, rows, rows, any, any, edge.min(rows)])
    }

    /// A good row.
    fn good_row(&self, random: &mut Random) -> [u64; RowWord::COUNT] {
        let mut amount = || {
            let tiny = random.between(1, 20);
            let any = random.spread(POOL_AMOUNT);
            random.pick(&[tiny, any, any, POOL_AMOUNT - tiny])
        };
        let [exposure, nominal] = [amount(), amount()];
        [exposure, nominal, self.weight(random), random.pick(self.statuses())]
    }

    /// A good risk weight, in half of the draws a usual one.
    fn weight(&self, random: &mut Random) -> u64 {
        let one = unit::hundredths(self.unit);
        let usual = random.pick(&[0, 20, 50, 75, 100, 150, 1_250]) * ONE_PERCENT / one;
        let any = random.below(RISK_WEIGHT / one + 1);
        random.pick(&[usual, any])
    }

    /// A row with each word at its lowest or highest.
    fn row_at_limits(&self, random: &mut Random) -> [u64; RowWord::COUNT] {
        let [exposure, nominal] = [0; 2].map(|_| random.pick(&[1, POOL_AMOUNT]));
        let weight = random.pick(&[0, unit::risk_weight(self.unit)]);
        [exposure, nominal, weight, random.pick(self.statuses())]
    }

    /// The row as the sheet has it with one amount of one more or one less, or with another status.
    fn near_row(&self, random: &mut Random, sheet: &[u64], number: u64) -> [u64; RowWord::COUNT] {
        let mut row = self.row(sheet, number);
        match random.below(4) {
            word @ (0 | 1) => {
                let amount = &mut row[word as usize];
                let step = random.pick(&[1, u64::MAX]);
                *amount = amount.wrapping_add(step).clamp(1, POOL_AMOUNT);
            }
            _ => row[RowWord::Status as usize] = random.pick(self.statuses()),
        }
        row
    }

    /// A word that is bad at this place of an amendment.
    fn bad_word(&self, random: &mut Random, place: usize) -> u64 {
        let above = |random: &mut Random, most: u64| {
            let any = random.between(most + 1, u64::MAX);
            random.pick(&[most + 1, most + 1, any, u64::MAX])
        };
        match place {
            0 => {
                let cut = ABOVE_32_BITS + self.number(random);
                let past = above(random, self.rows());
                random.pick(&[0, self.rows() + 1, self.rows() + 1, past, cut])
            }
            1 | 2 => {
                let past = above(random, POOL_AMOUNT);
                random.pick(&[0, past])
            }
            3 => {
                let most = unit::risk_weight(self.unit);
                let past = above(random, most);
                random.pick(&[past, past, RISK_WEIGHT.max(most + 1)])
            }
            _ => {
                let codes = (0..=status::TRANCHE + 2).chain([ABOVE_32_BITS + self.statuses()[0], u64::MAX]);
                let bad: Vec<u64> = codes.filter(|code| !self.statuses().contains(code)).collect();
                random.pick(&bad)
            }
        }
    }
}

/// The words of an amendment of a row.
fn words_of(number: u64, row: [u64; RowWord::COUNT]) -> Vec<u64> {
    [&[number][..], &row].concat()
}

/// Draws the words of an amendment of this kind for a sheet; `before` holds those of the amendment before it, if there is
/// one.
pub fn draw(kind: Amendment, random: &mut Random, terms: &Terms, sheet: &[u64], before: Option<&Vec<u64>>) -> Vec<u64> {
    let number = terms.number(random);
    let earlier = before.and_then(|words| words.first().copied());
    let earlier = earlier.filter(|number| (1..=terms.rows()).contains(number));
    let mut words = words_of(number, terms.good_row(random));
    match kind {
        Amendment::Any => {}
        Amendment::AtLimits => words = words_of(number, terms.row_at_limits(random)),
        Amendment::Near => words = words_of(number, terms.near_row(random, sheet, number)),
        Amendment::SameRow => words[0] = earlier.unwrap_or(number),
        Amendment::AsGiven => {
            let number = earlier.unwrap_or(number);
            words = words_of(number, terms.row(sheet, number));
        }
        Amendment::BadWord => {
            spoil(random, terms, &mut words, 0);
        }
        Amendment::SeveralBadWords => {
            let first = spoil(random, terms, &mut words[..AMENDMENT_WORDS - 1], 0);
            spoil(random, terms, &mut words, first + 1);
        }
        Amendment::Short => words.truncate(random.below(AMENDMENT_WORDS as u64) as usize),
        Amendment::Long => lengthen(random, &mut words),
        Amendment::BadAndShort => {
            let bad = spoil(random, terms, &mut words[..AMENDMENT_WORDS - 1], 0);
            words.truncate(random.between(bad as u64 + 1, AMENDMENT_WORDS as u64 - 1) as usize);
        }
        Amendment::BadAndLong => {
            spoil(random, terms, &mut words, 0);
            lengthen(random, &mut words);
        }
        Amendment::RandomWords => {
            words = (0..random.below(8)).map(|_| random.word()).collect();
        }
    }
    words
}

/// Sets a word at this place or after it to a bad one. Gives its place.
fn spoil(random: &mut Random, terms: &Terms, words: &mut [u64], from: usize) -> usize {
    let place = random.between(from as u64, words.len() as u64 - 1) as usize;
    words[place] = terms.bad_word(random, place);
    place
}

/// Adds one word, or a few.
fn lengthen(random: &mut Random, words: &mut Vec<u64>) {
    let several = random.between(2, 6);
    let more = random.pick(&[1, 1, several]);
    words.extend((0..more).map(|_| random.pick(&[0, 1, u64::MAX])));
}
