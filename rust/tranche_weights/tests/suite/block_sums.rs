//! The sums of the blocks of a pool's rows (document 02, S-7 and S-9).

use crate::checked_deal::{ordinary, resecuritised, tranche, with_rows_and_tranches, WORDS};
use crate::places::{affirms, first_row, row_count, rows, tranche_count, with_facts, UNIT};
use crate::refusals::{hold, refused};
use std::error::Error;
use tranche_weights::{block_sums, reply_to_block, BlockReply, BlockSums, Refusal, BLOCK_ROWS, MOST_BLOCKS, SUM_WORDS};

/// Numbers of blocks past the last of every pool. Cut to 32 bits, or times the rows of a block and cut to 64, some of
/// them are those of a block or a row that a pool has: 368934881474191033 times 50 is 34 more than 2^64.
const PAST_ALL: [u64; 6] = [
    MOST_BLOCKS as u64,
    1 << 32,
    368_934_881_474_191_033,
    1 << 63,
    u64::MAX - 1,
    u64::MAX,
];

/// The words of the sums over some rows, whose risk weights are in a unit of so many hundredths of a percent.
fn sums_of<'a>(rows: impl IntoIterator<Item = &'a [u64]>, hundredths: u64) -> [u64; SUM_WORDS] {
    let mut sums = [0; SUM_WORDS];
    for row in rows {
        let &[exposure, nominal, risk_weight, status] = row else {
            panic!("a row has four words")
        };
        let all = [exposure, nominal, exposure * (risk_weight * hundredths)];
        let known = if status == 2 { [0; 3] } else { all };
        let late = if status == 1 { nominal } else { 0 };
        let words = [&all[..], &known, &[late]].concat();
        sums.iter_mut().zip(words).for_each(|(sum, word)| *sum += word);
    }
    sums
}

/// The words of the sums of a sheet's pool, from its rows.
pub fn pool_sums(words: &[u64]) -> [u64; SUM_WORDS] {
    sums_of(rows(words), hundredths(words))
}

/// How many hundredths of a percent the sheet's unit of risk weights is.
fn hundredths(words: &[u64]) -> u64 {
    if affirms(words, UNIT) {
        1
    } else {
        100
    }
}

/// The words of a block's or a pool's sums, from their fields.
pub fn words_of(sums: BlockSums) -> [u64; SUM_WORDS] {
    let BlockSums {
        all,
        known,
        late_nominal,
        ..
    } = sums;
    let [all, known] = [all, known].map(|over| [over.exposure, over.nominal, over.weighted_exposure]);
    let words = [&all[..], &known, &[late_nominal]].concat();
    words.try_into().expect("three words twice and one")
}

/// Holds a call that reads the sums of a sheet's blocks: each block's are those of its rows, and past the last block they
/// are 0.
pub fn hold_blocks(words: &[u64], sums: impl Fn(u64) -> Result<BlockSums, Refusal>) {
    let read = |block: u64| words_of(sums(block).unwrap_or_else(|refusal| panic!("{refusal}: {words:?}")));
    let rows: Vec<&[u64]> = rows(words).collect();
    for (block, rows) in (0..).zip(rows.chunks(BLOCK_ROWS)) {
        let sums = sums_of(rows.iter().copied(), hundredths(words));
        assert_eq!(read(block), sums, "block {block}: {words:?}");
    }
    let past = rows.len().div_ceil(BLOCK_ROWS) as u64;
    for block in (past..MOST_BLOCKS as u64).chain(PAST_ALL) {
        assert_eq!(read(block), [0; SUM_WORDS], "block {block}: {words:?}");
    }
}

/// The checked deal with this unit and with so many rows in place of its own, no two alike. The statuses take turns from
/// this one on; with 3 it is a re-securitisation, and they are all 3.
fn with_rows(unit: u64, count: u64, first_status: u64) -> Vec<u64> {
    let deal = if first_status == 3 { resecuritised() } else { WORDS };
    let deal = with_facts(&deal, &[0, 0, unit]);
    let past_highest = [1_251, 125_001][unit as usize];
    let status = |row| if first_status == 3 { 3 } else { (first_status + row) % 3 };
    let row = |row| [1_000 + row, 2_000_000 + 3 * row, row * row % past_highest, status(row)];
    let rows: Vec<u64> = (0..count).flat_map(row).collect();
    let (facts, tranches) = (&deal[..row_count(&deal)], &deal[tranche_count(&deal)..]);
    [facts, &[count], &rows, tranches].concat()
}

/// Each block of a pool has its sums, full or not, whatever status its first and its last row have, in either unit.
#[test]
fn each_block_has_its_sums() {
    for count in [1, 2, 49, 50, 51, 99, 100, 101, 949, 950, 951, 999, 1_000] {
        for (unit, first_status) in (0..8).map(|number| (number / 4, number % 4)) {
            let words = with_rows(unit, count, first_status);
            hold_blocks(&words, |block| block_sums(&words, block));
        }
    }
}

/// The highest sums of a block: fifty rows, every amount and risk weight at its limit.
#[test]
fn a_block_has_its_highest_sums() {
    let highest = [500_000_000_000, 500_000_000_000, 62_500_000_000_000_000];
    let sums = [&highest[..], &highest, &[500_000_000_000]].concat();
    for (unit, risk_weight) in [(0, 1_250), (1, 125_000)] {
        let mut words = with_rows(unit, 1_000, 0);
        let pool = first_row(&words)..tranche_count(&words);
        words[pool].copy_from_slice(&[10_000_000_000, 10_000_000_000, risk_weight, 1].repeat(1_000));
        for block in [0, 19] {
            assert_eq!(reply_to_block(&words, block).sums[..], sums);
        }
    }
}

/// Each word of a reply is in its field.
#[test]
fn fields_hold_their_words() -> Result<(), Refusal> {
    let sums = BlockReply::summing([1, 2, 3, 4, 5, 6, 7]).outcome()?;
    let [all, known] = [sums.all, sums.known].map(|over| (over.exposure, over.nominal, over.weighted_exposure));
    assert_eq!((all, known, sums.late_nominal), ((1, 2, 3), (4, 5, 6), 7));
    assert_eq!(words_of(BlockSums::default()), [0; SUM_WORDS]);
    Ok(())
}

/// The checked deal has its sums by the builder, and none in a second block.
#[test]
fn the_checked_deal_has_its_sums() -> Result<(), Box<dyn Error>> {
    let sheet = with_rows_and_tranches(ordinary(), tranche)?;
    let sums = [1_000, 1_000, 10_000_000, 1_000, 1_000, 10_000_000, 50];
    assert_eq!(words_of(sheet.block_sums(0)?), sums);
    assert_eq!(reply_to_block(sheet.words(), 0), BlockReply::summing(sums));
    assert_eq!(sheet.block_sums(1)?, BlockSums::default());
    Ok(())
}

/// A sheet that its words refuse gets that refusal, whatever the block, and its sums are 0; one with a tranche that is
/// too thin is summed.
#[test]
fn words_alone_are_refused() {
    for (words, number, place, reason) in refused() {
        if number == 13 {
            hold_blocks(&words, |block| block_sums(&words, block));
            continue;
        }
        for block in [0, 1].into_iter().chain(PAST_ALL) {
            hold(block_sums(&words, block).unwrap_err(), number, place, reason);
            assert_eq!(reply_to_block(&words, block), BlockReply::refusing(number, place));
        }
    }
}
