//! The sums of S-7 as whole sheets: by status, in either unit of the risk weight word, past the last block, and with
//! the refusals that come there.

mod common;

use common::{file, room, sheet, sheet_with, Row, Tranche};
use independent::block::sums_over;
use independent::{block_sums, weigh_file, BlockSums, Refusal, Totals};

/// Numbers of blocks past the last of any pool. Times 50 and cut to 64 bits, two of them are 0 and 34, numbers of rows.
const PAST_ALL: [u64; 5] = [20, 1 << 32, 368_934_881_474_191_033, 1 << 63, u64::MAX];

/// A tranche; nothing of it counts here.
const TRANCHE: Tranche = [500_000, 1, 72, 0, 0, 0, 0];

/// Sums over some rows, shorter to write. Weighted exposure is in hundredths of a percent.
fn totals(exposure: u64, nominal: u64, weighted_exposure: u64) -> Totals {
    Totals {
        exposure,
        nominal,
        weighted_exposure,
    }
}

/// Three rows of an ordinary deal in whole percent, one of each status.
const ROWS: [Row; 3] = [[7, 11, 100, 0], [13, 17, 50, 1], [19, 23, 1_250, 2]];

/// The rows with known status are those that pay and those that are delinquent; the latter are the late ones.
#[test]
fn statuses_of_an_ordinary_deal() {
    let words = sheet(&[0, 0, 1, 1], &ROWS, &[TRANCHE]);
    let sums = BlockSums {
        all: totals(39, 51, 70_000 + 65_000 + 2_375_000),
        known: totals(20, 28, 70_000 + 65_000),
        late_nominal: 17,
    };
    assert_eq!(block_sums(&words, 0), Ok(sums));
}

/// A securitisation tranche in the pool has a known status and is not late.
#[test]
fn statuses_of_a_resecuritisation() {
    let words = sheet(&[0, 1, 1, 1], &[[7, 11, 100, 3], [13, 17, 50, 3]], &[TRANCHE]);
    let all = totals(20, 28, 135_000);
    let sums = BlockSums {
        all,
        known: all,
        late_nominal: 0,
    };
    assert_eq!(block_sums(&words, 0), Ok(sums));
}

/// Weighted exposure is in hundredths whatever the unit of the sheet: rows in hundredths have the sums of the same rows
/// in whole percent. A weight of 37.5% and one of 0.01% count in full.
#[test]
fn sums_in_hundredths() {
    let in_unit = |unit, rows: &[Row]| block_sums(&sheet(&[0, 0, 1, 1, 0, 0, unit], rows, &[TRANCHE]), 0);
    let times_100 = ROWS.map(|[exposure, nominal, weight, status]| [exposure, nominal, 100 * weight, status]);
    let four_facts = block_sums(&sheet(&[0, 0, 1, 1], &ROWS, &[TRANCHE]), 0);
    assert_eq!([in_unit(0, &ROWS), in_unit(1, &times_100)], [four_facts; 2]);
    let sums = BlockSums {
        all: totals(39, 51, 26_250 + 13 + 2_375_000),
        known: totals(20, 28, 26_250 + 13),
        late_nominal: 17,
    };
    let finer = [[7, 11, 3_750, 0], [13, 17, 1, 1], [19, 23, 125_000, 2]];
    assert_eq!(in_unit(1, &finer), Ok(sums));
}

/// Every status on the first row of a block after the first, and on the last row, of a full block and of one that is
/// not: the row is in its own block alone. The other rows are of an amount of 1 and of known status.
#[test]
fn statuses_at_the_ends_of_a_block() {
    for (status, known, late) in [(0, 1, 0), (1, 1, 1), (2, 0, 0), (3, 1, 0)] {
        let resecuritisation = status / 3;
        for (rows, row, others) in [(101, 50, [50, 49, 1]), (100, 49, [49, 50, 0]), (80, 79, [50, 29, 0])] {
            let mut pool = vec![[1, 1, 1, 3 * resecuritisation]; rows];
            pool[row] = [1_000, 1_000, 1, status];
            let words = sheet(&[0, resecuritisation, 1, 1], &pool, &[TRANCHE]);
            for (block, others) in (0..).zip(others) {
                let amount = if block == row as u64 / 50 { 1_000 } else { 0 };
                let of = |amount| totals(others + amount, others + amount, 100 * (others + amount));
                let sums = BlockSums {
                    all: of(amount),
                    known: of(known * amount),
                    late_nominal: late * amount,
                };
                assert_eq!(
                    block_sums(&words, block),
                    Ok(sums),
                    "status {status}, row {row}, block {block}"
                );
            }
        }
    }
}

/// A pool of so many rows with all statuses of an ordinary deal in turn.
fn turning(rows: u64) -> Vec<Row> {
    (0..rows)
        .map(|row| [row + 1, 2 * row + 1, row % 1_251, row % 3])
        .collect()
}

/// The seven sums as a list.
fn list(sums: BlockSums) -> [u64; 7] {
    let BlockSums {
        all,
        known,
        late_nominal,
    } = sums;
    let words = [all, known].map(|over| [over.exposure, over.nominal, over.weighted_exposure]);
    let words = [words.as_flattened(), &[late_nominal]].concat();
    words.try_into().expect("three sums twice and one")
}

/// The sums of all blocks, added up, are those of the pool; past the last block all are 0.
#[test]
fn blocks_add_up() {
    for rows in [1, 49, 50, 51, 99, 100, 101, 950, 951, 1_000] {
        let words = sheet(&[0, 0, 1, 1], &turning(rows), &[TRANCHE]);
        let mut total = [0; 7];
        for block in 0..20 {
            let sums = list(block_sums(&words, block).expect("good words"));
            total.iter_mut().zip(sums).for_each(|(total, sum)| *total += sum);
        }
        let pool = independent::sheet::read(&words).expect("good words").pool;
        assert_eq!(total, list(sums_over(&pool)));
        for block in (rows.div_ceil(50)..20).chain(PAST_ALL) {
            assert_eq!(block_sums(&words, block), Ok(BlockSums::default()), "{rows} {block}");
        }
    }
}

/// Holds a sheet to its refusal, in every block.
fn refused(words: &[u64], number: u64, place: u64) {
    for block in [0, 1, 19].into_iter().chain(PAST_ALL) {
        assert_eq!(block_sums(words, block), Err(Refusal { number, place }), "{words:?}");
    }
}

/// The words are judged in their order, those after the pool too, then 3, whatever the block.
#[test]
fn words_are_refused() {
    let irb = [0, 0, 1, 0, 1_000_000, 0];
    let words = sheet_with(irb, &[1, 0, 1, 1], &ROWS, &[TRANCHE]);
    assert!(block_sums(&words, 0).is_ok());
    let with = |place: usize, word| {
        let mut changed = words.clone();
        changed[place] = word;
        changed
    };
    for (place, word, number) in [
        (0, 3, 2),
        (1, 3, 4),
        (5, 0, 2),
        (6, 0, 5),
        (16, 1_251, 6),
        (17, 3, 7),
        (18, 0, 2),
        (19, 0, 8),
        (20, 2, 9),
        (21, 0, 10),
        (23, 19, 11),
        (26, 2, 2),
        (32, 125_001, 18),
    ] {
        refused(&with(place, word), number, place as u64);
    }
    (0..words.len()).for_each(|length| refused(&words[..length], 1, length as u64));
    refused(&[&words[..], &[0, 0]].concat(), 3, words.len() as u64);
    refused(&[&with(32, 125_001)[..], &[0]].concat(), 18, 32);
}

/// Neither results that are too short nor a tranche without thickness are refused here.
#[test]
fn deals_are_not_judged() {
    let pool = [[10_000_000_000, 10_000_000_000, 100, 0]];
    let thin = sheet(
        &[0, 0, 1, 1],
        &pool,
        &[[4_999_995_000, 1, 60, 0, 0, 0, 0], [1, 2, 60, 1, 0, 0, 0]],
    );
    let number = |room| weigh_file(&file(&thin), room).map_err(|refusal| refusal.number);
    assert_eq!((number(0), number(room(2))), (Err(14), Err(13)));
    let sums = block_sums(&thin, 0).expect("good words");
    assert_eq!(sums.all, totals(10_000_000_000, 10_000_000_000, 100_000_000_000_000));
    assert_eq!(block_sums(&thin, 1), Ok(BlockSums::default()));
}
