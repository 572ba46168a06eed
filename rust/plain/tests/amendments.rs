//! The opened pool of S-10: its refusals on opening and on amendments, and that sums, charge and lines are those of the
//! sheet opened afresh.

use plain::{OpenedPool, Refusal, LINE_WORDS, SUM_WORDS};

/// The whole deal of "Checked deals": the rows stand at 6 and 10.
const CHECKED: [u64; 36] = [
    4, 0, 0, 1, 1, 2, 950, 950, 100, 0, 50, 50, 100, 1, 3, 800, 1, 72, 800, 1, 0, 0, 150, 2, 72, 100, 9, 0, 0, 50, 3,
    72, 50, 0, 0, 0,
];

/// An amendment that is taken by the checked deal.
const GOOD: [u64; 5] = [1, 1, 1, 0, 0];

/// The highest amount of a row.
const AMOUNT: u64 = 10_000_000_000;

/// A sheet of one tranche with these facts and rows.
fn sheet(facts: &[u64], rows: &[[u64; 4]]) -> Vec<u64> {
    let tranche = [1, 800, 1, 72, 800, 0, 0, 0];
    [facts, &[rows.len() as u64], rows.as_flattened(), &tranche].concat()
}

/// A sheet that must be opened.
fn opened(words: &[u64]) -> OpenedPool {
    OpenedPool::open(words.to_vec()).expect("a sheet that opens")
}

/// Words with one of them changed.
fn with(words: &[u64], place: usize, word: u64) -> Vec<u64> {
    let mut changed = words.to_vec();
    changed[place] = word;
    changed
}

/// The answer to a sheet: tranche count and pool charge, or the refusal.
type Answer = Result<(u64, u64), Refusal>;

/// The answer of an opened pool and the results that it was lent.
fn weighed(pool: &OpenedPool) -> (Answer, [u64; 4 * LINE_WORDS]) {
    let mut results = [77; 4 * LINE_WORDS];
    (pool.weigh(&mut results), results)
}

/// Amends a pool and holds it to the changed sheet, opened and weighed afresh.
fn amend(pool: &mut OpenedPool, amendment: [u64; 5]) {
    let [number, row @ ..] = amendment;
    let place = pool.words()[0] as usize + 2 + 4 * (number as usize - 1);
    let mut words = pool.words().to_vec();
    words[place..place + 4].copy_from_slice(&row);
    assert_eq!(pool.amend(&amendment), Ok(()));
    assert_eq!(pool.words(), words);
    let fresh = opened(&words);
    assert_eq!((pool.sums(), pool.charge()), (fresh.sums(), fresh.charge()));
    let mut results = [77; 4 * LINE_WORDS];
    let answer = plain::weigh(&words, &mut results);
    assert_eq!(weighed(pool), (answer, results));
}

/// Holds an amendment to its refusal, which changes nothing.
fn refused(words: &[u64], amendment: &[u64], number: u64, place: u64) {
    let mut pool = opened(words);
    let before: [u64; SUM_WORDS] = pool.sums();
    assert_eq!(pool.amend(amendment), Err((number, place)), "{amendment:?}");
    assert_eq!((pool.words(), pool.sums()), (words, before));
}

/// The sums of the checked deal, and those after its late row pays, is not known, and is late with other amounts.
#[test]
fn checked_deal_is_amended() {
    let mut pool = opened(&CHECKED);
    assert_eq!(pool.sums(), [1_000, 1_000, 10_000_000, 1_000, 1_000, 10_000_000, 50]);
    assert_eq!(pool.charge(), 101_000);
    amend(&mut pool, [2, 50, 50, 100, 0]);
    assert_eq!(pool.sums(), [1_000, 1_000, 10_000_000, 1_000, 1_000, 10_000_000, 0]);
    assert_eq!(pool.charge(), 80_000);
    amend(&mut pool, [2, 50, 50, 100, 2]);
    assert_eq!(pool.sums(), [1_000, 1_000, 10_000_000, 950, 950, 9_500_000, 0]);
    assert_eq!(pool.charge(), 126_000);
    amend(&mut pool, [2, 10, 90, 1_250, 1]);
    assert_eq!(pool.sums(), [960, 1_040, 10_750_000, 960, 1_040, 10_750_000, 90]);
    amend(&mut pool, [1, AMOUNT, 1, 0, 0]);
    amend(&mut pool, [1, 950, 950, 100, 0]);
    amend(&mut pool, [2, 50, 50, 100, 1]);
    assert_eq!(pool.words(), CHECKED);
}

/// In hundredths of a percent, in a re-securitisation, and under SEC-IRBA with a mixed pool, whose charge follows the
/// base charge.
#[test]
fn other_deals_are_amended() {
    let rows = [[500, 500, 100, 0], [500, 500, 100, 2]];
    let mut pool = opened(&sheet(&[7, 0, 0, 1, 1, 0, 0, 1], &rows));
    amend(&mut pool, [2, 7, 9, 3_750, 1]);
    assert_eq!(pool.sums(), [507, 509, 76_250, 507, 509, 76_250, 9]);
    let mut pool = opened(&sheet(&[4, 0, 1, 1, 1], &[[500, 500, 100, 3]; 2]));
    amend(&mut pool, [1, 7, 9, 1_250, 3]);
    let section = [1, 60_000, 450_000, 100, 0, 950_000, 8_500];
    let mut pool = opened(&[&sheet(&[4, 2, 0, 1, 1], &rows)[..], &section].concat());
    assert_eq!(pool.charge(), 61_000);
    amend(&mut pool, [2, 500, 500, 300, 1]);
    assert_eq!(pool.charge(), 65_000);
}

/// The last row of a full pool is row 1,000.
#[test]
fn full_pool_is_amended() {
    let words = sheet(&[4, 0, 0, 1, 1], &[[3, 5, 7, 1]; 1_000]);
    let mut pool = opened(&words);
    amend(&mut pool, [1_000, AMOUNT, 1, 1_250, 2]);
    amend(&mut pool, [1, 9, 11, 13, 0]);
    refused(&words, &[1_001, 1, 1, 0, 0], 2, 0);
}

/// Words are refused on opening, and those that follow; a tranche without thickness and results too short are not.
#[test]
fn opening_is_judged() {
    let number = |words: Vec<u64>| OpenedPool::open(words).map(|_| ()).expect_err("a refused sheet");
    for place in 0..CHECKED.len() {
        assert_eq!(number(CHECKED[..place].to_vec()), (1, place as u64));
        assert_eq!(number(with(&CHECKED, place, u64::MAX)).1, place as u64);
    }
    assert_eq!(number([&CHECKED[..], &[0]].concat()), (3, 36));
    assert_eq!(opened(&CHECKED).weigh(&mut [0; 3 * LINE_WORDS - 1]), Err((14, 0)));
    let tranches = [
        3, 5_000_000, 1, 72, 0, 0, 0, 0, 1, 2, 72, 0, 0, 0, 0, 1, 3, 72, 0, 0, 0, 0,
    ];
    let thin = [&[4, 0, 0, 1, 1, 1, 10_000_003, 10_000_003, 100, 0][..], &tranches].concat();
    let mut pool = opened(&thin);
    assert_eq!(weighed(&pool), (Err((13, 18)), [77; 4 * LINE_WORDS]));
    assert_eq!(pool.charge(), 80_000);
    amend(&mut pool, [1, 10_000_003, 10_000_003, 1_250, 0]);
    assert!(weighed(&pool).0.is_ok());
}

/// Each word of an amendment has the limits of loading, by the unit and the kind of deal.
#[test]
fn amendments_are_judged() {
    for (place, word, number) in [
        (0, 0, 2),
        (0, 3, 2),
        (1, 0, 5),
        (1, AMOUNT + 1, 5),
        (2, 0, 5),
        (2, AMOUNT + 1, 5),
        (3, 1_251, 6),
        (4, 3, 7),
        (4, 4, 7),
    ] {
        refused(&CHECKED, &with(&GOOD, place, word), number, place as u64);
    }
    let hundredths = sheet(&[7, 0, 0, 1, 1, 0, 0, 1], &[[1, 1, 0, 0]]);
    amend(&mut opened(&hundredths), [1, AMOUNT, AMOUNT, 125_000, 2]);
    refused(&hundredths, &[1, 1, 1, 125_001, 0], 6, 3);
    let resecuritisation = sheet(&[4, 0, 1, 1, 1], &[[1, 1, 0, 3]]);
    amend(&mut opened(&resecuritisation), [1, 1, 1, 1_250, 3]);
    for status in [0, 1, 2, 4] {
        refused(&resecuritisation, &[1, 1, 1, 0, status], 7, 4);
    }
}

/// The first bad word comes before one that is missing, and before one that follows.
#[test]
fn amendments_are_judged_in_order() {
    for length in 0..GOOD.len() {
        refused(&CHECKED, &GOOD[..length], 1, length as u64);
    }
    refused(&CHECKED, &[1, 1, 1, 0, 0, 0], 3, 5);
    refused(&CHECKED, &[1, 1, 1, 0, 0, 0, 0], 3, 5);
    refused(&CHECKED, &[0], 2, 0);
    refused(&CHECKED, &[1, 0], 5, 1);
    refused(&CHECKED, &[1, 1, 0, 0, 0, 0], 5, 2);
}
