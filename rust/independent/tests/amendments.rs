//! The opened pool of S-10 as whole sheets: opening with its refusals, amendments with theirs, and the sums, the charge
//! and the lines after them.

mod common;

use common::{file, room, sheet, sheet_with, Facts, Irb, Row};
use independent::opened::is_opened;
use independent::sheet::ROWS_MOST;
use independent::{weigh, weigh_file, weigh_opened, BlockSums, OpenedPool, Refusal, Totals};

/// A word above all limits.
const MOST: u64 = u64::MAX;

/// The highest amount of a row.
const AMOUNT: u64 = 10_000_000_000;

/// The whole deal of "Checked deals": the rows stand at 6 and 10.
const CHECKED: [u64; 36] = [
    4, 0, 0, 1, 1, 2, 950, 950, 100, 0, 50, 50, 100, 1, 3, 800, 1, 72, 800, 1, 0, 0, 150, 2, 72, 100, 9, 0, 0, 50, 3,
    72, 50, 0, 0, 0,
];

/// An IRB section of a pool whose loans all have an IRB charge.
const SECTION: Irb = [60_000, 450_000, 100, 0, 1_000_000, 8_500];

/// A refusal, shorter to write.
fn refused<T>(number: u64, place: u64) -> Result<T, Refusal> {
    Err(Refusal { number, place })
}

/// A sheet that must be opened.
fn opened(words: &[u64]) -> OpenedPool {
    OpenedPool::open(words).expect("a sheet that opens")
}

/// A sheet of these facts with three rows of this status, whose risk weights are 0 so that they suit either unit.
fn of_facts(facts: Facts, status: u64) -> OpenedPool {
    opened(&sheet(facts, &[[500, 500, 0, status]; 3], &[[300, 1, 72, 0, 0, 0, 0]]))
}

/// An ordinary deal in whole percent, with three rows.
fn ordinary() -> OpenedPool {
    of_facts(&[0, 0, 1, 1], 0)
}

/// Holds an amendment to its refusal, which changes nothing.
fn amendment_refused(pool: &OpenedPool, amendment: &[u64], number: u64, place: u64) {
    let mut amended = pool.clone();
    assert_eq!(amended.amend(amendment), refused(number, place), "{amendment:?}");
    assert_eq!(amended.words(), pool.words());
    assert_eq!(amended.sums(), pool.sums());
}

/// Amends a pool, and holds it to a fresh load of its sheet with the row changed by hand.
fn amend(pool: &mut OpenedPool, number: usize, row: Row) {
    let first_row = 2 + pool.words()[0] as usize;
    let mut words = pool.words().to_vec();
    words[first_row + 4 * (number - 1)..][..4].copy_from_slice(&row);
    let [exposure, nominal, weight, status] = row;
    let amendment = [number as u64, exposure, nominal, weight, status];
    assert_eq!(pool.amend(&amendment), Ok(()));
    let fresh = opened(&words);
    assert_eq!(pool.words(), words);
    assert_eq!((pool.sums(), pool.charge()), (fresh.sums(), fresh.charge()));
    assert_eq!(weigh_opened(pool, MOST), weigh_file(&file(&words), MOST));
}

/// The seven sums in their order, three over all rows, three over the known ones, and late nominal.
fn sums(
    [exposure, nominal, weighted, known_exposure, known_nominal, known_weighted, late_nominal]: [u64; 7],
) -> BlockSums {
    let totals = |exposure, nominal, weighted_exposure| Totals {
        exposure,
        nominal,
        weighted_exposure,
    };
    BlockSums {
        all: totals(exposure, nominal, weighted),
        known: totals(known_exposure, known_nominal, known_weighted),
        late_nominal,
    }
}

/// A sheet with one word changed.
fn with(words: &[u64], place: usize, word: u64) -> Vec<u64> {
    let mut changed = words.to_vec();
    changed[place] = word;
    changed
}

/// The checked deal, word by word: the late row pays again, is then not known, and is then late with other amounts.
#[test]
fn checked_deal_is_amended() {
    let mut pool = opened(&CHECKED);
    assert_eq!(pool.words(), CHECKED);
    let at_first = [1_000, 1_000, 10_000_000, 1_000, 1_000, 10_000_000, 50];
    assert_eq!((pool.sums(), pool.charge()), (sums(at_first), 101_000));
    assert_eq!(pool.amend(&[2, 50, 50, 100, 0]), Ok(()));
    assert_eq!(pool.words(), with(&CHECKED, 13, 0));
    let paying = [1_000, 1_000, 10_000_000, 1_000, 1_000, 10_000_000, 0];
    assert_eq!((pool.sums(), pool.charge()), (sums(paying), 80_000));
    assert_eq!(pool.amend(&[2, 50, 50, 100, 2]), Ok(()));
    let unknown = [1_000, 1_000, 10_000_000, 950, 950, 9_500_000, 0];
    assert_eq!((pool.sums(), pool.charge()), (sums(unknown), 126_000));
    assert_eq!(pool.amend(&[2, 10, 90, 1_250, 1]), Ok(()));
    let late = [960, 1_040, 10_750_000, 960, 1_040, 10_750_000, 90];
    assert_eq!(pool.sums(), sums(late));
    assert_eq!(pool.words()[..10], CHECKED[..10]);
    assert_eq!(pool.words()[10..14], [10, 90, 1_250, 1]);
    assert_eq!(pool.words()[14..], CHECKED[14..]);
}

/// A sheet that gets a refusal of its words, or 3, is not opened.
#[test]
fn words_are_refused_on_opening() {
    let facts = [1, 0, 1, 1, 0, 0, 1];
    let tranches = [[300, 1, 72, 0, 0, 0, 0], [300, 2, 72, 0, 9, 0, 0]];
    let words = sheet_with(SECTION, &facts, &[[500, 500, 10_050, 0]; 2], &tranches);
    let open = |words: &[u64]| OpenedPool::open(words).map(|pool| pool.words().to_vec());
    assert_eq!(open(&words).as_ref(), Ok(&words));
    for place in 0..words.len() {
        let bad = with(&words, place, MOST);
        let refusal = weigh(&bad, MOST).expect_err("a bad word");
        assert_eq!(refusal.place, place as u64);
        assert_eq!(open(&bad), Err(refusal));
        assert_eq!(open(&words[..place]), refused(1, place as u64));
    }
    let longer = [&words[..], &[0, 0]].concat();
    assert_eq!(open(&longer), refused(3, words.len() as u64));
    let dated = sheet(
        &[0, 0, 1, 1, 0, 20_240_131],
        &[[1, 1, 0, 0]],
        &[[1, 1, 20_240_131, 0, 0, 0, 0]],
    );
    assert_eq!(open(&dated), refused(17, 15));
    let marked = sheet(&[0, 1, 1, 1, 1], &[[1, 1, 0, 3]], &[[1, 1, 72, 0, 0, 0, 0]]);
    assert_eq!(open(&marked), refused(16, 5));
}

/// A deal whose second tranche has no thickness, so far below the charge of a pool of this risk weight, or above it.
fn thin(risk_weight: u64) -> Vec<u64> {
    let pool = [[AMOUNT, AMOUNT, risk_weight, 0], [1, 1, 0, 0]];
    let tranche = |amount, class| [amount, class, 72, 0, 0, 0, 0];
    sheet(
        &[0, 0, 1, 1],
        &pool,
        &[tranche(5_000_000_000, 1), tranche(1, 2), tranche(1, 3)],
    )
}

/// 13 and 14 are not judged on opening; the lines of the opened pool meet them.
#[test]
fn deals_are_not_judged_on_opening() {
    let words = thin(100);
    let mut pool = opened(&words);
    assert_eq!(pool.charge(), 80_000);
    assert_eq!(weigh_opened(&pool, room(3) - 1), refused(14, 0));
    assert_eq!(weigh_opened(&pool, room(3)), weigh(&words, room(3)));
    let number = |pool: &OpenedPool| weigh_opened(pool, room(3)).map_err(|refusal| refusal.number);
    assert_eq!(number(&pool), Err(13));
    amend(&mut pool, 1, [AMOUNT, AMOUNT, 1_250, 0]);
    assert!(number(&pool).is_ok_and(|deal| deal.charge == 1_000_000));
    amend(&mut pool, 1, [AMOUNT, AMOUNT, 100, 0]);
    assert_eq!(number(&pool), Err(13));
    assert_eq!(pool.words(), words);
}

/// The row number is from 1 to the count of rows; 0 is no row.
#[test]
fn row_numbers_are_judged() {
    let pool = ordinary();
    for number in [0, 4, ROWS_MOST as u64, 1 << 32 | 1, MOST] {
        amendment_refused(&pool, &[number, 1, 1, 0, 0], 2, 0);
        amendment_refused(&pool, &[number], 2, 0);
    }
    for number in 1..=3 {
        amend(&mut pool.clone(), number, [1, AMOUNT, 1_250, 1]);
    }
}

/// Both amounts are from 1 to 10^10.
#[test]
fn amounts_are_judged() {
    let pool = ordinary();
    for place in [1, 2] {
        for word in [0, AMOUNT + 1, MOST] {
            amendment_refused(&pool, &with(&[1, 1, 1, 0, 0], place, word), 5, place as u64);
        }
        for word in [1, AMOUNT] {
            assert_eq!(pool.clone().amend(&with(&[1, 7, 7, 0, 0], place, word)), Ok(()));
        }
    }
}

/// The risk weight is judged by the unit of the sheet, and counts in it.
#[test]
fn risk_weights_are_judged_by_the_unit() {
    for (facts, most, one) in [
        (&[0, 0, 1, 1][..], 1_250, 100),
        (&[0, 0, 1, 1, 0, 0, 0], 1_250, 100),
        (&[0, 0, 1, 1, 0, 0, 1], 125_000, 1),
    ] {
        let mut pool = of_facts(facts, 0);
        for word in [most + 1, MOST] {
            amendment_refused(&pool, &[3, 1, 1, word, 0], 6, 3);
        }
        for word in [0, 1, most] {
            amend(&mut pool, 3, [7, 7, word, 0]);
            assert_eq!(pool.sums().all.weighted_exposure, 7 * word * one);
        }
    }
}

/// The status is judged by the kind of deal: 0 to 2 in an ordinary or STC deal, 3 alone in a re-securitisation. 4 is no
/// status.
#[test]
fn statuses_are_judged_by_the_kind_of_deal() {
    let ordinary: [Facts; 3] = [&[0, 0, 1, 1], &[0, 0, 1, 1, 1], &[0, 0, 0, 0, 0, 0, 1]];
    for facts in ordinary {
        let pool = of_facts(facts, 0);
        for status in 0..3 {
            amend(&mut pool.clone(), 2, [7, 7, 0, status]);
        }
        for status in [3, 4, 5, MOST] {
            amendment_refused(&pool, &[2, 7, 7, 0, status], 7, 4);
        }
    }
    let pool = of_facts(&[0, 1, 1, 1], 3);
    amend(&mut pool.clone(), 2, [7, 7, 0, 3]);
    for status in [0, 1, 2, 4, 5, MOST] {
        amendment_refused(&pool, &[2, 7, 7, 0, status], 7, 4);
    }
}

/// Fewer words get 1 at the amendment's length, more get 3 at 5, however many.
#[test]
fn lengths_are_judged() {
    let pool = ordinary();
    let good = [2, 7, 7, 0, 0, 0, 0, MOST];
    for length in 0..5 {
        amendment_refused(&pool, &good[..length], 1, length as u64);
    }
    assert_eq!(pool.clone().amend(&good[..5]), Ok(()));
    for length in 6..=8 {
        amendment_refused(&pool, &good[..length], 3, 5);
    }
}

/// A bad word decides before one that is missing and before one that follows, and the first bad one before a later one.
#[test]
fn first_bad_word_decides() {
    let pool = ordinary();
    amendment_refused(&pool, &[], 1, 0);
    amendment_refused(&pool, &[0], 2, 0);
    amendment_refused(&pool, &[1, 0], 5, 1);
    amendment_refused(&pool, &[1, 1, 0, 0, 0, 0], 5, 2);
    let numbers = [2, 5, 5, 6, 7];
    for (place, number) in numbers.into_iter().enumerate() {
        let mut words = [1, 7, 7, 0, 0, 0, 0];
        words[place..].fill(MOST);
        for length in place + 1..=words.len() {
            amendment_refused(&pool, &words[..length], number, place as u64);
        }
    }
}

/// Unknown exposure across 5% of all, from either side: at 5% SEC-SA stands, above it the fallback.
#[test]
fn unknown_exposure_passes_a_twentieth() {
    let pool = [[1_000, 1_000, 100, 0], [49, 49, 100, 2], [1, 1, 100, 0]];
    let mut pool = opened(&sheet(&[0, 0, 1, 1], &pool, &[[900, 1, 72, 0, 0, 0, 0]]));
    let answer = |pool: &OpenedPool| {
        let deal = weigh_opened(pool, room(1)).expect("an accepted sheet");
        assert_eq!(deal.charge, pool.charge());
        (deal.charge == 1_000_000, deal.lines[0].approach)
    };
    assert_eq!(answer(&pool), (false, 2));
    amend(&mut pool, 1, [950, 950, 100, 0]);
    assert_eq!(answer(&pool), (false, 2));
    amend(&mut pool, 3, [1, 1, 100, 2]);
    assert_eq!(answer(&pool), (false, 2));
    amend(&mut pool, 2, [50, 49, 100, 2]);
    assert_eq!(answer(&pool), (true, 0));
    amend(&mut pool, 2, [49, 49, 100, 1]);
    assert_eq!(answer(&pool), (false, 2));
}

/// Under SEC-IRBA the charge is S-5's: a mixed pool's moves with the base charge over all rows, whatever their status, and
/// an IRB pool's does not move.
#[test]
fn charge_under_sec_irba() {
    let rows = [[500, 500, 100, 0], [500, 500, 100, 2]];
    let of = |kind, share| {
        let irb = [60_000, 450_000, 100, 0, share, 8_500];
        opened(&sheet_with(irb, &[kind, 0, 1, 1], &rows, &[[900, 1, 72, 0, 0, 0, 0]]))
    };
    let charges = |mut pool: OpenedPool| {
        let before = pool.charge();
        amend(&mut pool, 2, [500, 500, 300, 1]);
        [before, pool.charge()]
    };
    assert_eq!(charges(of(1, 1_000_000)), [60_000; 2]);
    // 95% of 60,000 and 5% of 80,000, then of 160,000.
    assert_eq!(charges(of(2, 950_000)), [61_000, 65_000]);
    // As an SA pool: half unknown, then half late.
    assert_eq!(charges(of(2, 949_999)), [1_000_000, 330_000]);
}

/// Amendments of different rows may come in either order; of one row the later counts. The last row of a full pool is
/// row 1,000.
#[test]
fn runs_of_amendments() {
    let full = sheet(
        &[0, 0, 1, 1],
        &vec![[3, 5, 7, 1]; ROWS_MOST],
        &[[900, 1, 72, 0, 0, 0, 0]],
    );
    let [mut one, mut other] = [opened(&full), opened(&full)];
    let (first, last) = ([9, 11, 13, 2], [AMOUNT, 1, 1_250, 0]);
    amend(&mut one, 1, first);
    amend(&mut one, 1_000, last);
    amend(&mut other, 1_000, first);
    amend(&mut other, 1_000, last);
    amend(&mut other, 1, first);
    assert_eq!(one.words(), other.words());
    amendment_refused(&one, &[1_001, 1, 1, 0, 0], 2, 0);
    amend(&mut one, 1_000, [3, 5, 7, 1]);
    amend(&mut one, 1, [3, 5, 7, 1]);
    assert_eq!(one.words(), full);
}

/// An opened pool is a sheet that opens with the sums of its rows, and no other pair.
#[test]
fn opened_pools_are_told() {
    let mut pool = ordinary();
    amend(&mut pool, 2, [7, 9, 100, 1]);
    assert!(is_opened(pool.words(), &pool.sums()));
    for place in 0..7 {
        let mut words = [1_007, 1_009, 70_000, 1_007, 1_009, 70_000, 9];
        assert!(is_opened(pool.words(), &sums(words)));
        words[place] += 1;
        assert!(!is_opened(pool.words(), &sums(words)), "{place}");
    }
    // The words of the second row, and what only spoils the sheet.
    for (place, word) in [(10, 8), (11, 8), (12, 101), (13, 0), (13, 2), (0, 3), (5, 2), (18, 0)] {
        assert!(
            !is_opened(&with(pool.words(), place, word), &pool.sums()),
            "{place} {word}"
        );
    }
    assert!(!is_opened(&pool.words()[..25], &pool.sums()));
    assert!(is_opened(&with(pool.words(), 21, 71), &pool.sums()), "another maturity");
    assert!(is_opened(&thin(100), &opened(&thin(100)).sums()), "13");
}
