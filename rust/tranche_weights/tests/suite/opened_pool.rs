//! Opened pools and their amendments (document 02, S-10).

use crate::block_sums::{pool_sums, words_of};
use crate::checked_deal::{
    both_facts, file_of, ordinary, resecuritised, row, tranche, with_rows_and_tranches, RESULTS, WORDS,
};
use crate::irb::FIGURES;
use crate::places::{affirms, first_row, row_count, rows, tranche_count, with_facts, with_irb, RESECURITISATION, UNIT};
use crate::refusals::{hold, refused, thin};
use crate::texts::largest_sheet;
use crate::units::{in_hundredths, IN_HUNDREDTHS};
use std::error::Error;
use tranche_weights::{
    is_opened, reply_to_opening, reply_to_words, weigh_file, Amendment, AmendmentError, AmendmentReason,
    AmendmentReply, OpenedPool, OpeningReply, PoolAmount, Reason, Reply, RiskWeight, Row, SheetBuilder, Status,
    AMENDMENT_WORDS, LINE_WORDS, RESULT_WORDS, ROW_WORDS, SUM_WORDS,
};

/// Sums of which no two are alike, and none is 0.
const BEFORE: [u64; SUM_WORDS] = [901, 902, 903, 904, 905, 906, 907];

/// Opens words that must open.
fn opened(words: &[u64]) -> OpenedPool {
    OpenedPool::open(words).unwrap_or_else(|refusal| panic!("{refusal}: {words:?}"))
}

/// Holds all that is read of an opened pool to its rows and to the answer to its words: sums, charge, and the reply into
/// results of any room.
pub fn hold_opened(pool: &OpenedPool) {
    let words = pool.words();
    let sums = pool_sums(words);
    assert_eq!((pool.sum_words(), words_of(pool.sums())), (sums, sums), "{words:?}");
    assert_eq!(pool.row_count(), rows(words).count());
    assert!(is_opened(words, &pool.sum_words()), "{words:?}");
    let deal = weigh_file(&file_of(words));
    assert_eq!(pool.weigh(), deal, "{words:?}");
    if let Ok(deal) = deal {
        assert_eq!(pool.charge(), deal.charge, "{words:?}");
    }
    let tranches = words[tranche_count(words)] as usize;
    for room in [0, LINE_WORDS * tranches - 1, LINE_WORDS * tranches, RESULT_WORDS] {
        let mut results: [Vec<u64>; 2] = [0, 1].map(|_| (900..).take(room).collect());
        let due = reply_to_words(words, &mut results[0]);
        assert_eq!(pool.reply_into(&mut results[1]), due, "{words:?}");
        assert_eq!(results[0], results[1], "{words:?}");
        assert_eq!(pool.weigh_into(&mut results[1]), due.outcome(), "{words:?}");
    }
}

/// Holds an amendment that is made: just the row's words are new, and the pool is that of a fresh load.
pub fn hold_amended(pool: &mut OpenedPool, amendment: [u64; AMENDMENT_WORDS]) {
    let mut due = pool.words().to_vec();
    let first = first_row(&due) + ROW_WORDS * (amendment[0] as usize - 1);
    due[first..first + ROW_WORDS].copy_from_slice(&amendment[1..]);
    assert_eq!(pool.reply_to_amendment(&amendment), AmendmentReply::amending());
    assert_eq!(pool.words(), due);
    assert_eq!(*pool, opened(&due));
    hold_opened(pool);
}

/// Holds an amendment that is refused: its number, place and reason, and that nothing changes.
fn hold_refused(pool: &mut OpenedPool, amendment: &[u64], number: u64, place: u64, reason: AmendmentReason) {
    let before = pool.clone();
    let reply = pool.reply_to_amendment(amendment);
    assert_eq!(reply, AmendmentReply::refusing(number, place), "{amendment:?}");
    let refusal = pool.amend_words(amendment).unwrap_err();
    assert_eq!(
        (refusal.number(), refusal.place(), refusal.reason()),
        (number, place, reason)
    );
    assert_eq!(reason.number(), number);
    assert_eq!(
        refusal.to_string(),
        format!("amendment refused {number} at {place}: {reason}")
    );
    assert_eq!(*pool, before, "{amendment:?}");
}

/// Sheets of every kind, each with two rows, in either unit, with the IRB section and without.
fn sheets() -> Vec<Vec<u64>> {
    let mixed = with_irb(&WORDS, 2, FIGURES);
    let of_four_facts = [&WORDS[..], &resecuritised(), &mixed];
    let with = of_four_facts.iter().flat_map(|words| {
        let further: [&[u64]; 4] = [&[], &[0], &[0, 0], &[0, 0, 0]];
        further.map(|further| with_facts(words, further))
    });
    let finer = of_four_facts.iter().map(|words| in_hundredths(words, 0, 0));
    with.chain(finer).collect()
}

/// The checked deal is opened, by the builder and by its words, with its sums, its charge and its lines.
#[test]
fn the_checked_deal_is_opened() -> Result<(), Box<dyn Error>> {
    let pool = with_rows_and_tranches(ordinary(), tranche)?.open()?;
    assert_eq!(pool, opened(&WORDS));
    assert_eq!(pool.words(), WORDS);
    assert_eq!(
        pool.sum_words(),
        [1_000, 1_000, 10_000_000, 1_000, 1_000, 10_000_000, 50]
    );
    assert_eq!((pool.row_count(), pool.charge()), (2, 101_000));
    let mut results = [0; RESULTS.len()];
    assert_eq!(pool.reply_into(&mut results), Reply::accepting(3, 101_000));
    assert_eq!(results, RESULTS);
    hold_opened(&pool);
    assert_eq!(pool.into_words(), WORDS);
    Ok(())
}

/// Every kind of sheet is opened, and the largest.
#[test]
fn every_kind_of_sheet_is_opened() {
    for words in sheets().iter().chain([&largest_sheet()]) {
        hold_opened(&opened(words));
        let mut sums = BEFORE;
        assert_eq!(reply_to_opening(words, &mut sums), OpeningReply::opening());
        assert_eq!(sums, pool_sums(words));
    }
}

/// A sheet that its words refuse gets that refusal, is not opened, and the sums are as they were; one with a tranche that
/// is too thin is opened, with its charge, and refused where it is weighed.
#[test]
fn words_alone_are_refused() {
    for (words, number, place, reason) in refused() {
        let mut sums = BEFORE;
        let reply = reply_to_opening(&words, &mut sums);
        if number == 13 {
            assert_eq!((reply, sums), (OpeningReply::opening(), pool_sums(&words)));
            let pool = opened(&words);
            hold_opened(&pool);
            hold(pool.weigh().unwrap_err(), number, place, reason);
            continue;
        }
        assert_eq!((reply, sums), (OpeningReply::refusing(number, place), BEFORE));
        hold(OpenedPool::open(&words[..]).unwrap_err(), number, place, reason);
        assert!(!is_opened(&words, &[0; SUM_WORDS]));
    }
}

/// The charge of a deal with a tranche that is too thin is that of the same deal without the tranche.
#[test]
fn a_thin_deal_has_its_charge() {
    let pool = opened(&thin());
    hold(pool.weigh().unwrap_err(), 13, 18, Reason::ThinTranche);
    assert_eq!(pool.charge(), 80_000);
}

/// Words with any other sums are no opened pool.
#[test]
fn other_sums_are_not_those_of_the_rows() {
    for words in sheets() {
        let sums = pool_sums(&words);
        assert!(is_opened(&words, &sums));
        for place in 0..SUM_WORDS {
            for other in [0, sums[place].wrapping_sub(1), sums[place] + 1, u64::MAX] {
                let mut changed = sums;
                changed[place] = other;
                assert_eq!(is_opened(&words, &changed), other == sums[place], "{words:?}");
            }
        }
    }
}

/// Rows of every status and of amounts and weights at their limits, one after the other in either row: each leaves the
/// pool of a fresh load.
#[test]
fn each_amendment_leaves_the_pool_of_a_fresh_load() {
    for words in sheets() {
        let highest = if affirms(&words, UNIT) { 125_000 } else { 1_250 };
        let statuses = if affirms(&words, RESECURITISATION) {
            3..=3
        } else {
            0..=2
        };
        let mut pool = opened(&words);
        for status in statuses {
            for weight in [0, 1, 99, 100, highest] {
                let amounts = [(1, 1), (950, 1), (10_000_000_000, 7), (3, 10_000_000_000)];
                for (number, (exposure, nominal)) in [1, 2].into_iter().cycle().zip(amounts) {
                    hold_amended(&mut pool, [number, exposure, nominal, weight, status]);
                }
            }
        }
    }
}

/// Every row of the largest pool can be replaced, down from the highest sums and up to them again.
#[test]
fn the_highest_sums_are_left_and_met_again() {
    let words = largest_sheet();
    let mut pool = opened(&words);
    let highest = pool.sum_words();
    assert_eq!(
        highest[..3],
        [10_000_000_000_000, 10_000_000_000_000, 1_250_000_000_000_000_000]
    );
    for number in 1..=1_000 {
        pool.amend_words(&[number, 1, 1, 0, 2]).expect("the row is there");
    }
    assert_eq!(pool.sum_words(), [1_000, 1_000, 0, 0, 0, 0, 0]);
    hold_opened(&pool);
    for number in (1..=1_000).rev() {
        let row = [number, 10_000_000_000, 10_000_000_000, 125_000, 1];
        pool.amend_words(&row).expect("the row is there");
    }
    assert_eq!(
        (&pool.sum_words()[..6], pool.sum_words()[6]),
        (&highest[..6], highest[1])
    );
    hold_opened(&pool);
}

/// Amendments that are refused, each with number, place and reason, in sheets of either unit and kind.
#[test]
fn refused_amendments_change_nothing() {
    use AmendmentReason::{MissingWord, PoolAmount, RiskWeight, RowNumber, Status, WordsFollow};
    for words in sheets() {
        let (finer, of_tranches) = (affirms(&words, UNIT), affirms(&words, RESECURITISATION));
        let status = if of_tranches { 3 } else { 0 };
        let above = if finer { 125_001 } else { 1_251 };
        let mut pool = opened(&words);
        let mut refused = |amendment: &[u64], number, place, reason| {
            hold_refused(&mut pool, amendment, number, place, reason);
        };
        for length in 0..AMENDMENT_WORDS {
            let whole = [2, 10, 10, 100, status];
            refused(&whole[..length], 1, length as u64, MissingWord);
        }
        for number in [0, 3, 1_000, u64::MAX] {
            refused(&[number], 2, 0, RowNumber);
            refused(&[number, 10, 10, 100, status], 2, 0, RowNumber);
            refused(&[number, 0, 0, above, 4, 9], 2, 0, RowNumber);
        }
        for amount in [0, 10_000_000_001, u64::MAX] {
            refused(&[1, amount], 5, 1, PoolAmount);
            refused(&[1, amount, 0, above, 4], 5, 1, PoolAmount);
            refused(&[2, 10, amount, 100, status], 5, 2, PoolAmount);
            refused(&[2, 10, amount, 100, status, 0], 5, 2, PoolAmount);
        }
        for weight in [above, u64::MAX] {
            refused(&[1, 10, 10, weight], 6, 3, RiskWeight);
            refused(&[1, 10, 10, weight, 4, 0], 6, 3, RiskWeight);
        }
        let others: &[u64] = if of_tranches {
            &[0, 1, 2, 4, u64::MAX]
        } else {
            &[3, 4, u64::MAX]
        };
        for other in others {
            refused(&[1, 10, 10, 100, *other], 7, 4, Status);
            refused(&[1, 10, 10, 100, *other, 0], 7, 4, Status);
        }
        refused(&[1, 10, 10, 100, status, 0], 3, 5, WordsFollow);
        refused(&[1, 10, 10, 100, status, 0, 0, 0], 3, 5, WordsFollow);
    }
}

/// A row of equal amounts with this weight in hundredths of a percent.
fn row_at(amount: u64, hundredths: u64) -> Result<Row, Box<dyn Error>> {
    let amount = PoolAmount::new(amount)?;
    Ok(Row::new(amount, amount, RiskWeight::from_hundredths(hundredths)?))
}

/// A typed amendment writes the words of its row, with the weight in the sheet's unit and each status.
#[test]
fn typed_amendments_write_their_words() -> Result<(), Box<dyn Error>> {
    let statuses = [Status::Paying, Status::Delinquent, Status::NotKnown];
    for (words, weight) in [(&WORDS[..], 75), (&IN_HUNDREDTHS, 7_500)] {
        let mut pool = opened(words);
        for (status, word) in statuses.into_iter().zip(0..) {
            pool.amend(Amendment::ordinary(2, row_at(40, 7_500)?, status))?;
            let second = first_row(words) + ROW_WORDS;
            assert_eq!(pool.words()[second..second + ROW_WORDS], [40, 40, weight, word]);
            hold_opened(&pool);
        }
    }
    let mut builder = SheetBuilder::resecuritisation(both_facts());
    let sheet = builder
        .row(row(950)?)?
        .row(row(50)?)?
        .next_class(tranche(800, 800)?)?
        .build()?;
    let mut pool = sheet.open()?;
    pool.amend(Amendment::resecuritisation(1, row_at(900, 12_500)?))?;
    assert_eq!(pool.words()[6..14], [900, 900, 125, 3, 50, 50, 100, 3]);
    assert_eq!(sheet.words()[6..10], [950, 950, 100, 3]);
    hold_opened(&pool);
    Ok(())
}

/// A weight that is no whole percent is not rounded into a sheet in whole percent, stated or not: it is an error that says
/// what to do, and the converted pool takes it.
#[test]
fn a_weight_that_is_no_whole_percent_needs_hundredths() -> Result<(), Box<dyn Error>> {
    for words in [&WORDS[..], &with_facts(&WORDS, &[0, 0, 0])] {
        let pool = opened(words);
        let mut amended = pool.clone();
        let weight = RiskWeight::from_hundredths(3_750)?;
        let amendment = Amendment::ordinary(1, row_at(900, 3_750)?, Status::Paying);
        let error = amended.amend(amendment).unwrap_err();
        assert_eq!(error, AmendmentError::NotWholePercent(weight));
        assert_eq!(
            error.to_string(),
            "a risk weight of 37.5% can't stand in a sheet in whole percent: convert the sheet to hundredths of a percent \
             first"
        );
        assert_eq!(amended, pool);

        let mut finer = pool.in_other_unit()?;
        assert_eq!(finer.words(), IN_HUNDREDTHS);
        assert_eq!((finer.sum_words(), finer.charge()), (pool.sum_words(), pool.charge()));
        assert_eq!(finer.weigh()?, pool.weigh()?);
        assert_eq!(finer.in_other_unit()?.words(), with_facts(&WORDS, &[0, 0, 0]));
        finer.amend(amendment)?;
        assert_eq!(finer.words()[9..13], [900, 900, 3_750, 0]);
        hold_opened(&finer);
        hold(finer.in_other_unit().unwrap_err(), 19, 11, Reason::NotWholePercent);
    }
    Ok(())
}

/// A typed amendment of no row of the pool is the library's refusal 2, and one of another kind of deal its refusal 7.
#[test]
fn typed_amendments_get_refusals() -> Result<(), Box<dyn Error>> {
    let (words, of_tranches) = (opened(&WORDS), opened(&resecuritised()));
    let ordinary = |number| Ok::<_, Box<dyn Error>>(Amendment::ordinary(number, row_at(10, 100)?, Status::Paying));
    let resecuritisation = |number| Ok::<_, Box<dyn Error>>(Amendment::resecuritisation(number, row_at(10, 100)?));
    for (pool, amendment, number, place) in [
        (&words, ordinary(0)?, 2, 0),
        (&words, ordinary(3)?, 2, 0),
        (&words, ordinary(u64::MAX)?, 2, 0),
        (&words, resecuritisation(0)?, 2, 0),
        (&words, resecuritisation(1)?, 7, 4),
        (&of_tranches, resecuritisation(3)?, 2, 0),
        (&of_tranches, ordinary(2)?, 7, 4),
    ] {
        let mut amended = pool.clone();
        let error = amended.amend(amendment).unwrap_err();
        let AmendmentError::Refused(refusal) = error else {
            panic!("{error}")
        };
        assert_eq!((refusal.number(), refusal.place()), (number, place));
        assert_eq!(error.to_string(), refusal.to_string());
        assert_eq!(amended, *pool);
    }
    Ok(())
}

/// What is wrong is said of the amendment, and passed on as an error.
#[test]
fn refusals_speak_of_the_amendment() {
    let said = |amendment: &[u64]| -> String {
        let refusal: Box<dyn Error> = opened(&WORDS).amend_words(amendment).unwrap_err().into();
        refusal.to_string()
    };
    let all = [
        (
            &[1, 10][..],
            "1 at 2: the amendment ends before its fifth word; the place is the number of its words",
        ),
        (
            &[3],
            "2 at 0: the pool has no row of this number; rows are counted from 1",
        ),
        (
            &[1, 10, 10, 100, 0, 0],
            "3 at 5: words follow the fifth of the amendment; the place of the first",
        ),
        (&[1, 0], "5 at 1: an exposure or nominal amount is 0 or above 10^10"),
        (
            &[1, 10, 10, 1_251],
            "6 at 3: a risk weight is above 1250%, in the sheet's unit",
        ),
        (&[1, 10, 10, 100, 3], "7 at 4: a status that the deal can't have"),
    ];
    for (amendment, text) in all {
        assert_eq!(said(amendment), format!("amendment refused {text}"));
    }
}

/// An amendment can make a tranche too thin, and take that away: the pool is amended all the same.
#[test]
fn an_amendment_can_bring_13_and_take_it_away() {
    let mut pool = opened(&thin());
    hold_amended(&mut pool, [1, 100, 100, 100, 0]);
    assert!(pool.weigh().is_ok());
    hold_amended(&mut pool, [1, 10_000_000_000, 10_000_000_000, 100, 0]);
    hold(pool.weigh().unwrap_err(), 13, 18, Reason::ThinTranche);
}

/// The words of a reply are in its fields.
#[test]
fn fields_hold_their_words() {
    let reply = OpeningReply::opening();
    assert_eq!((reply.number, reply.place, reply.outcome()), (0, 0, Ok(())));
    let reply = OpeningReply::refusing(6, 8);
    assert_eq!((reply.number, reply.place), (6, 8));
    hold(reply.outcome().unwrap_err(), 6, 8, Reason::RiskWeight);
    let reply = AmendmentReply::amending();
    assert_eq!((reply.number, reply.place, reply.outcome()), (0, 0, Ok(())));
    let reply = AmendmentReply::refusing(2, 0);
    assert_eq!((reply.number, reply.place), (2, 0));
    let refusal = reply.outcome().unwrap_err();
    assert_eq!((refusal.number(), refusal.place()), (2, 0));
    assert_eq!(refusal.reason(), AmendmentReason::RowNumber);
}

/// The count of rows is read behind the facts, however many there are.
#[test]
fn rows_are_counted_behind_the_facts() {
    for words in sheets() {
        assert_eq!(opened(&words).row_count() as u64, words[row_count(&words)]);
    }
}
