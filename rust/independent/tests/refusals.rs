//! Every refusal with its place, the limits of each word, and the order of judgment.

mod common;

use common::{file, room, sheet, sheet_with, Facts, Irb};
use independent::sheet::{FILE_BYTES, ROWS_MOST, TRANCHES_MOST};
use independent::{weigh, weigh_file, Refusal};

/// A word above all limits.
const MOST: u64 = u64::MAX;

/// A refusal, shorter to write.
fn refusal(number: u64, place: u64) -> Refusal {
    Refusal { number, place }
}

/// A sheet without due diligence, so that no refusal but those of its words can come. Nothing is held. The places: 1 to 4
/// the facts, 6 to 13 two pool rows, 14 the tranche count, 15, 22 and 29 the tranche amounts.
fn plain(resecuritisation: u64, status: u64) -> Vec<u64> {
    plain_with(&[0, resecuritisation, 0, 0], status, 72)
}

/// The same with five facts, so that all places after the facts are one higher.
fn plain_five(resecuritisation: u64, status: u64) -> Vec<u64> {
    plain_with(&[0, resecuritisation, 0, 0, 0], status, 72)
}

/// The same with six facts, so that all places after the facts are two higher: the maturities stand at 19, 26 and 33.
fn plain_six(reporting_date: u64, maturity: u64) -> Vec<u64> {
    plain_with(&[0, 0, 0, 0, 0, reporting_date], 0, maturity)
}

/// The same with seven facts, so that all places after the facts are three higher: the risk weights stand at 11 and 15.
fn plain_seven(unit: u64) -> Vec<u64> {
    plain_with(&[0, 0, 0, 0, 0, 0, unit], 0, 72)
}

/// Such a sheet with these facts and this maturity of all tranches.
fn plain_with(facts: Facts, status: u64, maturity: u64) -> Vec<u64> {
    let row = [500, 500, 100, status];
    let tranche = |class| [300, class, maturity, 0, 0, 0, 0];
    sheet(facts, &[row, row], &[tranche(1), tranche(2), tranche(2)])
}

/// A sheet with one word changed.
fn with(words: &[u64], place: usize, word: u64) -> Vec<u64> {
    let mut changed = words.to_vec();
    changed[place] = word;
    changed
}

/// Holds one word to its limits: each good value leaves the sheet accepted, each bad one is refused at the word's place.
fn limits(words: &[u64], places: &[usize], good: &[u64], bad: &[u64], number: u64) {
    for &place in places {
        for &word in good {
            assert!(weigh(&with(words, place, word), room(3)).is_ok(), "{word} at {place}");
        }
        for &word in bad {
            let refused = Err(refusal(number, place as u64));
            assert_eq!(weigh(&with(words, place, word), room(3)), refused, "{word} at {place}");
        }
    }
}

/// Refusals 2 and 4: the counts and the facts. A wrong count is judged before the words it asks for.
#[test]
fn counts_and_facts() {
    let words = plain(0, 0);
    limits(&words, &[0], &[4], &[0, 3, 8, MOST], 2);
    limits(&words, &[5], &[2], &[0, 1_001, MOST], 2);
    limits(&words, &[14], &[3], &[0, 33, MOST], 2);
    limits(&words, &[1], &[0], &[3, MOST], 4);
    limits(&words, &[2], &[0], &[2, MOST], 4);
    limits(&words, &[3, 4], &[0, 1], &[2, MOST], 4);
}

/// With five facts: the counts and the facts at their places.
#[test]
fn five_facts() {
    let words = plain_five(0, 0);
    limits(&words, &[0], &[5], &[0, 3, 8, MOST], 2);
    limits(&words, &[6], &[2], &[0, 1_001, MOST], 2);
    limits(&words, &[15], &[3], &[0, 33, MOST], 2);
    limits(&words, &[1], &[0], &[3, MOST], 4);
    limits(&words, &[3, 4, 5], &[0, 1], &[2, MOST], 4);
}

/// With six facts: the counts and the facts at their places. A sixth fact of 0 states no date, so that maturities are
/// months, and a date is too many of them.
#[test]
fn six_facts() {
    let words = plain_six(0, 72);
    limits(&words, &[0], &[6], &[0, 3, 8, MOST], 2);
    limits(&words, &[7], &[2], &[0, 1_001, MOST], 2);
    limits(&words, &[16], &[3], &[0, 33, MOST], 2);
    limits(&words, &[1], &[0], &[3, MOST], 4);
    limits(&words, &[3, 4, 5], &[0, 1], &[2, MOST], 4);
    let maturities = [19, 26, 33];
    limits(&words, &maturities, &[1, 1200], &[0, 1201, 20_300_101, MOST], 10);
    assert_eq!(weigh(&with(&words, 2, 1), 0), Err(refusal(7, 11)));
    assert_eq!(weigh(&with(&with(&words, 2, 1), 5, 1), 0), Err(refusal(16, 5)));
}

/// With seven facts: the counts and the facts at their places, in either unit. Refusal 4 at a unit that is neither.
#[test]
fn seven_facts() {
    for unit in [0, 1] {
        let words = plain_seven(unit);
        limits(&words, &[0], &[7], &[0, 3, 8, MOST], 2);
        limits(&words, &[8], &[2], &[0, 1_001, MOST], 2);
        limits(&words, &[17], &[3], &[0, 33, MOST], 2);
        limits(&words, &[1], &[0], &[3, MOST], 4);
        limits(&words, &[3, 4, 5, 7], &[0, 1], &[2, MOST], 4);
        limits(&words, &[6], &[0], &NO_DAYS, 17);
    }
}

/// The unit is judged in its place: after the facts before it, and before all later words, whether bad or missing, and
/// before words that follow and short results.
#[test]
fn unit_is_judged_in_its_place() {
    let bad = plain_seven(2);
    assert_eq!(weigh(&with(&bad, 5, 2), 0), Err(refusal(4, 5)));
    assert_eq!(weigh(&with(&bad, 6, 36), 0), Err(refusal(17, 6)));
    assert_eq!(weigh(&with(&bad, 8, 0), 0), Err(refusal(4, 7)));
    assert_eq!(weigh(&with(&bad, 11, MOST), 0), Err(refusal(4, 7)));
    assert_eq!(weigh(&bad[..8], 0), Err(refusal(4, 7)));
    assert_eq!(weigh(&bad[..7], 0), Err(refusal(1, 7)));
    assert_eq!(weigh(&[bad, vec![0]].concat(), 0), Err(refusal(4, 7)));
}

/// Refusal 6 by the unit: above 1250 in whole percent, above 125,000 in hundredths.
#[test]
fn risk_weights_by_their_unit() {
    let weights = [11, 15];
    limits(&plain_seven(0), &weights, &[0, 1, 1250], &[1251, 125_000, MOST], 6);
    let hundredths = [0, 1, 1250, 1251, 3_750, 12_550, 125_000];
    limits(&plain_seven(1), &weights, &hundredths, &[125_001, 12_500_000, MOST], 6);
}

/// Words other than 0 that name no day of the years 2000 to 2199.
const NO_DAYS: [u64; 22] = [
    1,
    36,
    1_200,
    1_201,
    101,
    19_991_231,
    20_000_001,
    20_000_100,
    20_000_132,
    20_000_230,
    20_010_229,
    20_240_431,
    20_241_301,
    21_000_229,
    21_991_232,
    22_000_101,
    22_000_229,
    2_024_020_100,
    20_240_201 + (1 << 32),
    20_240_201 + (1 << 63),
    MOST - 1,
    MOST,
];

/// Refusal 17 at the reporting date: no such day, another year, or a word of any size.
#[test]
fn reporting_dates() {
    let words = plain_six(20_240_131, 20_991_231);
    let good = [20_000_101, 20_000_229, 20_040_229, 20_240_430, 20_960_229, 20_991_230];
    limits(&words, &[6], &good, &NO_DAYS, 17);
    let late = plain_six(20_991_231, 21_991_231);
    limits(
        &late,
        &[6],
        &[21_000_228, 21_000_301, 21_040_229, 21_991_230],
        &NO_DAYS,
        17,
    );
}

/// Refusals 17 and 10 at the maturities of a sheet with a reporting date: 17 for a word that names no day or none after
/// that date, the date itself too; 10 for a day more than 1200 months on.
#[test]
fn maturities_as_dates() {
    let words = plain_six(20_240_131, 20_300_131);
    let maturities = [19, 26, 33];
    limits(&words, &maturities, &[20_240_201, 20_240_229, 21_240_131], &NO_DAYS, 17);
    let not_after = [
        0, 20_000_101, 20_230_201, 20_231_231, 20_240_101, 20_240_130, 20_240_131,
    ];
    limits(&words, &maturities, &[20_240_201], &not_after, 17);
    limits(
        &words,
        &maturities,
        &[21_240_131],
        &[21_240_201, 21_240_229, 21_991_231],
        10,
    );
}

/// The limit of 1200 months: the last day within it, and the day after that one, in the same month or in the next.
#[test]
fn months_at_their_limit() {
    let judged = |from, to| weigh(&plain_six(from, to), room(3)).map(|deal| deal.lines.len());
    for (from, most, above) in [
        (20_240_115, 21_240_115, 21_240_116),
        (20_000_101, 21_000_101, 21_000_102),
        (20_000_229, 21_000_228, 21_000_301),
        (20_991_230, 21_991_230, 21_991_231),
        (20_000_930, 21_000_930, 21_001_001),
    ] {
        assert_eq!(judged(from, most), Ok(3), "{from}");
        assert_eq!(judged(from, above), Err(refusal(10, 19)), "{from}");
    }
    assert_eq!(judged(20_991_231, 21_991_231), Ok(3));
}

/// A word is judged as a date before its months are: one that is no date, or not after the reporting date, gets 17
/// though its months would be outside their limits too.
#[test]
fn dates_are_judged_before_months() {
    for maturity in [0, 1_201, 22_000_101, 21_240_231, 20_240_131, MOST] {
        let words = plain_six(20_240_131, maturity);
        assert_eq!(weigh(&words, room(3)), Err(refusal(17, 19)), "{maturity}");
    }
    // The first maturity that is bad decides, by either number.
    let words = plain_six(20_240_131, 20_300_131);
    let two_bad = |first, second| weigh(&with(&with(&words, 19, first), 26, second), 0);
    assert_eq!(two_bad(21_991_231, 36), Err(refusal(10, 19)));
    assert_eq!(two_bad(36, 21_991_231), Err(refusal(17, 19)));
}

/// 17 is judged in its place: after the words before it, before all later words, bad or missing, and before words that
/// follow and short results.
#[test]
fn dates_are_judged_in_their_places() {
    let bad_date = plain_six(20_240_230, 20_300_131);
    assert_eq!(weigh(&with(&bad_date, 5, 2), 0), Err(refusal(4, 5)));
    assert_eq!(weigh(&with(&bad_date, 7, 0), 0), Err(refusal(17, 6)));
    assert_eq!(weigh(&with(&bad_date, 19, 36), 0), Err(refusal(17, 6)));
    assert_eq!(weigh(&bad_date[..7], 0), Err(refusal(17, 6)));
    assert_eq!(weigh(&bad_date[..6], 0), Err(refusal(1, 6)));
    assert_eq!(weigh(&[bad_date, vec![0]].concat(), 0), Err(refusal(17, 6)));
    let bad_maturity = plain_six(20_240_131, 36);
    assert_eq!(weigh(&with(&bad_maturity, 18, 2), 0), Err(refusal(9, 18)));
    assert_eq!(weigh(&with(&bad_maturity, 20, 301), 0), Err(refusal(17, 19)));
    assert_eq!(weigh(&bad_maturity[..20], 0), Err(refusal(17, 19)));
    assert_eq!(weigh(&bad_maturity[..19], 0), Err(refusal(1, 19)));
    assert_eq!(weigh(&[bad_maturity, vec![0]].concat(), 0), Err(refusal(17, 19)));
}

/// Refusal 16: an STC mark of 1 on a re-securitisation. A mark that is no code gets 4 there too.
#[test]
fn mark_on_a_resecuritisation() {
    let words = plain_five(1, 3);
    limits(&words, &[5], &[0], &[1], 16);
    limits(&words, &[5], &[0], &[2, MOST], 4);
}

/// 16 is judged in its place: after the facts before it, and before all later words, whether bad or missing, and before
/// words that follow and short results.
#[test]
fn mark_is_judged_in_its_place() {
    let marked = with(&plain_five(1, 3), 5, 1);
    assert_eq!(weigh(&with(&marked, 4, 2), 0), Err(refusal(4, 4)));
    assert_eq!(weigh(&with(&marked, 1, 3), 0), Err(refusal(4, 1)));
    assert_eq!(weigh(&with(&marked, 6, 0), 0), Err(refusal(16, 5)));
    assert_eq!(weigh(&with(&marked, 10, 0), 0), Err(refusal(16, 5)));
    assert_eq!(weigh(&marked[..6], 0), Err(refusal(16, 5)));
    assert_eq!(weigh(&marked[..5], 0), Err(refusal(1, 5)));
    assert_eq!(weigh(&[marked, vec![0]].concat(), 0), Err(refusal(16, 5)));
}

/// A count of five asks for a fifth fact, whatever was meant: in a sheet with four it takes the count of rows for the
/// mark, and a count of four takes the mark for the count of rows. Counts of six and seven ask for a sixth and a seventh
/// fact in the same way: a unit of 1 taken for the count of rows leaves a risk weight to be taken for a status.
#[test]
fn count_of_facts_decides() {
    assert_eq!(weigh(&with(&plain(0, 0), 0, 5), room(3)), Err(refusal(4, 5)));
    assert_eq!(weigh(&with(&plain(0, 0), 0, 6), room(3)), Err(refusal(4, 5)));
    assert_eq!(weigh(&with(&plain_five(0, 0), 0, 4), room(3)), Err(refusal(2, 5)));
    assert_eq!(weigh(&with(&plain_five(0, 0), 0, 6), room(3)), Err(refusal(17, 6)));
    for words in [plain_six(0, 72), plain_six(20_240_131, 20_300_131)] {
        assert_eq!(weigh(&with(&words, 0, 5), room(3)), Err(refusal(2, 6)));
        assert_eq!(weigh(&with(&words, 0, 7), room(3)), Err(refusal(4, 7)));
    }
    assert_eq!(weigh(&with(&plain(0, 0), 0, 7), room(3)), Err(refusal(4, 5)));
    assert_eq!(weigh(&with(&plain_five(0, 0), 0, 7), room(3)), Err(refusal(17, 6)));
    assert_eq!(weigh(&with(&plain_seven(0), 0, 6), room(3)), Err(refusal(2, 7)));
    assert_eq!(weigh(&with(&plain_seven(1), 0, 6), room(3)), Err(refusal(7, 11)));
}

/// A section at the least values of a mixed pool, and one at the most values of any.
const SECTIONS: [Irb; 2] = [
    [0, 0, 1, 0, 0, 0],
    [1_000_000, 1_000_000, 1_000_000, 1, 1_000_000, 125_000],
];

/// A sheet like the plain one, of a pool of kind 1 or 2 with this section: its count stands at 36, its words from 37
/// on.
fn plain_irb(kind: u64, resecuritisation: u64, due_diligence: u64, irb: Irb) -> Vec<u64> {
    let status = 3 * resecuritisation;
    let words = plain_with(&[kind, resecuritisation, due_diligence, 0], status, 72);
    [words, vec![1], irb.to_vec()].concat()
}

/// All such sheets: of both kinds, ordinary or a re-securitisation, with and without due diligence. That of an IRB pool
/// has the whole as its share.
fn all_plain_irb() -> Vec<Vec<u64>> {
    let mut sheets = Vec::new();
    for (kind, irb) in [(1, SECTIONS[1]), (2, SECTIONS[0]), (2, SECTIONS[1])] {
        for (resecuritisation, due_diligence) in [(0, 0), (0, 1), (1, 0), (1, 1)] {
            sheets.push(plain_irb(kind, resecuritisation, due_diligence, irb));
        }
    }
    sheets
}

/// Refusals 2 and 18 in the IRB section: its count, and each of its words, in any deal.
#[test]
fn irb_section() {
    for words in all_plain_irb() {
        limits(&words, &[36], &[1], &[0, 2, MOST], 2);
        limits(&words, &[37, 38], &[0, 1, 1_000_000], &[1_000_001, MOST], 18);
        limits(&words, &[39], &[1, 24, 25, 1_000_000], &[0, 1_000_001, MOST], 18);
        limits(&words, &[40], &[0, 1], &[2, MOST], 18);
        limits(&words, &[42], &[0, 1_500, 125_000], &[125_001, MOST], 18);
        let shares = [0, 949_999, 950_000, 999_999];
        let (good, bad) = if words[1] == 1 {
            (&[][..], &shares[..])
        } else {
            (&shares[..], &[][..])
        };
        limits(&words, &[41], good, bad, 18);
        limits(&words, &[41], &[1_000_000], &[1_000_001, MOST], 18);
    }
}

/// Refusal 18 at the section's average in either unit of the risk weight word: its limit is 125,000 in both.
#[test]
fn irb_average_in_either_unit() {
    for unit in [0, 1] {
        let words = plain_with(&[2, 0, 0, 0, 0, 0, unit], 0, 72);
        let words = [words, vec![1], SECTIONS[0].to_vec()].concat();
        limits(&words, &[45], &[0, 1_251, 125_000], &[125_001, MOST], 18);
    }
}

/// The section belongs to kinds 1 and 2: without it they lack a word after the tranches; with kind 0 its words follow
/// the last section; kind 3 is no code.
#[test]
fn irb_section_by_the_pool_kind() {
    for words in all_plain_irb() {
        assert_eq!(weigh(&with(&words, 1, 0), room(3)), Err(refusal(3, 36)));
        assert_eq!(weigh(&with(&words, 1, 3), room(3)), Err(refusal(4, 1)));
        assert_eq!(weigh(&words[..36], room(3)), Err(refusal(1, 36)));
    }
    for kind in [1, 2] {
        assert_eq!(weigh(&with(&plain(0, 0), 1, kind), room(3)), Err(refusal(1, 36)));
    }
}

/// The section is judged in its place: after all words before it, word by word, before words that follow and short
/// results.
#[test]
fn irb_section_is_judged_in_its_place() {
    let words = plain_irb(1, 0, 1, SECTIONS[1]);
    let bad_at = |places: &[usize]| {
        places
            .iter()
            .fold(words.clone(), |words, &place| with(&words, place, MOST))
    };
    assert_eq!(weigh(&bad_at(&[35, 36]), 0), Err(refusal(11, 35)));
    assert_eq!(weigh(&bad_at(&[36, 37]), 0), Err(refusal(2, 36)));
    for place in 37..42 {
        assert_eq!(weigh(&bad_at(&[place, place + 1]), 0), Err(refusal(18, place as u64)));
        assert_eq!(weigh(&bad_at(&[place])[..place + 1], 0), Err(refusal(18, place as u64)));
        assert_eq!(weigh(&words[..place], 0), Err(refusal(1, place as u64)));
    }
    let follows = |words: &[u64]| weigh(&[words, &[0]].concat(), 0);
    assert_eq!(follows(&bad_at(&[42])), Err(refusal(18, 42)));
    assert_eq!(follows(&words), Err(refusal(3, 43)));
    assert_eq!(weigh(&words, room(3) - 1), Err(refusal(14, 0)));
}

/// Refusals 5, 6 and 7: the pool rows, in an ordinary deal and in a re-securitisation.
#[test]
fn pool_rows() {
    let words = plain(0, 0);
    limits(
        &words,
        &[6, 7, 10, 11],
        &[1, 10_000_000_000],
        &[0, 10_000_000_001, MOST],
        5,
    );
    limits(&words, &[8, 12], &[0, 1250], &[1251, MOST], 6);
    limits(&words, &[9, 13], &[0, 1, 2], &[3, 4, MOST], 7);
    limits(&plain(1, 3), &[9, 13], &[3], &[0, 1, 2, 4, MOST], 7);
}

/// Refusals 8, 9, 10 and 11: the tranche rows. The ratings of a re-securitisation are checked too.
#[test]
fn tranche_rows() {
    let words = plain(0, 0);
    limits(
        &words,
        &[15, 22, 29],
        &[1, 10_000_000_000_000],
        &[0, 10_000_000_000_001, MOST],
        8,
    );
    limits(&words, &[18, 25, 32], &[0, 300], &[301, MOST], 8);
    limits(&words, &[16], &[1], &[0, 2, MOST], 9);
    limits(&words, &[23], &[1, 2], &[0, 3, MOST], 9);
    limits(&words, &[30], &[2, 3], &[0, 1, 4, MOST], 9);
    limits(&words, &[17, 24, 31], &[1, 1200], &[0, 1201, MOST], 10);
    let codes: Vec<u64> = (0..=18).chain(21..=24).collect();
    for words in [words, plain(1, 3)] {
        limits(
            &words,
            &[19, 20, 21, 26, 27, 28, 33, 34, 35],
            &codes,
            &[19, 20, 25, MOST],
            11,
        );
    }
}

/// The counts at their limits: one row and one tranche, the most rows and the most tranches.
#[test]
fn counts_at_their_limits() {
    for (rows, tranches) in [(1, 1), (1, TRANCHES_MOST), (ROWS_MOST, 1), (ROWS_MOST, TRANCHES_MOST)] {
        let (pool, list) = (vec![[1, 1, 0, 0]; rows], vec![[1, 1, 1, 0, 0, 0, 0]; tranches]);
        for words in [
            sheet(&[0, 0, 0, 0], &pool, &list),
            sheet_with(SECTIONS[1], &[1, 0, 0, 0], &pool, &list),
        ] {
            assert_eq!(weigh(&words, MOST).map(|deal| deal.lines.len()), Ok(tranches));
        }
    }
}

/// Refusal 1: a sheet cut short anywhere lacks a needed word, at its length.
#[test]
fn missing_words() {
    for words in [
        plain(0, 0),
        plain_five(0, 0),
        plain_six(0, 72),
        plain_six(20_240_131, 20_300_131),
        plain_seven(0),
        plain_seven(1),
        plain_irb(1, 1, 1, SECTIONS[1]),
        plain_irb(2, 0, 0, SECTIONS[0]),
    ] {
        for length in 0..words.len() {
            assert_eq!(weigh(&words[..length], room(3)), Err(refusal(1, length as u64)));
        }
    }
}

/// Refusal 3: words that follow, at the first of them, whatever they are.
#[test]
fn words_that_follow() {
    let words = plain(0, 0);
    for more in [vec![0], vec![MOST, 0, 1]] {
        assert_eq!(weigh(&[words.clone(), more].concat(), room(3)), Err(refusal(3, 36)));
    }
}

/// The first bad word decides, before a later bad word, a missing word, words that follow and short results.
#[test]
fn first_bad_word_decides() {
    let words = plain(0, 0);
    let bad_at = |places: &[usize]| {
        places
            .iter()
            .fold(words.clone(), |words, &place| with(&words, place, MOST))
    };
    assert_eq!(weigh(&bad_at(&[13, 8, 30]), 0), Err(refusal(6, 8)));
    assert_eq!(weigh(&bad_at(&[1, 2]), 0), Err(refusal(4, 1)));
    assert_eq!(weigh(&with(&bad_at(&[2]), 1, 2), 0), Err(refusal(4, 2)));
    assert_eq!(weigh(&bad_at(&[0, 1]), 0), Err(refusal(2, 0)));
    assert_eq!(weigh(&bad_at(&[9])[..12], 0), Err(refusal(7, 9)));
    assert_eq!(weigh(&bad_at(&[14])[..15], 0), Err(refusal(2, 14)));
    assert_eq!(weigh(&[bad_at(&[35]), vec![0]].concat(), 0), Err(refusal(11, 35)));
    assert_eq!(weigh(&words[..35], 0), Err(refusal(1, 35)));
    // An amount above its limit is judged before the amount held, and the class before both held and maturity.
    assert_eq!(weigh(&bad_at(&[15, 18]), 0), Err(refusal(8, 15)));
    assert_eq!(weigh(&bad_at(&[16, 17, 18]), 0), Err(refusal(9, 16)));
    assert_eq!(weigh(&bad_at(&[17, 18]), 0), Err(refusal(10, 17)));
}

/// A deal whose third tranche, at place 25, is so thin that A equals D. The charge is 8,000, far below.
fn thin(facts: Facts, status: u64, rating: u64) -> Vec<u64> {
    let tranche = |amount, class| [amount, class, 72, 0, rating, 0, 0];
    let pool = [[10_000_000_000, 10_000_000_000, 10, status]];
    sheet(facts, &pool, &[tranche(1_000_000, 1), tranche(1, 2), tranche(1, 3)])
}

/// Refusal 14: room for less than seven words per tranche, six for each too. After 3, before 13.
#[test]
fn short_results() {
    let words = plain(0, 0);
    assert_eq!(room(1), 7);
    for short in [0, 6 * 3, room(3) - 1] {
        assert_eq!(weigh(&words, short), Err(refusal(14, 0)));
        assert_eq!(weigh(&[words.clone(), vec![0]].concat(), short), Err(refusal(3, 36)));
        assert_eq!(weigh(&thin(&[0, 0, 1, 1], 0, 0), short), Err(refusal(14, 0)));
    }
    assert!(weigh(&words, room(3)).is_ok() && weigh(&words, MOST).is_ok());
}

/// Refusal 13: at the first tranche in order, in ordinary deals and re-securitisations, where SEC-SA applies and D is
/// above the charge. Not with a rating, not without due diligence, not with D at or below the charge.
#[test]
fn no_thickness() {
    // N less 1,000,000 is 999,900 millionths; one unit less rounds down to 999,899, and another one stays there.
    assert_eq!(weigh(&thin(&[0, 0, 1, 1], 0, 0), room(3)), Err(refusal(13, 25)));
    assert_eq!(weigh(&thin(&[0, 1, 1, 1], 3, 24), room(3)), Err(refusal(13, 25)));
    assert!(weigh(&thin(&[0, 0, 1, 1], 0, 18), room(3)).is_ok());
    assert!(weigh(&thin(&[0, 0, 0, 1], 0, 0), room(3)).is_ok());
    // With 1 in class 1, the points below it are all 999,999: the second tranche is refused before the third.
    let two_thin = with(&thin(&[0, 0, 1, 1], 0, 0), 11, 1);
    assert_eq!(weigh(&two_thin, room(3)), Err(refusal(13, 18)));
    let high_charge = with(&thin(&[0, 0, 1, 1], 0, 0), 8, 1250);
    assert!(weigh(&high_charge, room(3)).is_ok());
    // In an STC deal too, at a place that is one higher.
    assert_eq!(weigh(&thin(&[0, 0, 1, 1, 1], 0, 0), room(3)), Err(refusal(13, 26)));
    assert!(weigh(&thin(&[0, 0, 1, 1, 1], 0, 18), room(3)).is_ok());
    // With a sixth fact it is two higher, and with a seventh three.
    assert_eq!(weigh(&thin(&[0, 0, 1, 1, 0, 0], 0, 0), room(3)), Err(refusal(13, 27)));
    assert_eq!(
        weigh(&thin(&[0, 0, 1, 1, 0, 0, 1], 0, 0), room(3)),
        Err(refusal(13, 28))
    );
}

/// Refusal 13 under SEC-IRBA, with and without a rating, by the charge of S-5: A equals D at 999,899 millionths, which
/// an IRB charge meets or not. A share below 950,000 leaves document 01's charge and the ratings; a re-securitisation
/// that charge alone.
#[test]
fn no_thickness_under_sec_irba() {
    let judged = |facts: [u64; 4], rating, charge, share| {
        let words = thin(&facts, 3 * facts[1], rating);
        let section = [1, charge, 0, 1, 0, share, 0];
        weigh(&[&words[..], &section].concat(), room(3)).map(|deal| deal.charge)
    };
    for rating in [0, 18] {
        assert_eq!(judged([1, 0, 1, 1], rating, 999_898, 1_000_000), Err(refusal(13, 25)));
        assert_eq!(judged([1, 0, 1, 1], rating, 999_899, 1_000_000), Ok(999_899));
        // (950,000 x 10^6 + 50,000 x 8,000) / 10^6, below the points.
        assert_eq!(judged([2, 0, 1, 1], rating, 1_000_000, 950_000), Err(refusal(13, 25)));
        assert_eq!(judged([1, 1, 1, 1], rating, 1_000_000, 1_000_000), Err(refusal(13, 25)));
        assert_eq!(judged([1, 0, 0, 1], rating, 0, 1_000_000), Ok(8_000));
    }
    assert_eq!(judged([2, 0, 1, 1], 0, 1_000_000, 949_999), Err(refusal(13, 25)));
    assert_eq!(judged([2, 0, 1, 1], 18, 1_000_000, 949_999), Ok(8_000));
}

/// A equal to D at the charge is accepted, one millionth above the charge it is refused.
#[test]
fn no_thickness_at_the_charge() {
    // One row at 125% has charge 100,000. Class 2 holds 1 of 10^10, at the points that class 1 leaves.
    let deal = |left: u64| {
        let first = 10_000_000_000 - left;
        let pool = [[10_000_000_000, 10_000_000_000, 125, 0]];
        weigh(
            &sheet(
                &[0, 0, 1, 1],
                &pool,
                &[[first, 1, 72, 0, 0, 0, 0], [1, 2, 72, 1, 0, 0, 0]],
            ),
            room(2),
        )
    };
    let at_charge = deal(1_000_000_001).expect("D is at the charge");
    assert_eq!((at_charge.charge, at_charge.lines[1].attachment), (100_000, 100_000));
    assert_eq!(
        (at_charge.lines[1].detachment, at_charge.lines[1].amounts[0].weight),
        (100_000, 125_000)
    );
    assert_eq!(deal(1_000_010_001), Err(refusal(13, 18)));
}

/// Refusal 15: a length that is not a multiple of 8 or over the most, which is 33,928 bytes, before all others, at
/// place 0.
#[test]
fn file_lengths() {
    let bytes = file(&plain(0, 0));
    assert_eq!(weigh_file(&bytes, room(3)), weigh(&plain(0, 0), room(3)));
    assert_eq!(weigh_file(&[], 0), Err(refusal(1, 0)));
    for length in (1..bytes.len()).filter(|length| length % 8 != 0) {
        assert_eq!(weigh_file(&bytes[..length], 0), Err(refusal(15, 0)));
    }
    assert_eq!(weigh_file(&bytes[..16], 0), Err(refusal(1, 2)));
    assert_eq!(FILE_BYTES, 33_928);
    assert_eq!(weigh_file(&[255; FILE_BYTES], 0), Err(refusal(2, 0)));
    assert_eq!(weigh_file(&[255; FILE_BYTES + 8], 0), Err(refusal(15, 0)));
    assert_eq!(weigh_file(&[255; FILE_BYTES - 1], 0), Err(refusal(15, 0)));
}
