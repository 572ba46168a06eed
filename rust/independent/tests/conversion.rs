//! The converter of S-9 as whole sheets: what is rewritten and what stays, its refusals in their order, and the answers
//! to the sheet that it writes.

mod common;

use common::{file, room, sheet, sheet_with, Facts, Irb, Row, Tranche};
use independent::sheet::{FILE_BYTES, ROWS_MOST, TRANCHES_MOST};
use independent::{block_sums, convert, weigh, Refusal};

/// A word above all limits, and more room than any sheet needs.
const MOST: u64 = u64::MAX;

/// A refusal, shorter to write.
fn refused(number: u64, place: u64) -> Result<Vec<u64>, Refusal> {
    Err(Refusal { number, place })
}

/// A sheet with one word changed.
fn with(words: &[u64], place: usize, word: u64) -> Vec<u64> {
    let mut changed = words.to_vec();
    changed[place] = word;
    changed
}

/// Facts of four to six words, the six that they are filled to before the unit, and a maturity in their form.
const SHORTER: [(Facts, [u64; 6], u64); 4] = [
    (&[0, 0, 1, 1], [0, 0, 1, 1, 0, 0], 72),
    (&[0, 0, 1, 0, 1], [0, 0, 1, 0, 1, 0], 36),
    (&[0, 0, 0, 1, 0, 0], [0, 0, 0, 1, 0, 0], 1_200),
    (&[0, 0, 1, 1, 1, 20_240_131], [0, 0, 1, 1, 1, 20_240_131], 20_300_131),
];

/// Seven facts: six and the unit.
fn seven(facts: [u64; 6], unit: u64) -> Vec<u64> {
    [&facts[..], &[unit]].concat()
}

/// The same risk weights in whole percent and in hundredths.
const WEIGHTS: [[u64; 3]; 2] = [[37, 0, 1_250], [3_700, 0, 125_000]];

/// Rows with these risk weights. Some amounts are multiples of 100, some are not.
fn pool([first, second, third]: [u64; 3]) -> [Row; 3] {
    [[100, 12_500, first, 0], [3_750, 40_000, second, 1], [5, 99, third, 2]]
}

/// Tranches of this maturity.
fn tranches(maturity: u64) -> [Tranche; 2] {
    [[12_500, 1, maturity, 700, 3, 0, 22], [1_250, 2, maturity, 33, 0, 0, 0]]
}

/// An IRB section whose average is a multiple of 100, and one whose average is not.
const SECTIONS: [Irb; 2] = [
    [60_000, 450_000, 100, 0, 1_000_000, 8_500],
    [60_001, 450_050, 25, 1, 1_000_000, 12_550],
];

/// A sheet of seven facts with three rows, in whole percent or in hundredths. The risk weights stand at 11, 15 and 19.
fn in_unit(unit: u64) -> Vec<u64> {
    let facts = seven([0, 0, 1, 1, 0, 0], unit);
    sheet(&facts, &pool(WEIGHTS[unit as usize]), &tranches(72))
}

/// Sheets with four to seven facts, in both units where they have seven, without a section and with one.
fn sheets() -> Vec<Vec<u64>> {
    let mut sheets = vec![in_unit(0), in_unit(1)];
    for (facts, filled, maturity) in SHORTER {
        sheets.push(sheet(facts, &pool(WEIGHTS[0]), &tranches(maturity)));
        let mut irb_pool = seven(filled, 1);
        irb_pool[0] = 1;
        let words = sheet_with(SECTIONS[1], &irb_pool, &pool(WEIGHTS[1]), &tranches(maturity));
        sheets.push(words);
    }
    sheets
}

/// A sheet of four facts, word by word: up to hundredths, down to percent with the facts filled, and up again.
#[test]
fn four_facts() {
    let given = [
        4, 0, 0, 1, 1, 2, 950, 900, 100, 0, 50, 100, 37, 1, 1, 800, 1, 72, 800, 1, 0, 0,
    ];
    let up = vec![
        7, 0, 0, 1, 1, 0, 0, 1, 2, 950, 900, 10_000, 0, 50, 100, 3_700, 1, 1, 800, 1, 72, 800, 1, 0, 0,
    ];
    let down = vec![
        7, 0, 0, 1, 1, 0, 0, 0, 2, 950, 900, 100, 0, 50, 100, 37, 1, 1, 800, 1, 72, 800, 1, 0, 0,
    ];
    assert_eq!(convert(&given, MOST), Ok(up.clone()));
    assert_eq!(convert(&up, MOST), Ok(down.clone()));
    assert_eq!(convert(&down, MOST), Ok(up));
}

/// Facts are filled with zeros up to the unit, which is flipped, and the risk weights change. Amounts, tranches and
/// dates stay. Converting twice gives the filled sheet.
#[test]
fn facts_unit_and_weights() {
    for (facts, filled, maturity) in SHORTER {
        let of = |facts: Facts, weights| sheet(facts, &pool(weights), &tranches(maturity));
        let [percent, hundredths] = [0, 1].map(|unit| of(&seven(filled, unit), WEIGHTS[unit as usize]));
        assert_eq!(convert(&of(facts, WEIGHTS[0]), MOST).as_ref(), Ok(&hundredths));
        assert_eq!(convert(&percent, MOST).as_ref(), Ok(&hundredths));
        assert_eq!(convert(&hundredths, MOST).as_ref(), Ok(&percent));
    }
}

/// An IRB section stays as it is in either direction, its average too, multiple of 100 or not.
#[test]
fn section_stays() {
    for irb in SECTIONS {
        for kind in [1, 2] {
            let of = |facts: Facts, weights| sheet_with(irb, facts, &pool(weights), &tranches(72));
            let four = of(&[kind, 0, 1, 1], WEIGHTS[0]);
            let [percent, hundredths] = [0, 1].map(|unit| of(&[kind, 0, 1, 1, 0, 0, unit], WEIGHTS[unit as usize]));
            assert_eq!(convert(&four, MOST).as_ref(), Ok(&hundredths));
            assert_eq!(convert(&percent, MOST).as_ref(), Ok(&hundredths));
            assert_eq!(convert(&hundredths, MOST).as_ref(), Ok(&percent));
        }
    }
}

/// Every whole percent has its hundredths, and back.
#[test]
fn every_whole_percent() {
    let [percent, hundredths] = [in_unit(0), in_unit(1)];
    for weight in 0..=1_250 {
        let [low, high] = [with(&percent, 15, weight), with(&hundredths, 15, 100 * weight)];
        assert_eq!(convert(&low, MOST).as_ref(), Ok(&high));
        assert_eq!(convert(&high, MOST), Ok(low));
    }
}

/// The words are refused as in weighing, at the places of the sheet as given, whatever the room: bad ones, missing
/// ones, and those that follow.
#[test]
fn words_are_refused() {
    assert_eq!(convert(&[4, 0, 0, 1, 1, 1, 1, 1, 1_251, 0], MOST), refused(6, 8));
    for words in sheets() {
        for place in 0..words.len() {
            let bad = with(&words, place, MOST);
            let refusal = weigh(&bad, MOST).expect_err("a bad word");
            assert_eq!(refusal.place, place as u64);
            for room in [0, MOST] {
                assert_eq!(convert(&bad, room), Err(refusal));
                assert_eq!(convert(&words[..place], room), refused(1, place as u64));
            }
        }
        for more in [&[0][..], &[MOST, 0, 1]] {
            let longer = [&words[..], more].concat();
            assert_eq!(convert(&longer, 0), refused(3, words.len() as u64));
        }
    }
}

/// Neither three facts nor eight are a count, and 2 is no unit. A risk weight is at most 1250 in whole percent and
/// 125,000 in hundredths, where 1250 is no limit.
#[test]
fn counts_units_and_limits() {
    let sheets = [in_unit(0), in_unit(1)];
    for words in &sheets {
        for count in [3, 8] {
            assert_eq!(convert(&with(words, 0, count), MOST), refused(2, 0));
        }
        assert_eq!(convert(&with(words, 7, 2), MOST), refused(4, 7));
    }
    let weight = |unit: usize, word| convert(&with(&sheets[unit], 11, word), MOST).map(|words| words[11]);
    let refused = |number| Err(Refusal { number, place: 11 });
    assert_eq!([1_250, 1_251].map(|word| weight(0, word)), [Ok(125_000), refused(6)]);
    assert_eq!([125_000, 125_001].map(|word| weight(1, word)), [Ok(1_250), refused(6)]);
    assert_eq!(
        [1_200, 1_250, 1_251, 1_300].map(|word| weight(1, word)),
        [Ok(12), refused(19), refused(19), Ok(13)]
    );
}

/// Refusal 19: going down to percent, at the first of the risk weights that are no multiple of 100. 12,550 is not cut
/// to 125, and 37.5% has no word.
#[test]
fn parts_of_a_percent() {
    let words = in_unit(1);
    let bad_at = |places: &[usize], weight| {
        places
            .iter()
            .fold(words.clone(), |words, &place| with(&words, place, weight))
    };
    for weight in [1, 50, 99, 101, 3_750, 12_550, 124_999] {
        for place in [11, 15, 19] {
            assert_eq!(convert(&bad_at(&[place], weight), MOST), refused(19, place as u64));
        }
        assert_eq!(convert(&bad_at(&[15, 19], weight), MOST), refused(19, 15));
        assert_eq!(convert(&bad_at(&[19, 11], weight), MOST), refused(19, 11));
    }
}

/// 19 comes after the refusals of all words, later ones and missing ones too, and after 3. It comes before 14.
#[test]
fn parts_are_judged_after_the_words() {
    let facts = [1, 0, 1, 1, 0, 0, 1];
    let words = sheet_with(SECTIONS[0], &facts, &pool([3_750, 0, 50]), &tranches(72));
    for room in [0, words.len() as u64 - 1, words.len() as u64, MOST] {
        assert_eq!(convert(&words, room), refused(19, 11));
    }
    for place in 0..words.len() {
        let bad = convert(&with(&words, place, MOST), MOST).expect_err("a bad word");
        assert!(bad.place == place as u64 && bad.number != 19, "{bad:?}");
        assert_eq!(convert(&words[..place], MOST), refused(1, place as u64));
    }
    assert_eq!(convert(&with(&words, 15, 125_001), MOST), refused(6, 15));
    let longer = [&words[..], &[0]].concat();
    assert_eq!(convert(&longer, MOST), refused(3, words.len() as u64));
}

/// Refusal 14 at place 0: an output shorter than the rewritten sheet, which has a word more for each fact that is
/// filled. An exact fit is enough.
#[test]
fn short_output() {
    for words in sheets() {
        let length = words.len() as u64 + 7 - words[0];
        let written = convert(&words, length).expect("an exact fit");
        assert_eq!(written.len() as u64, length);
        assert_eq!(convert(&words, MOST), Ok(written));
        for room in [0, 1, length - 1] {
            assert_eq!(convert(&words, room), refused(14, 0));
        }
    }
}

/// A deal of which the third tranche is so thin that A equals D, far above the charge.
fn thin(facts: Facts, weight: u64) -> Vec<u64> {
    let tranche = |amount, class| [amount, class, 72, 0, 0, 0, 0];
    let pool = [[10_000_000_000, 10_000_000_000, weight, 0]];
    sheet(facts, &pool, &[tranche(1_000_000, 1), tranche(1, 2), tranche(1, 3)])
}

/// 13 is not judged: a sheet that meets it is converted to one that meets it, at a place moved by the facts filled.
#[test]
fn no_thickness() {
    let all = [0, 0, 1, 1, 0, 0, 0];
    let [percent, hundredths] = [thin(&all, 10), thin(&seven([0, 0, 1, 1, 0, 0], 1), 1_000)];
    let meets = |words: &[u64]| weigh(words, room(3)).expect_err("a tranche without thickness");
    for facts in 4..=7 {
        let given = thin(&all[..facts], 10);
        let place = 21 + facts as u64;
        assert_eq!(meets(&given), Refusal { number: 13, place });
        assert_eq!(convert(&given, MOST).as_ref(), Ok(&hundredths));
    }
    assert_eq!(meets(&hundredths), Refusal { number: 13, place: 28 });
    assert_eq!(convert(&hundredths, MOST), Ok(percent));
}

/// Holds the converted sheet to the charge, the lines and the sums of the given one.
fn same_answers(words: &[u64], tranches: usize) {
    let written = convert(words, MOST).expect("a sheet with a form in the other unit");
    let deal = weigh(words, room(tranches)).expect("an accepted sheet");
    assert_eq!(weigh(&written, room(tranches)), Ok(deal));
    let sums = block_sums(words, 0).expect("good words");
    assert_eq!(block_sums(&written, 0), Ok(sums));
}

/// The converted sheet has the charge, the lines and the sums of the given one: in ordinary deals, STC deals and
/// re-securitisations, with and without due diligence, under SEC-IRBA, and with dates.
#[test]
fn answers_stay() {
    for words in sheets() {
        same_answers(&words, 2);
    }
    for composition in [0, 1] {
        let facts = [0, 1, 1, composition];
        let pool = [[2, 700, 100, 3], [1, 300, 50, 3]];
        same_answers(&sheet(&facts, &pool, &[[800, 1, 72, 800, 0, 0, 0]]), 1);
    }
    let sample = [
        4, 0, 0, 1, 1, 2, 950, 950, 100, 0, 50, 50, 100, 1, 3, 800, 1, 72, 800, 1, 0, 0, 150, 2, 72, 100, 9, 0, 0, 50,
        3, 72, 50, 0, 0, 0,
    ];
    same_answers(&sample, 3);
    same_answers(&convert(&sample, MOST).expect("whole percents"), 3);
}

/// The largest sheet of four facts and a section is rewritten to the largest sheet. A last row whose weight is no
/// multiple of 100 decides.
#[test]
fn largest_sheet() {
    let of = |facts: Facts, weight| {
        let pool = vec![[10_000_000_000, 10_000_000_000, weight, 0]; ROWS_MOST];
        let tranches = [[10_000_000_000_000, 1, 72, 0, 0, 0, 0]; TRANCHES_MOST];
        sheet_with(SECTIONS[0], facts, &pool, &tranches)
    };
    let [percent, hundredths] = [(0, 1_250), (1, 125_000)].map(|(unit, weight)| of(&[1, 0, 1, 1, 0, 0, unit], weight));
    assert_eq!(convert(&of(&[1, 0, 1, 1], 1_250), MOST).as_ref(), Ok(&hundredths));
    assert_eq!(convert(&hundredths, MOST), Ok(percent));
    assert_eq!(file(&hundredths).len(), FILE_BYTES);
    let last = 11 + 4 * (ROWS_MOST - 1);
    assert_eq!(
        convert(&with(&hundredths, last, 124_999), MOST),
        refused(19, last as u64)
    );
}
