//! A sheet in the other unit (document 02, S-9).

use crate::checked_deal::{ordinary, resecuritised, tranche, with_rows_and_tranches, RESULTS, WORDS};
use crate::dates::{dated, MATURITY, REPORTING_DATE};
use crate::irb::FIGURES;
use crate::places::{risk_weights, row_count, with_facts, with_irb, FACT_COUNT, UNIT};
use crate::refusals::{hold, refused, thin};
use crate::results::weighed;
use crate::texts::largest_sheet;
use crate::units::{in_hundredths, IN_HUNDREDTHS};
use std::error::Error;
use tranche_weights::{convert_words, reply_to_conversion, ConversionReply, Reason, Reply, MOST_FACTS, SHEET_WORDS};

/// The sheet with all facts, those that it leaves out as 0.
fn filled(words: &[u64]) -> Vec<u64> {
    let (facts, sections) = words.split_at(row_count(words));
    let left_out = 1 + MOST_FACTS - facts.len();
    let mut filled = [facts, &vec![0; left_out], sections].concat();
    filled[FACT_COUNT] = MOST_FACTS as u64;
    filled
}

/// The sheet in the other unit, as document 02 describes it; its weights are whole percents.
fn in_other_unit(words: &[u64]) -> Vec<u64> {
    let mut other = filled(words);
    let to_hundredths = other[UNIT] == 0;
    other[UNIT] = u64::from(to_hundredths);
    for place in risk_weights(&filled(words)) {
        other[place] = if to_hundredths {
            other[place] * 100
        } else {
            other[place] / 100
        };
    }
    other
}

/// Words of which no two are alike, for an output of this length.
fn before(room: usize) -> Vec<u64> {
    (900..).take(room).collect()
}

/// Holds what is written of a sheet: the words given, where they just fit and where there is more room, and then later
/// words are as they were.
fn hold_written(words: &[u64], written: &[u64]) {
    for room in [written.len(), written.len() + 1, SHEET_WORDS] {
        let mut output = before(room);
        let reply = reply_to_conversion(words, &mut output);
        assert_eq!(reply, ConversionReply::writing(written.len() as u64), "{words:?}");
        assert_eq!(output, [written, &before(room)[written.len()..]].concat(), "{words:?}");
        assert_eq!(convert_words(words, &mut output), Ok(written.len()));
    }
}

/// Holds a refusal: its number, place and reason, and that nothing is written.
fn hold_refused(words: &[u64], room: usize, number: u64, place: u64, reason: Reason) {
    let mut output = before(room);
    hold(convert_words(words, &mut output).unwrap_err(), number, place, reason);
    let reply = ConversionReply::refusing(number, place);
    assert_eq!(reply_to_conversion(words, &mut output), reply, "{words:?}");
    assert_eq!(output, before(room), "{words:?}");
}

/// Holds a sheet whose words are good and whose weights are whole percents: it is converted, and the converted one is
/// converted back to the sheet with all its facts; with too little room, nothing is written. All of them get the same
/// answer, but that the place of a refusal, of a tranche's amount, moves with the facts.
pub fn hold_conversion(words: &[u64]) {
    let (filled, other) = (filled(words), in_other_unit(words));
    hold_written(words, &other);
    hold_written(&other, &filled);
    for room in [0, words.len().min(other.len() - 1), other.len() - 1] {
        hold_refused(words, room, 14, 0, Reason::Room);
    }
    let (given, lines) = weighed(words);
    let moved = match given.number {
        0 => given,
        number => Reply::refusing(number, given.place + (other.len() - words.len()) as u64),
    };
    for converted in [&other, &filled] {
        assert!(weighed(converted) == (moved, lines), "{words:?}");
    }
}

/// The sheets of the checked deal are those that are written out.
#[test]
fn the_checked_deal_is_converted() {
    hold_written(&WORDS, &IN_HUNDREDTHS);
    hold_written(&IN_HUNDREDTHS, &with_facts(&WORDS, &[0, 0, 0]));
    assert_eq!(in_other_unit(&WORDS), IN_HUNDREDTHS);
    let (reply, results) = weighed(&IN_HUNDREDTHS);
    assert_eq!((reply.count, &results[..RESULTS.len()]), (3, &RESULTS[..]));
}

/// Sheets of four to seven facts are converted, of every kind of deal, with the IRB section and without, also where a
/// tranche is too thin, which is not judged here.
#[test]
fn every_kind_of_sheet_is_converted() {
    let mixed = with_irb(&WORDS, 2, FIGURES);
    for words in [&WORDS[..], &resecuritised(), &mixed, &thin()] {
        for further in [&[][..], &[0], &[0, 0], &[0, 0, 0]] {
            hold_conversion(&with_facts(words, further));
        }
        hold_conversion(&in_hundredths(words, 0, 0));
    }
    hold_conversion(&with_facts(&mixed, &[1]));
    hold_conversion(&dated(&WORDS, REPORTING_DATE, MATURITY));
    assert_eq!(weighed(&thin()).0, Reply::refusing(13, 18));
}

/// The largest sheet is converted, and the same in whole percent, with all facts and without the unit.
#[test]
fn the_largest_sheet_is_converted() {
    let largest = largest_sheet();
    assert_eq!(largest.len(), SHEET_WORDS);
    hold_conversion(&largest);
    let mut in_percent = in_other_unit(&largest);
    hold_conversion(&in_percent);
    in_percent.remove(UNIT);
    in_percent[FACT_COUNT] -= 1;
    hold_conversion(&in_percent);
}

/// Words that are refused are refused with the same number and place, whatever the room; one with a tranche that is too
/// thin is converted.
#[test]
fn words_alone_are_refused() {
    for (words, number, place, reason) in refused() {
        if number == 13 {
            hold_conversion(&words);
            continue;
        }
        for room in [0, words.len(), SHEET_WORDS] {
            hold_refused(&words, room, number, place, reason);
        }
    }
}

/// The checked deal in hundredths with these two weights, which stand at 11 and 15.
fn weighing(first: u64, second: u64) -> Vec<u64> {
    let mut words = IN_HUNDREDTHS.to_vec();
    (words[11], words[15]) = (first, second);
    words
}

/// A weight that is no multiple of 100 is refused at its place, the first one, and all multiples are converted.
#[test]
fn whole_percents_alone_are_converted_to_percent() {
    for weight in [0, 100, 9_900, 124_900, 125_000] {
        hold_conversion(&weighing(weight, 10_000));
    }
    for weight in [1, 50, 99, 101, 3_750, 9_999, 10_001, 124_999] {
        hold_refused(&weighing(weight, 10_000), SHEET_WORDS, 19, 11, Reason::NotWholePercent);
        hold_refused(&weighing(10_000, weight), SHEET_WORDS, 19, 15, Reason::NotWholePercent);
        hold_refused(&weighing(weight, 3_750), SHEET_WORDS, 19, 11, Reason::NotWholePercent);
    }
}

/// A weight that is no whole percent comes after the refusals of all words and of words that follow, and before too little
/// room; a tranche that is too thin is not judged.
#[test]
fn refusals_have_their_order() {
    let words = weighing(3_750, 10_000);
    let with = |place: usize, word| {
        let mut words = words.clone();
        words[place] = word;
        words
    };
    hold_refused(&with(22, 19), 0, 11, 22, Reason::Rating);
    hold_refused(&with(15, 125_001), 0, 6, 15, Reason::RiskWeight);
    hold_refused(&words[..38], 0, 1, 38, Reason::MissingWord);
    hold_refused(&[&words[..], &[0]].concat(), 0, 3, 39, Reason::WordsFollow);
    hold_refused(&words, 0, 19, 11, Reason::NotWholePercent);
    let mut thin = with_facts(&thin(), &[0, 0, 1]);
    hold_conversion(&thin);
    thin[11] = 101;
    hold_refused(&thin, 0, 19, 11, Reason::NotWholePercent);
}

/// The places of refusals are those of the sheet as given, not of the one with all facts.
#[test]
fn places_are_those_of_the_sheet_as_given() {
    let words = [4, 0, 0, 1, 1, 1, 1, 1, 1251, 0];
    hold_refused(&words, SHEET_WORDS, 6, 8, Reason::RiskWeight);
    hold_refused(&words[..8], SHEET_WORDS, 1, 8, Reason::MissingWord);
}

/// A built sheet is converted, and back it has all facts; both are weighed and summed as it is.
#[test]
fn a_built_sheet_is_converted() -> Result<(), Box<dyn Error>> {
    let sheet = with_rows_and_tranches(ordinary(), tranche)?;
    let other = sheet.in_other_unit()?;
    assert_eq!(other.words(), IN_HUNDREDTHS);
    assert_eq!(other.in_other_unit()?.words(), with_facts(&WORDS, &[0, 0, 0]));
    assert_eq!(other.weigh()?, sheet.weigh()?);
    assert_eq!(other.block_sums(0)?, sheet.block_sums(0)?);
    Ok(())
}

/// The words of a reply are in its fields.
#[test]
fn fields_hold_their_words() {
    let reply = ConversionReply::writing(21);
    assert_eq!((reply.number, reply.place, reply.count), (0, 0, 21));
    assert_eq!(reply.outcome(), Ok(21));
    let reply = ConversionReply::refusing(19, 11);
    assert_eq!((reply.number, reply.place, reply.count), (19, 11, 0));
    hold(reply.outcome().unwrap_err(), 19, 11, Reason::NotWholePercent);
}
