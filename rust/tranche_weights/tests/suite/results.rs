//! The lent results and the sizes of all that is lent (document 01, "The deal sheet"; document 02, S-6, S-7, S-9 and S-10).

use crate::checked_deal::{file_of, RESULTS, WORDS};
use crate::places::DUE_DILIGENCE;
use tranche_weights::{
    reply_to_file, reply_to_words, weigh_file, weigh_words, Approach, Line, Reply, AMENDMENT_WORDS, BLOCK_ROWS,
    FILE_BYTES, LINE_WORDS, MOST_BLOCKS, MOST_TRANCHES, NUMBER_DIGITS, RESULT_WORDS, SHEET_WORDS, SUM_WORDS, TEXT_ROOM,
};

/// The approaches, by their words.
const APPROACHES: [Approach; 4] = [
    Approach::Fallback,
    Approach::SecErba,
    Approach::SecSa,
    Approach::SecIrba,
];

/// The reply to a sheet and its results.
pub fn weighed(words: &[u64]) -> (Reply, [u64; RESULT_WORDS]) {
    let mut results = [0; RESULT_WORDS];
    (reply_to_words(words, &mut results), results)
}

/// Holds a call that weighs the checked deal into lent results: its lines' words are written where they just fit, and
/// words after them are as they were.
fn hold_results(reply: impl Fn(&mut [u64]) -> Reply) {
    for room in [RESULTS.len(), RESULTS.len() + 5, RESULT_WORDS] {
        let before: Vec<u64> = (900..).take(room).collect();
        let mut results = before.clone();
        assert_eq!(reply(&mut results), Reply::accepting(3, 101_000));
        assert_eq!(results[..RESULTS.len()], RESULTS);
        assert_eq!(results[RESULTS.len()..], before[RESULTS.len()..]);
    }
}

/// Words and file are weighed into the same results.
#[test]
fn lines_leave_later_words() {
    hold_results(|results| reply_to_words(&WORDS, results));
    hold_results(|results| reply_to_file(&file_of(&WORDS), results));
}

/// An accepted sheet's number and place are 0, beside its count and charge, and so it is weighed.
#[test]
fn an_accepted_sheet_has_number_and_place_0() {
    let mut results = [0; RESULTS.len()];
    let reply = reply_to_words(&WORDS, &mut results);
    assert_eq!(
        (reply.number, reply.place, reply.count, reply.charge),
        (0, 0, 3, 101_000)
    );
    let weighed = weigh_words(&WORDS, &mut results).expect("the checked deal is accepted");
    assert_eq!((weighed.count, weighed.charge), (3, 101_000));
    assert_eq!(reply.outcome(), Ok(weighed));
}

/// The sizes that are worked out from their parts are those of documents 01 and 02: seven words for each of 32 tranches;
/// a file of at most 33,928 bytes; the bytes of a report as the library has them; 20 blocks of 50 rows, with seven sums
/// each; five words of an amendment.
#[test]
fn sizes_are_those_of_the_papers() {
    assert_eq!((LINE_WORDS, MOST_TRANCHES, RESULT_WORDS), (7, 32, 224));
    assert_eq!((SHEET_WORDS, FILE_BYTES), (4241, 33_928));
    assert_eq!((NUMBER_DIGITS, TEXT_ROOM), (20, 5482));
    assert_eq!((BLOCK_ROWS, MOST_BLOCKS, SUM_WORDS), (50, 20, 7));
    assert_eq!(AMENDMENT_WORDS, 5);
}

/// A deal's lines hold the result words, each in its field.
#[test]
fn a_line_holds_its_words() {
    let deal = weigh_file(&file_of(&WORDS)).expect("the checked deal is accepted");
    assert_eq!(deal.charge, 101_000);
    assert_eq!(deal.lines.len(), 3);
    for (line, words) in deal.lines.iter().zip(RESULTS.chunks(LINE_WORDS)) {
        assert_eq!(line.approach, APPROACHES[words[0] as usize]);
        let fields: [u64; LINE_WORDS] = [
            line.approach.word(),
            line.attachment,
            line.detachment,
            line.weight,
            line.risk_weighted_amount,
            line.capital,
            line.least_weight,
        ];
        assert_eq!(fields, words);
    }
}

/// Without due diligence every line is the fallback's, its weight exact and with neither floor nor cap.
#[test]
fn without_due_diligence_every_line_is_the_fallback() {
    let mut words = WORDS;
    words[DUE_DILIGENCE] = 0;
    let deal = weigh_file(&file_of(&words)).expect("the sheet is accepted");
    let seen = |line: &Line| (line.approach, line.weight, line.least_weight);
    let seen: Vec<_> = deal.lines.iter().map(seen).collect();
    assert_eq!(seen, [(Approach::Fallback, 125_000, 125_000); 3]);
}

/// An approach prints as the standard names it, to the width asked for.
#[test]
fn approaches_have_names() {
    let names = APPROACHES.map(|approach| format!("{approach:>8}"));
    assert_eq!(names, ["fallback", "SEC-ERBA", "  SEC-SA", "SEC-IRBA"]);
}
