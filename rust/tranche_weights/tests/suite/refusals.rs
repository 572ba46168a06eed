//! Each refusal, with its number, place and reason (document 01, "Refusals, by who can cause them"; document 02, S-1,
//! S-3, S-5, S-6 and S-9).

use crate::checked_deal::{file_of, resecuritised, RESULTS, WORDS};
use crate::dates::{dated, MATURITY, REPORTING_DATE};
use crate::irb::FIGURES;
use crate::places::{
    first_figure, irb_count, ratings, row_count, with_facts, with_irb, DUE_DILIGENCE, LOANS, POOL_KIND,
    RESECURITISATION, SHARE,
};
use tranche_weights::{
    reply_to_file, reply_to_words, report, weigh_file, weigh_words, Reason, Refusal, Reply, BYTES_PER_WORD, FILE_BYTES,
    RESULT_WORDS,
};

/// The checked deal with one word replaced.
fn with(place: usize, word: u64) -> Vec<u64> {
    let mut words = WORDS.to_vec();
    words[place] = word;
    words
}

/// A sheet with a second tranche of one unit in 10^10: its points are equal, above the pool charge.
pub fn thin() -> Vec<u64> {
    let facts = [4, 0, 0, 1, 1];
    let pool = [1, 10_000_000_000, 10_000_000_000, 100, 0];
    let senior = [4_999_995_000, 1, 60, 0, 0, 0, 0];
    let junior = [1, 2, 60, 1, 0, 0, 0];
    [&facts[..], &pool, &[2], &senior, &junior].concat()
}

/// The checked deal as a re-securitisation, with these as its fifth fact and those after it.
fn resecuritisation_with(further: &[u64]) -> Vec<u64> {
    with_facts(&with(RESECURITISATION, 1), further)
}

/// Words refused by the library, each with number, place and reason.
fn refused_words() -> Vec<(Vec<u64>, u64, u64, Reason)> {
    let longer = [&WORDS[..], &[0, 0]].concat();
    vec![
        (vec![], 1, 0, Reason::MissingWord),
        (WORDS[..35].to_vec(), 1, 35, Reason::MissingWord),
        (with_facts(&WORDS, &[1])[..5].to_vec(), 1, 5, Reason::MissingWord),
        (with(0, 3), 2, 0, Reason::Count),
        (with(0, 8), 2, 0, Reason::Count),
        (with(5, 1001), 2, 5, Reason::Count),
        (with(14, 33), 2, 14, Reason::Count),
        (longer, 3, 36, Reason::WordsFollow),
        (with(1, 3), 4, 1, Reason::Fact),
        (with(4, 2), 4, 4, Reason::Fact),
        (with_facts(&WORDS, &[2]), 4, 5, Reason::Fact),
        (resecuritisation_with(&[2]), 4, 5, Reason::Fact),
        (with(6, 0), 5, 6, Reason::PoolAmount),
        (with(7, 10_000_000_001), 5, 7, Reason::PoolAmount),
        (with(8, 1251), 6, 8, Reason::RiskWeight),
        (with(9, 3), 7, 9, Reason::Status),
        (with(2, 1), 7, 9, Reason::Status),
        (with(15, 0), 8, 15, Reason::TrancheAmount),
        (with(18, 801), 8, 18, Reason::TrancheAmount),
        (with(16, 2), 9, 16, Reason::Class),
        (with(30, 4), 9, 30, Reason::Class),
        (with(17, 1201), 10, 17, Reason::Maturity),
        (with(19, 19), 11, 19, Reason::Rating),
        (thin(), 13, 18, Reason::ThinTranche),
        (with_facts(&thin(), &[1]), 13, 19, Reason::ThinTranche),
        (resecuritisation_with(&[1]), 16, 5, Reason::StcMark),
    ]
}

/// Words refused by the library for the pool kind or the IRB section, each with number, place and reason. The count of
/// the section stands at 36, and its figures from 37 on.
fn refused_sections() -> Vec<(Vec<u64>, u64, u64, Reason)> {
    let whole = with_irb(&WORDS, 2, FIGURES);
    let mixed = |place: usize, word| {
        let mut words = whole.clone();
        words[place] = word;
        words
    };
    let outside = [
        (37, 1_000_001),
        (38, 1_000_001),
        (39, 0),
        (39, 1_000_001),
        (40, 2),
        (41, 1_000_001),
        (42, 125_001),
        (42, u64::MAX),
    ];
    let outside = outside.map(|(place, word)| (mixed(place, word), 18, place as u64, Reason::IrbFigure));
    let others = [
        (with(POOL_KIND, 1), 1, 36, Reason::MissingWord),
        (with(POOL_KIND, 2), 1, 36, Reason::MissingWord),
        (whole[..42].to_vec(), 1, 42, Reason::MissingWord),
        (mixed(36, 0), 2, 36, Reason::Count),
        (mixed(36, 2), 2, 36, Reason::Count),
        (mixed(POOL_KIND, 0), 3, 36, Reason::WordsFollow),
        ([&whole[..], &[0]].concat(), 3, 43, Reason::WordsFollow),
        (mixed(POOL_KIND, 3), 4, 1, Reason::Fact),
        (mixed(19, 19), 11, 19, Reason::Rating),
        (mixed(39, 0)[..40].to_vec(), 18, 39, Reason::IrbFigure),
    ];
    outside.into_iter().chain(others).collect()
}

/// Words refused by the library, each with number, place and reason: an IRB pool whose share is not all of it; the IRB
/// section where it is judged and not used, of a re-securitisation and without due diligence; a thin tranche under
/// SEC-IRBA, rated or not, after the section.
fn refused_deals() -> Vec<(Vec<u64>, u64, u64, Reason)> {
    let with_figure = |words: &[u64], kind, figure: usize, word| {
        let mut figures = FIGURES;
        figures[figure] = word;
        let place = first_figure(words) + figure;
        (with_irb(words, kind, figures), 18, place as u64, Reason::IrbFigure)
    };
    let no_count = |words: &[u64]| {
        let mut without = words.to_vec();
        without[POOL_KIND] = 2;
        (without, 1, irb_count(words) as u64, Reason::MissingWord)
    };
    let thin = thin();
    let mut rated = thin.clone();
    ratings(&thin).for_each(|place| rated[place] = 1);
    vec![
        with_figure(&WORDS, 1, SHARE, 999_999),
        with_figure(&WORDS, 1, SHARE, 1_000_001),
        with_figure(&resecuritised(), 2, LOANS, 0),
        with_figure(&with(DUE_DILIGENCE, 0), 2, LOANS, 0),
        with_figure(&thin, 2, LOANS, 0),
        no_count(&resecuritised()),
        no_count(&with(DUE_DILIGENCE, 0)),
        (with_irb(&thin, 2, FIGURES), 13, 18, Reason::ThinTranche),
        (with_irb(&rated, 2, FIGURES), 13, 18, Reason::ThinTranche),
    ]
}

/// Words refused by the library for a reporting date or a maturity, each with number, place and reason. The reporting
/// date stands at 6 and the maturity of the first tranche at 19.
fn refused_dates() -> Vec<(Vec<u64>, u64, u64, Reason)> {
    let reported_on = |date| dated(&WORDS, date, MATURITY);
    let maturing_on = |maturity| dated(&WORDS, REPORTING_DATE, maturity);
    let no_dates = [
        1,
        72,
        19_991_231,
        20_270_229,
        21_000_229,
        20_270_431,
        22_000_101,
        u64::MAX,
    ];
    let no_reporting_dates = no_dates.map(|word| (reported_on(word), 17, 6, Reason::Date));
    let no_maturities = no_dates.map(|word| (maturing_on(word), 17, 19, Reason::Date));
    let others = [
        (reported_on(REPORTING_DATE)[..6].to_vec(), 1, 6, Reason::MissingWord),
        (resecuritisation_with(&[1, 72]), 16, 5, Reason::StcMark),
        (maturing_on(0), 17, 19, Reason::Date),
        (maturing_on(REPORTING_DATE), 17, 19, Reason::Date),
        (maturing_on(REPORTING_DATE - 1), 17, 19, Reason::Date),
        (reported_on(MATURITY + 1), 17, 19, Reason::Date),
        (maturing_on(21_261_117), 10, 19, Reason::Maturity),
        (maturing_on(21_991_231), 10, 19, Reason::Maturity),
        (with(17, MATURITY), 10, 17, Reason::Maturity),
        (dated(&WORDS, 0, MATURITY), 10, 19, Reason::Maturity),
        (dated(&WORDS, 0, 1201), 10, 19, Reason::Maturity),
        (dated(&thin(), REPORTING_DATE, MATURITY), 13, 20, Reason::ThinTranche),
    ];
    let all = no_reporting_dates.into_iter().chain(no_maturities).chain(others);
    all.collect()
}

/// Words refused by the library for the unit or for a risk weight in its unit, each with number, place and reason. The
/// unit stands at 7 and the risk weights at 11 and 15.
fn refused_units() -> Vec<(Vec<u64>, u64, u64, Reason)> {
    let in_unit = |unit| with_facts(&WORDS, &[0, 0, unit]);
    let weighing = |unit, place: usize, word| {
        let mut words = in_unit(unit);
        words[place] = word;
        words
    };
    vec![
        (in_unit(1)[..7].to_vec(), 1, 7, Reason::MissingWord),
        (in_unit(2), 4, 7, Reason::Fact),
        (in_unit(100), 4, 7, Reason::Fact),
        (in_unit(u64::MAX), 4, 7, Reason::Fact),
        (weighing(2, 8, 0), 4, 7, Reason::Fact),
        (resecuritisation_with(&[1, 0, 2]), 16, 5, Reason::StcMark),
        (with_facts(&WORDS, &[0, 72, 2]), 17, 6, Reason::Date),
        (weighing(0, 11, 1251), 6, 11, Reason::RiskWeight),
        (weighing(0, 15, 125_000), 6, 15, Reason::RiskWeight),
        (weighing(1, 11, 125_001), 6, 11, Reason::RiskWeight),
        (weighing(1, 15, u64::MAX), 6, 15, Reason::RiskWeight),
        (with_facts(&thin(), &[0, 0, 1]), 13, 21, Reason::ThinTranche),
    ]
}

/// Words refused by the library, each with number, place and reason: all of those above.
pub fn refused() -> Vec<(Vec<u64>, u64, u64, Reason)> {
    [
        refused_words(),
        refused_dates(),
        refused_sections(),
        refused_deals(),
        refused_units(),
    ]
    .concat()
}

/// Holds a refusal to number, place and reason, and its print to the report's.
pub fn hold(refusal: Refusal, number: u64, place: u64, reason: Reason) {
    assert_eq!(
        (refusal.number(), refusal.place(), refusal.reason()),
        (number, place, reason)
    );
    assert_eq!(reason.number(), number);
    assert_eq!(refusal.to_string(), format!("refused {number} at {place}: {reason}"));
}

/// Words are refused with number, place and reason, as words and as a file; the results are as they were.
#[test]
fn refused_words_leave_the_results() {
    let before: Vec<u64> = (900..).take(RESULT_WORDS).collect();
    for (words, number, place, reason) in refused() {
        let mut results = before.clone();
        hold(weigh_words(&words, &mut results).unwrap_err(), number, place, reason);
        assert_eq!(reply_to_words(&words, &mut results), Reply::refusing(number, place));
        assert_eq!(
            reply_to_file(&file_of(&words), &mut results),
            Reply::refusing(number, place)
        );
        assert_eq!(results, before);
        hold(weigh_file(&file_of(&words)).unwrap_err(), number, place, reason);
        assert_eq!(report(&file_of(&words)), format!("refused {number} at {place}\n"));
    }
}

/// A fact of 0 written after the fourth moves the place of a fault behind it by one, two of them by two, three by three,
/// and they change no number.
#[test]
fn facts_of_0_move_later_places() {
    let refused = [refused_words(), refused_sections(), refused_deals()].concat();
    let of_four_facts = refused.iter().filter(|(words, ..)| words.first() == Some(&4));
    for (words, number, place, _) in of_four_facts {
        for further in [&[0][..], &[0, 0], &[0, 0, 0]] {
            let behind = *place as usize >= row_count(words);
            let moved = if behind { further.len() as u64 } else { 0 };
            let reply = reply_to_words(&with_facts(words, further), &mut [0; RESULT_WORDS]);
            assert_eq!(reply, Reply::refusing(*number, place + moved), "{words:?}");
        }
    }
}

/// Any room too small for the lines, also that of a word less for each of the three, is 14 at 0, and the results are as
/// they were; the lines' words are enough.
#[test]
fn too_little_room_leaves_the_results() {
    for room in 0..RESULTS.len() {
        let before: Vec<u64> = (900..).take(room).collect();
        let mut results = before.clone();
        hold(weigh_words(&WORDS, &mut results).unwrap_err(), 14, 0, Reason::Room);
        assert_eq!(reply_to_words(&WORDS, &mut results), Reply::refusing(14, 0));
        assert_eq!(reply_to_file(&file_of(&WORDS), &mut results), Reply::refusing(14, 0));
        assert_eq!(results, before);
    }
    let reply = reply_to_words(&WORDS, &mut [0; RESULTS.len()]);
    assert_eq!(reply, Reply::accepting(3, 101_000));
}

/// A file's length is a multiple of a word's bytes and at most the longest; any other is 15 at 0, before all that its
/// words say.
#[test]
fn a_bad_length_of_a_file_comes_before_all() {
    let before: Vec<u64> = (900..).take(RESULT_WORDS).collect();
    let mut results = before.clone();
    for length in [
        1,
        BYTES_PER_WORD - 1,
        BYTES_PER_WORD + 1,
        FILE_BYTES - 1,
        FILE_BYTES + 1,
        FILE_BYTES + BYTES_PER_WORD,
    ] {
        let file = vec![0; length];
        hold(weigh_file(&file).unwrap_err(), 15, 0, Reason::FileLength);
        assert_eq!(reply_to_file(&file, &mut results), Reply::refusing(15, 0));
        assert_eq!(reply_to_file(&file, &mut []), Reply::refusing(15, 0));
        assert_eq!(report(&file), "refused 15 at 0\n");
    }
    for length in [BYTES_PER_WORD, FILE_BYTES] {
        let file = vec![0; length];
        hold(weigh_file(&file).unwrap_err(), 2, 0, Reason::Count);
        assert_eq!(reply_to_file(&file, &mut results), Reply::refusing(2, 0));
    }
    assert_eq!(results, before);
}

/// A refusal prints what is wrong in the desk's words, and is an error that a caller can pass on.
#[test]
fn a_refusal_says_what_is_wrong() {
    let refusal: Box<dyn std::error::Error> = weigh_file(&file_of(&with(6, 0))).unwrap_err().into();
    assert_eq!(
        refusal.to_string(),
        "refused 5 at 6: an exposure or nominal amount is 0 or above 10^10"
    );
}
