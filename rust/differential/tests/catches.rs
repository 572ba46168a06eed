//! The comparison finds a wrong answer in each part that it compares: each test puts a function with one fault in place
//! of the proved one.

mod runs;

use differential::answer::{refusal, sum_words, Approach, LineWord, SumWord, LINE_WORDS, MOST_RESULTS, SUM_WORDS};
use differential::sheet::{
    blocks_of, pool_kind, rewritten_words, unit, write_with_facts, Fact, IrbWord, Layout, RowWord, TrancheWord, BLOCKS,
    BLOCK_ROWS, DAYS, FACTS, FEWEST_FACTS, FILE_BYTES, IRB_AVERAGE, IRB_SHARE, LONG_TERM, MANY_LOANS, MONTHS,
    ONE_PERCENT, RATINGS, RISK_WEIGHT, RISK_WEIGHT_PERCENT, WHOLE, WORD_BYTES,
};
use differential::{
    show, Asked, BlockReply, Case, ConversionReply, Convert, Ends, Feature, LeastFeature, Library, Part, Reply, Run,
    SumBlock, Tally, Weigh, WeighFile,
};
use independent::approach::{self, Figures};
use independent::block::{self, sums_over};
use independent::charge::{self, Points};
use independent::date::Date;
use independent::formula::{raw_weights, Terms};
use independent::inferred::is_rated;
use independent::irba::Sum;
use independent::rating::{self, Table};
use independent::sheet::{Facts, Irb, Row, Sheet, Status, Tranche};
use independent::{Line, Refusal};
use runs::{first_difference, first_part, run, SEED};
use std::cmp::Reverse;

/// The part in which a run first finds this weighing different.
fn weighed(weigh: Weigh) -> Option<Part> {
    let library = Library {
        weigh,
        ..Library::PROVED
    };
    first_part(library, |asked| asked == Asked::Words)
}

/// The part in which a run first finds this weighing of files different.
fn filed(weigh_file: WeighFile) -> Option<Part> {
    let library = Library {
        weigh_file,
        ..Library::PROVED
    };
    first_part(library, |asked| asked == Asked::File)
}

/// The part in which a run first finds this report different.
fn reported(report: fn(&[u8]) -> String) -> Option<Part> {
    let library = Library {
        report,
        ..Library::PROVED
    };
    first_part(library, |asked| asked == Asked::File)
}

/// The part in which a run first finds these sums of blocks different.
fn summed(block_sums: SumBlock) -> Option<Part> {
    let library = Library {
        block_sums,
        ..Library::PROVED
    };
    first_part(library, |asked| matches!(asked, Asked::Block(_)))
}

/// The part in which a run first finds this conversion different.
fn converted(convert: Convert) -> Option<Part> {
    let library = Library {
        convert,
        ..Library::PROVED
    };
    first_part(library, |asked| matches!(asked, Asked::Conversion(_)))
}

/// The proved weighing, the start of each wrong one.
fn proved(sheet: &[u64], results: &mut [u64]) -> Reply {
    (Library::PROVED.weigh)(sheet, results)
}

/// The proved weighing with a fault in the reply to each refused sheet, or else to each accepted one.
fn faulty(sheet: &[u64], results: &mut [u64], on_refusal: bool, fault: fn(&mut Reply)) -> Reply {
    let mut reply = proved(sheet, results);
    if (reply.number != 0) == on_refusal {
        fault(&mut reply);
    }
    reply
}

/// The proved weighing with a fault in the reply to each accepted sheet.
fn accepted(sheet: &[u64], results: &mut [u64], fault: fn(&mut Reply)) -> Reply {
    faulty(sheet, results, false, fault)
}

/// The proved weighing with a fault in the reply to each refused sheet.
fn refused(sheet: &[u64], results: &mut [u64], fault: fn(&mut Reply)) -> Reply {
    faulty(sheet, results, true, fault)
}

/// The proved weighing, but each accepted sheet is weighed by another one.
fn accepted_by(sheet: &[u64], results: &mut [u64], weigh: impl Fn(&[u64], &mut [u64]) -> Reply) -> Reply {
    match independent::weigh(sheet, results.len() as u64) {
        Ok(_) => weigh(sheet, results),
        Err(_) => proved(sheet, results),
    }
}

/// The proved report, the start of each wrong one.
fn text(file: &[u8]) -> String {
    (Library::PROVED.report)(file)
}

/// The proved functions themselves pass, so that each fault below is found for its own sake.
#[test]
fn nothing_wrong_is_passed() {
    assert_eq!(weighed(proved), None);
    assert_eq!(filed(|file, results| read(file, results, good_length, proved)), None);
    assert_eq!(reported(text), None);
    assert_eq!(summed(proved_sums), None);
    assert_eq!(summed(|sheet, number| over_rows(sheet, number, block_of)), None);
    assert_eq!(converted(proved_conversion), None);
    assert_eq!(converted(|sheet, output| Steps::RIGHT.convert(sheet, output)), None);
}

/// A refusal with its number one too high.
#[test]
fn wrong_refusal_number() {
    let wrong: Weigh = |sheet, results| refused(sheet, results, |reply| reply.number += 1);
    assert_eq!(weighed(wrong), Some(Part::Number));
}

/// A refusal with its place one too high, or not written.
#[test]
fn wrong_refusal_place() {
    let wrong: Weigh = |sheet, results| refused(sheet, results, |reply| reply.place += 1);
    let unwritten: Weigh = |sheet, results| refused(sheet, results, |reply| reply.place = u64::MAX);
    assert_eq!(weighed(wrong), Some(Part::Place));
    assert_eq!(weighed(unwritten), Some(Part::Place));
}

/// A count left on a refusal, where 0 is due, or not written.
#[test]
fn count_left_on_a_refusal() {
    let left: Weigh = |sheet, results| refused(sheet, results, |reply| reply.count = 1);
    let unwritten: Weigh = |sheet, results| refused(sheet, results, |reply| reply.count = u64::MAX);
    assert_eq!(weighed(left), Some(Part::Count));
    assert_eq!(weighed(unwritten), Some(Part::Count));
}

/// A charge left on a refusal, where 0 is due, or not written.
#[test]
fn charge_left_on_a_refusal() {
    let left: Weigh = |sheet, results| refused(sheet, results, |reply| reply.charge = 1);
    let unwritten: Weigh = |sheet, results| refused(sheet, results, |reply| reply.charge = u64::MAX);
    assert_eq!(weighed(left), Some(Part::Charge));
    assert_eq!(weighed(unwritten), Some(Part::Charge));
}

/// A place above 0 of an accepted sheet, or not written.
#[test]
fn place_of_an_accepted_sheet() {
    let wrong: Weigh = |sheet, results| accepted(sheet, results, |reply| reply.place = 1);
    let unwritten: Weigh = |sheet, results| accepted(sheet, results, |reply| reply.place = u64::MAX);
    assert_eq!(weighed(wrong), Some(Part::Place));
    assert_eq!(weighed(unwritten), Some(Part::Place));
}

/// A tranche count unlike the sheet's.
#[test]
fn wrong_count() {
    let more: Weigh = |sheet, results| accepted(sheet, results, |reply| reply.count += 1);
    let fewer: Weigh = |sheet, results| accepted(sheet, results, |reply| reply.count -= 1);
    let huge: Weigh = |sheet, results| accepted(sheet, results, |reply| reply.count = u64::MAX);
    assert_eq!(weighed(more), Some(Part::Count));
    assert_eq!(weighed(fewer), Some(Part::Count));
    assert_eq!(weighed(huge), Some(Part::Count));
}

/// A pool charge one too high.
#[test]
fn wrong_charge() {
    let wrong: Weigh = |sheet, results| accepted(sheet, results, |reply| reply.charge += 1);
    assert_eq!(weighed(wrong), Some(Part::Charge));
}

/// Constant refusal.
#[test]
fn refused_in_place_of_weighed() {
    let wrong: Weigh = |sheet, results| accepted(sheet, results, |reply| *reply = Reply::refusing(refusal::ROOM, 0));
    assert_eq!(weighed(wrong), Some(Part::Outcome));
}

/// A refused sheet reported as weighed.
#[test]
fn weighed_in_place_of_refused() {
    let wrong: Weigh = |sheet, results| refused(sheet, results, |reply| *reply = Reply::accepting(0, 0));
    assert_eq!(weighed(wrong), Some(Part::Outcome));
}

/// The place of the fifth fact.
const FIFTH: usize = Layout::fact(Fact::Stc);

/// Whether a sheet counts more facts than this, and no more than the most.
fn counts_above(sheet: &[u64], facts: u64) -> bool {
    sheet
        .first()
        .is_some_and(|&counted| counted > facts && counted <= FACTS)
}

/// Whether a sheet counts five facts or more and states a fifth fact like this one.
fn fifth_is(sheet: &[u64], like: fn(u64) -> bool) -> bool {
    counts_above(sheet, FEWEST_FACTS) && sheet.get(FIFTH).is_some_and(|&fact| like(fact))
}

/// Judges a mark on a re-securitisation by another number.
fn other_number_of_a_mark(sheet: &[u64], results: &mut [u64]) -> Reply {
    refused(sheet, results, |reply| {
        if reply.number == refusal::STC_RESECURITISATION {
            reply.number = refusal::FACT;
        }
    })
}

/// Judges a fifth fact above 1 as a mark, in a re-securitisation.
fn no_code_as_a_mark(sheet: &[u64], results: &mut [u64]) -> Reply {
    let mut reply = proved(sheet, results);
    let judged = (reply.number, reply.place) == (refusal::FACT, FIFTH as u64);
    if judged && sheet[Layout::fact(Fact::Resecuritisation)] == 1 {
        reply.number = refusal::STC_RESECURITISATION;
    }
    reply
}

/// Weighs a sheet as if its mark were 0.
fn without_mark(sheet: &[u64], results: &mut [u64]) -> Reply {
    let mut unmarked = sheet.to_vec();
    if fifth_is(sheet, |fact| fact == 1) {
        unmarked[FIFTH] = 0;
    }
    proved(&unmarked, results)
}

/// Takes no more facts than this.
fn facts_up_to(most: u64, sheet: &[u64], results: &mut [u64]) -> Reply {
    match counts_above(sheet, most) {
        true => Reply::refusing(refusal::COUNT, Layout::FACTS_COUNT as u64),
        false => proved(sheet, results),
    }
}

/// Changes the weights by the rating table in STC deals, given each tranche, with the ratings that count, and its weight.
fn stc_weights(sheet: &[u64], results: &mut [u64], change: fn(&Tranche, u64) -> u64) -> Reply {
    change_lines(sheet, results, |figures, tranche, line| {
        if figures.facts.stc && line[LineWord::Approach as usize] == Approach::SecErba.word() {
            let weight = &mut line[LineWord::Weight as usize];
            *weight = change(tranche, *weight);
        }
    })
}

/// Holds a non-senior weight of an STC deal no lower than the senior figure.
fn compared_with_senior(tranche: &Tranche, weight: u64) -> u64 {
    let senior = Tranche { class: 1, ..*tranche };
    match tranche.class {
        1 => weight,
        _ => weight.max(rating::weight(Table::of(true), &senior, 0)),
    }
}

/// A fifth fact that is judged or used wrongly: a mark on a re-securitisation, a fifth fact that is no code, a mark that
/// is not used, more than four facts refused.
#[test]
fn wrong_fifth_fact() {
    assert_eq!(weighed(other_number_of_a_mark), Some(Part::Number));
    assert_eq!(weighed(no_code_as_a_mark), Some(Part::Number));
    let without_good_mark: Weigh = |sheet, results| accepted_by(sheet, results, without_mark);
    assert_eq!(weighed(without_good_mark), Some(Part::Line(LineWord::Weight)));
    let part = weighed(without_mark);
    let found = matches!(part, Some(Part::Outcome | Part::Number | Part::Line(LineWord::Weight)));
    assert!(found, "{part:?}");
    let four_facts: Weigh = |sheet, results| {
        accepted_by(sheet, results, |sheet, results| {
            facts_up_to(FEWEST_FACTS, sheet, results)
        })
    };
    assert!(is_by_facts(weighed(four_facts)));
}

/// Whether a difference is one that wrong facts make: in the outcome, or between two sheets with other facts, other forms
/// of maturities or other units.
fn is_by_facts(part: Option<Part>) -> bool {
    let of_second = matches!(part, Some(Part::FactsAdded | Part::MonthsForDates | Part::OtherUnit));
    of_second || part == Some(Part::Outcome)
}

/// The place of the sixth fact.
const SIXTH: usize = Layout::fact(Fact::ReportingDate);

/// Whether a sheet counts six facts or more and states a sixth fact like this one.
fn sixth_is(sheet: &[u64], like: fn(u64) -> bool) -> bool {
    counts_above(sheet, Fact::Stc.number()) && sheet.get(SIXTH).is_some_and(|&fact| like(fact))
}

/// Refuses a sixth fact of 0 as no date.
fn zero_as_a_date(sheet: &[u64], results: &mut [u64]) -> Reply {
    match sixth_is(sheet, |fact| fact == 0) {
        true => Reply::refusing(refusal::DATE, SIXTH as u64),
        false => proved(sheet, results),
    }
}

/// Weighs a sheet as if its sixth fact were 0.
fn without_date(sheet: &[u64], results: &mut [u64]) -> Reply {
    let mut undated = sheet.to_vec();
    if sixth_is(sheet, |fact| fact != 0) {
        undated[SIXTH] = 0;
    }
    proved(&undated, results)
}

/// A sixth fact that is not taken, not taken as 0, or not used: found in the answer, or in that of a second sheet.
#[test]
fn wrong_sixth_fact() {
    let wrong: [Weigh; 3] = [
        |sheet, results| {
            accepted_by(sheet, results, |sheet, results| {
                facts_up_to(Fact::Stc.number(), sheet, results)
            })
        },
        |sheet, results| accepted_by(sheet, results, zero_as_a_date),
        |sheet, results| accepted_by(sheet, results, without_date),
    ];
    for weigh in wrong {
        let part = weighed(weigh);
        assert!(is_by_facts(part), "{part:?}");
    }
}

/// Judges each refused sheet with a reporting date by another number, made of its own and the place.
fn other_number_of_a_date(sheet: &[u64], results: &mut [u64], number: fn(u64, u64) -> u64) -> Reply {
    let mut reply = proved(sheet, results);
    if reply.number != 0 && sixth_is(sheet, |fact| fact != 0) {
        reply.number = number(reply.number, reply.place);
    }
    reply
}

/// The numbers of dates: a bad reporting date judged as a fact, a bad maturity judged by its months, and one too many
/// months after the reporting date judged as a date.
#[test]
fn wrong_number_of_a_date() {
    let as_a_fact: Weigh = |sheet, results| {
        other_number_of_a_date(sheet, results, |number, place| match (number, place as usize) {
            (refusal::DATE, SIXTH) => refusal::FACT,
            _ => number,
        })
    };
    let as_months: Weigh = |sheet, results| {
        other_number_of_a_date(sheet, results, |number, place| match (number, place as usize) {
            (refusal::DATE, SIXTH) => number,
            (refusal::DATE, _) => refusal::MATURITY,
            _ => number,
        })
    };
    let as_a_date: Weigh = |sheet, results| {
        other_number_of_a_date(sheet, results, |number, _| match number {
            refusal::MATURITY => refusal::DATE,
            _ => number,
        })
    };
    for weigh in [as_a_fact, as_months, as_a_date] {
        assert_eq!(weighed(weigh), Some(Part::Number));
    }
}

/// Weighs a sheet that is refused for a date as if the word were another one, made of it and of the reporting date.
fn other_date(sheet: &[u64], results: &mut [u64], change: fn(u64, u64) -> u64) -> Reply {
    let mut words = sheet.to_vec();
    if let Err(refused) = independent::weigh(sheet, results.len() as u64) {
        if refused.number == refusal::DATE {
            let place = refused.place as usize;
            words[place] = change(words[SIXTH], words[place]);
        }
    }
    proved(&words, results)
}

/// 29 February of any year, as the day before it.
fn any_leap_day(_: u64, word: u64) -> u64 {
    word - u64::from(word % 10_000 == 229)
}

/// The day after the end of a month, as that end.
fn long_months(_: u64, word: u64) -> u64 {
    match Date::of_word(word.saturating_sub(1)) {
        Some(_) if Date::of_word(word).is_none() => word - 1,
        _ => word,
    }
}

/// The day 0 of a month as its first.
fn day_zero(_: u64, word: u64) -> u64 {
    word + u64::from(word.is_multiple_of(100))
}

/// Days of the years beside those that dates can have, as days of the first and the last of these.
fn years_beside(_: u64, word: u64) -> u64 {
    match word / 10_000 {
        1_999 => word + 10_000,
        2_200 => word - 10_000,
        _ => word,
    }
}

/// The low 32 bits of a word.
fn low_bits(_: u64, word: u64) -> u64 {
    word & u64::from(u32::MAX)
}

/// The end of the reporting date's next year.
fn next_year(date: u64) -> u64 {
    10_000 * (date / 10_000 + 1) + DAYS.1 % 10_000
}

/// A maturity on the reporting date as a later one.
fn date_itself(date: u64, word: u64) -> u64 {
    match word == date {
        true => next_year(date),
        false => word,
    }
}

/// A maturity before the reporting date as a later one.
fn day_before(date: u64, word: u64) -> u64 {
    match word < date && Date::of_word(word).is_some() {
        true => next_year(date),
        false => word,
    }
}

/// A maturity in months as a date.
fn months_as_a_date(date: u64, word: u64) -> u64 {
    match (1..=MONTHS).contains(&word) {
        true => next_year(date),
        false => word,
    }
}

/// Dates taken as good that are not: days and years that there are not, words that are too large, and maturities that
/// are not after the reporting date or are months.
#[test]
fn wrong_dates_taken() {
    let wrong: [Weigh; 8] = [
        |sheet, results| other_date(sheet, results, any_leap_day),
        |sheet, results| other_date(sheet, results, long_months),
        |sheet, results| other_date(sheet, results, day_zero),
        |sheet, results| other_date(sheet, results, years_beside),
        |sheet, results| other_date(sheet, results, low_bits),
        |sheet, results| other_date(sheet, results, date_itself),
        |sheet, results| other_date(sheet, results, day_before),
        |sheet, results| other_date(sheet, results, months_as_a_date),
    ];
    for (place, weigh) in wrong.into_iter().enumerate() {
        let part = weighed(weigh);
        let found = matches!(part, Some(Part::Outcome | Part::Number | Part::Place));
        assert!(found, "{place}: {part:?}");
    }
}

/// Weighs an accepted sheet with dates as if it stated months, counted in this way from the reporting date to the
/// maturity and held within their limits.
fn recounted(sheet: &[u64], results: &mut [u64], count: fn(Date, Date) -> u64) -> Reply {
    accepted_by(sheet, results, |sheet, results| {
        let mut words = sheet.to_vec();
        let layout = Layout::of_sheet(sheet);
        if let Some(reporting) = Date::of_word(layout.fact_word(sheet, Fact::ReportingDate)) {
            words[SIXTH] = 0;
            for tranche in 0..layout.tranches {
                let word = &mut words[layout.tranche_word(tranche, TrancheWord::Maturity)];
                let maturity = Date::of_word(*word).expect("a good maturity");
                *word = count(reporting, maturity).clamp(1, MONTHS);
            }
        }
        proved(&words, results)
    })
}

/// The months apart, whatever the days of the month are.
fn months_apart(reporting: Date, maturity: Date) -> u64 {
    12 * (maturity.year - reporting.year) + maturity.month - reporting.month
}

/// Months counted wrongly: no month more for a later day, one for the same day too, one always, or only whole months.
/// Found by the weight, or by the approach of a tranche that takes no rating then.
#[test]
fn wrong_months() {
    let wrong: [Weigh; 4] = [
        |sheet, results| recounted(sheet, results, months_apart),
        |sheet, results| {
            recounted(sheet, results, |from, to| {
                months_apart(from, to) + u64::from(to.day >= from.day)
            })
        },
        |sheet, results| recounted(sheet, results, |from, to| months_apart(from, to) + 1),
        |sheet, results| {
            recounted(sheet, results, |from, to| {
                months_apart(from, to).saturating_sub(u64::from(to.day < from.day))
            })
        },
    ];
    for weigh in wrong {
        let part = weighed(weigh);
        let found = matches!(part, Some(Part::Line(LineWord::Approach | LineWord::Weight)));
        assert!(found, "{part:?}");
    }
}

/// The weights of an STC deal: compared with the senior figure, or with the floor of class 1 raised to that of the
/// others.
#[test]
fn wrong_weight_of_an_stc_deal() {
    let compared: Weigh = |sheet, results| stc_weights(sheet, results, compared_with_senior);
    let one_floor: Weigh = |sheet, results| stc_weights(sheet, results, |_, weight| weight.max(1_500));
    assert_eq!(weighed(compared), Some(Part::Line(LineWord::Weight)));
    assert_eq!(weighed(one_floor), Some(Part::Line(LineWord::Weight)));
}

/// Weighs an accepted sheet as if each tranche had other rating words, made of its own. No tranche loses its last rating
/// or gets a first one, so that the approaches stay.
fn rerated(sheet: &[u64], results: &mut [u64], change: fn(&mut [u64; RATINGS])) -> Reply {
    accepted_by(sheet, results, |sheet, results| {
        let mut words = sheet.to_vec();
        let layout = Layout::of_sheet(sheet);
        for tranche in 0..layout.tranches {
            let first = layout.tranche_word(tranche, TrancheWord::FirstRating);
            let ratings = words[first..].first_chunk_mut().expect("three rating words");
            change(ratings);
        }
        proved(&words, results)
    })
}

/// Of three ratings the worst two, of which the higher weight counts.
fn worst_two(ratings: &mut [u64; RATINGS]) {
    ratings.sort_unstable();
    ratings[0] = 0;
}

/// Of two ratings and a third of the best grade the middle one, which is the lower of the two.
fn best_for_none(ratings: &mut [u64; RATINGS]) {
    ratings.sort_unstable();
    if ratings[0] == 0 && ratings[1] != 0 {
        ratings[0] = LONG_TERM.0;
    }
}

/// Of three ratings the one with the middle code.
fn middle_code(ratings: &mut [u64; RATINGS]) {
    ratings.sort_unstable();
    if ratings[0] != 0 {
        *ratings = [ratings[1], 0, 0];
    }
}

/// Of equal ratings one.
fn equal_once(ratings: &mut [u64; RATINGS]) {
    ratings.sort_unstable();
    for word in 1..RATINGS {
        if ratings[word - 1] == ratings[word] {
            ratings[word - 1] = 0;
        }
    }
}

/// The weights by several ratings: the highest of three, the lower of two, the one with the middle code, equal ones
/// counted once.
#[test]
fn wrong_weight_of_several_ratings() {
    let wrong: [Weigh; 4] = [
        |sheet, results| rerated(sheet, results, worst_two),
        |sheet, results| rerated(sheet, results, best_for_none),
        |sheet, results| rerated(sheet, results, middle_code),
        |sheet, results| rerated(sheet, results, equal_once),
    ];
    for weigh in wrong {
        assert_eq!(weighed(weigh), Some(Part::Line(LineWord::Weight)));
    }
}

/// Weighs a refused sheet that has its tranches by another reply, made of the proved one and the sheet's places.
fn section_refused(sheet: &[u64], results: &mut [u64], change: impl Fn(&Layout, &mut Reply)) -> Reply {
    let mut reply = proved(sheet, results);
    if reply.number != 0 {
        let layout =
            Layout::before(sheet, reply.place as usize).filter(|places| reply.place as usize >= places.irb_count());
        if let Some(layout) = layout {
            change(&layout, &mut reply);
        }
    }
    reply
}

/// The numbers and places of the IRB section: a figure judged as a fact, as a wrong count, or at the section's count; a
/// wrong count judged as a figure.
#[test]
fn wrong_refusal_of_the_section() {
    let number: [Weigh; 3] = [
        |sheet, results| {
            section_refused(sheet, results, |_, reply| {
                as_number(reply, refusal::IRB_FIGURE, refusal::FACT)
            })
        },
        |sheet, results| {
            section_refused(sheet, results, |_, reply| {
                as_number(reply, refusal::IRB_FIGURE, refusal::COUNT)
            })
        },
        |sheet, results| {
            section_refused(sheet, results, |_, reply| {
                as_number(reply, refusal::COUNT, refusal::IRB_FIGURE)
            })
        },
    ];
    for weigh in number {
        assert_eq!(weighed(weigh), Some(Part::Number));
    }
    let place: Weigh = |sheet, results| {
        section_refused(sheet, results, |layout, reply| {
            if reply.number == refusal::IRB_FIGURE {
                reply.place = layout.irb_count() as u64;
            }
        })
    };
    assert_eq!(weighed(place), Some(Part::Place));
}

/// Judges one number as another.
fn as_number(reply: &mut Reply, number: u64, other: u64) {
    if reply.number == number {
        reply.number = other;
    }
}

/// Takes this word of the section as good, whatever it is: weighs the sheet with 1 in its place, or the whole for a
/// share.
fn unjudged(word: IrbWord, sheet: &[u64], results: &mut [u64]) -> Reply {
    let reply = proved(sheet, results);
    let place = reply.place as usize;
    let layout = Layout::before(sheet, place).filter(|layout| layout.irb_word(word) == place);
    if reply.number != refusal::IRB_FIGURE || layout.is_none() {
        return reply;
    }
    let mut words = sheet.to_vec();
    words[place] = if word == IrbWord::Share { WHOLE } else { 1 };
    proved(&words, results)
}

/// Each of the section's words, not judged.
#[test]
fn words_of_the_section_not_judged() {
    let wrong: [Weigh; IrbWord::COUNT] = [
        |sheet, results| unjudged(IrbWord::Charge, sheet, results),
        |sheet, results| unjudged(IrbWord::Loss, sheet, results),
        |sheet, results| unjudged(IrbWord::Loans, sheet, results),
        |sheet, results| unjudged(IrbWord::Retail, sheet, results),
        |sheet, results| unjudged(IrbWord::Share, sheet, results),
        |sheet, results| unjudged(IrbWord::Average, sheet, results),
    ];
    for weigh in wrong {
        let part = weighed(weigh);
        assert!(matches!(part, Some(Part::Outcome | Part::Number)), "{part:?}");
    }
}

/// Refuses the kinds of pools other than SA.
fn sa_pools_only(sheet: &[u64], results: &mut [u64]) -> Reply {
    let kind = Layout::fact(Fact::PoolKind);
    match sheet.get(kind) {
        Some(&(pool_kind::IRB | pool_kind::MIXED)) => Reply::refusing(refusal::FACT, kind as u64),
        _ => proved(sheet, results),
    }
}

/// Takes a re-securitisation that lacks its section.
fn without_section_taken(sheet: &[u64], results: &mut [u64]) -> Reply {
    let reply = proved(sheet, results);
    let layout = Layout::before(sheet, reply.place as usize);
    let lacks = layout.is_some_and(|layout| layout.irb_count() == sheet.len() && reply.number == refusal::MISSING);
    if !lacks || sheet[Layout::fact(Fact::Resecuritisation)] == 0 {
        return reply;
    }
    weigh_as_sa_pool(sheet, results)
}

/// Takes words that follow the section.
fn words_after_section_taken(sheet: &[u64], results: &mut [u64]) -> Reply {
    let reply = proved(sheet, results);
    match Layout::before(sheet, reply.place as usize) {
        Some(layout) if reply.number == refusal::WORDS_FOLLOW && layout.irb => {
            proved(&sheet[..layout.words()], results)
        }
        _ => reply,
    }
}

/// Takes the section of an SA pool.
fn section_of_sa_pool_taken(sheet: &[u64], results: &mut [u64]) -> Reply {
    let reply = proved(sheet, results);
    match Layout::before(sheet, reply.place as usize) {
        Some(layout) if reply.number == refusal::WORDS_FOLLOW && !layout.irb => {
            proved(&sheet[..layout.irb_count()], results)
        }
        _ => reply,
    }
}

/// Sections that are asked for where none is due, or not where one is: pools other than SA refused, a section missing,
/// words that follow, the section of an SA pool.
#[test]
fn wrong_sections_taken() {
    let wrong: [Weigh; 4] = [
        sa_pools_only,
        without_section_taken,
        words_after_section_taken,
        section_of_sa_pool_taken,
    ];
    for (place, weigh) in wrong.into_iter().enumerate() {
        let part = weighed(weigh);
        assert!(matches!(part, Some(Part::Outcome | Part::Number)), "{place}: {part:?}");
    }
}

/// Weighs a sheet that has its tranches as one of an SA pool, without a section.
fn weigh_as_sa_pool(sheet: &[u64], results: &mut [u64]) -> Reply {
    let mut words = sheet[..Layout::of_sheet(sheet).irb_count()].to_vec();
    words[Layout::fact(Fact::PoolKind)] = pool_kind::SA;
    proved(&words, results)
}

/// Weighs an accepted sheet of a mixed pool with this share as if it were another one; 0 makes it one of an SA pool.
fn other_share(sheet: &[u64], results: &mut [u64], share: u64, other: u64) -> Reply {
    accepted_by(sheet, results, |sheet, results| {
        let layout = Layout::of_sheet(sheet);
        let mut words = sheet.to_vec();
        let mixed = layout.fact_word(sheet, Fact::PoolKind) == pool_kind::MIXED;
        if mixed && words[layout.irb_word(IrbWord::Share)] == share {
            words[layout.irb_word(IrbWord::Share)] = other;
        }
        proved(&words, results)
    })
}

/// Which deals are under SEC-IRBA: none, those from one millionth more or less on, and only those whose tranches are
/// not rated. Found by the charge, by the approach or in the outcome.
#[test]
fn wrong_deals_under_irba() {
    let wrong: [Weigh; 3] = [
        |sheet, results| accepted_by(sheet, results, weigh_as_sa_pool),
        |sheet, results| other_share(sheet, results, IRB_SHARE, 0),
        |sheet, results| other_share(sheet, results, IRB_SHARE - 1, IRB_SHARE),
    ];
    for (place, weigh) in wrong.into_iter().enumerate() {
        let part = weighed(weigh);
        let found = matches!(
            part,
            Some(Part::Outcome | Part::Charge | Part::Line(LineWord::Approach))
        );
        assert!(found, "{place}: {part:?}");
    }
    let rated: Weigh = |sheet, results| {
        change_lines(sheet, results, |figures, tranche, line| {
            if figures.irb.is_some() && tranche.ratings != [0; RATINGS] {
                line[LineWord::Approach as usize] = Approach::SecErba.word();
            }
        })
    };
    assert_eq!(weighed(rated), Some(Part::Line(LineWord::Approach)));
    let as_sec_sa: Weigh = |sheet, results| {
        change_lines(sheet, results, |figures, _, line| {
            if figures.irb.is_some() {
                line[LineWord::Approach as usize] = Approach::SecSa.word();
            }
        })
    };
    assert_eq!(weighed(as_sec_sa), Some(Part::Line(LineWord::Approach)));
}

/// Weighs as the proved library does, and changes the lines of an accepted sheet, given the deal's figures, each tranche,
/// with the ratings that count for it, and its line.
fn change_lines(
    sheet: &[u64],
    results: &mut [u64],
    change: impl Fn(&Figures, &Tranche, &mut [u64; LINE_WORDS]),
) -> Reply {
    let reply = proved(sheet, results);
    if reply.number == 0 {
        let read = independent::sheet::read(sheet).expect("an accepted sheet");
        let figures = Figures::of(&read);
        let (lines, _) = results.as_chunks_mut::<LINE_WORDS>();
        for (tranche, line) in read.tranches.iter().zip(lines) {
            let tranche = approach::with_ratings_that_count(&figures, &read.tranches, tranche);
            change(&figures, &tranche, line);
        }
    }
    reply
}

/// How a deal under SEC-IRBA is reworked: its figures, and the parameter of each tranche.
struct Rework {
    /// Changes the figures of the deal, given its rows.
    figures: fn(&[Row], &mut Figures),
    /// The parameter of a tranche, given the section, the figures and the tranche.
    parameter: fn(&Irb, &Figures, &Tranche) -> u64,
}

impl Rework {
    /// Nothing changed.
    const RIGHT: Rework = Rework {
        figures: |_, _| {},
        parameter: |_, figures, tranche| approach::parameter(figures, tranche),
    };

    /// The proved weighing, but each sheet with enough room under SEC-IRBA is weighed as this says, by the parts of the
    /// independent implementation.
    fn weigh(&self, sheet: &[u64], results: &mut [u64]) -> Reply {
        let read = match independent::sheet::read(sheet) {
            Ok(read) if results.len() >= LINE_WORDS * read.tranches.len() => read,
            _ => return proved(sheet, results),
        };
        let mut figures = Figures::of(&read);
        let Some(irb) = figures.irb else {
            return proved(sheet, results);
        };
        (self.figures)(&read.pool, &mut figures);
        let nominal = charge::nominal_sum(&read.pool);
        let line = |tranche: &Tranche| {
            let points = charge::points(nominal, &read.tranches, tranche.class);
            self.line(irb, &figures, tranche, points)
        };
        let lines: Result<Vec<_>, u64> = read.tranches.iter().map(line).collect();
        match lines {
            Ok(lines) => {
                results[..LINE_WORDS * lines.len()].copy_from_slice(lines.as_flattened());
                Reply::accepting(lines.len() as u64, figures.charge)
            }
            Err(place) => Reply::refusing(refusal::THIN, place),
        }
    }

    /// The line of a tranche with these points, or the place of one that is refused.
    fn line(&self, irb: &Irb, figures: &Figures, tranche: &Tranche, points: Points) -> Result<[u64; LINE_WORDS], u64> {
        let Points { attachment, detachment } = points;
        if attachment == detachment && detachment > figures.charge {
            return Err(tranche.place);
        }
        let raw = raw_weights(&Terms {
            charge: figures.charge,
            attachment,
            detachment,
            parameter: (self.parameter)(irb, figures, tranche),
        });
        let [weight, least_weight] =
            [raw.weights[0], raw.least_weights[0]].map(|raw| approach::limited(figures, tranche, raw));
        let product = u128::from(tranche.held) * u128::from(weight);
        let [risk_weighted, capital] = [product.div_ceil(10_000), (8 * product).div_ceil(1_000_000)];
        let approach = Approach::SecIrba.word();
        Ok([
            approach,
            attachment,
            detachment,
            weight,
            risk_weighted as u64,
            capital as u64,
            least_weight,
        ])
    }
}

/// The part in which a run first finds deals under SEC-IRBA different that are reworked with these figures.
macro_rules! refigured {
    ($figures:expr) => {
        weighed(|sheet, results| {
            let rework = Rework {
                figures: $figures,
                ..Rework::RIGHT
            };
            rework.weigh(sheet, results)
        })
    };
}

/// The part in which a run first finds deals under SEC-IRBA different that are reworked with this parameter.
macro_rules! reparametered {
    ($parameter:expr) => {
        weighed(|sheet, results| {
            let rework = Rework {
                parameter: $parameter,
                ..Rework::RIGHT
            };
            rework.weigh(sheet, results)
        })
    };
}

/// The charge (S-5) of this section over this base charge, before it is divided by the whole and rounded up.
fn mixed_sum(irb: &Irb, base: u128) -> u128 {
    let [share, charge] = [irb.share, irb.charge].map(u128::from);
    share * charge + (u128::from(WHOLE) - share) * base
}

/// The charge (S-5) of this section over this base charge.
fn mixed(irb: &Irb, base: u128) -> u64 {
    mixed_sum(irb, base).div_ceil(WHOLE.into()) as u64
}

/// The section of figures under SEC-IRBA.
fn section<'a>(figures: &Figures<'a>) -> &'a Irb {
    figures.irb.expect("a deal under SEC-IRBA")
}

/// The base charge of all rows, rounded down.
fn base_rounded_down(rows: &[Row]) -> u128 {
    let sum = |of: fn(&Row) -> u64| rows.iter().map(|row| u128::from(of(row))).sum::<u128>();
    let weighted: u128 = rows
        .iter()
        .map(|row| u128::from(row.exposure) * u128::from(row.risk_weight))
        .sum();
    8 * weighted / sum(|row| row.exposure)
}

/// A rework that changes nothing passes, so that each one below is found for its own sake. A charge that is wrong is
/// found, by itself or by a second sheet with other statuses: that of document 01 with its late payers and unknown rows,
/// the IRB charge alone, the base charge alone, over the known rows or rounded down, and the mixed charge rounded down.
#[test]
fn wrong_charge_under_irba() {
    assert_eq!(refigured!(|_, _| {}), None);
    let wrong = [
        refigured!(|rows, figures| figures.charge = charge::pool_charge(rows).charge),
        refigured!(|_, figures| figures.charge = section(figures).charge),
        refigured!(|rows, figures| figures.charge = charge::base_charge(rows) as u64),
        refigured!(|rows, figures| {
            let known = rows.iter().copied().filter(|row| row.status != Status::Unknown);
            let known: Vec<Row> = known.collect();
            if !known.is_empty() {
                figures.charge = mixed(section(figures), charge::base_charge(&known));
            }
        }),
        refigured!(|rows, figures| figures.charge = mixed(section(figures), base_rounded_down(rows))),
        refigured!(|rows, figures| {
            let sum = mixed_sum(section(figures), charge::base_charge(rows));
            figures.charge = (sum / u128::from(WHOLE)) as u64;
        }),
    ];
    for (place, part) in wrong.into_iter().enumerate() {
        let found = matches!(part, Some(Part::Charge | Part::Outcome | Part::OtherUnderIrba));
        assert!(found, "{place}: {part:?}");
    }
}

/// A cap under SEC-IRBA that is wrong: the pool's average, or the IRB average raised to the floor or one higher.
#[test]
fn wrong_cap_under_irba() {
    let wrong = [
        refigured!(|rows, figures| figures.average_weight = charge::average_risk_weight_times(1, rows) as u64),
        refigured!(|_, figures| figures.average_weight = figures.average_weight.max(1_500)),
        refigured!(|_, figures| figures.average_weight += 1),
    ];
    for part in wrong {
        assert_eq!(part, Some(Part::Line(LineWord::Weight)));
    }
}

/// A tranche without thickness under SEC-IRBA that is let pass.
#[test]
fn wrong_thin_tranche_under_irba() {
    let let_pass: Weigh = |sheet, results| {
        let reply = proved(sheet, results);
        let read = independent::sheet::read(sheet);
        let irba = read.is_ok_and(|read| approach::irb_of(&read).is_some());
        match irba && reply.number == refusal::THIN {
            true => Reply::accepting(0, 0),
            false => reply,
        }
    };
    assert_eq!(weighed(let_pass), Some(Part::Outcome));
}

/// The parameter of a tranche by this sum.
fn by_sum(sum: Sum, figures: &Figures) -> u64 {
    sum.parameter(figures.facts.stc)
}

/// Whether a difference is in one of a line's two ends.
fn is_an_end(part: Option<Part>) -> bool {
    matches!(part, Some(Part::Line(LineWord::Weight | LineWord::LeastWeight)))
}

/// The right sum of a tranche with the section changed.
fn sum_with(irb: Irb, figures: &Figures, tranche: &Tranche) -> Sum {
    Sum::of(&irb, figures.charge, tranche)
}

/// The parameter of a tranche with another number of loans in place of one.
fn with_loans(irb: &Irb, figures: &Figures, tranche: &Tranche, loans: u64, other: u64) -> u64 {
    let loans = if irb.loans == loans { other } else { irb.loans };
    by_sum(sum_with(Irb { loans, ..*irb }, figures, tranche), figures)
}

/// A parameter that is wrong: that of SEC-SA; by the IRB charge; as of the other classes; retail as wholesale; as of
/// the loans next to the limit; without the loss; without the tranche maturity's rule.
#[test]
fn wrong_terms_of_the_parameter() {
    let wrong = [
        reparametered!(|_, figures, _| if figures.facts.stc { 500_000 } else { 1_000_000 }),
        reparametered!(|irb, figures, tranche| by_sum(Sum::of(irb, irb.charge, tranche), figures)),
        reparametered!(|irb, figures, tranche| {
            let class = if tranche.class == 1 { 2 } else { 1 };
            by_sum(sum_with(*irb, figures, &Tranche { class, ..*tranche }), figures)
        }),
        reparametered!(|irb, figures, tranche| {
            let retail = !irb.retail;
            by_sum(sum_with(Irb { retail, ..*irb }, figures, tranche), figures)
        }),
        reparametered!(|irb, figures, tranche| with_loans(irb, figures, tranche, MANY_LOANS, MANY_LOANS - 1)),
        reparametered!(|irb, figures, tranche| with_loans(irb, figures, tranche, MANY_LOANS - 1, MANY_LOANS)),
        reparametered!(|irb, figures, tranche| by_sum(sum_with(Irb { loss: 0, ..*irb }, figures, tranche), figures)),
        reparametered!(|irb, figures, tranche| {
            let months = (5 * tranche.months / 4).clamp(1, 60);
            by_sum(sum_with(*irb, figures, &Tranche { months, ..*tranche }), figures)
        }),
    ];
    for (place, part) in wrong.into_iter().enumerate() {
        assert!(is_an_end(part), "{place}: {part:?}");
    }
}

/// The sum of a tranche in millionths, halved where that is asked for and rounded down.
fn rounded_down(sum: Sum, half: bool) -> u64 {
    let denominator = sum.denominator * if half { 2 } else { 1 };
    u64::try_from(sum.numerator.div_euclid(denominator)).unwrap_or(0)
}

/// A sum that is rounded, halved or raised wrongly: rounded down; not halved, or halved in every deal; raised to 0.3
/// before it is halved and not after; not raised at all; a negative one by its size.
#[test]
fn wrong_end_of_the_parameter() {
    let wrong = [
        reparametered!(|irb, figures, tranche| {
            let sum = sum_with(*irb, figures, tranche);
            rounded_down(sum, figures.facts.stc).max(300_000)
        }),
        reparametered!(|irb, figures, tranche| sum_with(*irb, figures, tranche).parameter(false)),
        reparametered!(|irb, figures, tranche| sum_with(*irb, figures, tranche).parameter(true)),
        reparametered!(|irb, figures, tranche| {
            let whole = sum_with(*irb, figures, tranche).parameter(false);
            if figures.facts.stc {
                whole.div_ceil(2)
            } else {
                whole
            }
        }),
        reparametered!(|irb, figures, tranche| {
            let sum = sum_with(*irb, figures, tranche);
            match sum.parameter(figures.facts.stc) {
                300_000 => rounded_down(sum, figures.facts.stc).max(1),
                above => above,
            }
        }),
        reparametered!(|irb, figures, tranche| {
            let mut sum = sum_with(*irb, figures, tranche);
            sum.numerator = sum.numerator.abs();
            by_sum(sum, figures)
        }),
    ];
    for (place, part) in wrong.into_iter().enumerate() {
        assert!(is_an_end(part), "{place}: {part:?}");
    }
}

/// The charge of S-5 where SEC-IRBA does not hold: in a re-securitisation, without due diligence, and below the least
/// share.
#[test]
fn charge_of_irba_elsewhere() {
    let weigh: Weigh = |sheet, results| {
        let mut reply = proved(sheet, results);
        if reply.number == 0 {
            let read = independent::sheet::read(sheet).expect("an accepted sheet");
            if let Some(irb) = &read.irb {
                reply.charge = mixed(irb, charge::base_charge(&read.pool));
            }
        }
        reply
    };
    assert_eq!(weighed(weigh), Some(Part::Charge));
}

/// A deal whose tranches are weighed by the parts of the independent implementation.
struct Weighing<'a> {
    /// The words of its sheet.
    words: &'a [u64],
    /// The sheet.
    read: &'a Sheet,
    /// Its figures.
    figures: &'a Figures<'a>,
}

/// A tranche as it is weighed.
struct Counted {
    /// The tranche, with the ratings that count for it.
    tranche: Tranche,
    /// The class whose points give its thickness.
    thick_as: u64,
    /// Its approach.
    approach: approach::Approach,
    /// The approach by which 13 is judged.
    judged_by: approach::Approach,
}

impl<'a> Weighing<'a> {
    /// The rated tranches.
    fn rated(&self) -> impl Iterator<Item = &'a Tranche> {
        self.read.tranches.iter().filter(|tranche| is_rated(tranche))
    }

    /// Those of a tranche's class or a junior one.
    fn ranked(&self, tranche: &Tranche) -> impl Iterator<Item = &'a Tranche> {
        let class = tranche.class;
        self.rated().filter(move |row| row.class >= class)
    }

    /// Those of these that are long enough.
    fn takeable(&self, tranche: &Tranche) -> impl Iterator<Item = &'a Tranche> {
        let months = tranche.months;
        self.ranked(tranche).filter(move |row| row.months >= months)
    }

    /// The first of these in the most senior class.
    fn found(&self, tranche: &Tranche) -> Option<Tranche> {
        self.takeable(tranche).min_by_key(|row| row.class).copied()
    }

    /// The maturity word of a tranche.
    fn maturity(&self, tranche: &Tranche) -> u64 {
        self.words[tranche.place as usize + TrancheWord::Maturity as usize]
    }

    /// A tranche with these ratings, by which its approach follows.
    fn with(&self, tranche: &Tranche, ratings: [u64; RATINGS]) -> Counted {
        let tranche = Tranche { ratings, ..*tranche };
        let approach = approach::choose(self.figures, &tranche);
        Counted {
            tranche,
            thick_as: tranche.class,
            approach,
            judged_by: approach,
        }
    }

    /// A tranche with the ratings of the row that is found for it, where it has none and ratings are inferred in the deal.
    fn with_those_of(&self, tranche: &Tranche, find: Find) -> Counted {
        let infers = !self.read.facts.resecuritisation && self.figures.irb.is_none();
        let found = match infers && !is_rated(tranche) {
            true => find(self, tranche),
            false => None,
        };
        self.with(tranche, found.map_or(tranche.ratings, |row| row.ratings))
    }

    /// A tranche as S-8 says, but under SEC-ERBA where it finds ratings in a deal like this one.
    fn inferring_where(&self, tranche: &Tranche, deal: bool) -> Counted {
        let mut counted = self.with_those_of(tranche, row_of_s8);
        if let Some(found) = self.found(tranche).filter(|_| deal && !is_rated(tranche)) {
            counted.tranche.ratings = found.ratings;
            counted.approach = approach::Approach::SecErba;
            counted.judged_by = counted.approach;
        }
        counted
    }

    /// A tranche as S-8 says, changed by the row whose ratings it takes.
    fn changed_by(&self, tranche: &Tranche, change: fn(&mut Counted, &Tranche)) -> Counted {
        let mut counted = self.with_those_of(tranche, row_of_s8);
        if counted.tranche.ratings != tranche.ratings {
            let found = self.found(tranche).expect("the row that is taken");
            change(&mut counted, &found);
        }
        counted
    }

    /// The line of a tranche as it is weighed, or its refusal.
    fn line(&self, tranche: &Tranche, count: Count) -> Result<[u64; LINE_WORDS], Refusal> {
        let nominal = charge::nominal_sum(&self.read.pool);
        let points = |class| charge::points(nominal, &self.read.tranches, class);
        let counted = count(self, tranche);
        let own = points(tranche.class);
        approach::refuse_no_thickness(counted.judged_by, &own, self.figures.charge, tranche.place)?;
        let thick_as = points(counted.thick_as);
        let line = approach::line(self.figures, &counted.tranche, counted.approach, thick_as);
        let [weight, risk_weighted, capital, least_weight] = words(&line.amounts[0], line.least_weights[0]);
        let Points { attachment, detachment } = own;
        let approach = line.approach;
        Ok([
            approach,
            attachment,
            detachment,
            weight,
            risk_weighted,
            capital,
            least_weight,
        ])
    }
}

/// Finds the row whose ratings an unrated tranche takes.
type Find = fn(&Weighing, &Tranche) -> Option<Tranche>;

/// The row that S-8 names.
fn row_of_s8(deal: &Weighing, tranche: &Tranche) -> Option<Tranche> {
    deal.found(tranche)
}

/// Says how a tranche is weighed.
type Count = fn(&Weighing, &Tranche) -> Counted;

/// The proved weighing, but each sheet of good words with enough room is weighed tranche by tranche as this says.
fn weigh_counting(sheet: &[u64], results: &mut [u64], count: Count) -> Reply {
    let read = match independent::sheet::read(sheet) {
        Ok(read) if results.len() >= LINE_WORDS * read.tranches.len() => read,
        _ => return proved(sheet, results),
    };
    let figures = &Figures::of(&read);
    let weighing = Weighing {
        words: sheet,
        read: &read,
        figures,
    };
    let lines = read.tranches.iter().map(|tranche| weighing.line(tranche, count));
    match lines.collect::<Result<Vec<_>, Refusal>>() {
        Ok(lines) => {
            results[..LINE_WORDS * lines.len()].copy_from_slice(lines.as_flattened());
            Reply::accepting(lines.len() as u64, figures.charge)
        }
        Err(refusal) => Reply::refusing(refusal.number, refusal.place),
    }
}

/// The part in which a run first finds deals different whose tranches are weighed so.
macro_rules! recounted_lines {
    ($count:expr) => {
        weighed(|sheet, results| weigh_counting(sheet, results, $count))
    };
}

/// The part in which a run first finds deals different whose unrated tranches take the ratings of the row so found.
macro_rules! refound {
    ($find:expr) => {
        recounted_lines!(|deal, tranche| deal.with_those_of(tranche, $find))
    };
}

/// Whether a difference is one that wrong ratings make: in the outcome, in the place of a refusal, in a line, or between
/// two sheets with other ratings or other forms of maturities.
fn is_by_ratings(part: Option<Part>) -> bool {
    let of_sheet = matches!(part, Some(Part::Outcome | Part::Place | Part::Line(_)));
    of_sheet || matches!(part, Some(Part::OtherRatings | Part::MonthsForDates))
}

/// Ratings taken from another class: none, of any class, of junior ones or the own one alone, of the most junior one.
/// Taken rightly they pass, so that each fault below is found for its own sake.
#[test]
fn wrong_class_of_inferred_ratings() {
    assert_eq!(refound!(row_of_s8), None);
    let wrong = [
        refound!(|_, _| None),
        refound!(|deal, tranche| {
            let long_enough = deal.rated().filter(|row| row.months >= tranche.months);
            long_enough.min_by_key(|row| row.class).copied()
        }),
        refound!(|deal, tranche| {
            let juniors = deal.takeable(tranche).filter(|row| row.class > tranche.class);
            juniors.min_by_key(|row| row.class).copied()
        }),
        refound!(|deal, tranche| deal.found(tranche).filter(|row| row.class == tranche.class)),
        refound!(|deal, tranche| deal.takeable(tranche).min_by_key(|row| Reverse(row.class)).copied()),
    ];
    for (place, part) in wrong.into_iter().enumerate() {
        assert!(is_by_ratings(part), "{place}: {part:?}");
    }
}

/// Ratings taken by another maturity: any, a month less, longer ones alone, by the tranche maturity that is held within
/// one and five years, by dates; and the row that is nearest.
#[test]
fn wrong_maturity_of_inferred_ratings() {
    let wrong = [
        refound!(|deal, tranche| deal.ranked(tranche).min_by_key(|row| row.class).copied()),
        refound!(|deal, tranche| {
            let months = tranche.months - 1;
            deal.found(&Tranche { months, ..*tranche })
        }),
        refound!(|deal, tranche| {
            let months = tranche.months + 1;
            deal.found(&Tranche { months, ..*tranche })
        }),
        refound!(|deal, tranche| {
            let maturity = rating::maturity(tranche.months);
            let mut ranked = deal.ranked(tranche);
            ranked.find(|row| rating::maturity(row.months) >= maturity).copied()
        }),
        refound!(|deal, tranche| {
            let maturity = deal.maturity(tranche);
            let mut ranked = deal.ranked(tranche);
            ranked.find(|row| deal.maturity(row) >= maturity).copied()
        }),
        refound!(|deal, tranche| deal.takeable(tranche).min_by_key(|row| row.months).copied()),
    ];
    for (place, part) in wrong.into_iter().enumerate() {
        assert!(is_by_ratings(part), "{place}: {part:?}");
    }
}

/// The row that a tranche finds where ratings that are taken count as a tranche's own.
fn found_in_chain(deal: &Weighing, tranche: &Tranche) -> Option<Tranche> {
    let others = deal.read.tranches.iter().filter(|row| row.place != tranche.place);
    let ranked = others.filter(|row| row.class >= tranche.class && row.months >= tranche.months);
    let rated = ranked.filter_map(|row| match is_rated(row) {
        true => Some(*row),
        false => deal.found(row).map(|found| Tranche {
            ratings: found.ratings,
            ..*row
        }),
    });
    rated.reduce(|one, other| if other.class < one.class { other } else { one })
}

/// Ratings taken from another row: the last one of the class, a later one than the tranche alone, the first one of the
/// class and none where that is too short; from one that takes its own; and only the first word of the row.
#[test]
fn wrong_row_of_inferred_ratings() {
    let wrong = [
        refound!(|deal, tranche| deal.takeable(tranche).max_by_key(|row| Reverse(row.class)).copied()),
        refound!(|deal, tranche| {
            let later = deal.takeable(tranche).filter(|row| row.place > tranche.place);
            later.min_by_key(|row| row.class).copied()
        }),
        refound!(|deal, tranche| {
            let first = deal.ranked(tranche).min_by_key(|row| row.class);
            first.filter(|row| row.months >= tranche.months).copied()
        }),
        refound!(found_in_chain),
        refound!(|deal, tranche| {
            let found = deal.found(tranche)?;
            let ratings = [found.ratings[0], 0, 0];
            Some(Tranche { ratings, ..found })
        }),
    ];
    for (place, part) in wrong.into_iter().enumerate() {
        assert!(is_by_ratings(part), "{place}: {part:?}");
    }
}

/// What a tranche has of its own, taken from the row too: its maturity, its class, its thickness; and ratings taken by a
/// tranche that is rated, or whose first word alone is none.
#[test]
fn wrong_figures_with_inferred_ratings() {
    let wrong = [
        recounted_lines!(|deal, tranche| {
            deal.changed_by(tranche, |counted, found| counted.tranche.months = found.months)
        }),
        recounted_lines!(|deal, tranche| {
            deal.changed_by(tranche, |counted, found| counted.tranche.class = found.class)
        }),
        recounted_lines!(|deal, tranche| deal.changed_by(tranche, |counted, found| counted.thick_as = found.class)),
        recounted_lines!(|deal, tranche| {
            let found = deal.found(tranche).filter(|_| deal.figures.irb.is_none());
            deal.with(tranche, found.map_or(tranche.ratings, |row| row.ratings))
        }),
        recounted_lines!(|deal, tranche| {
            let found = deal.found(tranche).filter(|_| tranche.ratings[0] == 0);
            deal.with(tranche, found.map_or(tranche.ratings, |row| row.ratings))
        }),
    ];
    for (place, part) in wrong.into_iter().enumerate() {
        assert!(is_by_ratings(part), "{place}: {part:?}");
    }
}

/// Ratings inferred at another step: before a re-securitisation's SEC-SA, before SEC-IRBA, before the fallback without due
/// diligence; after the fallback for unknown rows; and after 13 is judged.
#[test]
fn wrong_step_of_inferred_ratings() {
    let wrong = [
        recounted_lines!(|deal, tranche| {
            let facts = &deal.read.facts;
            deal.inferring_where(tranche, facts.resecuritisation && facts.due_diligence_held)
        }),
        recounted_lines!(|deal, tranche| deal.inferring_where(tranche, deal.figures.irb.is_some())),
        recounted_lines!(|deal, tranche| deal.inferring_where(tranche, !deal.read.facts.due_diligence_held)),
        recounted_lines!(|deal, tranche| match deal.figures.unknown_above_limit {
            true => deal.with(tranche, tranche.ratings),
            false => deal.with_those_of(tranche, row_of_s8),
        }),
        recounted_lines!(|deal, tranche| Counted {
            judged_by: approach::choose(deal.figures, tranche),
            ..deal.with_those_of(tranche, row_of_s8)
        }),
    ];
    for (place, part) in wrong.into_iter().enumerate() {
        assert!(is_by_ratings(part), "{place}: {part:?}");
    }
}

/// The place of the last line of an accepted sheet in the results.
fn last_line(reply: &Reply) -> usize {
    LINE_WORDS * (reply.count as usize - 1)
}

/// Adds 3 to one of the words of the last line. Admitted weights are neighbours, and so are admitted least weights, so
/// that one with 3 added is never admitted.
fn wrong_word<const WORD: usize>(sheet: &[u64], results: &mut [u64]) -> Reply {
    let reply = proved(sheet, results);
    if reply.number == 0 {
        results[last_line(&reply) + WORD] += 3;
    }
    reply
}

/// For each word the weighing with that word wrong, the weighing of files by it, and the part in which it is found,
/// that word of a line.
macro_rules! wrong_words {
    ($($word:ident),+) => {
        [$((
            wrong_word::<{ LineWord::$word as usize }> as Weigh,
            (|file, results| read(file, results, good_length, wrong_word::<{ LineWord::$word as usize }>)) as WeighFile,
            Part::Line(LineWord::$word),
        )),+]
    };
}

/// All words of a line, wrong in turn.
const WRONG_WORDS: [(Weigh, WeighFile, Part); LINE_WORDS] = wrong_words![
    Approach,
    Attachment,
    Detachment,
    Weight,
    RiskWeighted,
    Capital,
    LeastWeight
];

/// Each of a line's words.
#[test]
fn wrong_word_of_a_line() {
    for (weigh, _, part) in WRONG_WORDS {
        assert_eq!(weighed(weigh), Some(part));
    }
}

/// The floor and the cap of a tranche; the highest word where there is no cap.
fn limits(figures: &Figures, tranche: &Tranche) -> (u64, u64) {
    let facts = Facts {
        composition_known: false,
        ..*figures.facts
    };
    let uncapped = Figures {
        facts: &facts,
        ..*figures
    };
    let floor = approach::limited(&uncapped, tranche, 0);
    (floor, approach::limited(figures, tranche, u64::MAX))
}

/// The number from which the least weight of a line starts; the higher one where two pass, and none under the fallback.
fn least_start(figures: &Figures, tranche: &Tranche, line: &[u64; LINE_WORDS]) -> Option<u64> {
    let [attachment, detachment] = [LineWord::Attachment, LineWord::Detachment].map(|word| line[word as usize]);
    let approach = line[LineWord::Approach as usize];
    if approach == Approach::Fallback.word() {
        return None;
    }
    if approach == Approach::SecErba.word() {
        let table = Table::of(figures.facts.stc);
        return Some(rating::least_weight(table, tranche, detachment - attachment));
    }
    let raw = raw_weights(&Terms {
        charge: figures.charge,
        attachment,
        detachment,
        parameter: approach::parameter(figures, tranche),
    });
    raw.least_weights.last().copied()
}

/// Weighs as the proved library does, but limits each least weight in another way, given the number from which it starts,
/// the floor and the cap.
fn relimited(sheet: &[u64], results: &mut [u64], limit: fn(u64, u64, u64) -> u64) -> Reply {
    change_lines(sheet, results, |figures, tranche, line| {
        if let Some(start) = least_start(figures, tranche, line) {
            let (floor, cap) = limits(figures, tranche);
            line[LineWord::LeastWeight as usize] = limit(start, floor, cap);
        }
    })
}

/// Least weights limited wrongly: without the floor, without the cap, by the cap and then by the floor, or by neither.
/// Limited rightly they pass.
#[test]
fn wrong_limits_of_the_least_weight() {
    let right: Weigh = |sheet, results| relimited(sheet, results, |start, floor, cap| start.max(floor).min(cap));
    assert_eq!(weighed(right), None);
    let wrong: [Weigh; 4] = [
        |sheet, results| relimited(sheet, results, |start, _, cap| start.min(cap)),
        |sheet, results| relimited(sheet, results, |start, floor, _| start.max(floor)),
        |sheet, results| relimited(sheet, results, |start, floor, cap| start.min(cap).max(floor)),
        |sheet, results| relimited(sheet, results, |start, _, _| start),
    ];
    for weigh in wrong {
        assert_eq!(weighed(weigh), Some(Part::Line(LineWord::LeastWeight)));
    }
}

/// Weighs as the proved library does, but with another least weight on each line under some approaches, made of the line's
/// weight and least weight.
fn other_least(sheet: &[u64], results: &mut [u64], approaches: &[Approach], change: fn(u64, u64) -> u64) -> Reply {
    change_lines(sheet, results, |_, _, line| {
        let [approach, weight, least_weight] =
            [LineWord::Approach, LineWord::Weight, LineWord::LeastWeight].map(|word| line[word as usize]);
        if approaches.iter().any(|one| one.word() == approach) {
            line[LineWord::LeastWeight as usize] = change(weight, least_weight);
        }
    })
}

/// The two approaches of the formula.
const FORMULA: &[Approach] = &[Approach::SecSa, Approach::SecIrba];

/// Least weights that are not those of the papers: by the table the weight itself, or one below it; by the formula the
/// weight itself, two lower, or always two below the weight; under the fallback one lower.
#[test]
fn wrong_least_weight() {
    let wrong: [Weigh; 6] = [
        |sheet, results| other_least(sheet, results, &[Approach::SecErba], |weight, _| weight),
        |sheet, results| {
            other_least(sheet, results, &[Approach::SecErba], |weight, _| {
                weight.saturating_sub(1)
            })
        },
        |sheet, results| other_least(sheet, results, FORMULA, |weight, _| weight),
        |sheet, results| other_least(sheet, results, FORMULA, |_, least| least.saturating_sub(2)),
        |sheet, results| other_least(sheet, results, FORMULA, |weight, _| weight.saturating_sub(2)),
        |sheet, results| other_least(sheet, results, &[Approach::Fallback], |_, least| least - 1),
    ];
    for (place, weigh) in wrong.into_iter().enumerate() {
        assert_eq!(weighed(weigh), Some(Part::Line(LineWord::LeastWeight)), "{place}");
    }
}

/// Weighs as the proved library does, but starts each least weight of the exponentials from one below the exact value
/// rounded down, where neither floor nor cap hides it.
fn one_below(sheet: &[u64], results: &mut [u64]) -> Reply {
    change_lines(sheet, results, |figures, tranche, line| {
        let [approach, detachment] = [LineWord::Approach, LineWord::Detachment].map(|word| line[word as usize]);
        let by_formula = FORMULA.iter().any(|one| one.word() == approach);
        let by_exponentials = by_formula && (1..detachment).contains(&figures.charge);
        let (floor, cap) = limits(figures, tranche);
        let start = least_start(figures, tranche, line).filter(|start| (floor + 1..=cap).contains(start));
        if let Some(start) = start.filter(|_| by_exponentials) {
            line[LineWord::LeastWeight as usize] = start - 1;
        }
    })
}

/// A least weight that starts from one below the exact value rounded down: it is admitted where the value is less than a
/// half above that, and found where it is not.
#[test]
fn wrong_distance_of_the_least_weight() {
    assert_eq!(weighed(one_below), Some(Part::Line(LineWord::LeastWeight)));
}

/// Lowers the least weight of the fallback to the cap.
fn capped_fallback(sheet: &[u64], results: &mut [u64]) -> Reply {
    change_lines(sheet, results, |figures, tranche, line| {
        if line[LineWord::Approach as usize] == Approach::Fallback.word() {
            let least_weight = &mut line[LineWord::LeastWeight as usize];
            *least_weight = (*least_weight).min(limits(figures, tranche).1);
        }
    })
}

/// A fallback whose least weight the cap lowers.
#[test]
fn wrong_cap_of_the_fallback() {
    assert_eq!(weighed(capped_fallback), Some(Part::Line(LineWord::LeastWeight)));
}

/// Weighs as the proved library does, but picks the rating of the least weight by the weights rounded up, and of equal
/// ones the later word, or else the earlier.
fn picked_by_weight(sheet: &[u64], results: &mut [u64], later: bool) -> Reply {
    change_lines(sheet, results, |figures, tranche, line| {
        let thickness = line[LineWord::Detachment as usize] - line[LineWord::Attachment as usize];
        let table = Table::of(figures.facts.stc);
        let mut alone: Vec<Tranche> = tranche
            .ratings
            .iter()
            .filter(|&&code| code != 0)
            .map(|&code| Tranche {
                ratings: [code, 0, 0],
                ..*tranche
            })
            .collect();
        if !later {
            alone.reverse();
        }
        alone.sort_by_key(|tranche| rating::weight(table, tranche, thickness));
        let picked = alone.get(1).or(alone.first());
        if let Some(picked) = picked.filter(|_| line[LineWord::Approach as usize] == Approach::SecErba.word()) {
            let start = rating::least_weight(table, picked, thickness);
            line[LineWord::LeastWeight as usize] = approach::limited(figures, tranche, start);
        }
    })
}

/// Ratings of one weight that are told apart by their order and not by their exact figures.
#[test]
fn wrong_rating_of_the_least_weight() {
    let wrong: [Weigh; 2] = [
        |sheet, results| picked_by_weight(sheet, results, true),
        |sheet, results| picked_by_weight(sheet, results, false),
    ];
    for weigh in wrong {
        assert_eq!(weighed(weigh), Some(Part::Line(LineWord::LeastWeight)));
    }
}

/// Takes one word less for each tranche as room enough.
fn one_less_each(sheet: &[u64], results: &mut [u64]) -> Reply {
    let reply = proved(sheet, results);
    let enough = |read: &Sheet| results.len() == (LINE_WORDS - 1) * read.tranches.len();
    match independent::sheet::read(sheet) {
        Ok(read) if reply.number == refusal::ROOM && enough(&read) => Reply::accepting(read.tranches.len() as u64, 0),
        _ => reply,
    }
}

/// Room for one word less for each tranche that is taken.
#[test]
fn wrong_room() {
    assert_eq!(weighed(one_less_each), Some(Part::Outcome));
}

/// Leaves the last line as it was lent, though it reports it done.
fn last_line_unwritten(sheet: &[u64], results: &mut [u64]) -> Reply {
    let before = results.to_vec();
    let reply = proved(sheet, results);
    if reply.number == 0 {
        let last = last_line(&reply);
        results[last..].copy_from_slice(&before[last..]);
    }
    reply
}

/// A line left unwritten but reported done.
#[test]
fn line_not_written() {
    assert_eq!(weighed(last_line_unwritten), Some(Part::Line(LineWord::Approach)));
}

/// The words after the lines of an accepted sheet; none where it is refused.
fn later<'a>(reply: &Reply, results: &'a mut [u64]) -> &'a mut [u64] {
    match reply.number {
        0 => &mut results[LINE_WORDS * reply.count as usize..],
        _ => &mut [],
    }
}

/// Writes 0 to the word after the lines, where there is one.
fn word_after_lines(sheet: &[u64], results: &mut [u64]) -> Reply {
    let reply = proved(sheet, results);
    later(&reply, results).iter_mut().take(1).for_each(|word| *word = 0);
    reply
}

/// Writes 0 to the last lent word, where it is after the lines.
fn last_word(sheet: &[u64], results: &mut [u64]) -> Reply {
    let reply = proved(sheet, results);
    later(&reply, results)
        .iter_mut()
        .rev()
        .take(1)
        .for_each(|word| *word = 0);
    reply
}

/// Later words are untouched: the first of them and the last.
#[test]
fn words_after_the_lines_written() {
    assert_eq!(weighed(word_after_lines), Some(Part::AfterLines));
    assert_eq!(weighed(last_word), Some(Part::AfterLines));
}

/// Writes 0 to the first lent word on a refusal.
fn first_word_on_refusal(sheet: &[u64], results: &mut [u64]) -> Reply {
    let reply = proved(sheet, results);
    results
        .iter_mut()
        .take(1)
        .filter(|_| reply.number != 0)
        .for_each(|word| *word = 0);
    reply
}

/// Writes 0 to the last lent word on a refusal.
fn last_word_on_refusal(sheet: &[u64], results: &mut [u64]) -> Reply {
    let reply = proved(sheet, results);
    results
        .last_mut()
        .into_iter()
        .filter(|_| reply.number != 0)
        .for_each(|word| *word = 0);
    reply
}

/// Results are untouched on a refusal: the first word and the last.
#[test]
fn results_written_on_a_refusal() {
    assert_eq!(weighed(first_word_on_refusal), Some(Part::ResultsOnRefusal));
    assert_eq!(weighed(last_word_on_refusal), Some(Part::ResultsOnRefusal));
}

/// A side that panics ends the run as a difference, with the sheet's index.
#[test]
fn panic_is_a_difference() {
    assert_eq!(weighed(|_, _| panic!("a side that stops")), Some(Part::Panic));
}

/// Whether a file of this length is read.
fn good_length(length: usize) -> bool {
    length.is_multiple_of(WORD_BYTES) && length <= FILE_BYTES
}

/// Weighs a file: refused where the length is not good, else its whole words by this weighing.
fn read(file: &[u8], results: &mut [u64], good: fn(usize) -> bool, weigh: Weigh) -> Reply {
    if !good(file.len()) {
        return Reply::refusing(refusal::FILE_LENGTH, 0);
    }
    let (words, _) = file.as_chunks();
    let sheet: Vec<u64> = words.iter().map(|bytes| u64::from_le_bytes(*bytes)).collect();
    weigh(&sheet, results)
}

/// A weighing of files that takes other lengths as good is found: by a number, or by a file weighed that is refused.
#[test]
fn wrong_length_of_a_file() {
    let wrong: [WeighFile; 6] = [
        |file, results| read(file, results, |_| true, proved),
        |file, results| read(file, results, |length| length <= FILE_BYTES, proved),
        |file, results| read(file, results, |length| length.is_multiple_of(WORD_BYTES), proved),
        |file, results| {
            read(
                file,
                results,
                |length| length.is_multiple_of(WORD_BYTES) && length <= FILE_BYTES - WORD_BYTES,
                proved,
            )
        },
        |file, results| {
            read(
                file,
                results,
                |length| length.is_multiple_of(WORD_BYTES) && length <= FILE_BYTES + WORD_BYTES,
                proved,
            )
        },
        |file, results| read(file, results, |length| length > 0 && good_length(length), proved),
    ];
    for (place, weigh_file) in wrong.into_iter().enumerate() {
        let part = filed(weigh_file);
        assert!(matches!(part, Some(Part::Outcome | Part::Number)), "{place}: {part:?}");
    }
}

/// Whether a file of a bad length gets this number.
fn of_length(number: u64) -> bool {
    number == refusal::FILE_LENGTH
}

/// Whether a file that its words or the room refuse gets this number.
fn of_sheet(number: u64) -> bool {
    refusal::is_of_words(number) || number == refusal::ROOM
}

/// Whether an accepted file gets this number.
fn of_accepted(number: u64) -> bool {
    number == 0
}

/// The proved weighing of files with a fault in the reply to each file that gets one of the numbers meant.
fn faulty_file(file: &[u8], results: &mut [u64], meant: fn(u64) -> bool, fault: fn(&mut Reply)) -> Reply {
    let mut reply = (Library::PROVED.weigh_file)(file, results);
    if meant(reply.number) {
        fault(&mut reply);
    }
    reply
}

/// The part in which a run first finds the fault in the reply to each file that gets one of the numbers meant.
macro_rules! faulty_files {
    ($meant:expr, $fault:expr) => {
        filed(|file, results| faulty_file(file, results, $meant, $fault))
    };
}

/// Each of the four numbers of a file of a bad length, and such a file reported as weighed.
#[test]
fn wrong_reply_to_a_bad_length() {
    assert_eq!(faulty_files!(of_length, |reply| reply.number = 1), Some(Part::Number));
    assert_eq!(faulty_files!(of_length, |reply| reply.place = 1), Some(Part::Place));
    assert_eq!(faulty_files!(of_length, |reply| reply.count = 1), Some(Part::Count));
    assert_eq!(faulty_files!(of_length, |reply| reply.charge = 1), Some(Part::Charge));
    let unwritten = faulty_files!(of_length, |reply| reply.charge = u64::MAX);
    assert_eq!(unwritten, Some(Part::Charge));
    let weighed = faulty_files!(of_length, |reply| *reply = Reply::accepting(0, 0));
    assert_eq!(weighed, Some(Part::Outcome));
}

/// Each of the four numbers of a file that its words or the room refuse, and such a file reported as weighed.
#[test]
fn wrong_reply_to_a_refused_file() {
    assert_eq!(faulty_files!(of_sheet, |reply| reply.number += 1), Some(Part::Number));
    assert_eq!(faulty_files!(of_sheet, |reply| reply.place += 1), Some(Part::Place));
    assert_eq!(faulty_files!(of_sheet, |reply| reply.count = 1), Some(Part::Count));
    assert_eq!(faulty_files!(of_sheet, |reply| reply.charge = 1), Some(Part::Charge));
    let weighed = faulty_files!(of_sheet, |reply| *reply = Reply::accepting(0, 0));
    assert_eq!(weighed, Some(Part::Outcome));
}

/// Each of the four numbers of an accepted file.
#[test]
fn wrong_reply_to_an_accepted_file() {
    assert_eq!(
        faulty_files!(of_accepted, |reply| reply.number = refusal::FILE_LENGTH),
        Some(Part::Outcome)
    );
    assert_eq!(faulty_files!(of_accepted, |reply| reply.place = 1), Some(Part::Place));
    assert_eq!(faulty_files!(of_accepted, |reply| reply.count -= 1), Some(Part::Count));
    assert_eq!(
        faulty_files!(of_accepted, |reply| reply.charge += 1),
        Some(Part::Charge)
    );
}

/// Writes 0 to a lent word where the length is refused: the first, or else the last.
fn word_on_bad_length<const FIRST: bool>(file: &[u8], results: &mut [u64]) -> Reply {
    let reply = (Library::PROVED.weigh_file)(file, results);
    let word = if FIRST { results.first_mut() } else { results.last_mut() };
    word.into_iter()
        .filter(|_| of_length(reply.number))
        .for_each(|word| *word = 0);
    reply
}

/// Results are untouched where the length is refused: the first word and the last.
#[test]
fn results_written_on_a_bad_length() {
    assert_eq!(filed(word_on_bad_length::<true>), Some(Part::ResultsOnRefusal));
    assert_eq!(filed(word_on_bad_length::<false>), Some(Part::ResultsOnRefusal));
}

/// The part in which a run first finds this weighing of the words of files different.
macro_rules! faulty_words {
    ($weigh:expr) => {
        filed(|file, results| read(file, results, good_length, $weigh))
    };
}

/// The lines of an accepted file, and the words that must be as they were.
#[test]
fn wrong_results_of_a_file() {
    for (_, weigh_file, part) in WRONG_WORDS {
        assert_eq!(filed(weigh_file), Some(part));
    }
    assert_eq!(faulty_words!(last_line_unwritten), Some(Part::Line(LineWord::Approach)));
    assert_eq!(faulty_words!(word_after_lines), Some(Part::AfterLines));
    assert_eq!(faulty_words!(last_word), Some(Part::AfterLines));
    assert_eq!(faulty_words!(first_word_on_refusal), Some(Part::ResultsOnRefusal));
    assert_eq!(faulty_words!(last_word_on_refusal), Some(Part::ResultsOnRefusal));
}

/// A weighing of files that panics ends the run as a difference.
#[test]
fn panic_on_a_file_is_a_difference() {
    let library = Library {
        weigh_file: |_, _| panic!("a side that stops"),
        ..Library::PROVED
    };
    assert_eq!(
        first_difference(library).map(|difference| difference.part),
        Some(Part::Panic)
    );
}

/// The independent answer, with the last four words of each line that `choose` takes from the admitted ones.
fn chosen(sheet: &[u64], results: &mut [u64], choose: fn(&Line) -> [u64; 4]) -> Reply {
    let deal = match independent::weigh(sheet, results.len() as u64) {
        Ok(deal) => deal,
        Err(refusal) => return Reply::refusing(refusal.number, refusal.place),
    };
    let (lines, _) = results.as_chunks_mut::<LINE_WORDS>();
    for (line, words) in deal.lines.iter().zip(lines) {
        let [weight, risk_weighted, capital, least_weight] = choose(line);
        *words = [
            line.approach,
            line.attachment,
            line.detachment,
            weight,
            risk_weighted,
            capital,
            least_weight,
        ];
    }
    Reply::accepting(deal.lines.len() as u64, deal.charge)
}

/// A triple and a least weight as the last four words of a line.
fn words(amounts: &independent::Amounts, least_weight: u64) -> [u64; 4] {
    [amounts.weight, amounts.risk_weighted, amounts.capital, least_weight]
}

/// The lower or the higher one of two in a list, or the only one.
fn one_of<T>(admitted: &[T], higher: bool) -> &T {
    &admitted[if higher { admitted.len() - 1 } else { 0 }]
}

/// A library that takes the lower or the higher of two admitted weights, and the lower or the higher of two admitted
/// least weights.
fn taking<const HIGHER: bool, const HIGHER_LEAST: bool>() -> Library {
    let weigh: Weigh = |sheet, results| {
        chosen(sheet, results, |line| {
            let amounts = one_of(&line.amounts, HIGHER);
            words(amounts, *one_of(&line.least_weights, HIGHER_LEAST))
        })
    };
    Library {
        weigh,
        ..Library::PROVED
    }
}

/// The libraries that take one of two throughout, the one whose ends are nearest to each other first and the one whose
/// ends are farthest apart last.
fn takings() -> [Library; 4] {
    [
        taking::<false, true>(),
        taking::<false, false>(),
        taking::<true, true>(),
        taking::<true, false>(),
    ]
}

/// Where two weights are admitted, both the lower and the higher pass, beside each admitted least weight, and it is
/// counted which one was taken and how far apart they are. Lines under SEC-IRBA with two weights are those whose
/// parameters are counted. What must occur by the ends occurs as often with each choice.
#[test]
fn either_admitted_weight_passes() {
    let [near, lower, higher, far] =
        takings().map(|library| run(library, 2).expect("an admitted weight is no difference"));
    let two_weights = |tally: &Tally| {
        let under_irba = tally.parameters.iter().sum::<u64>();
        let under_sa = tally.features[Feature::TwoWeights as usize];
        assert!(under_irba > 100 && under_sa > 100);
        under_irba + under_sa
    };
    assert_eq!((near.higher_taken, lower.higher_taken), (0, 0));
    assert_eq!([&higher, &far].map(|tally| tally.higher_taken), [two_weights(&near); 2]);
    let ends = |tally: &Tally, ends| {
        let features = [Approach::SecSa, Approach::SecIrba].map(|approach| LeastFeature::Ends(approach, ends));
        features
            .map(|feature| tally.least_features[feature.place()])
            .iter()
            .sum::<u64>()
    };
    let two_least_weights = ends(&near, Ends::TwoLeastWeights);
    assert_eq!((near.lower_taken, higher.lower_taken), (0, 0));
    assert_eq!([&lower, &far].map(|tally| tally.lower_taken), [two_least_weights; 2]);
    assert!(near.apart[0] > 100 && near.apart[1..] == [0, 0]);
    for tally in [&lower, &higher] {
        assert!(tally.apart[1] > 100 && tally.apart[2] == 0);
    }
    assert!(far.apart[2] > 100);
    assert!(ends(&near, Ends::Apart) > 100);
    for tally in [lower, higher, far] {
        assert_eq!(tally.least_features, near.least_features);
    }
}

/// A longer run misses nothing that must occur, whichever of the admitted numbers the library takes.
#[test]
fn no_choice_misses_what_must_occur() {
    let run = Run {
        seed: SEED,
        sheets: 100_000,
        threads: 2,
    };
    for library in takings() {
        let tally = run.go(&library).expect("an admitted weight is no difference");
        assert_eq!(tally.missing(), [""; 0]);
    }
}

/// The higher weight with the lower one's risk-weighted amount and capital is no admitted triple.
#[test]
fn mixed_triple_is_found() {
    let mixed: Weigh = |sheet, results| {
        chosen(sheet, results, |line| {
            let [lower, higher] = [false, true].map(|higher| one_of(&line.amounts, higher));
            [higher.weight, lower.risk_weighted, lower.capital, line.least_weights[0]]
        })
    };
    assert_eq!(weighed(mixed), Some(Part::Line(LineWord::RiskWeighted)));
}

/// The report's text, in its end, its totals, its numbers and its spaces, for weighed and refused files.
#[test]
fn wrong_report_text() {
    assert_eq!(reported(|file| text(file).trim_end().to_string()), Some(Part::Text));
    assert_eq!(reported(|file| text(file) + "\n"), Some(Part::Text));
    assert_eq!(
        reported(|file| text(file).replace("total ", "total 1")),
        Some(Part::Text)
    );
    assert_eq!(reported(|file| text(file).replace("\n1 ", "\n0 ")), Some(Part::Text));
    assert_eq!(
        reported(|file| text(file).replace("refused 15 at 0", "refused 1 at 0")),
        Some(Part::Text)
    );
    assert_eq!(
        reported(|file| text(file).replace("charge ", "charge  ")),
        Some(Part::Text)
    );
    assert_eq!(reported(without_least_weights), Some(Part::Text));
    assert_eq!(reported(weights_as_least_weights), Some(Part::Text));
}

/// The report with another text for each line of a tranche, made of its words.
fn retold(file: &[u8], retell: fn(&mut Vec<&str>)) -> String {
    let told = text(file);
    let mut lines: Vec<Vec<&str>> = told.lines().map(|line| line.split(' ').collect()).collect();
    let of_tranches = lines.iter_mut().filter(|words| words.len() == 1 + LINE_WORDS);
    of_tranches.for_each(retell);
    lines.iter().map(|words| words.join(" ") + "\n").collect()
}

/// The report without the least weights.
fn without_least_weights(file: &[u8]) -> String {
    retold(file, |words| words.truncate(LINE_WORDS))
}

/// The report with each weight in place of the least weight.
fn weights_as_least_weights(file: &[u8]) -> String {
    retold(file, |words| {
        words[1 + LineWord::LeastWeight as usize] = words[1 + LineWord::Weight as usize]
    })
}

/// A difference is shown with the sheet's words, what each side said, and seed, index and part as the last line.
#[test]
fn difference_is_shown_in_full() {
    let library = Library {
        weigh: |sheet, results| accepted(sheet, results, |reply| *reply = Reply::accepting(1, 7_000_000)),
        ..Library::PROVED
    };
    let found = run(library, 2).expect_err("no pool has this charge");
    let case = Case::new(SEED, found.index);
    let text = show::difference(&library, SEED, &case, &found);
    let words: Vec<String> = case.sheet.iter().map(u64::to_string).collect();
    assert!(text.contains(&format!("\nsheet {}\n", words.join(" "))), "{text}");
    assert!(text.contains("\nindependent: number 0 place 0 count "), "{text}");
    assert!(
        text.contains("\nproved: number 0 place 0 count 1 charge 7000000\n"),
        "{text}"
    );
    let last = format!(
        "differential: seed {SEED}, index {}: difference in {}",
        found.index, found.difference
    );
    assert_eq!(text.lines().last(), Some(last.as_str()));
}

/// A difference in a file's answer is shown as one, with what each side said to the file.
#[test]
fn difference_of_a_file_is_shown() {
    let library = Library {
        weigh_file: |file, results| faulty_file(file, results, of_length, |reply| reply.place = 9),
        ..Library::PROVED
    };
    let found = run(library, 2).expect_err("15 has place 0");
    let text = show::difference(&library, SEED, &Case::new(SEED, found.index), &found);
    assert!(
        text.contains("\nindependent, file: number 15 place 0 count 0 charge 0\n"),
        "{text}"
    );
    assert!(
        text.contains("\nproved, file: number 15 place 9 count 0 charge 0\n"),
        "{text}"
    );
    assert!(
        text.ends_with("difference in place of the file: expected 0, said 9\n"),
        "{text}"
    );
}

/// The proved sums of a block, the start of each wrong one.
fn proved_sums(sheet: &[u64], number: u64) -> BlockReply {
    (Library::PROVED.block_sums)(sheet, number)
}

/// Sums over the rows of the pool that are taken for those of a block.
fn over_rows(sheet: &[u64], number: u64, taken: fn(&[Row], u64) -> &[Row]) -> BlockReply {
    match independent::sheet::read(sheet) {
        Ok(read) => BlockReply::summing(sum_words(&sums_over(taken(&read.pool, number)))),
        Err(refusal) => BlockReply::refusing(refusal.number, refusal.place),
    }
}

/// The rows of a block, where blocks have so many rows.
fn block_by(pool: &[Row], number: u64, rows: u64) -> &[Row] {
    let mut blocks = pool.chunks(rows as usize);
    blocks.nth(number as usize).unwrap_or_default()
}

/// The rows of a block.
fn block_of(pool: &[Row], number: u64) -> &[Row] {
    block_by(pool, number, BLOCK_ROWS)
}

/// The rows of a block of fifty, and none of a last one that has fewer.
fn full_block(pool: &[Row], number: u64) -> &[Row] {
    let rows = block_of(pool, number);
    if rows.len() as u64 == BLOCK_ROWS {
        rows
    } else {
        &[]
    }
}

/// The same, but where the pool has no full block.
fn full_block_after_first(pool: &[Row], number: u64) -> &[Row] {
    match number {
        0 => block_of(pool, number),
        _ => full_block(pool, number),
    }
}

/// The rows from the block's number times fifty on, the product cut to 64 bits.
fn wrapped_block(pool: &[Row], number: u64) -> &[Row] {
    let first = number.wrapping_mul(BLOCK_ROWS) as usize;
    block_of(pool.get(first..).unwrap_or_default(), 0)
}

/// The rows of the last block, for each number past it.
fn last_block_past_the_end(pool: &[Row], number: u64) -> &[Row] {
    let last = (pool.len() as u64 - 1) / BLOCK_ROWS;
    block_of(pool, number.min(last))
}

/// Blocks that have other rows: 49 or 51 of them, or all; the last block left out where it is not full; blocks counted
/// from 1, or from the last; numbers past the end cut to 64 bits after a product, to 32 bits or by a remainder, or
/// taken for the last block.
#[test]
fn wrong_rows_of_a_block() {
    let wrong: [SumBlock; 12] = [
        |sheet, number| over_rows(sheet, number, |pool, number| block_by(pool, number, BLOCK_ROWS - 1)),
        |sheet, number| over_rows(sheet, number, |pool, number| block_by(pool, number, BLOCK_ROWS + 1)),
        |sheet, number| over_rows(sheet, number, |pool, _| pool),
        |sheet, number| over_rows(sheet, number, full_block),
        |sheet, number| over_rows(sheet, number, full_block_after_first),
        |sheet, number| over_rows(sheet, number, |pool, number| block_of(pool, number.wrapping_sub(1))),
        |sheet, number| over_rows(sheet, number, |pool, number| block_of(pool, number.saturating_sub(1))),
        |sheet, number| over_rows(sheet, number, wrapped_block),
        |sheet, number| {
            over_rows(sheet, number, |pool, number| {
                block_of(pool, number & u64::from(u32::MAX))
            })
        },
        |sheet, number| over_rows(sheet, number, |pool, number| block_of(pool, number % BLOCKS)),
        |sheet, number| over_rows(sheet, number, last_block_past_the_end),
        |sheet, number| {
            over_rows(sheet, number, |pool, number| {
                block_of(pool, (BLOCKS - 1).wrapping_sub(number))
            })
        },
    ];
    for (place, block_sums) in wrong.into_iter().enumerate() {
        assert_eq!(summed(block_sums), Some(Part::Sum(SumWord::Exposure)), "{place}");
    }
}

/// Sums of a block's rows with a fault, where the sheet is not refused.
fn other_sums(sheet: &[u64], number: u64, fault: fn(&[Row], &mut [u64; SUM_WORDS])) -> BlockReply {
    let mut reply = proved_sums(sheet, number);
    if let Ok(read) = independent::sheet::read(sheet) {
        fault(block_of(&read.pool, number), &mut reply.sums);
    }
    reply
}

/// The sum of nominal amounts over the rows of this status.
fn nominal_of(rows: &[Row], status: Status) -> u64 {
    let of_status = rows.iter().filter(|row| row.status == status);
    of_status.map(|row| row.nominal).sum()
}

/// Rows counted by another status: as late those of unknown status, those of a re-securitisation or none; as known
/// those of unknown status too, or not the delinquent ones, or not those of a re-securitisation.
#[test]
fn wrong_status_of_a_row() {
    let late: [SumBlock; 3] = [
        |sheet, number| {
            other_sums(sheet, number, |rows, sums| {
                sums[SumWord::LateNominal as usize] += nominal_of(rows, Status::Unknown)
            })
        },
        |sheet, number| {
            other_sums(sheet, number, |rows, sums| {
                sums[SumWord::LateNominal as usize] += nominal_of(rows, Status::SecuritisationTranche)
            })
        },
        |sheet, number| other_sums(sheet, number, |_, sums| sums[SumWord::LateNominal as usize] = 0),
    ];
    for block_sums in late {
        assert_eq!(summed(block_sums), Some(Part::Sum(SumWord::LateNominal)));
    }
    let known: [SumBlock; 3] = [
        |sheet, number| other_sums(sheet, number, |_, sums| sums.copy_within(..3, 3)),
        |sheet, number| other_sums(sheet, number, |rows, sums| without(Status::Delinquent, rows, sums)),
        |sheet, number| {
            other_sums(sheet, number, |rows, sums| {
                without(Status::SecuritisationTranche, rows, sums)
            })
        },
    ];
    for block_sums in known {
        assert_eq!(summed(block_sums), Some(Part::Sum(SumWord::KnownExposure)));
    }
}

/// Leaves the rows of a status out of the sums over the rows with known status.
fn without(status: Status, rows: &[Row], sums: &mut [u64; SUM_WORDS]) {
    let others: Vec<Row> = rows.iter().copied().filter(|row| row.status != status).collect();
    let known = SumWord::KnownExposure as usize..SumWord::LateNominal as usize;
    sums[known.clone()].copy_from_slice(&sum_words(&sums_over(&others))[known]);
}

/// Amounts in each other's place: the nominal amount weighted, and the exposure of the delinquent rows.
#[test]
fn wrong_amount_of_a_row() {
    let weighted: SumBlock = |sheet, number| {
        other_sums(sheet, number, |rows, sums| {
            let weighted = rows.iter().map(|row| row.nominal * row.risk_weight);
            sums[SumWord::WeightedExposure as usize] = weighted.sum();
        })
    };
    assert_eq!(summed(weighted), Some(Part::Sum(SumWord::WeightedExposure)));
    let late: SumBlock = |sheet, number| {
        other_sums(sheet, number, |rows, sums| {
            let late = rows.iter().filter(|row| row.status == Status::Delinquent);
            sums[SumWord::LateNominal as usize] = late.map(|row| row.exposure).sum();
        })
    };
    assert_eq!(summed(late), Some(Part::Sum(SumWord::LateNominal)));
}

/// The proved sums with a fault in the reply to each refused sheet, or else to each one that is summed.
fn faulty_sums(sheet: &[u64], number: u64, on_refusal: bool, fault: fn(&mut BlockReply)) -> BlockReply {
    let mut reply = proved_sums(sheet, number);
    if (reply.number != 0) == on_refusal {
        fault(&mut reply);
    }
    reply
}

/// One too high in a word of the sums, or that word not written; each where the block is summed, and where the sheet is
/// refused.
fn wrong_sum<const WORD: usize, const ON_REFUSAL: bool, const UNWRITTEN: bool>(
    sheet: &[u64],
    number: u64,
) -> BlockReply {
    faulty_sums(sheet, number, ON_REFUSAL, |reply| match UNWRITTEN {
        true => reply.sums[WORD] = u64::MAX,
        false => reply.sums[WORD] += 1,
    })
}

/// For each word of the sums, the sums that have it wrong in each way, and the part in which that is found.
macro_rules! wrong_sums {
    ($($word:ident),+) => {
        [$((
            [
                wrong_sum::<{ SumWord::$word as usize }, false, false> as SumBlock,
                wrong_sum::<{ SumWord::$word as usize }, false, true>,
                wrong_sum::<{ SumWord::$word as usize }, true, false>,
                wrong_sum::<{ SumWord::$word as usize }, true, true>,
            ],
            Part::Sum(SumWord::$word),
        )),+]
    };
}

/// Each word of the sums, wrong or not written, also on a refusal, where 0 is due.
#[test]
fn wrong_word_of_the_sums() {
    let wrong: [([SumBlock; 4], Part); SUM_WORDS] = wrong_sums![
        Exposure,
        Nominal,
        WeightedExposure,
        KnownExposure,
        KnownNominal,
        KnownWeightedExposure,
        LateNominal
    ];
    for (wrong, part) in wrong {
        for block_sums in wrong {
            assert_eq!(summed(block_sums), Some(part));
        }
    }
}

/// The sums of the pool left on a refusal of a later word.
fn sums_left_on_a_refusal(sheet: &[u64], number: u64) -> BlockReply {
    let mut reply = proved_sums(sheet, number);
    if reply.number != 0 {
        reply.sums = pool_judged_alone(sheet, number).sums;
    }
    reply
}

/// Takes a sheet whose pool is good for good: sums it with another list of tranches and no IRB section.
fn pool_judged_alone(sheet: &[u64], number: u64) -> BlockReply {
    let reply = proved_sums(sheet, number);
    match Layout::before(sheet, reply.place as usize).filter(|_| reply.number != 0) {
        Some(layout) => {
            let mut words = [&sheet[..layout.tranche_count()], &[1, 1, 1, 1, 0, 0, 0, 0]].concat();
            words[Layout::fact(Fact::PoolKind)] = pool_kind::SA;
            if sixth_is(sheet, |_| true) {
                words[SIXTH] = 0;
            }
            proved_sums(&words, number)
        }
        None => reply,
    }
}

/// Number and place of a refusal, place of a sheet that is summed, and sums left on a refusal.
#[test]
fn wrong_reply_to_a_block() {
    let wrong: [(SumBlock, Part); 6] = [
        (
            |sheet, number| faulty_sums(sheet, number, true, |reply| reply.number += 1),
            Part::Number,
        ),
        (
            |sheet, number| faulty_sums(sheet, number, true, |reply| reply.place += 1),
            Part::Place,
        ),
        (
            |sheet, number| faulty_sums(sheet, number, true, |reply| reply.place = u64::MAX),
            Part::Place,
        ),
        (
            |sheet, number| faulty_sums(sheet, number, false, |reply| reply.place = 1),
            Part::Place,
        ),
        (
            |sheet, number| faulty_sums(sheet, number, false, |reply| reply.place = u64::MAX),
            Part::Place,
        ),
        (sums_left_on_a_refusal, Part::Sum(SumWord::Exposure)),
    ];
    for (block_sums, part) in wrong {
        assert_eq!(summed(block_sums), Some(part));
    }
}

/// Judges the lines of a sheet too, with so much room for them.
fn lines_judged(sheet: &[u64], number: u64, room: usize) -> BlockReply {
    let reply = proved(sheet, &mut [0; MOST_RESULTS][..room]);
    match reply.number {
        0 => proved_sums(sheet, number),
        refused => BlockReply::refusing(refused, reply.place),
    }
}

/// Takes words that follow the last section.
fn words_after_sections_taken(sheet: &[u64], number: u64) -> BlockReply {
    let reply = proved_sums(sheet, number);
    match reply.number {
        refusal::WORDS_FOLLOW => proved_sums(&sheet[..reply.place as usize], number),
        _ => reply,
    }
}

/// Judges no word where the block is past the last of every pool, or else of the sheet's.
fn unjudged_past_the_end(sheet: &[u64], number: u64, blocks: fn(&[u64]) -> Option<u64>) -> BlockReply {
    match blocks(sheet) {
        Some(blocks) if number >= blocks => BlockReply::summing([0; SUM_WORDS]),
        _ => proved_sums(sheet, number),
    }
}

/// The blocks of the pool that a sheet counts.
fn counted_blocks(sheet: &[u64]) -> Option<u64> {
    let place = Layout::FACTS_COUNT + 1 + usize::try_from(*sheet.first()?).ok()?.min(sheet.len());
    sheet.get(place).copied().map(blocks_of)
}

/// Sheets refused that are not, or summed that are refused: 13 or 14 judged; words after the pool or after the last
/// section not judged, and none where the block is past the end; every sheet summed, and every sheet refused.
#[test]
fn wrong_judgement_of_a_block() {
    let wrong: [SumBlock; 8] = [
        |sheet, number| lines_judged(sheet, number, MOST_RESULTS),
        |sheet, number| lines_judged(sheet, number, 0),
        pool_judged_alone,
        words_after_sections_taken,
        |sheet, number| unjudged_past_the_end(sheet, number, |_| Some(BLOCKS)),
        |sheet, number| unjudged_past_the_end(sheet, number, counted_blocks),
        |sheet, number| faulty_sums(sheet, number, true, |reply| *reply = BlockReply::summing(reply.sums)),
        |sheet, number| faulty_sums(sheet, number, false, |reply| *reply = BlockReply::refusing(1, 0)),
    ];
    for (place, block_sums) in wrong.into_iter().enumerate() {
        assert_eq!(summed(block_sums), Some(Part::Outcome), "{place}");
    }
}

/// A reading of sums that panics ends the run as a difference.
#[test]
fn panic_on_a_block_is_a_difference() {
    let library = Library {
        block_sums: |_, _| panic!("a side that stops"),
        ..Library::PROVED
    };
    assert_eq!(
        first_difference(library).map(|difference| difference.part),
        Some(Part::Panic)
    );
}

/// A difference in a block's sums is shown with its number and with what each side said to it.
#[test]
fn difference_of_a_block_is_shown() {
    let library = Library {
        block_sums: |sheet, number| match (number, proved_sums(sheet, number)) {
            (BLOCKS, reply) if reply.number == 0 => BlockReply::refusing(refusal::MISSING, 9),
            (_, reply) => reply,
        },
        ..Library::PROVED
    };
    let found = run(library, 2).expect_err("a good sheet is not refused");
    assert_eq!(found.difference.asked, Asked::Block(BLOCKS));
    let case = Case::new(SEED, found.index);
    let text = show::difference(&library, SEED, &case, &found);
    let proved = format!("\nproved, block {BLOCKS}: number 1 place 9 sums 0 0 0 0 0 0 0\n");
    assert!(text.contains(&proved), "{text}");
    let read = independent::sheet::read(&case.sheet).expect("a good sheet");
    let sums = sum_words(&block::sums(&read.pool, 0)).map(|sum| sum.to_string());
    let independent = format!("\nindependent, block 0: number 0 place 0 sums {}\n", sums.join(" "));
    assert!(text.contains(&independent), "{text}");
    let last = text.lines().last().unwrap_or_default();
    assert!(
        last.contains(&format!("difference in accepted or refused of block {BLOCKS}: ")),
        "{text}"
    );
}

/// The place of the seventh fact.
const SEVENTH: usize = Layout::fact(Fact::Unit);

/// Judges a seventh fact that is no unit by this number, at this place.
fn no_unit_as(sheet: &[u64], results: &mut [u64], number: u64, place: usize) -> Reply {
    let reply = proved(sheet, results);
    match (reply.number, reply.place as usize) {
        (refusal::FACT, SEVENTH) => Reply::refusing(number, place as u64),
        _ => reply,
    }
}

/// Takes a seventh fact above 1 for this unit.
fn no_unit_taken(sheet: &[u64], results: &mut [u64], unit: u64) -> Reply {
    let reply = proved(sheet, results);
    match (reply.number, reply.place as usize) {
        (refusal::FACT, SEVENTH) => {
            let mut words = sheet.to_vec();
            words[SEVENTH] = unit;
            proved(&words, results)
        }
        _ => reply,
    }
}

/// A seventh fact that is not taken, judged by another number or at another place, or taken though it is no unit.
#[test]
fn wrong_seventh_fact() {
    let six_facts: Weigh = |sheet, results| {
        accepted_by(sheet, results, |sheet, results| {
            facts_up_to(Fact::ReportingDate.number(), sheet, results)
        })
    };
    assert!(is_by_facts(weighed(six_facts)));
    let judged: [(Weigh, Part); 3] = [
        (
            |sheet, results| no_unit_as(sheet, results, refusal::COUNT, SEVENTH),
            Part::Number,
        ),
        (
            |sheet, results| no_unit_as(sheet, results, refusal::RISK_WEIGHT, SEVENTH),
            Part::Number,
        ),
        (
            |sheet, results| no_unit_as(sheet, results, refusal::FACT, SEVENTH + 1),
            Part::Place,
        ),
    ];
    for (weigh, part) in judged {
        assert_eq!(weighed(weigh), Some(part));
    }
    let taken: [Weigh; 2] = [
        |sheet, results| no_unit_taken(sheet, results, unit::PERCENT),
        |sheet, results| no_unit_taken(sheet, results, unit::HUNDREDTHS),
    ];
    for weigh in taken {
        let part = weighed(weigh);
        assert!(matches!(part, Some(Part::Outcome | Part::Number)), "{part:?}");
    }
}

/// The unit of a good sheet.
fn unit_of(sheet: &[u64]) -> u64 {
    Layout::of_sheet(sheet).fact_word(sheet, Fact::Unit)
}

/// Changes the words of a good sheet's risk weights, each made of the unit and of itself.
fn change_weights(words: &mut [u64], change: impl Fn(u64, u64) -> u64) {
    let (layout, unit) = (Layout::of_sheet(words), unit_of(words));
    for row in 0..layout.rows {
        let weight = &mut words[layout.risk_weight(row)];
        *weight = change(unit, *weight);
    }
}

/// Weighs an accepted sheet with other risk weights, each made of the unit and of itself.
fn reweighted(sheet: &[u64], results: &mut [u64], change: fn(u64, u64) -> u64) -> Reply {
    accepted_by(sheet, results, |sheet, results| {
        let mut words = sheet.to_vec();
        change_weights(&mut words, change);
        proved(&words, results)
    })
}

/// Weighs an accepted sheet with the words of its risk weights read in hundredths.
fn always_hundredths(sheet: &[u64], results: &mut [u64]) -> Reply {
    accepted_by(sheet, results, |sheet, results| {
        let mut words = Vec::new();
        write_with_facts(sheet, FACTS, &mut words);
        words[SEVENTH] = unit::HUNDREDTHS;
        proved(&words, results)
    })
}

/// Risk weights that are read in another way: hundredths cut to whole percents, rounded up to them, or taken for whole
/// percents up to their limit; and whole percents taken for hundredths.
#[test]
fn wrong_unit_of_risk_weights() {
    let wrong: [Weigh; 4] = [
        |sheet, results| {
            reweighted(sheet, results, |unit, word| match unit {
                unit::PERCENT => word,
                _ => word / ONE_PERCENT * ONE_PERCENT,
            })
        },
        |sheet, results| {
            reweighted(sheet, results, |unit, word| match unit {
                unit::PERCENT => word,
                _ => word.next_multiple_of(ONE_PERCENT),
            })
        },
        |sheet, results| {
            reweighted(sheet, results, |unit, word| match unit {
                unit::PERCENT => word,
                _ => (ONE_PERCENT * word).min(RISK_WEIGHT),
            })
        },
        always_hundredths,
    ];
    for (place, weigh) in wrong.into_iter().enumerate() {
        let part = weighed(weigh);
        let found = matches!(part, Some(Part::Charge | Part::Outcome | Part::OtherUnit));
        assert!(found, "{place}: {part:?}");
    }
}

/// Refuses each accepted sheet in this unit with a risk weight above this limit.
fn weights_up_to(sheet: &[u64], results: &mut [u64], of: u64, most: u64) -> Reply {
    accepted_by(sheet, results, |sheet, results| {
        let layout = Layout::of_sheet(sheet);
        let mut weights = (0..layout.rows).map(|row| layout.risk_weight(row));
        match weights.find(|&place| unit_of(sheet) == of && sheet[place] > most) {
            Some(place) => Reply::refusing(refusal::RISK_WEIGHT, place as u64),
            None => proved(sheet, results),
        }
    })
}

/// Takes a risk weight of up to so much more than the limit for that limit.
fn weights_above_taken(sheet: &[u64], results: &mut [u64], more: u64) -> Reply {
    let reply = proved(sheet, results);
    let place = reply.place as usize;
    if reply.number != refusal::RISK_WEIGHT {
        return reply;
    }
    let in_hundredths = sheet[Layout::FACTS_COUNT] == FACTS && sheet[SEVENTH] == unit::HUNDREDTHS;
    let most = unit::risk_weight(u64::from(in_hundredths));
    if sheet[place] > most + more {
        return reply;
    }
    let mut words = sheet.to_vec();
    words[place] = most;
    proved(&words, results)
}

/// Limits of risk weights: that of percent in hundredths, one less in either unit, one more, and that of hundredths in
/// percent.
#[test]
fn wrong_limit_of_risk_weights() {
    let below: [Weigh; 3] = [
        |sheet, results| weights_up_to(sheet, results, unit::HUNDREDTHS, RISK_WEIGHT_PERCENT),
        |sheet, results| weights_up_to(sheet, results, unit::HUNDREDTHS, RISK_WEIGHT - 1),
        |sheet, results| weights_up_to(sheet, results, unit::PERCENT, RISK_WEIGHT_PERCENT - 1),
    ];
    for weigh in below {
        let part = weighed(weigh);
        assert!(matches!(part, Some(Part::Outcome | Part::OtherUnit)), "{part:?}");
    }
    let above: [Weigh; 2] = [
        |sheet, results| weights_above_taken(sheet, results, 1),
        |sheet, results| weights_above_taken(sheet, results, RISK_WEIGHT - RISK_WEIGHT_PERCENT),
    ];
    for weigh in above {
        let part = weighed(weigh);
        assert!(
            matches!(part, Some(Part::Outcome | Part::Number | Part::Place)),
            "{part:?}"
        );
    }
}

/// Weighs an accepted sheet in this unit that has an IRB section with another IRB average, made of its own.
fn other_average(sheet: &[u64], results: &mut [u64], of: u64, change: fn(u64) -> u64) -> Reply {
    accepted_by(sheet, results, |sheet, results| {
        let layout = Layout::of_sheet(sheet);
        let mut words = sheet.to_vec();
        if layout.irb && unit_of(sheet) == of {
            let average = &mut words[layout.irb_word(IrbWord::Average)];
            *average = change(*average);
        }
        proved(&words, results)
    })
}

/// An IRB average that is read in the unit of the risk weights: in whole percent, or in hundredths of the hundredths.
#[test]
fn wrong_unit_of_the_irb_average() {
    let wrong: [Weigh; 2] = [
        |sheet, results| {
            other_average(sheet, results, unit::PERCENT, |average| {
                (ONE_PERCENT * average).min(IRB_AVERAGE)
            })
        },
        |sheet, results| other_average(sheet, results, unit::HUNDREDTHS, |average| average / ONE_PERCENT),
    ];
    for weigh in wrong {
        let part = weighed(weigh);
        let found = matches!(part, Some(Part::Line(LineWord::Weight) | Part::OtherUnit));
        assert!(found, "{part:?}");
    }
}

/// Sums with a fault in the weighted exposure of each sheet in this unit: over all rows, or over those with known status
/// alone.
fn other_weighted(sheet: &[u64], number: u64, of: u64, words: &[SumWord], fault: fn(u64) -> u64) -> BlockReply {
    let mut reply = proved_sums(sheet, number);
    if reply.number == 0 && unit_of(sheet) == of {
        for &word in words {
            reply.sums[word as usize] = fault(reply.sums[word as usize]);
        }
    }
    reply
}

/// The sums of weighted exposure.
const WEIGHTED: &[SumWord] = &[SumWord::WeightedExposure, SumWord::KnownWeightedExposure];

/// Sums of a sheet in hundredths whose risk weights are cut to whole percents.
fn sums_of_whole_percents(sheet: &[u64], number: u64) -> BlockReply {
    let reply = proved_sums(sheet, number);
    if reply.number != 0 || unit_of(sheet) == unit::PERCENT {
        return reply;
    }
    let mut words = sheet.to_vec();
    change_weights(&mut words, |_, word| word / ONE_PERCENT * ONE_PERCENT);
    proved_sums(&words, number)
}

/// Weighted sums in another unit: left in percent, also over the rows with known status alone; a hundred times too high, or
/// too low, in a sheet in hundredths; and of risk weights that are cut to whole percents.
#[test]
fn wrong_unit_of_weighted_sums() {
    let all: [SumBlock; 4] = [
        |sheet, number| other_weighted(sheet, number, unit::PERCENT, WEIGHTED, |sum| sum / ONE_PERCENT),
        |sheet, number| {
            other_weighted(sheet, number, unit::HUNDREDTHS, WEIGHTED, |sum| {
                sum.wrapping_mul(ONE_PERCENT)
            })
        },
        |sheet, number| other_weighted(sheet, number, unit::HUNDREDTHS, WEIGHTED, |sum| sum / ONE_PERCENT),
        sums_of_whole_percents,
    ];
    for block_sums in all {
        let part = summed(block_sums);
        let found = matches!(part, Some(Part::Sum(SumWord::WeightedExposure) | Part::SumsInOtherUnit));
        assert!(found, "{part:?}");
    }
    let known: SumBlock =
        |sheet, number| other_weighted(sheet, number, unit::PERCENT, &WEIGHTED[1..], |sum| sum / ONE_PERCENT);
    assert_eq!(summed(known), Some(Part::Sum(SumWord::KnownWeightedExposure)));
}

/// The proved conversion, the start of each wrong one.
fn proved_conversion(sheet: &[u64], output: &mut [u64]) -> ConversionReply {
    (Library::PROVED.convert)(sheet, output)
}

/// A conversion that is put together from its steps.
struct Steps {
    /// Judges a sheet that is to be written to so many output words.
    judge: fn(&[u64], usize) -> Result<(), Refusal>,
    /// The words of a sheet that is not refused, in the other unit.
    rewrite: fn(&[u64]) -> Vec<u64>,
}

impl Steps {
    /// The steps of S-9.
    const RIGHT: Steps = Steps {
        judge: |sheet, room| {
            judge_words(sheet)?;
            judge_weights(sheet)?;
            judge_output(sheet, room)
        },
        rewrite: in_other_unit,
    };

    /// Converts a sheet by these steps. Words that pass the output are left out.
    fn convert(&self, sheet: &[u64], output: &mut [u64]) -> ConversionReply {
        match (self.judge)(sheet, output.len()) {
            Ok(()) => {
                let words = (self.rewrite)(sheet);
                output.iter_mut().zip(&words).for_each(|(to, word)| *to = *word);
                ConversionReply::writing(words.len() as u64)
            }
            Err(refusal) => ConversionReply::refusing(refusal.number, refusal.place),
        }
    }
}

/// A refusal of this number at this place.
fn refuse(number: u64, place: usize) -> Result<(), Refusal> {
    let place = place as u64;
    Err(Refusal { number, place })
}

/// Judges the words of a sheet, and words that follow.
fn judge_words(sheet: &[u64]) -> Result<(), Refusal> {
    independent::sheet::read(sheet).map(|_| ())
}

/// The places of the risk weights, as far as the sheet goes, if it counts all facts and is in this unit.
fn weight_places(sheet: &[u64], of: u64) -> impl DoubleEndedIterator<Item = usize> {
    let places = Layout::LARGEST;
    let rows = match (sheet.first(), sheet.get(SEVENTH), sheet.get(places.pool_count())) {
        (Some(&FACTS), Some(&unit), Some(&rows)) if unit == of => rows,
        _ => 0,
    };
    let reached = sheet
        .len()
        .saturating_sub(places.risk_weight(0))
        .div_ceil(RowWord::COUNT);
    (0..reached.min(rows as usize)).map(move |row| places.risk_weight(row))
}

/// Whether the word at a place is no multiple of this.
fn no_multiple(sheet: &[u64], of: u64) -> impl Fn(&usize) -> bool + '_ {
    move |&place| !sheet[place].is_multiple_of(of)
}

/// Refuses by 19 at this place, if there is one.
fn judge_first(place: Option<usize>) -> Result<(), Refusal> {
    place.map_or(Ok(()), |place| refuse(refusal::NOT_WHOLE_PERCENT, place))
}

/// Judges the risk weights of a sheet in hundredths.
fn judge_weights(sheet: &[u64]) -> Result<(), Refusal> {
    judge_first(weight_places(sheet, unit::HUNDREDTHS).find(no_multiple(sheet, ONE_PERCENT)))
}

/// Judges the output, of which so many words are needed.
fn judge_room(needed: usize, room: usize) -> Result<(), Refusal> {
    match room < needed {
        true => refuse(refusal::ROOM, 0),
        false => Ok(()),
    }
}

/// Judges the output of a sheet.
fn judge_output(sheet: &[u64], room: usize) -> Result<(), Refusal> {
    judge_room(rewritten_words(sheet), room)
}

/// The words of a good sheet in the other unit; a risk weight that is no whole percent is cut.
fn in_other_unit(sheet: &[u64]) -> Vec<u64> {
    let mut words = Vec::new();
    write_with_facts(sheet, FACTS, &mut words);
    change_weights(&mut words, to_other_unit);
    words[SEVENTH] = unit::other(words[SEVENTH]);
    words
}

/// A word of this unit in the other one, cut to a whole number.
fn to_other_unit(unit: u64, word: u64) -> u64 {
    match unit {
        unit::PERCENT => ONE_PERCENT * word,
        _ => word / ONE_PERCENT,
    }
}

/// The part in which a run first finds a conversion different that judges so.
macro_rules! rejudged {
    ($judge:expr) => {
        converted(|sheet, output| {
            let steps = Steps {
                judge: $judge,
                ..Steps::RIGHT
            };
            steps.convert(sheet, output)
        })
    };
}

/// The part in which a run first finds a conversion different that changes what it rightly writes, given the sheet.
macro_rules! rewritten {
    ($change:expr) => {
        converted(|sheet, output| {
            let steps = Steps {
                rewrite: |sheet| {
                    let change: fn(&[u64], &mut Vec<u64>) = $change;
                    let mut words = in_other_unit(sheet);
                    change(sheet, &mut words);
                    words
                },
                ..Steps::RIGHT
            };
            steps.convert(sheet, output)
        })
    };
}

/// Whether a difference is in what a refusal says, or in whether there is one, of the sheet or of the converted one.
fn is_by_judgement(part: Option<Part>) -> bool {
    let of_sheet = matches!(part, Some(Part::Outcome | Part::Number | Part::Place));
    of_sheet || part == Some(Part::ConvertedTwice)
}

/// Whether a difference is in what is written, of the sheet or of the converted one.
fn is_by_words(part: Option<Part>) -> bool {
    matches!(part, Some(Part::Converted | Part::ConvertedTwice))
}

/// Judged in another order: 19 before the words, 19 before 3, 14 before 19, 14 before the words.
#[test]
fn wrong_order_of_a_conversion() {
    let wrong = [
        rejudged!(|sheet, room| {
            judge_weights(sheet)?;
            judge_words(sheet)?;
            judge_output(sheet, room)
        }),
        rejudged!(|sheet, room| {
            let words = judge_words(sheet);
            let good = words.map_or_else(|refused| refused.number == refusal::WORDS_FOLLOW, |()| true);
            if good {
                judge_weights(sheet)?;
            }
            words?;
            judge_output(sheet, room)
        }),
        rejudged!(|sheet, room| {
            judge_words(sheet)?;
            judge_output(sheet, room)?;
            judge_weights(sheet)
        }),
        rejudged!(|sheet, room| {
            judge_output(sheet, room)?;
            judge_words(sheet)?;
            judge_weights(sheet)
        }),
    ];
    for part in wrong {
        assert_eq!(part, Some(Part::Number));
    }
}

/// Refuses a good sheet by 19 as this judges, and else as is right.
fn with_weights(sheet: &[u64], room: usize, judge: fn(&[u64]) -> Result<(), Refusal>) -> Result<(), Refusal> {
    judge_words(sheet)?;
    judge(sheet)?;
    judge_output(sheet, room)
}

/// Risk weights judged in another way: not at all, or the first row's alone; only by a multiple of 50; also in a sheet in
/// percent; 0 too.
#[test]
fn wrong_judgement_of_whole_percents() {
    let wrong = [
        rejudged!(|sheet, room| with_weights(sheet, room, |_| Ok(()))),
        rejudged!(|sheet, room| with_weights(sheet, room, |sheet| {
            let mut weights = weight_places(sheet, unit::HUNDREDTHS).take(1);
            judge_first(weights.find(no_multiple(sheet, ONE_PERCENT)))
        })),
        rejudged!(|sheet, room| with_weights(sheet, room, |sheet| {
            judge_first(weight_places(sheet, unit::HUNDREDTHS).find(no_multiple(sheet, 50)))
        })),
        rejudged!(|sheet, room| with_weights(sheet, room, |sheet| {
            judge_weights(sheet)?;
            judge_first(weight_places(sheet, unit::PERCENT).find(no_multiple(sheet, ONE_PERCENT)))
        })),
        rejudged!(|sheet, room| with_weights(sheet, room, |sheet| {
            judge_weights(sheet)?;
            judge_first(weight_places(sheet, unit::HUNDREDTHS).find(|&place| sheet[place] == 0))
        })),
    ];
    for (place, part) in wrong.into_iter().enumerate() {
        assert!(is_by_judgement(part), "{place}: {part:?}");
    }
}

/// The place of 19: of the last such risk weight, of the row's first word, the row's number, 0, and one too high as in a
/// sheet with a fact more.
#[test]
fn wrong_place_of_a_risk_weight() {
    let wrong = [
        rejudged!(|sheet, room| with_weights(sheet, room, |sheet| {
            judge_first(weight_places(sheet, unit::HUNDREDTHS).rfind(no_multiple(sheet, ONE_PERCENT)))
        })),
        rejudged!(|sheet, room| with_weights(sheet, room, |sheet| {
            judge_weights(sheet).map_err(|refused| at(refused, |place| place - RowWord::RiskWeight as u64))
        })),
        rejudged!(|sheet, room| with_weights(sheet, room, |sheet| {
            let row = |place: u64| (place as usize - Layout::LARGEST.row(0)) / RowWord::COUNT;
            judge_weights(sheet).map_err(|refused| Refusal {
                place: row(refused.place) as u64,
                ..refused
            })
        })),
        rejudged!(|sheet, room| with_weights(sheet, room, |sheet| {
            judge_weights(sheet).map_err(|refused| at(refused, |_| 0))
        })),
        rejudged!(|sheet, room| with_weights(sheet, room, |sheet| {
            judge_weights(sheet).map_err(|refused| at(refused, |place| place + 1))
        })),
    ];
    for part in wrong {
        assert_eq!(part, Some(Part::Place));
    }
}

/// A refusal at another place.
fn at(refused: Refusal, place: fn(u64) -> u64) -> Refusal {
    Refusal {
        place: place(refused.place),
        ..refused
    }
}

/// Places of the words as in the sheet with all facts stated, after the facts or everywhere.
#[test]
fn wrong_places_of_a_conversion() {
    let wrong = [
        rejudged!(|sheet, room| {
            let added = (rewritten_words(sheet) - sheet.len()) as u64;
            let stated = sheet.first().copied().unwrap_or(0);
            judge_words(sheet).map_err(|refused| match refused.place > stated {
                true => Refusal {
                    place: refused.place + added,
                    ..refused
                },
                false => refused,
            })?;
            judge_weights(sheet)?;
            judge_output(sheet, room)
        }),
        rejudged!(|sheet, room| {
            let added = (rewritten_words(sheet) - sheet.len()) as u64;
            judge_words(sheet).map_err(|refused| Refusal {
                place: refused.place + added,
                ..refused
            })?;
            judge_weights(sheet)?;
            judge_output(sheet, room)
        }),
    ];
    for part in wrong {
        assert_eq!(part, Some(Part::Place));
    }
}

/// Judges a sheet as is right, and then its lines with so much room for them.
fn with_lines(sheet: &[u64], room: usize, results: usize) -> Result<(), Refusal> {
    (Steps::RIGHT.judge)(sheet, room)?;
    independent::weigh(sheet, results as u64).map(|_| ())
}

/// Judges a sheet as is right, but for an output of which so many words are needed.
fn with_room(sheet: &[u64], room: usize, needed: usize) -> Result<(), Refusal> {
    judge_words(sheet)?;
    judge_weights(sheet)?;
    judge_room(needed, room)
}

/// Sheets refused that are not, or written that are refused: 13 judged, or 14 of the lines in the output; an output of the
/// sheet as given taken, one word more asked for, or that of the largest sheet; no output judged.
#[test]
fn wrong_judgement_of_an_output() {
    let wrong = [
        rejudged!(|sheet, room| with_lines(sheet, room, MOST_RESULTS)),
        rejudged!(|sheet, room| with_lines(sheet, room, 0)),
        rejudged!(|sheet, room| with_room(sheet, room, sheet.len())),
        rejudged!(|sheet, room| with_room(sheet, room, rewritten_words(sheet) + 1)),
        rejudged!(|sheet, room| with_room(sheet, room, Layout::LARGEST.words())),
        rejudged!(|sheet, room| with_room(sheet, room, 0)),
    ];
    for part in wrong {
        assert_eq!(part, Some(Part::Outcome));
    }
}

/// Converts a sheet whose seventh fact is no unit as if it were this one, though it is refused.
fn no_unit_converted(sheet: &[u64], output: &mut [u64], unit: u64) -> ConversionReply {
    let reply = proved_conversion(sheet, output);
    match (reply.number, reply.place as usize) {
        (refusal::FACT, SEVENTH) => {
            let mut words = sheet.to_vec();
            words[SEVENTH] = unit;
            proved_conversion(&words, output)
        }
        _ => reply,
    }
}

/// Takes words that follow the last section.
fn words_after_sections_converted(sheet: &[u64], output: &mut [u64]) -> ConversionReply {
    let reply = proved_conversion(sheet, output);
    match reply.number {
        refusal::WORDS_FOLLOW => proved_conversion(&sheet[..reply.place as usize], output),
        _ => reply,
    }
}

/// Converts a sheet whose pool is good, whatever follows that: with one tranche in place of what follows.
fn pool_converted_alone(sheet: &[u64], output: &mut [u64]) -> ConversionReply {
    let reply = proved_conversion(sheet, output);
    match Layout::before(sheet, reply.place as usize).filter(|_| reply.number != 0) {
        Some(layout) => {
            let mut words = [&sheet[..layout.tranche_count()], &[1, 1, 1, 1, 0, 0, 0, 0]].concat();
            words[Layout::fact(Fact::PoolKind)] = pool_kind::SA;
            if sixth_is(sheet, |_| true) {
                words[SIXTH] = 0;
            }
            proved_conversion(&words, output)
        }
        None => reply,
    }
}

/// Refuses a good sheet in hundredths with a risk weight above the limit of percent.
fn percent_limit_of_hundredths(sheet: &[u64], room: usize) -> Result<(), Refusal> {
    judge_words(sheet)?;
    let above = |&place: &usize| sheet[place] > RISK_WEIGHT_PERCENT;
    if let Some(place) = weight_places(sheet, unit::HUNDREDTHS).find(above) {
        return refuse(refusal::RISK_WEIGHT, place);
    }
    judge_weights(sheet)?;
    judge_output(sheet, room)
}

/// Words judged in another way: a seventh fact that is no unit taken for percent or for hundredths, seven facts refused,
/// the limit of percent in hundredths, words after the pool and after the last section not judged.
#[test]
fn wrong_judgement_of_converted_words() {
    let wrong = [
        converted(|sheet, output| no_unit_converted(sheet, output, unit::PERCENT)),
        converted(|sheet, output| no_unit_converted(sheet, output, unit::HUNDREDTHS)),
        rejudged!(|sheet, room| match counts_above(sheet, Fact::ReportingDate.number()) {
            true => refuse(refusal::COUNT, Layout::FACTS_COUNT),
            false => (Steps::RIGHT.judge)(sheet, room),
        }),
        rejudged!(percent_limit_of_hundredths),
        converted(words_after_sections_converted),
        converted(pool_converted_alone),
    ];
    for (place, part) in wrong.into_iter().enumerate() {
        assert!(is_by_judgement(part), "{place}: {part:?}");
    }
}

/// The facts written wrongly: not filled; filled, with their count as given; filled before those that are stated, or after
/// the count of rows; a unit that is left as it is, always hundredths or always percent; the reporting date left out.
#[test]
fn wrong_facts_of_a_conversion() {
    let unfilled = rewritten!(|sheet, words| {
        let stated = sheet[Layout::FACTS_COUNT] as usize;
        words.drain(stated + 1..stated + 1 + words.len() - sheet.len());
        words[Layout::FACTS_COUNT] = stated as u64;
    });
    assert_eq!(unfilled, Some(Part::Count));
    let wrong = [
        rewritten!(|sheet, words| words[Layout::FACTS_COUNT] = sheet[Layout::FACTS_COUNT]),
        rewritten!(|sheet, words| {
            let zeros = (words.len() - sheet.len()).saturating_sub(1);
            words[1..SEVENTH].rotate_right(zeros);
        }),
        rewritten!(|sheet, words| {
            let stated = sheet[Layout::FACTS_COUNT] as usize;
            words[stated + 1..SEVENTH + 2].rotate_right(1);
        }),
        rewritten!(|_, words| words[SEVENTH] = unit::other(words[SEVENTH])),
        rewritten!(|_, words| words[SEVENTH] = unit::HUNDREDTHS),
        rewritten!(|_, words| words[SEVENTH] = unit::PERCENT),
        rewritten!(|_, words| words[SIXTH] = 0),
    ];
    for (place, part) in wrong.into_iter().enumerate() {
        assert!(is_by_words(part), "{place}: {part:?}");
    }
}

/// Changes the words at these places of a converted sheet as its risk weights are changed, cut to whole numbers.
fn change_too(sheet: &[u64], words: &mut [u64], places: impl Fn(&Layout) -> Vec<usize>) {
    let unit = unit_of(sheet);
    for place in places(&Layout::of_sheet(words)) {
        words[place] = to_other_unit(unit, words[place]);
    }
}

/// Changes a word of each row of a converted sheet as its risk weight is changed.
fn change_rows_too(sheet: &[u64], words: &mut [u64], word: RowWord) {
    change_too(sheet, words, |layout| {
        (0..layout.rows).map(|row| layout.row(row) + word as usize).collect()
    })
}

/// Other words changed as the risk weights are: exposure, nominal, the IRB average, the amounts of tranches.
#[test]
fn wrong_words_of_a_conversion() {
    let wrong = [
        rewritten!(|sheet, words| change_rows_too(sheet, words, RowWord::Exposure)),
        rewritten!(|sheet, words| change_rows_too(sheet, words, RowWord::Nominal)),
        rewritten!(|sheet, words| change_too(sheet, words, |layout| {
            let average = layout.irb.then(|| layout.irb_word(IrbWord::Average));
            average.into_iter().collect()
        })),
        rewritten!(|sheet, words| change_too(sheet, words, |layout| {
            let amounts = (0..layout.tranches).map(|tranche| layout.tranche_word(tranche, TrancheWord::Amount));
            amounts.collect()
        })),
    ];
    for (place, part) in wrong.into_iter().enumerate() {
        assert_eq!(part, Some(Part::Converted), "{place}");
    }
}

/// Writes back the risk weights as given in the rows that are meant, counted from 0, of so many.
fn leave_weights(sheet: &[u64], words: &mut [u64], meant: fn(usize, usize) -> bool) {
    let [given, written] = [sheet, &*words].map(Layout::of_sheet);
    for row in (0..given.rows).filter(|&row| meant(row, given.rows)) {
        words[written.risk_weight(row)] = sheet[given.risk_weight(row)];
    }
}

/// Risk weights written wrongly: as given, in all rows, in the last one, after the first one or after the first block; times
/// ten; and divided where they are to be multiplied.
#[test]
fn wrong_risk_weights_of_a_conversion() {
    let wrong = [
        rewritten!(|sheet, words| leave_weights(sheet, words, |_, _| true)),
        rewritten!(|sheet, words| leave_weights(sheet, words, |row, rows| row + 1 == rows)),
        rewritten!(|sheet, words| leave_weights(sheet, words, |row, _| row > 0)),
        rewritten!(|sheet, words| leave_weights(sheet, words, |row, _| row as u64 >= BLOCK_ROWS)),
        rewritten!(|sheet, words| {
            leave_weights(sheet, words, |_, _| true);
            change_weights(words, |unit, word| match unit {
                unit::HUNDREDTHS => 10 * word,
                _ => word / 10,
            });
        }),
        rewritten!(|sheet, words| {
            leave_weights(sheet, words, |_, _| true);
            change_weights(words, |_, word| word / ONE_PERCENT);
        }),
    ];
    for (place, part) in wrong.into_iter().enumerate() {
        assert_eq!(part, Some(Part::Converted), "{place}");
    }
}

/// Writes a good sheet in this unit as it is, with all facts stated, where the output is long enough.
fn to_one_unit(sheet: &[u64], output: &mut [u64], to: u64) -> ConversionReply {
    let steps = Steps {
        judge: |sheet, room| {
            judge_words(sheet)?;
            judge_output(sheet, room)
        },
        rewrite: |sheet| {
            let mut words = Vec::new();
            write_with_facts(sheet, FACTS, &mut words);
            words
        },
    };
    match independent::sheet::read(sheet).is_ok_and(|_| unit_of(sheet) == to) {
        true => steps.convert(sheet, output),
        false => proved_conversion(sheet, output),
    }
}

/// Conversions to hundredths alone, and to percent alone.
#[test]
fn wrong_direction_of_a_conversion() {
    let wrong: [Convert; 2] = [
        |sheet, output| to_one_unit(sheet, output, unit::HUNDREDTHS),
        |sheet, output| to_one_unit(sheet, output, unit::PERCENT),
    ];
    for convert in wrong {
        let part = converted(convert);
        assert!(is_by_words(part) || part == Some(Part::Outcome), "{part:?}");
    }
}

/// Converts a sheet whose risk weights are no whole percents with rounded ones, though it is refused.
fn rounded_conversion(sheet: &[u64], output: &mut [u64], round: fn(u64) -> u64) -> ConversionReply {
    let reply = proved_conversion(sheet, output);
    if reply.number != refusal::NOT_WHOLE_PERCENT {
        return reply;
    }
    let mut words = sheet.to_vec();
    change_weights(&mut words, |_, word| ONE_PERCENT * round(word));
    proved_conversion(&words, output)
}

/// Risk weights rounded to whole percents: down, to the nearest, and up.
#[test]
fn risk_weights_rounded() {
    let wrong: [Convert; 3] = [
        |sheet, output| rounded_conversion(sheet, output, |word| word / ONE_PERCENT),
        |sheet, output| rounded_conversion(sheet, output, |word| (word + ONE_PERCENT / 2) / ONE_PERCENT),
        |sheet, output| rounded_conversion(sheet, output, |word| word.div_ceil(ONE_PERCENT)),
    ];
    for convert in wrong {
        let part = converted(convert);
        assert!(matches!(part, Some(Part::Outcome | Part::Number)), "{part:?}");
    }
}

/// The proved conversion with a fault in the reply to each refused sheet, or else to each one that is written, given the
/// sheet.
fn faulty_conversion(
    sheet: &[u64],
    output: &mut [u64],
    on_refusal: bool,
    fault: fn(&[u64], &mut ConversionReply),
) -> ConversionReply {
    let mut reply = proved_conversion(sheet, output);
    if (reply.number != 0) == on_refusal {
        fault(sheet, &mut reply);
    }
    reply
}

/// The part in which a run first finds a fault in the reply to each refused sheet, or else to each one that is written.
macro_rules! faulty_conversions {
    ($on_refusal:expr, $fault:expr) => {
        converted(|sheet, output| faulty_conversion(sheet, output, $on_refusal, $fault))
    };
}

/// Number, place and count of a refused sheet, wrong or not written; and such a sheet reported as written.
#[test]
fn wrong_reply_to_a_refused_conversion() {
    let wrong = [
        (faulty_conversions!(true, |_, reply| reply.number += 1), Part::Number),
        (faulty_conversions!(true, |_, reply| reply.place += 1), Part::Place),
        (
            faulty_conversions!(true, |_, reply| reply.place = u64::MAX),
            Part::Place,
        ),
        (faulty_conversions!(true, |_, reply| reply.count = 1), Part::Count),
        (
            faulty_conversions!(true, |_, reply| reply.count = u64::MAX),
            Part::Count,
        ),
        (
            faulty_conversions!(true, |_, reply| *reply = ConversionReply::writing(0)),
            Part::Outcome,
        ),
    ];
    for (part, due) in wrong {
        assert_eq!(part, Some(due));
    }
}

/// Place and count of a sheet that is written, wrong or not written; the count of the words as given, of the tranches, and
/// 0; and such a sheet reported as refused.
#[test]
fn wrong_reply_to_a_conversion() {
    let wrong = [
        (faulty_conversions!(false, |_, reply| reply.place = 1), Part::Place),
        (
            faulty_conversions!(false, |_, reply| reply.place = u64::MAX),
            Part::Place,
        ),
        (faulty_conversions!(false, |_, reply| reply.count += 1), Part::Count),
        (faulty_conversions!(false, |_, reply| reply.count -= 1), Part::Count),
        (
            faulty_conversions!(false, |_, reply| reply.count = u64::MAX),
            Part::Count,
        ),
        (faulty_conversions!(false, |_, reply| reply.count = 0), Part::Count),
        (
            faulty_conversions!(false, |sheet, reply| reply.count = sheet.len() as u64),
            Part::Count,
        ),
        (
            faulty_conversions!(false, |sheet, reply| {
                reply.count = Layout::of_sheet(sheet).tranches as u64
            }),
            Part::Count,
        ),
        (
            faulty_conversions!(false, |_, reply| *reply = ConversionReply::refusing(refusal::ROOM, 0)),
            Part::Outcome,
        ),
    ];
    for (part, due) in wrong {
        assert_eq!(part, Some(due));
    }
}

/// The proved conversion with another output, made of the reply, the output as lent and the output.
fn other_output(
    sheet: &[u64],
    output: &mut [u64],
    change: fn(&ConversionReply, &[u64], &mut [u64]),
) -> ConversionReply {
    let before = output.to_vec();
    let reply = proved_conversion(sheet, output);
    change(&reply, &before, output);
    reply
}

/// The words after those that a reply says were written; none on a refusal.
fn after_written<'a>(reply: &ConversionReply, output: &'a mut [u64]) -> &'a mut [u64] {
    match reply.number {
        0 => &mut output[reply.count as usize..],
        _ => &mut [],
    }
}

/// Later words are untouched: all of them, the first and the last.
#[test]
fn words_after_a_conversion_written() {
    let wrong: [Convert; 3] = [
        |sheet, output| other_output(sheet, output, |reply, _, output| after_written(reply, output).fill(0)),
        |sheet, output| {
            other_output(sheet, output, |reply, _, output| {
                after_written(reply, output)
                    .iter_mut()
                    .take(1)
                    .for_each(|word| *word = 0)
            })
        },
        |sheet, output| {
            other_output(sheet, output, |reply, _, output| {
                after_written(reply, output)
                    .last_mut()
                    .into_iter()
                    .for_each(|word| *word = 0)
            })
        },
    ];
    for convert in wrong {
        assert_eq!(converted(convert), Some(Part::AfterConverted));
    }
}

/// Leaves the words from one place to another, of those that were written, as they were lent.
fn leave_words(reply: &ConversionReply, before: &[u64], output: &mut [u64], places: fn(usize) -> (usize, usize)) {
    if reply.number == 0 {
        let (first, end) = places(reply.count as usize);
        output[first..end].copy_from_slice(&before[first..end]);
    }
}

/// Words left unwritten but reported written: the first, the unit, the last, and all after the facts.
#[test]
fn words_of_a_conversion_not_written() {
    let wrong: [Convert; 4] = [
        |sheet, output| {
            other_output(sheet, output, |reply, before, output| {
                leave_words(reply, before, output, |_| (0, 1))
            })
        },
        |sheet, output| {
            other_output(sheet, output, |reply, before, output| {
                leave_words(reply, before, output, |_| (SEVENTH, SEVENTH + 1))
            })
        },
        |sheet, output| {
            other_output(sheet, output, |reply, before, output| {
                leave_words(reply, before, output, |count| (count - 1, count))
            })
        },
        |sheet, output| {
            other_output(sheet, output, |reply, before, output| {
                leave_words(reply, before, output, |count| (SEVENTH + 1, count))
            })
        },
    ];
    for convert in wrong {
        assert_eq!(converted(convert), Some(Part::Converted));
    }
}

/// Writes what fits of a good sheet in the other unit, where the sheet is refused by this number.
fn written_on(number: u64, sheet: &[u64], output: &mut [u64]) -> ConversionReply {
    let reply = proved_conversion(sheet, output);
    if reply.number == number {
        let words = in_other_unit(sheet);
        output.iter_mut().zip(words).for_each(|(to, word)| *to = word);
    }
    reply
}

/// Nothing is written on a refusal: not the first word, not the last, and not what fits of the sheet where it is refused
/// for its output or for a risk weight.
#[test]
fn output_written_on_a_refusal() {
    let wrong: [Convert; 4] = [
        |sheet, output| {
            other_output(sheet, output, |reply, _, output| {
                let first = output.first_mut().filter(|_| reply.number != 0);
                first.into_iter().for_each(|word| *word = 0)
            })
        },
        |sheet, output| {
            other_output(sheet, output, |reply, _, output| {
                let last = output.last_mut().filter(|_| reply.number != 0);
                last.into_iter().for_each(|word| *word = 0)
            })
        },
        |sheet, output| written_on(refusal::ROOM, sheet, output),
        |sheet, output| written_on(refusal::NOT_WHOLE_PERCENT, sheet, output),
    ];
    for convert in wrong {
        assert_eq!(converted(convert), Some(Part::OutputOnRefusal));
    }
}

/// A conversion that panics ends the run as a difference.
#[test]
fn panic_on_a_conversion_is_a_difference() {
    let library = Library {
        convert: |_, _| panic!("a side that stops"),
        ..Library::PROVED
    };
    assert_eq!(
        first_difference(library).map(|difference| difference.part),
        Some(Part::Panic)
    );
}

/// A difference in a conversion is shown with its output and with what each side said to it.
#[test]
fn difference_of_a_conversion_is_shown() {
    let library = Library {
        convert: |sheet, output| {
            other_output(sheet, output, |reply, _, output| {
                if reply.number == 0 {
                    output[SEVENTH] = 9;
                }
            })
        },
        ..Library::PROVED
    };
    let found = run(library, 2).expect_err("9 is no unit");
    let case = Case::new(SEED, found.index);
    let room = rewritten_words(&case.sheet);
    assert_eq!(found.difference.asked, Asked::Conversion(room));
    let text = show::difference(&library, SEED, &case, &found);
    let mut words = in_other_unit(&case.sheet);
    for side in ["independent", "proved"] {
        let shown: Vec<String> = words.iter().map(u64::to_string).collect();
        let line = format!(
            "\n{side}, conversion to {room} words: number 0 place 0 count {room} words {}\n",
            shown.join(" ")
        );
        assert!(text.contains(&line), "{text}");
        words[SEVENTH] = 9;
    }
    let last = text.lines().last().unwrap_or_default();
    let part = format!("difference in converted word of the conversion to {room} words: ");
    assert!(last.contains(&part), "{text}");
}
