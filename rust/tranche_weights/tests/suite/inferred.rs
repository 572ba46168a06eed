//! Ratings that an unrated tranche takes of another one (document 02, S-8).

use crate::checked_deal::{both_facts, file_of, row};
use crate::places::{ratings, with_irb};
use std::error::Error;
use tranche_weights::{
    weigh_file, Approach, Date, Facts, Line, LongTerm, Months, Rating, Reason, SheetBuilder, SheetError, ShortTerm,
    Status, Tranche, TrancheAmount,
};

/// No rating.
const UNRATED: [Option<Rating>; 3] = [None; 3];

/// One rating.
fn one(rating: impl Into<Rating>) -> [Option<Rating>; 3] {
    [Some(rating.into()), None, None]
}

/// A tranche of class 1, 2 and so on: its class, months and ratings.
type Placed = (u64, u64, [Option<Rating>; 3]);

/// A tranche of 200 with these months and ratings.
fn tranche(months: u64, ratings: [Option<Rating>; 3]) -> Result<Tranche, SheetError> {
    let tranche = Tranche::new(TrancheAmount::new(200)?, Months::new(months)?, 200)?;
    Ok(tranche.with_ratings(ratings))
}

/// The lines of an ordinary deal with these facts, over loans of 1,000 at 100%, with these tranches.
fn lines(facts: Facts, tranches: &[Placed]) -> Result<Vec<Line>, Box<dyn Error>> {
    let mut builder = SheetBuilder::ordinary(facts);
    builder.row(row(1_000)?, Status::Paying)?;
    let mut last = 0;
    for &(class, months, ratings) in tranches {
        let tranche = tranche(months, ratings)?;
        if class == last {
            builder.same_class(tranche)?;
        } else {
            builder.next_class(tranche)?;
        }
        last = class;
    }
    Ok(builder.build()?.weigh()?.lines)
}

/// The approach and the weight of the first line of such a deal.
fn first(tranches: &[Placed]) -> Result<(Approach, u64), Box<dyn Error>> {
    let line = lines(both_facts(), tranches)?[0];
    Ok((line.approach, line.weight))
}

/// The ratings are taken of the own class or a junior one, and show as SEC-ERBA on a tranche without a rating. Class,
/// maturity and thickness are its own: senior AA is 31% at 36 months, and 40% at five years.
#[test]
fn an_unrated_tranche_takes_ratings() -> Result<(), Box<dyn Error>> {
    let aa = one(LongTerm::Aa);
    for (months, weight) in [(36, 3_100), (72, 4_000)] {
        for other in [(1, 72, aa), (2, 72, aa)] {
            let taken = first(&[(1, months, UNRATED), other])?;
            assert_eq!(taken, (Approach::SecErba, weight));
        }
    }
    // Non-senior AA of five years: 120%, less a fifth or two fifths by the thickness of its own class.
    let deal = lines(
        both_facts(),
        &[(1, 72, UNRATED), (2, 72, UNRATED), (3, 72, aa), (3, 72, aa)],
    )?;
    let weights: Vec<u64> = deal.iter().map(|line| line.weight).collect();
    assert_eq!(weights, [4_000, 9_600, 7_200, 7_200]);
    Ok(())
}

/// The most senior class counts, and in it the tranche that is placed first and is long enough. All its ratings are
/// taken: of AAA, the second short-term grade and AA the middle weight, 40%.
#[test]
fn the_first_of_the_most_senior_class_counts() -> Result<(), Box<dyn Error>> {
    let [a, bbb, bb] = [LongTerm::A, LongTerm::Bbb, LongTerm::Bb].map(one);
    let three = [LongTerm::Aaa.into(), ShortTerm::Second.into(), LongTerm::Aa.into()].map(Some);
    for (others, weight) in [
        ([(1, 72, bbb), (1, 72, a)], 10_000),
        ([(1, 71, bbb), (1, 73, a)], 6_500),
        ([(2, 73, a), (2, 72, bbb)], 6_500),
        ([(2, 71, bb), (3, 72, a)], 6_500),
        ([(2, 72, three), (3, 72, bb)], 4_000),
    ] {
        let [one, other] = others;
        assert_eq!(first(&[(1, 72, UNRATED), one, other])?, (Approach::SecErba, weight));
    }
    Ok(())
}

/// Nothing is taken of a class above, or of a tranche that is shorter by a month, also where both are five years.
#[test]
fn nothing_is_taken_of_others() -> Result<(), Box<dyn Error>> {
    let aa = one(LongTerm::Aa);
    let senior = lines(both_facts(), &[(1, 72, aa), (2, 72, UNRATED)])?;
    assert_eq!(senior[1].approach, Approach::SecSa);
    for months in [12, 36, 74] {
        assert_eq!(first(&[(1, months, UNRATED), (2, months - 1, aa)])?.0, Approach::SecSa);
    }
    Ok(())
}

/// With a reporting date the months are compared that it counts, not the dates.
#[test]
fn months_of_dates_are_compared() -> Result<(), Box<dyn Error>> {
    let facts = both_facts().with_reporting_date(Some(Date::new(2024, 1, 15)?));
    let maturing = |year, month, day| Tranche::maturing_on(TrancheAmount::new(200)?, Date::new(year, month, day)?, 0);
    let rated = one(LongTerm::Aa);
    // 37 months from the day after 15 January 2027 to 15 February.
    for (other, approach) in [
        (maturing(2027, 1, 16)?, Approach::SecErba),
        (maturing(2027, 2, 15)?, Approach::SecErba),
        (maturing(2027, 1, 15)?, Approach::SecSa),
    ] {
        let mut builder = SheetBuilder::ordinary(facts);
        builder
            .row(row(1_000)?, Status::Paying)?
            .next_class(maturing(2027, 2, 10)?)?
            .next_class(other.with_ratings(rated))?;
        assert_eq!(builder.build()?.weigh()?.lines[0].approach, approach);
    }
    Ok(())
}

/// In a re-securitisation, under SEC-IRBA and without due diligence nothing is taken: the lines are those without the
/// rating.
#[test]
fn other_deals_take_nothing() -> Result<(), Box<dyn Error>> {
    let without_diligence = both_facts().with_due_diligence_held(false);
    let with = |rating| [(1, 72, UNRATED), (2, 72, rating)];
    let rated = one(LongTerm::Aa);
    assert_eq!(
        lines(without_diligence, &with(rated))?,
        lines(without_diligence, &with(UNRATED))?
    );
    let resecuritised = [
        4, 0, 1, 1, 1, 1, 1_000, 1_000, 100, 3, 2, 200, 1, 72, 0, 0, 0, 0, 800, 2, 72, 0, 3, 0, 0,
    ];
    let mut ordinary = resecuritised;
    (ordinary[2], ordinary[9]) = (0, 0);
    let under_irba = with_irb(&ordinary, 1, [100_000, 450_000, 25, 0, 1_000_000, 125_000]);
    for (words, approach) in [
        (resecuritised.to_vec(), Approach::SecSa),
        (under_irba, Approach::SecIrba),
    ] {
        let mut unrated = words.clone();
        ratings(&words).for_each(|place| unrated[place] = 0);
        let [with, without] = [words, unrated].map(|words| weigh_file(&file_of(&words)));
        assert_eq!(with, without);
        assert_eq!(with?.lines[0].approach, approach);
    }
    assert_eq!(weigh_file(&file_of(&ordinary))?.lines[0].approach, Approach::SecErba);
    Ok(())
}

/// A tranche that is too thin for the formula is weighed where it finds ratings to take, and refused by 13 where it finds
/// none: BBB of five years without thickness is 310%.
#[test]
fn a_thin_tranche_that_takes_ratings_is_weighed() {
    let with = |months| {
        let pool = [4, 0, 0, 1, 1, 1, 10_000_000_000, 10_000_000_000, 100, 0];
        let tranches = [
            [4_999_995_000, 1, 72, 0, 1, 0, 0],
            [1, 2, 72, 1, 0, 0, 0],
            [1_000_000_000, 3, months, 0, 9, 0, 0],
        ];
        let words = [&pool[..], &[3], tranches.as_flattened()].concat();
        weigh_file(&file_of(&words))
    };
    let refusal = with(71).unwrap_err();
    assert_eq!((refusal.reason(), refusal.place()), (Reason::ThinTranche, 18));
    let line = with(72).expect("a rating is found").lines[1];
    assert_eq!((line.attachment, line.detachment), (500_000, 500_000));
    assert_eq!((line.approach, line.weight), (Approach::SecErba, 31_000));
}
