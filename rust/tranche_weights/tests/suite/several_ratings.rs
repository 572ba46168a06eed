//! One, two and three ratings (document 02, S-2).

use std::error::Error;
use tranche_weights::{
    Approach, Facts, LongTerm, Months, PoolAmount, Rating, RiskWeight, Row, SheetBuilder, ShortTerm, Status, Tranche,
    TrancheAmount,
};

/// The weight of class 1 with these ratings, at five years over loans of 1250%.
fn weight(ratings: [Option<Rating>; 3]) -> Result<u64, Box<dyn Error>> {
    let amount = PoolAmount::new(1_000)?;
    let tranche = Tranche::new(TrancheAmount::new(1_000)?, Months::new(72)?, 0)?;
    let facts = Facts::new()
        .with_due_diligence_held(true)
        .with_pool_composition_known(true);
    let mut builder = SheetBuilder::ordinary(facts);
    builder
        .row(Row::new(amount, amount, RiskWeight::new(1250)?), Status::Paying)?
        .next_class(tranche.with_ratings(ratings))?;
    let deal = builder.build()?.weigh()?;
    assert_eq!(deal.lines[0].approach, Approach::SecErba);
    Ok(deal.lines[0].weight)
}

/// AA, 40%.
const LOW: Rating = Rating::LongTerm(LongTerm::Aa);
/// The second short-term grade, 50%, whose code is the highest of the three.
const MIDDLE: Rating = Rating::ShortTerm(ShortTerm::Second);
/// BBB, 105%.
const HIGH: Rating = Rating::LongTerm(LongTerm::Bbb);

/// One rating counts; of two the higher weight counts, whichever of the three is left out.
#[test]
fn of_two_the_higher_counts() -> Result<(), Box<dyn Error>> {
    for ratings in [
        [Some(LOW), Some(HIGH), None],
        [Some(LOW), None, Some(HIGH)],
        [None, Some(HIGH), Some(LOW)],
    ] {
        assert_eq!(weight(ratings)?, 10_500);
    }
    assert_eq!(weight([None, Some(MIDDLE), None])?, 5_000);
    Ok(())
}

/// Of three ratings the middle weight counts, in any order; equal ones count separately.
#[test]
fn of_three_the_middle_one_counts() -> Result<(), Box<dyn Error>> {
    for (ratings, due) in [
        ([LOW, MIDDLE, HIGH], 5_000),
        ([LOW, HIGH, MIDDLE], 5_000),
        ([MIDDLE, LOW, HIGH], 5_000),
        ([MIDDLE, HIGH, LOW], 5_000),
        ([HIGH, LOW, MIDDLE], 5_000),
        ([HIGH, MIDDLE, LOW], 5_000),
        ([LOW, HIGH, LOW], 4_000),
        ([HIGH, LOW, HIGH], 10_500),
        ([HIGH, HIGH, HIGH], 10_500),
    ] {
        assert_eq!(weight(ratings.map(Some))?, due, "{ratings:?}");
    }
    Ok(())
}
