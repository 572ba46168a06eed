//! The least weight, a line's seventh word (document 02, S-6).

use crate::checked_deal::{both_facts, ordinary, tranche, with_rows_and_tranches};
use std::error::Error;
use tranche_weights::{
    Approach, Facts, Line, LongTerm, PoolAmount, Rating, RiskWeight, Row, SheetBuilder, ShortTerm, Status,
};

/// No rating.
const UNRATED: [Option<Rating>; 3] = [None; 3];

/// The line of the last tranche in a deal over one loan of 1,000,000 with this risk weight in percent. So points are
/// exact, and the charge is 800 times the percent. The tranches have these amounts, all held, and a class each; the last
/// has these ratings, the others none.
fn last_line(
    facts: Facts,
    percent: u64,
    amounts: &[u64],
    ratings: [Option<Rating>; 3],
) -> Result<Line, Box<dyn Error>> {
    let nominal = PoolAmount::new(1_000_000)?;
    let mut builder = SheetBuilder::ordinary(facts);
    builder.row(Row::new(nominal, nominal, RiskWeight::new(percent)?), Status::Paying)?;
    let (last, others) = amounts.split_last().ok_or("no tranche")?;
    for amount in others {
        builder.next_class(tranche(*amount, *amount)?)?;
    }
    builder.next_class(tranche(*last, *last)?.with_ratings(ratings))?;
    let deal = builder.build()?.weigh()?;
    assert_eq!(deal.charge, 800 * percent);
    Ok(deal.lines[others.len()])
}

/// The risk-weighted amount and the capital for an amount held at a weight.
fn amounts_at(weight: u64, held: u64) -> (u64, u64) {
    (
        (held * weight).div_ceil(10_000),
        (held * weight * 8).div_ceil(1_000_000),
    )
}

/// Every weight of the checked deal is exact, and so its least weight.
#[test]
fn the_checked_deal_has_its_least_weights() -> Result<(), Box<dyn Error>> {
    let deal = with_rows_and_tranches(ordinary(), tranche)?.weigh()?;
    let least_weights: Vec<u64> = deal.lines.iter().map(|line| line.least_weight).collect();
    assert_eq!(least_weights, [2_000, 26_350, 125_000]);
    Ok(())
}

/// Under the formula the rules leave both ends open. A weight may be either of the two whole numbers that are no lower
/// than the exact raw weight and less than 2 above it, a least weight any that is no higher and less than 1.5 below it:
/// two, or just one. The exact raw weights here are 79,015.07, 111,683.67 and 13,887.17. The amounts come from the
/// weight.
#[test]
fn the_formula_has_ends_that_the_rules_admit() -> Result<(), Box<dyn Error>> {
    let known = both_facts();
    let unknown = known.with_pool_composition_known(false);
    for (facts, amounts, points, weights, least_weights) in [
        (
            known,
            &[800_000, 100_000][..],
            (100_000, 200_000),
            [79_016, 79_017],
            &[79_014, 79_015][..],
        ),
        (
            known,
            &[850_000, 100_000],
            (50_000, 150_000),
            [111_684, 111_685],
            &[111_683],
        ),
        (
            unknown,
            &[900_000],
            (100_000, 1_000_000),
            [13_888, 13_889],
            &[13_886, 13_887],
        ),
    ] {
        let line = last_line(facts, 125, amounts, UNRATED)?;
        assert_eq!(line.approach, Approach::SecSa);
        assert_eq!((line.attachment, line.detachment), points);
        assert!(weights.contains(&line.weight), "{line:?}");
        assert!(least_weights.contains(&line.least_weight), "{line:?}");
        let held = amounts[amounts.len() - 1];
        assert_eq!((line.risk_weighted_amount, line.capital), amounts_at(line.weight, held));
    }
    Ok(())
}

/// By a rating table the exact figures are compared, and the one that counts is rounded up for the weight and down for
/// the least weight. AAA has 49.99995% here and the second short-term grade 50%. The amounts are those of the weight, also
/// where the least weight is another.
#[test]
fn exact_figures_are_compared() -> Result<(), Box<dyn Error>> {
    let [aaa, second] = [LongTerm::Aaa.into(), ShortTerm::Second.into()].map(Some);
    for (ratings, least_weight) in [
        ([aaa, None, None], 4_999),
        ([None, None, second], 5_000),
        ([aaa, second, None], 5_000),
        ([aaa, second, aaa], 4_999),
        ([second, aaa, second], 5_000),
    ] {
        let line = last_line(both_facts(), 100, &[500_000, 285_715], ratings)?;
        assert_eq!(line.detachment - line.attachment, 285_715);
        assert_eq!((line.least_weight, line.weight), (least_weight, 5_000), "{ratings:?}");
        assert_eq!((line.risk_weighted_amount, line.capital), (142_858, 11_429));
    }
    Ok(())
}

/// Floor and cap act on the least weight as on the weight: both are the floor where they start below it, both are the cap
/// where they are above it, also where it is below the floor. So it is too where both start from 0, over loans of 0%.
#[test]
fn floor_and_cap_act_on_both() -> Result<(), Box<dyn Error>> {
    let known = both_facts();
    let unknown = known.with_pool_composition_known(false);
    for (facts, percent, amounts, due) in [
        (known, 125, &[400_000, 100_000][..], 1_500),
        (known, 125, &[900_000], 12_500),
        (known, 10, &[800_000], 1_000),
        (known, 0, &[900_000], 0),
        (known, 0, &[900_000, 50_000], 1_500),
        (unknown, 0, &[900_000], 1_500),
    ] {
        let line = last_line(facts, percent, amounts, UNRATED)?;
        assert_eq!(
            (line.least_weight, line.weight),
            (due, due),
            "{amounts:?} over {percent}%"
        );
    }
    Ok(())
}
