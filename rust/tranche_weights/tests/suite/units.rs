//! The unit of the risk weights, and weights in hundredths of a percent (document 02, S-9).

use crate::block_sums::hold_blocks;
use crate::checked_deal::{both_facts, file_of, ordinary, resecuritised, row, tranche, RESULTS, TEXT, WORDS};
use crate::dates::{maturing, MATURITY, REPORTING_DATE};
use crate::irb::FIGURES;
use crate::places::{first_figure, maturities, risk_weights, row_count, rows, with_facts, with_irb, AVERAGE};
use crate::results::weighed;
use std::error::Error;
use tranche_weights::{
    block_sums, report, Date, LongTerm, PoolAmount, Reply, RiskWeight, Row, Sheet, SheetBuilder, SheetError, Status,
};

/// The checked deal in hundredths of a percent, written out.
pub const IN_HUNDREDTHS: [u64; 39] = [
    7, 0, 0, 1, 1, 0, 0, 1, 2, 950, 950, 10_000, 0, 50, 50, 10_000, 1, 3, 800, 1, 72, 800, 1, 0, 0, 150, 2, 72, 100, 9,
    0, 0, 50, 3, 72, 50, 0, 0, 0,
];

/// A row of equal amounts with this weight in hundredths of a percent.
fn row_at(amount: u64, hundredths: u64) -> Result<Row, SheetError> {
    let amount = PoolAmount::new(amount)?;
    Ok(Row::new(amount, amount, RiskWeight::from_hundredths(hundredths)?))
}

/// A weight is taken in either unit up to its limit, and what is beyond it is answered with the error of the unit.
#[test]
fn weights_keep_their_limits() {
    assert_eq!(
        (RiskWeight::HIGHEST_PERCENT, RiskWeight::HIGHEST_HUNDREDTHS),
        (1250, 125_000)
    );
    for percent in [0, 1, 100, 1250] {
        let weight = RiskWeight::new(percent);
        assert_eq!(weight.map(RiskWeight::hundredths), Ok(100 * percent));
        assert_eq!(weight, RiskWeight::from_hundredths(100 * percent));
    }
    for hundredths in [1, 99, 3_750, 124_999, 125_000] {
        let weight = RiskWeight::from_hundredths(hundredths);
        assert_eq!(weight.map(RiskWeight::hundredths), Ok(hundredths));
    }
    for beyond in [1251, 125_000, u64::MAX] {
        assert_eq!(RiskWeight::new(beyond), Err(SheetError::RiskWeight(beyond)));
    }
    for beyond in [125_001, u64::MAX] {
        let error = SheetError::RiskWeightInHundredths(beyond);
        assert_eq!(RiskWeight::from_hundredths(beyond), Err(error));
    }
}

/// A weight prints in percent with the decimals that it needs, to the width asked for, and the higher is the greater.
#[test]
fn weights_print_in_percent() -> Result<(), SheetError> {
    let prints = [
        (0, "0"),
        (5, "0.05"),
        (50, "0.5"),
        (3_750, "37.5"),
        (10_000, "100"),
        (10_001, "100.01"),
        (10_010, "100.1"),
    ];
    for (hundredths, text) in prints {
        assert_eq!(RiskWeight::from_hundredths(hundredths)?.to_string(), text);
    }
    assert_eq!(format!("{:>6}%", RiskWeight::from_hundredths(3_750)?), "  37.5%");
    assert_eq!(format!("{:6}%", RiskWeight::new(100)?), "   100%");
    assert!(RiskWeight::from_hundredths(3_750)? < RiskWeight::new(38)?);
    Ok(())
}

/// The builder's sheet with rows of these weights, in hundredths of a percent, and one tranche.
fn built(weights: &[u64]) -> Result<Sheet, SheetError> {
    let mut builder = ordinary();
    for hundredths in weights {
        builder.row(row_at(10, *hundredths)?, Status::Paying)?;
    }
    builder.next_class(tranche(1, 1)?)?.build()
}

/// A sheet is in whole percent, and leaves the unit out, where all its weights are whole percents; where one is not, the
/// first or the last, it states seven facts and all its weights are in hundredths.
#[test]
fn the_unit_is_stated_where_a_weight_needs_it() -> Result<(), SheetError> {
    let weights_of = |words: &[u64]| rows(words).map(|row| row[2]).collect::<Vec<u64>>();
    for (given, facts, weights) in [
        (&[10_000, 0, 125_000][..], &[4, 0, 0, 1, 1][..], &[100, 0, 1250][..]),
        (&[3_750], &[7, 0, 0, 1, 1, 0, 0, 1], &[3_750]),
        (&[1, 10_000, 0], &[7, 0, 0, 1, 1, 0, 0, 1], &[1, 10_000, 0]),
        (&[125_000, 99], &[7, 0, 0, 1, 1, 0, 0, 1], &[125_000, 99]),
    ] {
        let sheet = built(given)?;
        assert_eq!(sheet.words()[..row_count(sheet.words())], *facts);
        assert_eq!(weights_of(sheet.words()), weights);
    }
    Ok(())
}

/// The unit stands after the mark and the reporting date, whether the deal has them or not.
#[test]
fn the_unit_stands_after_mark_and_date() -> Result<(), SheetError> {
    let home_loans = row_at(10, 3_750)?;
    let dated = both_facts().with_reporting_date(Some(Date::try_from(REPORTING_DATE)?));
    let mut stc = SheetBuilder::stc(dated);
    let mut resecuritisation = SheetBuilder::resecuritisation(both_facts());
    for (sheet, facts) in [
        (
            stc.row(home_loans, Status::Paying)?
                .next_class(maturing(1, 1)?)?
                .build()?,
            [7, 0, 0, 1, 1, 1, REPORTING_DATE, 1],
        ),
        (
            resecuritisation.row(home_loans)?.next_class(tranche(1, 1)?)?.build()?,
            [7, 0, 1, 1, 1, 0, 0, 1],
        ),
    ] {
        assert_eq!(sheet.words()[..8], facts);
        assert_eq!(sheet.words()[8..12], [1, 10, 10, 3_750]);
    }
    Ok(())
}

/// The checked deal has the same reply, lines and report in hundredths, and in whole percent with the unit written.
#[test]
fn the_checked_deal_is_the_same_in_either_unit() {
    for words in [&IN_HUNDREDTHS[..], &with_facts(&WORDS, &[0, 0, 0])] {
        let (reply, results) = weighed(words);
        assert_eq!(reply, Reply::accepting(3, 101_000));
        assert_eq!(results[..RESULTS.len()], RESULTS);
        assert_eq!(report(&file_of(words)), TEXT);
    }
}

/// A sheet of four facts in whole percent, with this mark and this reporting date, in hundredths of a percent.
pub fn in_hundredths(words: &[u64], mark: u64, reporting_date: u64) -> Vec<u64> {
    let mut words = with_facts(words, &[mark, reporting_date, 1]);
    let places: Vec<usize> = risk_weights(&words).collect();
    places.into_iter().for_each(|place| words[place] *= 100);
    words
}

/// Every kind of deal has the same answer in either unit: STC, with a reporting date, re-securitisation, SEC-IRBA.
#[test]
fn every_deal_is_the_same_in_either_unit() {
    let mut maturing_on = WORDS;
    maturities(&WORDS).for_each(|place| maturing_on[place] = MATURITY);
    let mixed = with_irb(&WORDS, 2, FIGURES);
    for (deal, mark, reporting_date) in [
        (&WORDS[..], 0, 0),
        (&WORDS, 1, 0),
        (&maturing_on, 0, REPORTING_DATE),
        (&resecuritised(), 0, 0),
        (&mixed, 0, 0),
        (&mixed, 1, 0),
    ] {
        let in_percent = weighed(&with_facts(deal, &[mark, reporting_date]));
        assert_eq!(in_percent.0.number, 0, "{deal:?}");
        assert!(
            weighed(&in_hundredths(deal, mark, reporting_date)) == in_percent,
            "{deal:?}"
        );
    }
}

/// The charge is 8% of the average weight, and the cap of class 1 is the average, both rounded up: that of 1,000 at 37.5%
/// and 3,000 at 0.01% is 9.3825%.
#[test]
fn charge_and_cap_are_of_the_weights() -> Result<(), Box<dyn Error>> {
    let capped = |rows: &[(u64, u64)]| -> Result<(u64, u64), Box<dyn Error>> {
        let mut builder = ordinary();
        for (amount, hundredths) in rows {
            builder.row(row_at(*amount, *hundredths)?, Status::Paying)?;
        }
        let below_ccc = tranche(1, 1)?.with_ratings([Some(LongTerm::BelowCccMinus.into()), None, None]);
        let deal = builder.next_class(below_ccc)?.build()?.weigh()?;
        Ok((deal.charge, deal.lines[0].weight))
    };
    assert_eq!(capped(&[(1_000, 3_750)])?, (30_000, 3_750));
    assert_eq!(capped(&[(1_000, 3_751)])?, (30_008, 3_751));
    assert_eq!(capped(&[(1_000, 3_750), (3_000, 1)])?, (7_506, 939));
    assert_eq!(capped(&[(1, 1), (2, 0)])?, (3, 1));
    assert_eq!(capped(&[(1, 124_999), (2, 125_000)])?, (999_998, 125_000));
    Ok(())
}

/// An exposure of 200 at 37.5% adds 750,000 to the weighted exposure; the checked deal has the same sums in either unit.
#[test]
fn weighted_exposure_is_in_hundredths() -> Result<(), Box<dyn Error>> {
    let mut builder = ordinary();
    let sheet = builder
        .row(row_at(200, 3_750)?, Status::NotKnown)?
        .row(row(3)?, Status::Delinquent)?;
    let sheet = sheet.next_class(tranche(1, 1)?)?.build()?;
    let sums = sheet.block_sums(0)?;
    assert_eq!(sums.all.weighted_exposure, 780_000);
    assert_eq!(sums.known.weighted_exposure, 30_000);
    assert_eq!(block_sums(&IN_HUNDREDTHS, 0)?, block_sums(&WORDS, 0)?);
    hold_blocks(&IN_HUNDREDTHS, |block| block_sums(&IN_HUNDREDTHS, block));
    Ok(())
}

/// The IRB average weight is in hundredths in either unit: as the cap of class 1 it is taken as it stands.
#[test]
fn the_irb_average_is_in_hundredths_in_either_unit() {
    let mut words = with_irb(&WORDS, 2, FIGURES);
    words[first_figure(&WORDS) + AVERAGE] = 1_200;
    for words in [&words, &in_hundredths(&words, 0, 0)] {
        let (reply, results) = weighed(words);
        assert_eq!((reply.number, results[3]), (0, 1_200));
    }
}
