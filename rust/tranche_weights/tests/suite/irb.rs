//! Pool kinds, the IRB section and SEC-IRBA (document 02, S-5 and, for the least weight, S-6).

use crate::checked_deal::{
    both_facts, file_of, resecuritised, row, tranche, with_rows_and_tranches, RESULTS, TEXT, WORDS,
};
use crate::dates::{maturing, REPORTING_DATE};
use crate::places::{first_figure, ratings, statuses, with_irb, AVERAGE, COMPOSITION, DUE_DILIGENCE, POOL_KIND, SHARE};
use crate::results::weighed;
use std::error::Error;
use tranche_weights::{
    report, weigh_file, Approach, AverageWeight, Date, Deal, Facts, IrbFigures, Line, Loans, Millionths, Months,
    PoolKind, Refusal, Reply, SheetBuilder, SheetError, Status, Tranche, TrancheAmount, IRB_WORDS,
};

/// The figures of an IRB section, as words: a mixed pool whose share is the lowest under SEC-IRBA.
pub const FIGURES: [u64; IRB_WORDS] = [140_000, 450_000, 24, 0, 950_000, 9_000];

/// The same figures, typed, with the number of loans and retail given.
fn figures(loans: u64, retail: bool) -> Result<IrbFigures, SheetError> {
    Ok(IrbFigures {
        charge: Millionths::new(140_000)?,
        loss: Millionths::new(450_000)?,
        loans: Loans::new(loans)?,
        retail,
        average: AverageWeight::new(9_000)?,
    })
}

/// The pool kind of a mixed pool with this share, in millionths.
fn mixed(share: u64, figures: IrbFigures) -> Result<PoolKind, SheetError> {
    let share = Millionths::new(share)?;
    Ok(PoolKind::Mixed { share, figures })
}

/// The checked deal as a mixed pool, with the word of the IRB section at a place among its figures replaced.
fn with_figure(place: usize, word: u64) -> Vec<u64> {
    let mut words = with_irb(&WORDS, 2, FIGURES);
    words[first_figure(&WORDS) + place] = word;
    words
}

/// The pool kind is the first fact, and the IRB section follows the tranches with its figures in order. An SA pool,
/// named or not, has none. The share of an IRB pool is all of it.
#[test]
fn a_pool_kind_has_its_words() -> Result<(), Box<dyn Error>> {
    assert_eq!(
        (Facts::new().pool_kind, PoolKind::default()),
        (PoolKind::Sa, PoolKind::Sa)
    );
    let [few, retail] = [figures(24, false)?, figures(25, true)?];
    for (kind, words) in [
        (PoolKind::Sa, WORDS.to_vec()),
        (
            PoolKind::Irb(few),
            with_irb(&WORDS, 1, [140_000, 450_000, 24, 0, 1_000_000, 9_000]),
        ),
        (
            mixed(7, retail)?,
            with_irb(&WORDS, 2, [140_000, 450_000, 25, 1, 7, 9_000]),
        ),
    ] {
        let builder = SheetBuilder::ordinary(both_facts().with_pool_kind(kind));
        let sheet = with_rows_and_tranches(builder, tranche)?;
        assert_eq!(sheet.words(), words);
        assert_eq!(sheet.weigh()?.lines.len(), 3);
    }
    Ok(())
}

/// A re-securitisation has the section of its pool kind too, and so has a deal without due diligence.
#[test]
fn every_deal_can_have_the_section() -> Result<(), SheetError> {
    let mut builder = SheetBuilder::resecuritisation(Facts::new().with_pool_kind(PoolKind::Irb(figures(24, false)?)));
    let sheet = builder.row(row(100)?)?.next_class(tranche(80, 0)?)?.build()?;
    let without = [4, 0, 1, 0, 0, 1, 100, 100, 100, 3, 1, 80, 1, 72, 0, 0, 0, 0];
    assert_eq!(
        sheet.words(),
        with_irb(&without, 1, [140_000, 450_000, 24, 0, 1_000_000, 9_000])
    );
    Ok(())
}

/// The first of the standard's published deals under SEC-IRBA (d374, Annex 1, A), with tranches of so many months.
fn published(months: u64) -> Result<Deal, Box<dyn Error>> {
    let figures = IrbFigures {
        charge: Millionths::new(212_400)?,
        loss: Millionths::new(818_700)?,
        loans: Loans::new(100)?,
        retail: false,
        average: AverageWeight::new(26_550)?,
    };
    let held_in_full = |amount| Tranche::new(TrancheAmount::new(amount)?, Months::new(months)?, amount);
    let mut builder = SheetBuilder::ordinary(both_facts().with_pool_kind(PoolKind::Irb(figures)));
    builder
        .row(row(1_000_000)?, Status::Paying)?
        .next_class(held_in_full(700_000)?)?
        .next_class(held_in_full(250_000)?)?
        .next_class(held_in_full(50_000)?)?;
    Ok(builder.build()?.weigh()?)
}

/// The published deal has 28.78%, 1,056.94% and 1,250% at 34.5 months, with risk-weighted amounts of 201,460 and
/// 625,000 for the first and the third tranche. The second tranche's weight lies between those of 34 and 35 months.
#[test]
fn the_published_deal_has_its_weights() -> Result<(), Box<dyn Error>> {
    for (months, second) in [(34, 105_602), (35, 105_787)] {
        let deal = published(months)?;
        assert_eq!(deal.charge, 212_400);
        assert!(deal.lines.iter().all(|line| line.approach == Approach::SecIrba));
        let weights: Vec<u64> = deal.lines.iter().map(|line| line.weight).collect();
        assert_eq!(weights, [2_878, second, 125_000]);
        let amounts = [0, 2].map(|line: usize| deal.lines[line].risk_weighted_amount);
        assert_eq!(amounts, [201_460, 625_000]);
    }
    Ok(())
}

/// The checked deal with an IRB section has the charge and the weights that the papers give: few loans and not, retail,
/// an STC deal with the least parameter and one with a parameter above it.
#[test]
fn the_checked_deal_has_its_weights() -> Result<(), Box<dyn Error>> {
    let ordinary = |kind| SheetBuilder::ordinary(both_facts().with_pool_kind(kind));
    let stc = |kind| SheetBuilder::stc(both_facts().with_pool_kind(kind));
    let (few, many, retail) = (figures(24, false)?, figures(25, false)?, figures(24, true)?);
    for (builder, charge, [first, second]) in [
        (ordinary(mixed(950_000, few)?), 137_000, [3_880, 108_006]),
        (ordinary(mixed(950_000, many)?), 137_000, [4_047, 108_712]),
        (ordinary(mixed(950_000, retail)?), 137_000, [4_181, 112_504]),
        (ordinary(PoolKind::Irb(few)), 140_000, [4_087, 109_502]),
        (stc(mixed(950_000, few)?), 137_000, [1_387, 99_355]),
        (stc(PoolKind::Irb(retail)), 140_000, [1_573, 105_483]),
    ] {
        let deal = with_rows_and_tranches(builder, tranche)?.weigh()?;
        assert_eq!(deal.charge, charge);
        let lines: Vec<_> = deal.lines.iter().map(|line| (line.approach, line.weight)).collect();
        assert_eq!(
            lines,
            [first, second, 125_000].map(|weight| (Approach::SecIrba, weight))
        );
    }
    Ok(())
}

/// Below 95% a mixed pool goes on as an SA pool, in its charge and in all lines.
#[test]
fn below_95_percent_the_pool_is_sa() {
    for share in [0, 500_000, 949_999] {
        let words = with_figure(SHARE, share);
        let (reply, results) = weighed(&words);
        assert_eq!(reply, Reply::accepting(3, 101_000));
        assert_eq!(results[..RESULTS.len()], RESULTS);
        assert_eq!(report(&file_of(&words)), TEXT);
    }
}

/// Without due diligence, and in a re-securitisation, the section changes nothing.
#[test]
fn the_fallback_and_a_resecuritisation_are_as_before() {
    let mut no_due_diligence = WORDS;
    no_due_diligence[DUE_DILIGENCE] = 0;
    for words in [no_due_diligence, resecuritised()] {
        let before = weighed(&words);
        assert_eq!(before.0.number, 0);
        for (kind, share) in [(1, 1_000_000), (2, 1_000_000), (2, 950_000)] {
            let mut figures = FIGURES;
            figures[SHARE] = share;
            assert!(weighed(&with_irb(&words, kind, figures)) == before, "{words:?}");
        }
    }
}

/// Ratings, late rows and rows of unknown status play no part: every charge and line is as it was.
#[test]
fn ratings_and_statuses_play_no_part() {
    let words = with_irb(&WORDS, 2, FIGURES);
    let before = weighed(&words);
    assert_eq!(before.0, Reply::accepting(3, 137_000));
    for (rating, status) in [(0, 0), (18, 1), (24, 2)] {
        let mut other = words.clone();
        ratings(&words).for_each(|place| other[place] = rating);
        statuses(&words).for_each(|place| other[place] = status);
        assert!(weighed(&other) == before, "{other:?}");
    }
}

/// The line of class 1 in a sheet that is accepted.
fn senior_line(words: &[u64]) -> Result<Line, Refusal> {
    let line = weigh_file(&file_of(words))?.lines[0];
    assert_eq!(line.approach, Approach::SecIrba, "{words:?}");
    Ok(line)
}

/// The cap of class 1 is the IRB average weight as it stands, also below the floor, where the composition is known. It
/// acts on the least weight too. The exact raw weight is 3,879.05, so the rules leave two weights and two least weights
/// open.
#[test]
fn the_cap_is_the_irb_average_weight() -> Result<(), Refusal> {
    for average in [0, 1_200, 3_879, 3_881, 125_000] {
        let mut words = with_figure(AVERAGE, average);
        let capped = senior_line(&words)?;
        words[COMPOSITION] = 0;
        let uncapped = senior_line(&words)?;
        assert_eq!(capped.weight, uncapped.weight.min(average));
        assert_eq!(capped.least_weight, uncapped.least_weight.min(average));
        assert!([3_880, 3_881].contains(&uncapped.weight), "{uncapped:?}");
        assert!([3_878, 3_879].contains(&uncapped.least_weight), "{uncapped:?}");
    }
    Ok(())
}

/// A deal with maturities as dates has the report of the months.
#[test]
fn dates_give_the_report_of_the_months() -> Result<(), SheetError> {
    let facts = both_facts().with_pool_kind(mixed(950_000, figures(24, false)?)?);
    let dated = facts.with_reporting_date(Some(Date::try_from(REPORTING_DATE)?));
    let by_dates = with_rows_and_tranches(SheetBuilder::ordinary(dated), maturing)?;
    assert_eq!(by_dates.words()[POOL_KIND], 2);
    assert_eq!(
        report(&by_dates.to_file_bytes()),
        report(&file_of(&with_irb(&WORDS, 2, FIGURES)))
    );
    Ok(())
}
