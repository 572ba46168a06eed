//! What the typed way in lets through and what it answers with an error (document 01, "The deal sheet"; document 02,
//! S-1, S-3 and S-5).

use crate::checked_deal::{ordinary, row, tranche};
use crate::dates::maturing;
use crate::places::{
    affirmed, affirmed_on, first_tranche, row_count, tranche_count, COMPOSITION, DUE_DILIGENCE, RESECURITISATION, STC,
};
use tranche_weights::{
    Date, Facts, Months, Ordinary, PoolAmount, RiskWeight, Row, Sheet, SheetBuilder, SheetError, Status, Tranche,
    TrancheAmount, MOST_ROWS, MOST_TRANCHES, ROW_WORDS, TRANCHE_WORDS,
};

/// The facts' section of a sheet.
fn facts_of(sheet: &Sheet) -> &[u64] {
    &sheet.words()[..row_count(sheet.words())]
}

/// The words of a sheet from the count of its pool rows on.
fn after_facts(sheet: &Sheet) -> &[u64] {
    &sheet.words()[row_count(sheet.words())..]
}

/// The sheet of a deal with one row and one tranche.
fn smallest(mut builder: SheetBuilder<Ordinary>) -> Result<Sheet, SheetError> {
    builder.row(row(1)?, Status::Paying)?.next_class(tranche(1, 1)?)?;
    builder.build()
}

/// All of a tranche or nothing of it can be held, and no unit more than all, with either form of maturity.
#[test]
fn no_more_is_held_than_the_amount() {
    for tranche in [tranche, maturing] {
        assert!(tranche(800, 800).is_ok());
        assert!(tranche(800, 0).is_ok());
        assert_eq!(
            tranche(800, 801),
            Err(SheetError::HeldAboveAmount { held: 801, amount: 800 })
        );
    }
}

/// Without setters no fact is affirmed; each setter sets its own word of the sheet and no other, and can take it back.
#[test]
fn facts_are_set_one_by_one() -> Result<(), SheetError> {
    let none = Facts::new();
    assert_eq!(none, Facts::default());
    let held = none.with_due_diligence_held(true);
    let known = none.with_pool_composition_known(true);
    let both = held.with_pool_composition_known(true);
    for (facts, places) in [
        (none, &[][..]),
        (held, &[DUE_DILIGENCE]),
        (known, &[COMPOSITION]),
        (both, &[DUE_DILIGENCE, COMPOSITION]),
    ] {
        assert_eq!(facts_of(&smallest(SheetBuilder::ordinary(facts))?), affirmed(places));
    }
    assert_eq!(
        both.with_due_diligence_held(false).with_pool_composition_known(false),
        none
    );
    Ok(())
}

/// An STC deal states a fifth fact, its mark; a deal with neither mark nor reporting date leaves it out. All other words
/// are the same.
#[test]
fn the_mark_is_stated_where_it_is_set() -> Result<(), SheetError> {
    let held = Facts::new().with_due_diligence_held(true);
    let plain = smallest(SheetBuilder::ordinary(held))?;
    let stc = smallest(SheetBuilder::stc(held))?;
    assert_eq!(facts_of(&plain), [4, 0, 0, 1, 0]);
    assert_eq!(facts_of(&stc), [5, 0, 0, 1, 0, 1]);
    assert_eq!(facts_of(&smallest(SheetBuilder::stc(Facts::new()))?), affirmed(&[STC]));
    assert_eq!(after_facts(&plain), after_facts(&stc));
    Ok(())
}

/// A deal with a reporting date states it as its sixth fact, after the mark; one without leaves it out.
#[test]
fn the_reporting_date_is_stated_where_it_is_set() -> Result<(), SheetError> {
    let date = Date::new(2026, 11, 16)?;
    let held = Facts::new().with_due_diligence_held(true);
    let reported = held.with_reporting_date(Some(date));
    for (mut builder, facts) in [
        (SheetBuilder::ordinary(reported), affirmed_on(date, &[DUE_DILIGENCE])),
        (SheetBuilder::stc(reported), affirmed_on(date, &[DUE_DILIGENCE, STC])),
    ] {
        builder.row(row(1)?, Status::Paying)?.next_class(maturing(1, 1)?)?;
        assert_eq!(facts_of(&builder.build()?), facts);
    }
    let mut builder = SheetBuilder::resecuritisation(reported);
    builder.row(row(1)?)?.next_class(maturing(1, 1)?)?;
    assert_eq!(facts_of(&builder.build()?), [6, 0, 1, 1, 0, 0, 20_261_116]);
    assert_eq!(reported.with_reporting_date(None), held);
    Ok(())
}

/// The maturities of a deal have the form that its facts ask for; one of the other form is an error in either class and
/// changes nothing.
#[test]
fn maturities_have_the_form_of_the_deal() -> Result<(), SheetError> {
    let reported = Facts::new().with_reporting_date(Some(Date::new(2026, 11, 16)?));
    let (in_months, as_date) = (tranche(1, 1)?, maturing(1, 1)?);
    let no_date = SheetError::DateWithoutReportingDate(Date::new(2032, 11, 16)?);
    let no_months = SheetError::MonthsWithReportingDate(Months::new(72)?);
    for (facts, right, wrong, error) in [
        (Facts::new(), in_months, as_date, no_date),
        (reported, as_date, in_months, no_months),
    ] {
        let mut builder = SheetBuilder::ordinary(facts);
        assert_eq!(builder.next_class(wrong), Err(error));
        builder.row(row(1)?, Status::Paying)?.next_class(right)?;
        let before = builder.clone();
        assert_eq!(builder.next_class(wrong), Err(error));
        assert_eq!(builder.same_class(wrong), Err(error));
        assert_eq!(builder, before);
        assert!(builder.same_class(right)?.build().is_ok());
    }
    Ok(())
}

/// A maturity lies after the reporting date, by at most 1200 months.
#[test]
fn a_maturity_lies_after_the_reporting_date() -> Result<(), SheetError> {
    let reporting_date = Date::new(2026, 11, 16)?;
    let placed = |maturity| {
        let mut builder = SheetBuilder::ordinary(Facts::new().with_reporting_date(Some(reporting_date)));
        let tranche = Tranche::maturing_on(TrancheAmount::new(1)?, maturity, 1)?;
        builder.next_class(tranche).map(|_| ())
    };
    for maturity in [reporting_date, Date::new(2026, 11, 15)?] {
        let error = SheetError::MaturityNotAfter {
            maturity,
            reporting_date,
        };
        assert_eq!(placed(maturity), Err(error));
    }
    assert_eq!(placed(Date::new(2026, 11, 17)?), Ok(()));
    assert_eq!(placed(Date::new(2126, 11, 16)?), Ok(()));
    let maturity = Date::new(2126, 11, 17)?;
    let too_late = SheetError::MaturityTooLate {
        maturity,
        reporting_date,
    };
    assert_eq!(placed(maturity), Err(too_late));
    Ok(())
}

/// A row's figures stand in the sheet in the order in which they are given, before the status.
#[test]
fn a_row_keeps_the_order_of_its_figures() -> Result<(), SheetError> {
    let row = Row::new(PoolAmount::new(7)?, PoolAmount::new(8)?, RiskWeight::new(9)?);
    assert_eq!(
        (row.exposure.get(), row.nominal.get(), row.risk_weight.hundredths()),
        (7, 8, 900)
    );
    let mut builder = ordinary();
    builder.row(row, Status::NotKnown)?.next_class(tranche(1, 1)?)?;
    assert_eq!(after_facts(&builder.build()?)[..1 + ROW_WORDS], [1, 7, 8, 9, 2]);
    Ok(())
}

/// A pool takes the most rows; the next is an error and changes nothing.
#[test]
fn a_pool_has_at_most_1000_rows() -> Result<(), SheetError> {
    let mut builder = ordinary();
    for _ in 0..MOST_ROWS {
        builder.row(row(1)?, Status::Paying)?;
    }
    let full = builder.clone();
    assert_eq!(builder.row(row(1)?, Status::Paying), Err(SheetError::TooManyRows));
    assert_eq!(builder, full);
    assert_eq!(after_facts(&builder.next_class(tranche(1, 1)?)?.build()?)[0], 1000);
    Ok(())
}

/// A re-securitisation's pool has the same limit.
#[test]
fn a_pool_of_tranches_has_at_most_1000_rows() -> Result<(), SheetError> {
    let mut builder = SheetBuilder::resecuritisation(Facts::new().with_due_diligence_held(true));
    for _ in 0..MOST_ROWS {
        builder.row(row(1)?)?;
    }
    assert_eq!(builder.row(row(1)?), Err(SheetError::TooManyRows));
    let sheet = builder.next_class(tranche(1, 1)?)?.build()?;
    assert_eq!(facts_of(&sheet), affirmed(&[RESECURITISATION, DUE_DILIGENCE]));
    assert_eq!(after_facts(&sheet)[0], 1000);
    Ok(())
}

/// A deal takes 32 tranches; the next is an error in either class and changes nothing.
#[test]
fn a_deal_has_at_most_32_tranches() -> Result<(), SheetError> {
    let mut builder = ordinary();
    builder.row(row(1)?, Status::Paying)?;
    for _ in 0..MOST_TRANCHES {
        builder.next_class(tranche(1, 1)?)?;
    }
    let full = builder.clone();
    assert_eq!(builder.next_class(tranche(1, 1)?), Err(SheetError::TooManyTranches));
    assert_eq!(builder.same_class(tranche(1, 1)?), Err(SheetError::TooManyTranches));
    assert_eq!(builder, full);
    let sheet = builder.build()?;
    assert_eq!(sheet.words()[tranche_count(sheet.words())], 32);
    Ok(())
}

/// The first tranche opens class 1; each next shares the class before it or opens one more.
#[test]
fn classes_follow_from_the_order() -> Result<(), SheetError> {
    let mut builder = ordinary();
    builder.row(row(1)?, Status::Paying)?;
    assert_eq!(builder.same_class(tranche(1, 1)?), Err(SheetError::NoTrancheBefore));
    builder.next_class(tranche(1, 1)?)?.same_class(tranche(1, 1)?)?;
    builder
        .next_class(tranche(1, 1)?)?
        .next_class(tranche(1, 1)?)?
        .same_class(tranche(1, 1)?)?;
    let sheet = builder.build()?;
    let tranches = sheet.words()[first_tranche(sheet.words())..].chunks(TRANCHE_WORDS);
    let classes: Vec<u64> = tranches.map(|tranche| tranche[1]).collect();
    assert_eq!(classes, [1, 1, 2, 3, 3]);
    Ok(())
}

/// A sheet has at least one row and one tranche.
#[test]
fn nothing_is_built_of_nothing() -> Result<(), SheetError> {
    let mut builder = ordinary();
    assert_eq!(builder.build(), Err(SheetError::NoRows));
    builder.row(row(1)?, Status::NotKnown)?;
    assert_eq!(builder.build(), Err(SheetError::NoTranches));
    builder.next_class(tranche(1, 1)?)?;
    assert!(builder.build().is_ok());
    Ok(())
}

/// Each error of a date says in one line what is admitted and what was given.
#[test]
fn errors_of_dates_say_what_is_admitted() -> Result<(), SheetError> {
    let (maturity, reporting_date) = (Date::new(2026, 11, 15)?, Date::new(2026, 11, 16)?);
    let lines = [
        (
            Date::new(2026, 2, 30).unwrap_err(),
            "2026-02-30 is no day of the years 2000 to 2199",
        ),
        (
            Date::try_from(72).unwrap_err(),
            "0000-00-72 is no day of the years 2000 to 2199",
        ),
        (
            SheetError::MaturityNotAfter {
                maturity,
                reporting_date,
            },
            "a maturity is after the reporting date 2026-11-16, not 2026-11-15",
        ),
        (
            SheetError::MaturityTooLate {
                maturity: Date::new(2126, 11, 17)?,
                reporting_date,
            },
            "a maturity is at most 1200 months after the reporting date 2026-11-16, not 2126-11-17",
        ),
        (
            SheetError::MonthsWithReportingDate(Months::new(72)?),
            "a maturity is a date in a deal with a reporting date, not 72 months",
        ),
        (
            SheetError::DateWithoutReportingDate(maturity),
            "a maturity is in months in a deal without a reporting date, not 2026-11-15",
        ),
    ];
    for (error, line) in lines {
        assert_eq!(error.to_string(), line);
    }
    Ok(())
}

/// Each other error says in one line what is admitted and what was given.
#[test]
fn errors_say_what_is_admitted() {
    let lines = [
        (SheetError::PoolAmount(0), "a pool amount is 1 to 10000000000, not 0"),
        (
            SheetError::RiskWeight(1251),
            "a risk weight in percent is 0 to 1250, not 1251",
        ),
        (
            SheetError::RiskWeightInHundredths(125_001),
            "a risk weight in hundredths of a percent is 0 to 125000, not 125001",
        ),
        (
            SheetError::TrancheAmount(0),
            "a tranche amount is 1 to 10000000000000, not 0",
        ),
        (
            SheetError::HeldAboveAmount { held: 801, amount: 800 },
            "an amount held is 0 to 800, not 801",
        ),
        (SheetError::Months(1201), "a maturity in months is 1 to 1200, not 1201"),
        (
            SheetError::Millionths(1_000_001),
            "a figure in millionths is 0 to 1000000, not 1000001",
        ),
        (
            SheetError::Loans(0),
            "an effective number of loans is 1 to 1000000, not 0",
        ),
        (
            SheetError::AverageWeight(125_001),
            "an average weight in hundredths of a percent is 0 to 125000, not 125001",
        ),
        (SheetError::Rating(19), "a rating code is 1 to 18 or 21 to 24, not 19"),
        (
            SheetError::NoTrancheBefore,
            "the first tranche has no tranche before it to share a class with",
        ),
        (SheetError::NoRows, "a pool has at least 1 row"),
        (SheetError::TooManyRows, "a pool has at most 1000 rows"),
        (SheetError::NoTranches, "a deal has at least 1 tranche"),
        (SheetError::TooManyTranches, "a deal has at most 32 tranches"),
    ];
    for (error, line) in lines {
        assert_eq!(error.to_string(), line);
    }
}
