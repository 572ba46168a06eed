//! Builds a deal of two loans and two tranches, weighs it and prints its lines.

use std::error::Error;
use tranche_weights::{
    Facts, LongTerm, Months, PoolAmount, RiskWeight, Row, SheetBuilder, Status, Tranche, TrancheAmount,
};

/// Ends with an error where a value is outside its limits, or where the sheet is refused.
fn main() -> Result<(), Box<dyn Error>> {
    let loan = |amount, percent| -> Result<Row, Box<dyn Error>> {
        let amount = PoolAmount::new(amount)?;
        Ok(Row::new(amount, amount, RiskWeight::new(percent)?))
    };
    let months = Months::new(60)?;
    let senior = Tranche::new(TrancheAmount::new(850_000)?, months, 500_000)?;
    let junior = Tranche::new(TrancheAmount::new(150_000)?, months, 20_000)?;

    let facts = Facts::new()
        .with_due_diligence_held(true)
        .with_pool_composition_known(true);
    let mut builder = SheetBuilder::ordinary(facts);
    builder
        .row(loan(900_000, 100)?, Status::Paying)?
        .row(loan(100_000, 50)?, Status::Delinquent)?
        .next_class(senior.with_ratings([Some(LongTerm::Aa.into()), None, None]))?
        .next_class(junior)?;

    let deal = builder.build()?.weigh()?;
    println!("pool charge {} millionths", deal.charge);
    for line in &deal.lines {
        println!("{}: weight {}, capital {}", line.approach, line.weight, line.capital);
    }
    println!("capital {}", deal.total_capital());
    Ok(())
}
