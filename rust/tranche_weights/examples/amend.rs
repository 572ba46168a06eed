//! Opens a deal, amends a row of its pool, and prints charge and lines before and after.

use std::error::Error;
use tranche_weights::{Amendment, OpenedPool, PoolAmount, Refusal, RiskWeight, Row, Status};

/// Two loans, the second delinquent, and two tranches, the senior one rated AA.
const SHEET: [u64; 29] = [
    4, 0, 0, 1, 1, // facts
    2, 900_000, 900_000, 100, 0, 100_000, 100_000, 50, 1, // pool
    2, 850_000, 1, 60, 500_000, 3, 0, 0, 150_000, 2, 60, 20_000, 0, 0, 0, // tranches
];

/// Prints the charge and a line for each tranche.
fn print(pool: &OpenedPool) -> Result<(), Refusal> {
    println!("pool charge {} millionths", pool.charge());
    for line in pool.weigh()?.lines {
        println!("{}: weight {}, capital {}", line.approach, line.weight, line.capital);
    }
    Ok(())
}

/// Ends with an error where a value is outside its limits, or where sheet or amendment is refused.
fn main() -> Result<(), Box<dyn Error>> {
    let mut pool = OpenedPool::open(SHEET)?;
    print(&pool)?;

    let left = PoolAmount::new(60_000)?;
    let loan = Row::new(left, left, RiskWeight::new(50)?);
    pool.amend(Amendment::ordinary(2, loan, Status::Paying))?;
    println!("row 2 pays again, and 40000 of it have been repaid");
    print(&pool)?;
    Ok(())
}
