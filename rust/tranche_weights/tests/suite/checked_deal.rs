//! The first of document 01's "Checked deals", with the seventh word of document 02's S-6: its words, its text and its
//! making by the builder.

use crate::places::{statuses, RESECURITISATION};
use tranche_weights::{
    Facts, LongTerm, Months, Ordinary, PoolAmount, RiskWeight, Row, Sheet, SheetBuilder, SheetError, Status, Tranche,
    TrancheAmount, LINE_WORDS,
};

/// The sheet, as document 01 prints it.
pub const WORDS: [u64; 36] = [
    4, 0, 0, 1, 1, 2, 950, 950, 100, 0, 50, 50, 100, 1, 3, 800, 1, 72, 800, 1, 0, 0, 150, 2, 72, 100, 9, 0, 0, 50, 3,
    72, 50, 0, 0, 0,
];

/// The report on it, as documents 01 and 02 print it.
pub const TEXT: &str = "\
charge 101000 tranches 3
1 1 200000 1000000 2000 160 13 2000
2 1 50000 200000 26350 264 22 26350
3 2 0 50000 125000 625 50 125000
total 1049 85
";

/// The result words of its three lines.
pub const RESULTS: [u64; 3 * LINE_WORDS] = [
    1, 200_000, 1_000_000, 2_000, 160, 13, 2_000, 1, 50_000, 200_000, 26_350, 264, 22, 26_350, 2, 0, 50_000, 125_000,
    625, 50, 125_000,
];

/// The sheet as a re-securitisation, each of whose rows is a securitisation tranche.
pub fn resecuritised() -> [u64; WORDS.len()] {
    let mut words = WORDS;
    words[RESECURITISATION] = 1;
    statuses(&WORDS).for_each(|place| words[place] = 3);
    words
}

/// Words as a file: eight bytes each, lowest byte first.
pub fn file_of(words: &[u64]) -> Vec<u8> {
    words.iter().flat_map(|word| word.to_le_bytes()).collect()
}

/// A row of equal amounts at 100%.
pub fn row(amount: u64) -> Result<Row, SheetError> {
    let amount = PoolAmount::new(amount)?;
    Ok(Row::new(amount, amount, RiskWeight::new(100)?))
}

/// An unrated tranche of 72 months.
pub fn tranche(amount: u64, held: u64) -> Result<Tranche, SheetError> {
    Tranche::new(TrancheAmount::new(amount)?, Months::new(72)?, held)
}

/// Due diligence held and the pool's composition known.
pub fn both_facts() -> Facts {
    Facts::new()
        .with_due_diligence_held(true)
        .with_pool_composition_known(true)
}

/// The start of an ordinary deal with both facts affirmed.
pub fn ordinary() -> SheetBuilder<Ordinary> {
    SheetBuilder::ordinary(both_facts())
}

/// The sheet with the checked deal's rows and tranches, from the start of an ordinary deal and with what makes an unrated
/// tranche of an amount and an amount held.
pub fn with_rows_and_tranches(
    mut builder: SheetBuilder<Ordinary>,
    tranche: fn(u64, u64) -> Result<Tranche, SheetError>,
) -> Result<Sheet, SheetError> {
    builder
        .row(row(950)?, Status::Paying)?
        .row(row(50)?, Status::Delinquent)?
        .next_class(tranche(800, 800)?.with_ratings([Some(LongTerm::Aaa.into()), None, None]))?
        .next_class(tranche(150, 100)?.with_ratings([Some(LongTerm::Bbb.into()), None, None]))?
        .next_class(tranche(50, 50)?)?;
    builder.build()
}

/// The builder makes exactly the checked deal's words and file.
#[test]
fn the_builder_makes_the_checked_deal() -> Result<(), SheetError> {
    let sheet = with_rows_and_tranches(ordinary(), tranche)?;
    assert_eq!(sheet.words(), WORDS);
    assert_eq!(sheet.to_file_bytes(), file_of(&WORDS));
    Ok(())
}
