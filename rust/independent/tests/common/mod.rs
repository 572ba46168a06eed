//! Sheets for the tests, put together from their sections.

use independent::sheet::{IRB_WORDS, LINE_WORDS, ROW_WORDS, TRANCHE_WORDS};

/// The words of the facts, without their count: four, five with the STC mark, six with that and the reporting date, or
/// seven with both and the unit of the risk weight word.
pub type Facts<'a> = &'a [u64];

/// The words of a pool row.
pub type Row = [u64; ROW_WORDS];

/// The words of a tranche row.
pub type Tranche = [u64; TRANCHE_WORDS];

/// The words of an IRB section, without its count.
pub type Irb = [u64; IRB_WORDS];

/// The words of a sheet without an IRB section: each section after its count.
pub fn sheet(facts: Facts, pool: &[Row], tranches: &[Tranche]) -> Vec<u64> {
    let mut words = Vec::new();
    words.push(facts.len() as u64);
    words.extend(facts);
    words.push(pool.len() as u64);
    words.extend(pool.concat());
    words.push(tranches.len() as u64);
    words.extend(tranches.concat());
    words
}

/// The words of a sheet with an IRB section: the others, then that section after its count.
pub fn sheet_with(irb: Irb, facts: Facts, pool: &[Row], tranches: &[Tranche]) -> Vec<u64> {
    let mut words = sheet(facts, pool, tranches);
    words.push(1);
    words.extend(irb);
    words
}

/// The result words that so many tranches take.
pub fn room(tranches: usize) -> u64 {
    (LINE_WORDS * tranches) as u64
}

/// The file form of a sheet: eight bytes for each word, lowest byte first.
pub fn file(words: &[u64]) -> Vec<u8> {
    words.iter().flat_map(|word| word.to_le_bytes()).collect()
}
