//! The places of a sheet's words (document 01, "The deal sheet"; document 02, S-1, S-3, S-5 and S-9).

use tranche_weights::{Date, FEWEST_FACTS, IRB_WORDS, ROW_WORDS, TRANCHE_WORDS};

/// The place of the count of facts.
pub const FACT_COUNT: usize = 0;

/// The place of the pool kind.
pub const POOL_KIND: usize = 1;

/// The place of the fact whether the deal is a re-securitisation.
pub const RESECURITISATION: usize = 2;

/// The place of the fact whether due diligence is held.
pub const DUE_DILIGENCE: usize = 3;

/// The place of the fact whether the pool's composition is known.
pub const COMPOSITION: usize = 4;

/// The place of the fact whether the deal is STC, where the sheet states it.
pub const STC: usize = 5;

/// The place of the reporting date, where the sheet states it.
pub const REPORTING_DATE: usize = 6;

/// The place of the unit of the risk weights, where the sheet states it.
pub const UNIT: usize = 7;

/// The place of the risk weight among a row's words.
const RISK_WEIGHT: usize = 2;

/// The place of the status among a row's words.
const STATUS: usize = 3;

/// The place of the maturity among a tranche's words.
pub const MATURITY: usize = 2;

/// The place of the first rating among a tranche's words.
const FIRST_RATING: usize = 4;

/// The place of the effective number of loans among the IRB section's figures.
pub const LOANS: usize = 2;

/// The place of the share of exposure with an IRB charge among the IRB section's figures.
pub const SHARE: usize = 4;

/// The place of the IRB average weight among the IRB section's figures.
pub const AVERAGE: usize = 5;

/// The facts' section of a sheet that affirms just the facts at these places and states no fact that it can leave out.
pub fn affirmed(places: &[usize]) -> Vec<u64> {
    let count = places.iter().copied().fold(FEWEST_FACTS, usize::max);
    let mut words = vec![0; 1 + count];
    words[FACT_COUNT] = count as u64;
    places.iter().for_each(|&place| words[place] = 1);
    words
}

/// The same with this reporting date, and so with the facts before it.
pub fn affirmed_on(reporting_date: Date, places: &[usize]) -> Vec<u64> {
    let mut words = affirmed(&[places, &[REPORTING_DATE]].concat());
    words[REPORTING_DATE] = reporting_date.word();
    words
}

/// A sheet of four facts with these as its fifth fact and those after it: every later word stands so many places further
/// on.
pub fn with_facts(words: &[u64], further: &[u64]) -> Vec<u64> {
    assert_eq!(words[FACT_COUNT], FEWEST_FACTS as u64);
    let count = (FEWEST_FACTS + further.len()) as u64;
    let (facts, sections) = words.split_at(row_count(words));
    [&[count], &facts[1..], further, sections].concat()
}

/// A sheet of an SA pool with this pool kind and this IRB section, after its count.
pub fn with_irb(words: &[u64], pool_kind: u64, figures: [u64; IRB_WORDS]) -> Vec<u64> {
    let mut words = [words, &[1], &figures].concat();
    words[POOL_KIND] = pool_kind;
    words
}

/// The fact at a place. One that the sheet leaves out counts as 0.
pub fn fact(words: &[u64], place: usize) -> u64 {
    words[..row_count(words)].get(place).copied().unwrap_or(0)
}

/// Whether a sheet affirms the fact at a place.
pub fn affirms(words: &[u64], place: usize) -> bool {
    fact(words, place) == 1
}

/// The place of a sheet's count of pool rows.
pub fn row_count(words: &[u64]) -> usize {
    FACT_COUNT + 1 + words[FACT_COUNT] as usize
}

/// The place of the first row's first word.
pub fn first_row(words: &[u64]) -> usize {
    row_count(words) + 1
}

/// The place of a sheet's count of tranches.
pub fn tranche_count(words: &[u64]) -> usize {
    first_row(words) + ROW_WORDS * words[row_count(words)] as usize
}

/// The place of the first tranche's first word.
pub fn first_tranche(words: &[u64]) -> usize {
    tranche_count(words) + 1
}

/// The place after the last tranche, of the count of the IRB section where the pool kind has one.
pub fn irb_count(words: &[u64]) -> usize {
    first_tranche(words) + TRANCHE_WORDS * words[tranche_count(words)] as usize
}

/// The place of the IRB section's first figure.
pub fn first_figure(words: &[u64]) -> usize {
    irb_count(words) + 1
}

/// The rows of a sheet.
pub fn rows(words: &[u64]) -> impl Iterator<Item = &[u64]> {
    words[first_row(words)..tranche_count(words)].chunks(ROW_WORDS)
}

/// The places of the rows' risk weights.
pub fn risk_weights(words: &[u64]) -> impl Iterator<Item = usize> {
    (first_row(words) + RISK_WEIGHT..tranche_count(words)).step_by(ROW_WORDS)
}

/// The places of the rows' statuses.
pub fn statuses(words: &[u64]) -> impl Iterator<Item = usize> {
    (first_row(words) + STATUS..tranche_count(words)).step_by(ROW_WORDS)
}

/// The places of the tranches' first ratings.
pub fn ratings(words: &[u64]) -> impl Iterator<Item = usize> {
    (first_tranche(words) + FIRST_RATING..irb_count(words)).step_by(TRANCHE_WORDS)
}

/// The places of the tranches' maturities.
pub fn maturities(words: &[u64]) -> impl Iterator<Item = usize> {
    (first_tranche(words) + MATURITY..irb_count(words)).step_by(TRANCHE_WORDS)
}
