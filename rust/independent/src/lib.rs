//! Exact tranche weights: the crate follows document 01 (the scope paper), requests S-1 to S-3 and S-5 to S-10 of
//! document 02 (the paper of later requests) and the rating figures of source document 001 alone, and shares nothing
//! with the proved code.
//!
//! Nothing is rounded but where the papers name a rounding. Sums and products are whole numbers of 128 bits, where
//! every intermediate result fits (the largest is about 10^19). The exponentials of the formula are held between two
//! fixed-point numbers, each rounded outward.
//!
//! [`answer`] has the types of the answers, [`date`] the dates of S-3. One module stands for each heading of document
//! 01, and one each for S-9's converter, S-7, S-8, S-5 and S-10; each uses only these two and modules above it in this list:
//! - [`sheet`]: "The deal sheet" and "Refusals, by who can cause them", but for refusals 13 and 19;
//! - [`conversion`]: a sheet rewritten in the other unit of the risk weight word, and refusal 19;
//! - [`charge`]: "Points and pool charge";
//! - [`block`]: sums by blocks of rows;
//! - [`inferred`]: the ratings that count for a tranche;
//! - [`rating`]: "The rating table";
//! - [`irba`]: charge and parameter of SEC-IRBA;
//! - [`formula`]: "The formula and its series";
//! - [`approach`]: "Which approach, then floor, then cap", and refusal 13;
//! - [`opened`]: S-10's opened pool and its amendments.
#![forbid(unsafe_code)]

pub mod answer;
pub mod approach;
pub mod block;
pub mod charge;
pub mod conversion;
pub mod date;
pub mod formula;
pub mod inferred;
pub mod irba;
pub mod opened;
pub mod rating;
pub mod sheet;

pub use answer::{Amounts, BlockSums, Deal, Line, Refusal, Totals};
pub use opened::OpenedPool;
use sheet::Sheet;

/// Weighs a deal sheet. `room` is how many result words the caller lends, for refusal 14.
///
/// The order of judgment is that of document 01: the words from place 0 upward, then 3 (both in `sheet::read`), then
/// 14, then 13 by tranche in order. Collecting the lines stops at the first refused tranche, so 13 keeps that order. All
/// of a tranche's line, 13 too, goes by the ratings that count for it.
pub fn weigh(sheet: &[u64], room: u64) -> Result<Deal, Refusal> {
    weigh_read(&sheet::read(sheet)?, room)
}

/// Weighs a sheet whose words are good: 14, then 13 and the lines.
fn weigh_read(sheet: &Sheet, room: u64) -> Result<Deal, Refusal> {
    sheet::refuse_short_room(sheet::LINE_WORDS * sheet.tranches.len(), room)?;
    let figures = approach::Figures::of(sheet);
    let nominal = charge::nominal_sum(&sheet.pool);
    let lines = sheet.tranches.iter().map(|tranche| {
        let tranche = &approach::with_ratings_that_count(&figures, &sheet.tranches, tranche);
        let points = charge::points(nominal, &sheet.tranches, tranche.class);
        let approach = approach::choose(&figures, tranche);
        approach::refuse_no_thickness(approach, &points, figures.charge, tranche.place)?;
        Ok(approach::line(&figures, tranche, approach, points))
    });
    Ok(Deal {
        charge: figures.charge,
        lines: lines.collect::<Result<Vec<Line>, Refusal>>()?,
    })
}

/// Weighs the sheet of an opened pool as it stands. Its words are good, so only 14 and 13 can come.
pub fn weigh_opened(pool: &OpenedPool, room: u64) -> Result<Deal, Refusal> {
    weigh_read(pool.sheet(), room)
}

/// Weighs a deal sheet in its file form: the same words, eight bytes each, lowest byte first. Refusal 15 comes before
/// all others.
pub fn weigh_file(file: &[u8], room: u64) -> Result<Deal, Refusal> {
    weigh(&sheet::words_of_file(file)?, room)
}

/// The sums of a block of a deal sheet's pool. Only the refusals before 14 come here: those of the words from place 0
/// upward, then 3, whatever the block.
pub fn block_sums(sheet: &[u64], block: u64) -> Result<BlockSums, Refusal> {
    let sheet = sheet::read(sheet)?;
    Ok(block::sums(&sheet.pool, block))
}

/// Rewrites a deal sheet from its unit of the risk weight word to the other. `room` is how many output words the caller
/// lends. The answer is the words written, with which the output begins.
///
/// The order of judgment is that of S-9: the words from place 0 upward, then 3, then 19 at the first risk weight that
/// has no word in the other unit, all at their places in the sheet as given, then 14 at place 0. 13 is not judged.
pub fn convert(sheet: &[u64], room: u64) -> Result<Vec<u64>, Refusal> {
    let read = sheet::read(sheet)?;
    let rewritten = conversion::in_other_unit(sheet, &read)?;
    sheet::refuse_short_room(rewritten.len(), room)?;
    Ok(rewritten)
}
