//! A plain double-precision calculator of tranche weights.
//!
//! It reads the deal sheet of document 01 with the fifth fact of S-1, the sixth of S-3, the seventh of S-9 and the IRB
//! section of S-5 of document 02, rates by S-1 and S-2, takes SEC-IRBA by S-5, rounds each weight up and down by S-6,
//! adds up the pool by the blocks of S-7, infers ratings by S-8, keeps an opened pool and amends it by S-10, refuses what
//! they refuse in the same order, and writes the same result words for each tranche. It has no converter.
//! Sums of whole amounts are kept in `u64`. Every figure with a division or an exponential in it is worked in `f64`,
//! with `exp`, `ceil` and `floor`.
//!
//! **Its rounding differs from document 01's in rare places.** A product above 2^53 loses its last digits in `f64`, and
//! a quotient that lies very near a whole number can be taken for that number, or for one just past it. A figure that 01
//! rounds up or down can then be one unit off, and what follows from it can be off as well. Nothing is proved here:
//! the crate shows what time a calculator of this kind takes.

#![forbid(unsafe_code)]

mod date;
mod irba;
mod kind;
mod limits;
mod opened;
mod points;
mod pool;
mod rating;
mod sheet;
mod tranche;

use limits::{refusal, MOST_TRANCHES, TRANCHE_WORDS};
pub use limits::{LINE_WORDS, SUM_WORDS};
pub use opened::OpenedPool;
use points::Points;
use pool::Pool;
use sheet::Deal;
pub use sheet::Refusal;
use tranche::Terms;

/// Weighs the deal of a sheet and writes a line of [`LINE_WORDS`] words for each tranche into `results`.
///
/// The answer is the tranche count and the pool charge, or else the number and the place of the refusal. On a refusal
/// `results` is left as it was; words after the last line are never written.
pub fn weigh(sheet: &[u64], results: &mut [u64]) -> Result<(u64, u64), Refusal> {
    let mut pool = Pool::default();
    // The deal is lent as it was read: to move it out of the result takes time that shows on small sheets.
    match &sheet::read(sheet, &mut pool) {
        Ok(deal) => weigh_deal(deal, results),
        Err(refusal) => Err(*refusal),
    }
}

/// Weighs a deal that has no bad word.
fn weigh_deal(deal: &Deal, results: &mut [u64]) -> Result<(u64, u64), Refusal> {
    let count = deal.tranches.len();
    if results.len() < LINE_WORDS * count {
        return Err((refusal::ROOM, 0));
    }
    let terms = Terms::of(deal);
    let mut points = [Points::default(); MOST_TRANCHES];
    let points = &mut points[..count];
    points::place(deal.tranches, deal.pool.nominal(), points);
    refuse_empty_tranche(deal, &terms, points)?;
    let (lines, _) = results.as_chunks_mut::<LINE_WORDS>();
    for ((line, words), points) in lines.iter_mut().zip(deal.tranches).zip(points) {
        *line = terms.line(&words.into(), terms.ratings(deal, words), points);
    }
    Ok((count as u64, terms.charge as u64))
}

/// Refusal 13: the first tranche under the formula that has no thickness and detaches above the pool charge.
fn refuse_empty_tranche(deal: &Deal, terms: &Terms, points: &[Points]) -> Result<(), Refusal> {
    let empty = |(words, points): (&[u64; TRANCHE_WORDS], &Points)| {
        points.attachment == points.detachment
            && points.detachment > terms.charge
            && terms.approach(terms.ratings(deal, words)).by_formula()
    };
    match deal.tranches.iter().zip(points).position(empty) {
        Some(number) => {
            let place = deal.first_tranche + TRANCHE_WORDS * number;
            Err((refusal::NO_THICKNESS, place as u64))
        }
        None => Ok(()),
    }
}
