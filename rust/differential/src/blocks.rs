//! The blocks of rows whose sums are asked for, and the comparison of those sums with the independent ones (S-7).

use crate::answer::{sum_words, SumWord};
use crate::case::Case;
use crate::difference::{same, Asked, Difference, Part};
use crate::library::{BlockReply, SumBlock};
use crate::random::Random;
use crate::sheet::{blocks_of, BLOCKS};
use independent::block;
use independent::sheet::{self, Row, Sheet};
use independent::Refusal;

/// A number past the last of every pool, whose product with the rows of a block is 34 more than 2^64.
pub const WRAPS_INSIDE: u64 = 368_934_881_474_191_033;
/// Such a number whose product with the rows of a block is a multiple of 2^64.
pub const WRAPS_TO_FIRST: u64 = 1 << 63;

/// The numbers that are asked for with every sheet: the last that a pool can have, the one past it, and numbers that
/// are small where they are cut to 32 bits, or multiplied by the rows of a block and cut to 64.
const ALWAYS: [u64; 6] = [BLOCKS - 1, BLOCKS, 1 << 32, WRAPS_INSIDE, WRAPS_TO_FIRST, u64::MAX];

/// How many numbers are drawn for a sheet.
pub const DRAWN: usize = 2;

/// Draws the numbers that are asked for with one sheet alone: one about those that a pool can have, one of any size.
pub fn draw(random: &mut Random) -> [u64; DRAWN] {
    [random.below(BLOCKS + 2), random.word()]
}

/// The rows of a sheet's pool, or its refusal.
pub fn pool_of(read: &Result<Sheet, Refusal>) -> Result<&[Row], Refusal> {
    read.as_ref().map(|sheet| &sheet.pool[..]).map_err(|refusal| *refusal)
}

/// The numbers of the blocks that are asked for with a sheet: those of its pool and the one past its last, then the
/// others. A sheet that is refused has no pool.
pub fn numbers(pool: Result<&[Row], Refusal>, drawn: [u64; DRAWN]) -> Vec<u64> {
    let own = pool.map_or(0, |rows| blocks_of(rows.len() as u64));
    (0..=own).chain(ALWAYS).chain(drawn).collect()
}

/// The reply that is due to a block: the sums of its rows, or the refusal of the sheet with sums of 0.
pub fn due(pool: Result<&[Row], Refusal>, number: u64) -> BlockReply {
    match pool {
        Ok(rows) => BlockReply::summing(sum_words(&block::sums(rows, number))),
        Err(refusal) => BlockReply::refusing(refusal.number, refusal.place),
    }
}

/// Compares the sums of all blocks that are asked for with the independent ones. Gives the numbers of the blocks.
pub fn compare(block_sums: SumBlock, case: &Case) -> Result<Vec<u64>, Difference> {
    let read = sheet::read(&case.sheet);
    let pool = pool_of(&read);
    let numbers = numbers(pool, case.blocks);
    for &number in &numbers {
        let said = block_sums(&case.sheet, number);
        compare_reply(&due(pool, number), &said).map_err(|difference| difference.of(Asked::Block(number)))?;
    }
    Ok(numbers)
}

/// Number, place and all sums are the same. Where one side sums and the other refuses, that is the difference.
fn compare_reply(due: &BlockReply, said: &BlockReply) -> Result<(), Difference> {
    if (due.number == 0) != (said.number == 0) {
        return Err(Difference::new(Part::Outcome, due, said));
    }
    same(Part::Number, due.number, said.number)?;
    same(Part::Place, due.place, said.place)?;
    let mut words = SumWord::TABLE.iter().zip(due.sums.iter().zip(said.sums));
    words.try_for_each(|((word, _), (&due, said))| same(Part::Sum(*word), due, said))
}

#[cfg(test)]
mod tests {
    use super::*;
    use crate::sheet::BLOCK_ROWS;
    use independent::sheet::Status;

    /// A pool of so many rows.
    fn pool(rows: usize) -> Vec<Row> {
        let row = Row {
            exposure: 1,
            nominal: 1,
            risk_weight: 0,
            status: Status::Paying,
        };
        vec![row; rows]
    }

    /// The numbers that wrap do so: to a row that a pool can have, and to the first.
    #[test]
    fn wrapping_numbers_wrap() {
        let product = |number: u64| u128::from(number) * u128::from(BLOCK_ROWS);
        assert_eq!(product(WRAPS_INSIDE), (1 << 64) + 34);
        assert_eq!(product(WRAPS_TO_FIRST) % (1 << 64), 0);
    }

    /// All blocks of a pool are asked for and the one past the last, then the others; of a refused sheet the first
    /// block and the others.
    #[test]
    fn every_block_is_asked_for() {
        let others = [19, 20, 1 << 32, WRAPS_INSIDE, WRAPS_TO_FIRST, u64::MAX, 7, 8];
        let up_to = |past: u64| (0..=past).chain(others).collect::<Vec<_>>();
        for (rows, past) in [(1, 1), (50, 1), (51, 2), (1_000, 20)] {
            assert_eq!(numbers(Ok(&pool(rows)), [7, 8]), up_to(past), "{rows}");
        }
        let refused = numbers(Err(Refusal { number: 1, place: 0 }), [7, 8]);
        assert_eq!(refused, up_to(0));
    }
}
