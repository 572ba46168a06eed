//! The sums of S-7, by blocks of the pool's rows. Weighted exposure is, by S-9, in hundredths of a percent.

use crate::answer::{BlockSums, Totals};
use crate::charge::{exposure_sum, known_rows, late_nominal_sum, nominal_sum, to_word, weighted_exposure_sum};
use crate::sheet::Row;

/// The rows of a block; the last one of a pool may have fewer.
pub const BLOCK_ROWS: u64 = 50;

/// The sums of a block of a pool. Rows and blocks are counted from 0, so a row's block is the whole part of its number
/// divided by the rows of a block. Past the last block there is no row, and all sums are 0.
pub fn sums(pool: &[Row], block: u64) -> BlockSums {
    let numbered = (0..).zip(pool);
    let of_block = numbered.filter(|(number, _): &(u64, _)| number / BLOCK_ROWS == block);
    sums_over(&of_block.map(|(_, row)| *row).collect::<Vec<Row>>())
}

/// The seven sums over some rows.
pub fn sums_over(rows: &[Row]) -> BlockSums {
    BlockSums {
        all: totals(rows),
        known: totals(&known_rows(rows)),
        late_nominal: to_word(late_nominal_sum(rows)),
    }
}

/// The three sums over some rows.
fn totals(rows: &[Row]) -> Totals {
    Totals {
        exposure: to_word(exposure_sum(rows)),
        nominal: to_word(nominal_sum(rows)),
        weighted_exposure: to_word(weighted_exposure_sum(rows)),
    }
}

#[cfg(test)]
mod tests {
    use super::*;
    use crate::sheet::Status;

    /// Rows of the exposures 1, 2 and so on, each with a nominal amount of 1 and no risk weight.
    fn pool(rows: u64) -> Vec<Row> {
        let row = |exposure| Row {
            exposure,
            nominal: 1,
            risk_weight: 0,
            status: Status::Paying,
        };
        (1..=rows).map(row).collect()
    }

    /// How many rows each block of a pool has, up to the first block without any: each has a nominal amount of 1.
    fn blocks(rows: u64) -> Vec<u64> {
        let pool = pool(rows);
        let nominals = (0..).map(|block| sums(&pool, block).all.nominal);
        nominals.take_while(|&nominal| nominal > 0).collect()
    }

    /// A block has 50 rows, and the last one what is left.
    #[test]
    fn blocks_have_fifty_rows() {
        assert_eq!(blocks(1), [1]);
        assert_eq!([blocks(49), blocks(50)], [[49], [50]]);
        assert_eq!(blocks(51), [50, 1]);
        assert_eq!([blocks(99), blocks(100)], [[50, 49], [50, 50]]);
        assert_eq!(blocks(101), [50, 50, 1]);
        assert_eq!(blocks(950), [50; 19]);
        assert_eq!(blocks(951), [&[50; 19][..], &[1]].concat());
        assert_eq!(blocks(1_000), [50; 20]);
    }

    /// Rows stand in the order of the pool: exposures 1 to 50, 51 to 100, and 101.
    #[test]
    fn blocks_keep_the_order_of_rows() {
        let pool = pool(101);
        let exposures = [0, 1, 2, 3].map(|block| sums(&pool, block).all.exposure);
        assert_eq!(exposures, [1_275, 3_775, 101, 0]);
    }

    /// The highest sums of a block and of a pool.
    #[test]
    fn highest_sums() {
        let row = Row {
            exposure: 10_000_000_000,
            nominal: 10_000_000_000,
            risk_weight: 125_000,
            status: Status::Delinquent,
        };
        let times = |rows: u64| {
            let all = Totals {
                exposure: rows * 10_000_000_000,
                nominal: rows * 10_000_000_000,
                weighted_exposure: rows * 1_250_000_000_000_000,
            };
            BlockSums {
                all,
                known: all,
                late_nominal: all.nominal,
            }
        };
        let pool = [row; 1_000];
        assert_eq!([0, 19].map(|block| sums(&pool, block)), [times(50); 2]);
        assert_eq!(sums_over(&pool), times(1_000));
    }
}
