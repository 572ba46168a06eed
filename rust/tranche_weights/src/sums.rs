//! The sums of a block of the pool's rows, and of all of them (document 02, S-7, S-9 and S-10).

use crate::limits::SUM_WORDS;

/// Sums over some rows of a pool; each 0 where there are no rows.
#[derive(Debug, Clone, Copy, Default, PartialEq, Eq, Hash)]
#[non_exhaustive]
pub struct Totals {
    /// The sum of the exposure amounts, in whole currency units.
    pub exposure: u64,
    /// The sum of the nominal amounts, in whole currency units.
    pub nominal: u64,
    /// The sum of exposure amount times risk weight in hundredths of a percent, whatever the unit of the sheet: an
    /// exposure of 200 at 37.5% adds 750,000.
    pub weighted_exposure: u64,
}

/// The seven sums of a block of the pool's rows, or of all of them ([`OpenedPool::sums`](crate::OpenedPool::sums)).
///
/// A block is [`BLOCK_ROWS`](crate::BLOCK_ROWS) rows in the order of the sheet, and what is left is the last one. Added
/// up over the blocks, each sum is that of the pool.
///
/// ```
/// use tranche_weights::block_sums;
///
/// // Three loans at 100%, 50% and 20%, the second delinquent, the third of unknown status; one tranche of 80.
/// let pool = [3, 100, 120, 100, 0, 60, 60, 50, 1, 40, 45, 20, 2];
/// let sheet = [&[4, 0, 0, 1, 1][..], &pool, &[1, 80, 1, 60, 80, 1, 0, 0]].concat();
///
/// let sums = block_sums(&sheet, 0)?;
/// assert_eq!((sums.all.exposure, sums.all.nominal), (200, 225));
/// assert_eq!(sums.all.weighted_exposure, 100 * 10_000 + 60 * 5_000 + 40 * 2_000);
/// assert_eq!((sums.known.exposure, sums.known.nominal), (160, 180));
/// assert_eq!(sums.known.weighted_exposure, 100 * 10_000 + 60 * 5_000);
/// assert_eq!(sums.late_nominal, 60);
/// # Ok::<(), tranche_weights::Refusal>(())
/// ```
#[derive(Debug, Clone, Copy, Default, PartialEq, Eq, Hash)]
#[non_exhaustive]
pub struct BlockSums {
    /// Over all rows of the block or of the pool.
    pub all: Totals,
    /// Over the rows with known status: those that pay, those that are delinquent, and all of a re-securitisation.
    pub known: Totals,
    /// The sum of the nominal amounts of the delinquent rows, in whole currency units.
    pub late_nominal: u64,
}

impl BlockSums {
    /// The sums that their words state.
    pub(crate) const fn of(words: [u64; SUM_WORDS]) -> BlockSums {
        let [exposure, nominal, weighted_exposure, known @ .., late_nominal] = words;
        BlockSums {
            all: Totals::of([exposure, nominal, weighted_exposure]),
            known: Totals::of(known),
            late_nominal,
        }
    }
}

impl Totals {
    /// The sums over some rows that their words state.
    const fn of([exposure, nominal, weighted_exposure]: [u64; 3]) -> Totals {
        Totals {
            exposure,
            nominal,
            weighted_exposure,
        }
    }
}
