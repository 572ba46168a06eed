//! The three versions, the reading of a block's sums and the conversion of a sheet, in the one form that is timed, and what
//! is done for an amendment, in another. Inputs and answers pass through `black_box`, so that the compiler can neither
//! foresee the sheet nor drop the answer.

use crate::deals::{replace_row, Amendment};
use std::hint::black_box;
use tranche_weights::{OpenedPool, MOST_BLOCKS};

/// Weighs a sheet once. The results are lent to every version; the exact one makes its own. They are as long as the largest
/// sheet, so that a sheet can be written there too.
pub type Version = fn(&[u64], &mut [u64]);

/// The versions in the order of the table's columns.
pub const ALL: [Version; 3] = [proved, plain, exact];

/// The proved version, through the safe crate.
pub fn proved(sheet: &[u64], results: &mut [u64]) {
    let _ = black_box(tranche_weights::weigh_words(black_box(sheet), black_box(results)));
}

/// The plain double-precision version.
pub fn plain(sheet: &[u64], results: &mut [u64]) {
    let _ = black_box(plain::weigh(black_box(sheet), black_box(results)));
}

/// The exact independent version.
pub fn exact(sheet: &[u64], results: &mut [u64]) {
    let _ = black_box(independent::weigh(black_box(sheet), black_box(results.len() as u64)));
}

/// The sums of the last block that a pool can have, by the proved version. The results are not used.
pub fn proved_block_sums(sheet: &[u64], _: &mut [u64]) {
    let last = MOST_BLOCKS as u64 - 1;
    let _ = black_box(tranche_weights::block_sums(black_box(sheet), black_box(last)));
}

/// The sheet in the other unit of risk weights, by the proved version.
pub fn proved_conversion(sheet: &[u64], output: &mut [u64]) {
    let _ = black_box(tranche_weights::convert_words(black_box(sheet), black_box(output)));
}

/// Amends the deal that is kept, and answers. The results are lent to every one.
pub type Step<Deal> = fn(&mut Deal, &Amendment, &mut [u64]);

/// The opened pool is amended, and its charge worked out, by the proved version. The results are not used.
pub fn proved_charge(pool: &mut OpenedPool, amendment: &Amendment, _: &mut [u64]) {
    let _ = black_box(pool.amend_words(black_box(amendment)));
    black_box(black_box(&*pool).charge());
}

/// The same by the plain version, with an opened pool of its own.
pub fn plain_charge(pool: &mut plain::OpenedPool, amendment: &Amendment, _: &mut [u64]) {
    let _ = black_box(pool.amend(black_box(amendment)));
    black_box(black_box(&*pool).charge());
}

/// The opened pool is amended, and all its lines worked out, by the proved version.
pub fn proved_lines(pool: &mut OpenedPool, amendment: &Amendment, results: &mut [u64]) {
    let _ = black_box(pool.amend_words(black_box(amendment)));
    let _ = black_box(black_box(&*pool).weigh_into(black_box(results)));
}

/// The same by the plain version.
pub fn plain_lines(pool: &mut plain::OpenedPool, amendment: &Amendment, results: &mut [u64]) {
    let _ = black_box(pool.amend(black_box(amendment)));
    let _ = black_box(black_box(&*pool).weigh(black_box(results)));
}

/// The row is replaced in the sheet, and the whole of it weighed, by the proved version.
pub fn proved_load(sheet: &mut Box<[u64]>, amendment: &Amendment, results: &mut [u64]) {
    replace_row(sheet, black_box(amendment));
    proved(sheet, results);
}
