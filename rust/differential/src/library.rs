//! The library that is held against the independent implementation, as eight functions, so that tests can put wrong
//! ones in their place.

use crate::answer::SUM_WORDS;
use crate::observed::{self, Observed, ROOMS};

pub use tranche_weights::{AmendmentReply, BlockReply, ConversionReply, OpeningReply, Reply};

/// Weighs a sheet's words into lent results and replies with the four numbers of the C function.
pub type Weigh = fn(&[u64], &mut [u64]) -> Reply;

/// Weighs the sheet of a file's bytes into lent results and replies with the four numbers of the C function.
pub type WeighFile = fn(&[u8], &mut [u64]) -> Reply;

/// Reads the sums of a block of a sheet's rows and replies with number, place and seven words, as the C function does.
pub type SumBlock = fn(&[u64], u64) -> BlockReply;

/// Writes a sheet in the other unit of risk weights to lent output and replies with number, place and count, as the C
/// function does.
pub type Convert = fn(&[u64], &mut [u64]) -> ConversionReply;

/// Opens the pool of a sheet, writes its sums to the lent ones and replies with number and place, as the C function does.
pub type Open = fn(&[u64], &mut [u64; SUM_WORDS]) -> OpeningReply;

/// Tells whether a sheet and sums are an opened pool.
pub type IsOpened = fn(&[u64], &[u64; SUM_WORDS]) -> bool;

/// Opens the pool of a sheet, amends it one by one and gives what is seen of it after the opening and after each
/// amendment, with so much room for results in each of its weighings; nothing where the sheet is not opened.
pub type Amend = fn(&[u64], &[Vec<u64>], [usize; ROOMS]) -> Vec<Observed>;

/// The eight functions that are compared.
#[derive(Clone, Copy)]
pub struct Library {
    /// Weighs a sheet's words into lent results.
    pub weigh: Weigh,
    /// Weighs a file's bytes into lent results.
    pub weigh_file: WeighFile,
    /// Gives the report's text for a file's bytes.
    pub report: fn(&[u8]) -> String,
    /// Reads the sums of a block of a sheet's rows.
    pub block_sums: SumBlock,
    /// Writes a sheet in the other unit of risk weights to lent output.
    pub convert: Convert,
    /// Opens the pool of a sheet and writes its sums.
    pub open: Open,
    /// Tells whether a sheet and sums are an opened pool.
    pub is_opened: IsOpened,
    /// Opens the pool of a sheet and amends it.
    pub amend: Amend,
}

impl Library {
    /// The proved library.
    pub const PROVED: Library = Library {
        weigh: tranche_weights::reply_to_words,
        weigh_file: tranche_weights::reply_to_file,
        report: tranche_weights::report,
        block_sums: tranche_weights::reply_to_block,
        convert: tranche_weights::reply_to_conversion,
        open: tranche_weights::reply_to_opening,
        is_opened: tranche_weights::is_opened,
        amend: observed::amend,
    };
}
