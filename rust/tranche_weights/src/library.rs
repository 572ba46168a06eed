//! The ten C functions of the static library, version 10, and the crate's only unsafe code.
//!
//! Three of them require an opened pool. They are reached through [`Opened`] alone, which is always one.

#![allow(unsafe_code)]

use crate::limits::SUM_WORDS;
use crate::refusal::Refusal;
use crate::reply::{AmendmentReply, BlockReply, ConversionReply, OpeningReply, Reply};

extern "C" {
    /// Weighs the sheet; returns the refusal's number, 0 where weighed.
    #[link_name = "tranche_weights_weigh_v10"]
    fn tranche_weights_weigh(
        sheet: *const u64,
        words: usize,
        results: *mut u64,
        room: usize,
        place: *mut u64,
        count: *mut u64,
        charge: *mut u64,
    ) -> u64;

    /// Weighs the sheet that the file's bytes state; returns the refusal's number, 0 where weighed.
    #[link_name = "tranche_weights_weigh_file_v10"]
    fn tranche_weights_weigh_file(
        file: *const u8,
        size: usize,
        results: *mut u64,
        room: usize,
        place: *mut u64,
        count: *mut u64,
        charge: *mut u64,
    ) -> u64;

    /// Writes the report's text where it fits the room, else nothing; returns the text's length.
    #[link_name = "tranche_weights_report_v10"]
    fn tranche_weights_report(file: *const u8, size: usize, text: *mut u8, room: usize) -> u64;

    /// Writes the seven sums of a block of the sheet's rows; returns the refusal's number, 0 where there is none.
    #[link_name = "tranche_weights_block_sums_v10"]
    fn tranche_weights_block_sums(sheet: *const u64, words: usize, block: u64, place: *mut u64, sums: *mut u64) -> u64;

    /// Writes the sheet in the other unit to the output; returns the refusal's number, 0 where it was written.
    #[link_name = "tranche_weights_convert_v10"]
    fn tranche_weights_convert(
        sheet: *const u64,
        words: usize,
        output: *mut u64,
        room: usize,
        place: *mut u64,
        count: *mut u64,
    ) -> u64;

    /// Writes the seven sums of the sheet's pool; returns the refusal's number, and then the sums are as they were, or 0.
    #[link_name = "tranche_weights_open_pool_v10"]
    fn tranche_weights_open_pool(sheet: *const u64, words: usize, place: *mut u64, sums: *mut u64) -> u64;

    /// Returns 1 where sheet and sums are an opened pool, and else 0.
    #[link_name = "tranche_weights_is_opened_v10"]
    fn tranche_weights_is_opened(sheet: *const u64, words: usize, sums: *const u64) -> u64;

    /// Requires an opened pool. Replaces a row and corrects the sums, and it is an opened pool again; returns the
    /// refusal's number, and then nothing is changed, or 0.
    #[link_name = "tranche_weights_amend_v10"]
    fn tranche_weights_amend(
        sheet: *mut u64,
        words: usize,
        sums: *mut u64,
        amendment: *const u64,
        amendment_words: usize,
        place: *mut u64,
    ) -> u64;

    /// Requires an opened pool. Returns its charge.
    #[link_name = "tranche_weights_opened_charge_v10"]
    fn tranche_weights_opened_charge(sheet: *const u64, words: usize, sums: *const u64) -> u64;

    /// Requires an opened pool. Weighs its sheet without reading the rows; returns the refusal's number, 0 where weighed.
    #[link_name = "tranche_weights_weigh_opened_v10"]
    fn tranche_weights_weigh_opened(
        sheet: *const u64,
        words: usize,
        sums: *const u64,
        results: *mut u64,
        room: usize,
        place: *mut u64,
        count: *mut u64,
        charge: *mut u64,
    ) -> u64;
}

/// What each lent word of an answer holds before the call. No place, count, charge or sum is as high, so a word that
/// the library leaves unwritten shows.
const UNWRITTEN: u64 = u64::MAX;

/// Lends three separate words for place, count and charge to a call that returns the number, and puts the four
/// together.
#[inline]
fn reply(call: impl FnOnce(&mut u64, &mut u64, &mut u64) -> u64) -> Reply {
    let [mut place, mut count, mut charge] = [UNWRITTEN; 3];
    let number = call(&mut place, &mut count, &mut charge);
    Reply {
        number,
        place,
        count,
        charge,
    }
}

/// Lends the library a sheet and room for the results, and hands back its answer as it is.
pub(crate) fn weigh(sheet: &[u64], results: &mut [u64]) -> Reply {
    // SAFETY: the declaration is the library's own, and `size_t` is `usize` on x86-64 Linux, the only target that
    // build.rs lets through. The pointers of both slices are aligned and valid for the lengths given with them, the
    // sheet's for reading, the results' for reading and writing (of an empty slice no word is touched). A shared and
    // a mutable borrow do not overlap, and the other three pointers are from mutable borrows of separate words. The
    // library touches nothing else, has no data of its own that it writes (so threads can call it at once), keeps no
    // pointer after its return and does not unwind. The stack that it takes no type can promise: the crate's
    // documentation says how much is enough.
    reply(|place, count, charge| unsafe {
        let (sheet, words) = (sheet.as_ptr(), sheet.len());
        let (results, room) = (results.as_mut_ptr(), results.len());
        tranche_weights_weigh(sheet, words, results, room, place, count, charge)
    })
}

/// Lends the library a file's bytes and room for the results, and hands back its answer as it is.
pub(crate) fn weigh_file(file: &[u8], results: &mut [u64]) -> Reply {
    // SAFETY: as for `weigh`, with the file's bytes in place of the sheet's words.
    reply(|place, count, charge| unsafe {
        let (file, size) = (file.as_ptr(), file.len());
        let (results, room) = (results.as_mut_ptr(), results.len());
        tranche_weights_weigh_file(file, size, results, room, place, count, charge)
    })
}

/// Lends the library a file's bytes and room for the text, and hands back the text's length as it is.
pub(crate) fn report(file: &[u8], text: &mut [u8]) -> u64 {
    // SAFETY: as for `weigh`: two slices that do not overlap, each pointer valid for the length given with it, the
    // file's for reading, the text's for reading and writing, and nothing else is touched or kept.
    unsafe { tranche_weights_report(file.as_ptr(), file.len(), text.as_mut_ptr(), text.len()) }
}

/// Lends the library a sheet and room for the sums of a block, and hands back its answer as it is.
pub(crate) fn block_sums(sheet: &[u64], block: u64) -> BlockReply {
    let (mut place, mut sums) = (UNWRITTEN, [UNWRITTEN; SUM_WORDS]);
    // SAFETY: as for `weigh`: the sheet's pointer is valid for the length given with it, for reading; the other two are
    // from mutable borrows of a word and of an array of the words that the sums have, and nothing overlaps.
    let number = unsafe {
        let (sheet, words) = (sheet.as_ptr(), sheet.len());
        tranche_weights_block_sums(sheet, words, block, &mut place, sums.as_mut_ptr())
    };
    BlockReply { number, place, sums }
}

/// Lends the library a sheet and room for the same in the other unit, and hands back its answer as it is.
pub(crate) fn convert(sheet: &[u64], output: &mut [u64]) -> ConversionReply {
    let [mut place, mut count] = [UNWRITTEN; 2];
    // SAFETY: as for `weigh`, with the output in place of the results and two pointers from mutable borrows of separate
    // words.
    let number = unsafe {
        let (sheet, words) = (sheet.as_ptr(), sheet.len());
        let (output, room) = (output.as_mut_ptr(), output.len());
        tranche_weights_convert(sheet, words, output, room, &mut place, &mut count)
    };
    ConversionReply { number, place, count }
}

/// Lends the library a sheet and room for the sums of its pool, and hands back its answer as it is.
pub(crate) fn open_pool(sheet: &[u64], sums: &mut [u64; SUM_WORDS]) -> OpeningReply {
    let mut place = UNWRITTEN;
    // SAFETY: as for `block_sums`, with the sums lent by the caller.
    let number = unsafe {
        let (sheet, words) = (sheet.as_ptr(), sheet.len());
        tranche_weights_open_pool(sheet, words, &mut place, sums.as_mut_ptr())
    };
    OpeningReply { number, place }
}

/// Lends the library a sheet and sums, and hands back whether they are an opened pool.
pub(crate) fn is_opened(sheet: &[u64], sums: &[u64; SUM_WORDS]) -> bool {
    // SAFETY: as for `weigh`: the sheet's pointer is valid for the length given with it, and that of the sums for the
    // words that sums have, both for reading. Nothing is written, and nothing is required of either.
    unsafe { tranche_weights_is_opened(sheet.as_ptr(), sheet.len(), sums.as_ptr()) == 1 }
}

/// A sheet's words and sums that are an opened pool, always: what three functions of the library require.
///
/// The fields are private to this module, and no function lends them out to be changed. [`open`](Self::open) alone makes
/// a new one, where the library has opened the very words that are kept, with the sums that it wrote; a clone has the
/// same words and sums. [`amend`](Self::amend) alone changes one, by the library, which leaves an opened pool.
#[derive(Debug, Clone, PartialEq, Eq, Hash)]
pub(crate) struct Opened {
    words: Vec<u64>,
    sums: [u64; SUM_WORDS],
}

impl Opened {
    /// Opens the pool of the sheet, where the library does not refuse it.
    pub(crate) fn open(words: Vec<u64>) -> Result<Opened, Refusal> {
        let mut sums = [UNWRITTEN; SUM_WORDS];
        open_pool(&words, &mut sums).outcome()?;
        Ok(Opened { words, sums })
    }

    /// The sheet's words.
    pub(crate) fn words(&self) -> &[u64] {
        &self.words
    }

    /// The sheet's words, without the sums.
    pub(crate) fn into_words(self) -> Vec<u64> {
        self.words
    }

    /// The words of the pool's sums.
    pub(crate) fn sums(&self) -> [u64; SUM_WORDS] {
        self.sums
    }

    /// Lends the library the pool to amend, and hands back its answer as it is.
    #[inline]
    pub(crate) fn amend(&mut self, amendment: &[u64]) -> AmendmentReply {
        let mut place = UNWRITTEN;
        // SAFETY: as for `weigh`, with the words and the sums for reading and writing, the sums' pointer being valid for
        // the words that sums have, and the amendment for reading. The two fields and the word for the place are separate,
        // and a shared borrow overlaps none of them. What the library requires, that words and sums are an opened pool,
        // holds of every `Opened`; it leaves an opened pool, changed or not, and so it holds again.
        let number = unsafe {
            let (sheet, words) = (self.words.as_mut_ptr(), self.words.len());
            let (amendment, amendment_words) = (amendment.as_ptr(), amendment.len());
            let sums = self.sums.as_mut_ptr();
            tranche_weights_amend(sheet, words, sums, amendment, amendment_words, &mut place)
        };
        AmendmentReply { number, place }
    }

    /// Lends the library the pool, and hands back its charge.
    #[inline]
    pub(crate) fn charge(&self) -> u64 {
        // SAFETY: as for `is_opened`. What the library requires, that words and sums are an opened pool, holds of every
        // `Opened`, and nothing is written.
        unsafe { tranche_weights_opened_charge(self.words.as_ptr(), self.words.len(), self.sums.as_ptr()) }
    }

    /// Lends the library the pool and room for the results, and hands back its answer as it is.
    #[inline]
    pub(crate) fn weigh(&self, results: &mut [u64]) -> Reply {
        // SAFETY: as for `weigh`, with the sums too, for reading, their pointer being valid for the words that sums have.
        // What the library requires, that words and sums are an opened pool, holds of every `Opened`, and neither is
        // written.
        reply(|place, count, charge| unsafe {
            let (sheet, words, sums) = (self.words.as_ptr(), self.words.len(), self.sums.as_ptr());
            let (results, room) = (results.as_mut_ptr(), results.len());
            tranche_weights_weigh_opened(sheet, words, sums, results, room, place, count, charge)
        })
    }
}
