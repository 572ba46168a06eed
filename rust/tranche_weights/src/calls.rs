//! What can be asked of the library: the answer to any words, the answer to a file, a file's report, a block's sums, a
//! sheet in the other unit, the opening of a pool.

use crate::deal::{Deal, Line};
use crate::library;
use crate::limits::{FEWEST_FACTS, LINE_WORDS, MOST_FACTS, MOST_TRANCHES, SUM_WORDS, TEXT_ROOM};
use crate::refusal::Refusal;
use crate::reply::{BlockReply, ConversionReply, OpeningReply, Reply, Weighed};
use crate::sums::BlockSums;
use crate::text_room_error::TextRoomError;

/// Weighs as [`weigh_words`] does, and gives the four numbers as the C function gives them; number 0 where the sheet is
/// accepted.
///
/// ```
/// use tranche_weights::{reply_to_words, Reply, LINE_WORDS};
///
/// // One loan of 100 at 100%, one tranche of 80 that is held in full, five years, AAA.
/// let sheet = [4, 0, 0, 1, 1, 1, 100, 100, 100, 0, 1, 80, 1, 60, 80, 1, 0, 0];
/// let weighed = reply_to_words(&sheet, &mut [0; LINE_WORDS]);
/// assert_eq!(weighed, Reply::accepting(1, 80_000));
///
/// let refused = reply_to_words(&sheet[..7], &mut [0; LINE_WORDS]);
/// assert_eq!(refused, Reply::refusing(1, 7));
/// ```
pub fn reply_to_words(sheet: &[u64], results: &mut [u64]) -> Reply {
    library::weigh(sheet, results)
}

/// Weighs the sheet that any words state, and writes [`LINE_WORDS`] words per tranche to the results: the fields of
/// [`Line`], in their order and units.
///
/// Later words of the results are as they were. [`RESULT_WORDS`](crate::RESULT_WORDS) words are always enough.
///
/// # Errors
///
/// The [`Refusal`]; then all words of the results are as they were.
///
/// ```
/// use tranche_weights::{weigh_words, Reason, LINE_WORDS};
///
/// // One loan of 100 at 100%, one tranche of 80 that is held in full, five years, AAA.
/// let sheet = [4, 0, 0, 1, 1, 1, 100, 100, 100, 0, 1, 80, 1, 60, 80, 1, 0, 0];
/// let mut results = [7; LINE_WORDS + 2];
/// let weighed = weigh_words(&sheet, &mut results)?;
/// assert_eq!((weighed.count, weighed.charge), (1, 80_000));
/// assert_eq!(results, [1, 200_000, 1_000_000, 1_900, 16, 2, 1_900, 7, 7]);
///
/// let mut results = [7; LINE_WORDS - 1];
/// let refusal = weigh_words(&sheet, &mut results).unwrap_err();
/// assert_eq!((refusal.reason(), refusal.place()), (Reason::Room, 0));
/// assert_eq!(results, [7; LINE_WORDS - 1]);
/// # Ok::<(), tranche_weights::Refusal>(())
/// ```
pub fn weigh_words(sheet: &[u64], results: &mut [u64]) -> Result<Weighed, Refusal> {
    reply_to_words(sheet, results).outcome()
}

/// Weighs the sheet that a file's bytes state into lent results, and gives the four numbers as the C function gives
/// them.
///
/// The bytes are those of [`weigh_file`], the results those of [`weigh_words`].
///
/// ```
/// use tranche_weights::{reply_to_file, Reply, LINE_WORDS, RESULT_WORDS};
///
/// // One loan of 100 at 100%, one tranche of 80 that is held in full, five years, AAA.
/// let sheet: [u64; 18] = [4, 0, 0, 1, 1, 1, 100, 100, 100, 0, 1, 80, 1, 60, 80, 1, 0, 0];
/// let file = sheet.map(u64::to_le_bytes).concat();
/// let mut results = [0; RESULT_WORDS];
/// assert_eq!(reply_to_file(&file, &mut results), Reply::accepting(1, 80_000));
/// assert_eq!(results[..LINE_WORDS], [1, 200_000, 1_000_000, 1_900, 16, 2, 1_900]);
///
/// assert_eq!(reply_to_file(&file[1..], &mut results), Reply::refusing(15, 0));
/// ```
pub fn reply_to_file(file: &[u8], results: &mut [u64]) -> Reply {
    library::weigh_file(file, results)
}

/// Weighs the sheet that a file's bytes state: words of eight bytes, lowest byte first.
///
/// # Errors
///
/// The [`Refusal`]. A length that is no multiple of [`BYTES_PER_WORD`](crate::BYTES_PER_WORD), or above
/// [`FILE_BYTES`](crate::FILE_BYTES), is refusal 15 at place 0, before all others.
///
/// ```
/// use tranche_weights::{weigh_file, Reason};
///
/// let refusal = weigh_file(b"a text").unwrap_err();
/// assert_eq!(refusal.reason(), Reason::FileLength);
/// ```
pub fn weigh_file(file: &[u8]) -> Result<Deal, Refusal> {
    deal_of(|results| reply_to_file(file, results))
}

/// Weighs the sheet that any words state.
pub(crate) fn weigh_sheet(words: &[u64]) -> Result<Deal, Refusal> {
    deal_of(|results| reply_to_words(words, results))
}

/// Lends room for the lines of the most tranches, and puts the deal together from the reply and the lines.
pub(crate) fn deal_of(reply: impl FnOnce(&mut [u64]) -> Reply) -> Result<Deal, Refusal> {
    let mut results = [[0; LINE_WORDS]; MOST_TRANCHES];
    let Weighed { count, charge } = reply(results.as_flattened_mut()).outcome()?;
    let lines = results.iter().take(count as usize).map(Line::of);
    Ok(Deal::new(charge, lines.collect()))
}

/// The report on a file's bytes, as the report program prints it: the lines, or `refused NUMBER at PLACE`.
///
/// ```
/// assert_eq!(tranche_weights::report(b"a text"), "refused 15 at 0\n");
/// ```
pub fn report(file: &[u8]) -> String {
    let mut text = vec![0; TEXT_ROOM];
    loop {
        match report_into(file, &mut text) {
            Ok(length) => return String::from_utf8_lossy(&text[..length]).into_owned(),
            Err(error) => text.resize(error.needed(), 0),
        }
    }
}

/// Writes the report on a file's bytes to the text and answers its length; later bytes are as they were. [`TEXT_ROOM`]
/// bytes are always enough.
///
/// # Errors
///
/// [`TextRoomError`] where the text is too short; then nothing is written.
///
/// ```
/// use tranche_weights::report_into;
///
/// let mut text = [0; 16];
/// assert_eq!(report_into(b"a text", &mut text), Ok(16));
/// assert_eq!(&text, b"refused 15 at 0\n");
///
/// let error = report_into(b"a text", &mut text[..15]).unwrap_err();
/// assert_eq!(error.needed(), 16);
/// ```
pub fn report_into(file: &[u8], text: &mut [u8]) -> Result<usize, TextRoomError> {
    let length = library::report(file, text) as usize;
    if length <= text.len() {
        Ok(length)
    } else {
        Err(TextRoomError::new(length))
    }
}

/// Reads the sums of a block as [`block_sums`] does, and gives number, place and the seven words as the C function
/// gives them; number 0 where the sheet is not refused.
///
/// ```
/// use tranche_weights::{reply_to_block, BlockReply};
///
/// // One loan of 100 at 50%, nominal 120, one tranche of 80 that is held in full, five years, AAA.
/// let sheet = [4, 0, 0, 1, 1, 1, 100, 120, 50, 0, 1, 80, 1, 60, 80, 1, 0, 0];
/// let sums = [100, 120, 500_000, 100, 120, 500_000, 0];
/// assert_eq!(reply_to_block(&sheet, 0), BlockReply::summing(sums));
///
/// assert_eq!(reply_to_block(&sheet[..7], 0), BlockReply::refusing(1, 7));
/// ```
pub fn reply_to_block(sheet: &[u64], block: u64) -> BlockReply {
    library::block_sums(sheet, block)
}

/// Reads the sums of a block of the pool's rows from the sheet that any words state. Blocks of
/// [`BLOCK_ROWS`](crate::BLOCK_ROWS) rows are counted from 0; past the last one every sum is 0, whatever the number.
///
/// # Errors
///
/// The [`Refusal`] of the sheet's words or of words that follow its last section, also for a block past the last. No
/// result words are lent and no tranche is weighed here, so [`Reason::Room`](crate::Reason::Room) and
/// [`Reason::ThinTranche`](crate::Reason::ThinTranche) are not given.
///
/// ```
/// use tranche_weights::{block_sums, BlockSums, Reason};
///
/// // 120 loans of 100 at 50% with a nominal of 120, one tranche of 80 that is held in full, five years, AAA.
/// let loans = [100, 120, 50, 0].repeat(120);
/// let sheet = [&[4, 0, 0, 1, 1, 120][..], &loans, &[1, 80, 1, 60, 80, 1, 0, 0]].concat();
///
/// // Every exposure is at least 1, so that the first block whose sums are 0 is past the last.
/// let mut exposures = Vec::new();
/// for block in 0.. {
///     match block_sums(&sheet, block)?.all.exposure {
///         0 => break,
///         exposure => exposures.push(exposure),
///     }
/// }
/// assert_eq!(exposures, [5_000, 5_000, 2_000]);
/// assert_eq!(block_sums(&sheet, u64::MAX)?, BlockSums::default());
///
/// let refusal = block_sums(&sheet[..7], u64::MAX).unwrap_err();
/// assert_eq!((refusal.reason(), refusal.place()), (Reason::MissingWord, 7));
/// # Ok::<(), tranche_weights::Refusal>(())
/// ```
pub fn block_sums(sheet: &[u64], block: u64) -> Result<BlockSums, Refusal> {
    reply_to_block(sheet, block).outcome()
}

/// Converts as [`convert_words`] does, and gives number, place and count as the C function gives them; number 0 where the
/// sheet was converted.
///
/// ```
/// use tranche_weights::{reply_to_conversion, ConversionReply, SHEET_WORDS};
///
/// // One loan of 100 at 85%, one tranche of 80 that is held in full, five years, AAA.
/// let sheet = [4, 0, 0, 1, 1, 1, 100, 100, 85, 0, 1, 80, 1, 60, 80, 1, 0, 0];
/// let mut output = [0; SHEET_WORDS];
/// assert_eq!(reply_to_conversion(&sheet, &mut output), ConversionReply::writing(21));
/// assert_eq!(reply_to_conversion(&sheet[..7], &mut output), ConversionReply::refusing(1, 7));
/// ```
pub fn reply_to_conversion(sheet: &[u64], output: &mut [u64]) -> ConversionReply {
    library::convert(sheet, output)
}

/// Rewrites the sheet that any words state in the other unit of the risk weights, to the output, and answers the number
/// of words written.
///
/// A sheet in whole percent is rewritten in hundredths of a percent, and one in hundredths in whole percent. The facts
/// that the sheet leaves out are filled in as 0, the unit is changed, each row's risk weight is multiplied or divided by
/// 100, and all else is as it stands. So the words are those of the sheet, and one more for each fact filled in. The
/// rewritten sheet is weighed as the given one is, and rewritten once more it is the given one with all its facts.
///
/// Later words of the output are as they were. [`SHEET_WORDS`](crate::SHEET_WORDS) words are always enough.
///
/// # Errors
///
/// The [`Refusal`]; then all words of the output are as they were. Its place is that in the sheet as given. After the
/// refusals of the sheet's words and of words that follow its last section, a risk weight that is no whole percent, where
/// the sheet is in hundredths, is [`Reason::NotWholePercent`](crate::Reason::NotWholePercent); then an output that is too
/// short is [`Reason::Room`](crate::Reason::Room) at place 0. No tranche is weighed here, so
/// [`Reason::ThinTranche`](crate::Reason::ThinTranche) is not given.
///
/// ```
/// use tranche_weights::{convert_words, Reason, SHEET_WORDS};
///
/// // Loans of 100 at 85% and at 20%, one tranche of 150 that is held in full, five years, AAA.
/// let pool = [2, 100, 100, 85, 0, 100, 100, 20, 0];
/// let tranches = [1, 150, 1, 60, 150, 1, 0, 0];
/// let sheet = [&[4, 0, 0, 1, 1][..], &pool, &tranches].concat();
///
/// let mut output = [9; SHEET_WORDS];
/// let count = convert_words(&sheet, &mut output)?;
/// assert_eq!(count, sheet.len() + 3);
/// let pool = [2, 100, 100, 8_500, 0, 100, 100, 2_000, 0];
/// let mut in_hundredths = [&[7, 0, 0, 1, 1, 0, 0, 1][..], &pool, &tranches].concat();
/// assert_eq!(output[..count], in_hundredths);
/// assert_eq!(output[count..], [9; SHEET_WORDS][count..]);
///
/// // The second loan at 37.5%: that is no whole percent, and nothing is written.
/// in_hundredths[15] = 3_750;
/// let mut output = [9; SHEET_WORDS];
/// let refusal = convert_words(&in_hundredths, &mut output).unwrap_err();
/// assert_eq!((refusal.reason(), refusal.place()), (Reason::NotWholePercent, 15));
/// assert_eq!(output, [9; SHEET_WORDS]);
/// # Ok::<(), tranche_weights::Refusal>(())
/// ```
pub fn convert_words(sheet: &[u64], output: &mut [u64]) -> Result<usize, Refusal> {
    reply_to_conversion(sheet, output).outcome()
}

/// The words of the sheet in the other unit of the risk weights, as [`convert_words`] writes them.
pub(crate) fn converted(sheet: &[u64]) -> Result<Vec<u64>, Refusal> {
    let mut words = vec![0; sheet.len() + MOST_FACTS - FEWEST_FACTS];
    let count = convert_words(sheet, &mut words)?;
    words.truncate(count);
    Ok(words)
}

/// Opens the pool of a sheet as [`OpenedPool::open`](crate::OpenedPool::open) does, writes the words of its sums, and
/// gives number and place as the C function gives them; number 0 where it is opened. On a refusal the sums are as they
/// were.
///
/// ```
/// use tranche_weights::{reply_to_opening, OpeningReply, SUM_WORDS};
///
/// // One loan of 100 at 50%, nominal 120, one tranche of 80 that is held in full, five years, AAA.
/// let sheet = [4, 0, 0, 1, 1, 1, 100, 120, 50, 0, 1, 80, 1, 60, 80, 1, 0, 0];
/// let mut sums = [9; SUM_WORDS];
/// assert_eq!(reply_to_opening(&sheet[..7], &mut sums), OpeningReply::refusing(1, 7));
/// assert_eq!(sums, [9; SUM_WORDS]);
///
/// assert_eq!(reply_to_opening(&sheet, &mut sums), OpeningReply::opening());
/// assert_eq!(sums, [100, 120, 500_000, 100, 120, 500_000, 0]);
/// ```
pub fn reply_to_opening(sheet: &[u64], sums: &mut [u64; SUM_WORDS]) -> OpeningReply {
    library::open_pool(sheet, sums)
}

/// Whether any words and any sums are an opened pool: the sheet gets no refusal but 13 and 14, which are not judged here,
/// and the sums are those of its rows, in the order and units of [`BlockSums`].
///
/// It is true of every [`OpenedPool`](crate::OpenedPool), whose words need no such check. Words that come from elsewhere
/// are opened by [`OpenedPool::open`](crate::OpenedPool::open), whatever sums are kept beside them.
///
/// ```
/// use tranche_weights::is_opened;
///
/// // One loan of 100 at 50%, nominal 120, one tranche of 80 that is held in full, five years, AAA.
/// let sheet = [4, 0, 0, 1, 1, 1, 100, 120, 50, 0, 1, 80, 1, 60, 80, 1, 0, 0];
/// assert!(is_opened(&sheet, &[100, 120, 500_000, 100, 120, 500_000, 0]));
/// assert!(!is_opened(&sheet, &[100, 120, 500_000, 100, 120, 500_000, 1]));
/// assert!(!is_opened(&sheet[..7], &[100, 120, 500_000, 100, 120, 500_000, 0]));
/// ```
pub fn is_opened(sheet: &[u64], sums: &[u64; SUM_WORDS]) -> bool {
    library::is_opened(sheet, sums)
}
