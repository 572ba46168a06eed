//! The sheet in the other unit of risk weights, and the comparison of what is written with the independent one (S-9).

use crate::case::Case;
use crate::difference::{same, Asked, Difference, Part};
use crate::lent::Lent;
use crate::library::{ConversionReply, Convert};
use crate::sheet::rewritten_words;
use crate::words::untouched;
use independent::Refusal;

/// How many outputs are lent with each sheet.
pub const OUTPUTS: usize = 2;

/// A conversion that was asked for: how many output words were lent, and the independent answer, which is the words
/// written or the refusal.
pub struct Asking {
    /// How many output words were lent.
    pub room: usize,
    /// The independent answer.
    pub answer: Result<Vec<u64>, Refusal>,
}

impl Asking {
    /// The conversion of a sheet with so much room.
    pub fn new(sheet: &[u64], room: usize) -> Asking {
        Asking {
            room,
            answer: independent::convert(sheet, room as u64),
        }
    }

    /// The reply that is due: a written sheet's number and place are 0; a refused one's count is 0.
    pub fn due(&self) -> ConversionReply {
        match &self.answer {
            Ok(words) => ConversionReply::writing(words.len() as u64),
            Err(refusal) => ConversionReply::refusing(refusal.number, refusal.place),
        }
    }
}

/// The conversions that are asked for with a sheet: to an output of just the words that are needed, and to the output
/// drawn for it.
pub fn askings(case: &Case) -> [Asking; OUTPUTS] {
    [rewritten_words(&case.sheet), case.output].map(|room| Asking::new(&case.sheet, room))
}

/// Compares all conversions that are asked for with the independent ones. Gives them.
pub fn compare(convert: Convert, case: &Case, lent: &mut Lent) -> Result<[Asking; OUTPUTS], Difference> {
    let askings = askings(case);
    for asking in &askings {
        let said = lent.lend(asking.room, |output| convert(&case.sheet, output));
        compare_answer(asking, &said, lent).map_err(|difference| difference.of(Asked::Conversion(asking.room)))?;
    }
    Ok(askings)
}

/// Number, place and count are the same, and so is each word that was written. No later word was written, and on a
/// refusal no word at all. Where one side converts and the other refuses, that is the difference.
fn compare_answer(asking: &Asking, said: &ConversionReply, lent: &Lent) -> Result<(), Difference> {
    let due = asking.due();
    if (due.number == 0) != (said.number == 0) {
        return Err(Difference::new(Part::Outcome, due, said));
    }
    same(Part::Number, due.number, said.number)?;
    same(Part::Place, due.place, said.place)?;
    same(Part::Count, due.count, said.count)?;
    match &asking.answer {
        Ok(words) => {
            let written = lent.first(due.count);
            let mut places = (0..).zip(words.iter().zip(written));
            places.try_for_each(|(place, (due, said))| same(Part::Converted, (place, due), (place, said)))?;
            untouched(Part::AfterConverted, lent, words.len())
        }
        Err(_) => untouched(Part::OutputOnRefusal, lent, 0),
    }
}
