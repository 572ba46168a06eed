//! What holds of a sheet and the same sheet in the other unit of risk weights, by the library's own answers (S-9).

use crate::case::Case;
use crate::difference::{same, Asked, Difference, Part};
use crate::lent::Lent;
use crate::library::{ConversionReply, Convert, Library};
use crate::second;
use crate::sheet::{blocks_of, rewritten_words, write_with_facts, Layout, FACTS};

/// Compares the library's answers to a sheet with those to the sheet that it writes in the other unit, and that sheet
/// converted again with the first one. Where it refuses to write one, nothing is compared.
pub fn compare(library: &Library, case: &Case, lent: &mut Lent) -> Result<(), Difference> {
    let room = rewritten_words(&case.sheet);
    let (reply, converted) = written(library.convert, &case.sheet, room, lent);
    if reply.number != 0 {
        return Ok(());
    }
    let of_conversion = |difference: Difference| difference.of(Asked::Conversion(room));
    same(Part::Count, room as u64, reply.count).map_err(of_conversion)?;
    second::compare_moved(Part::OtherUnit, library, case, &converted, lent)?;
    compare_sums(library, &case.sheet, &converted)?;
    compare_twice(library.convert, &case.sheet, &converted, lent).map_err(of_conversion)
}

/// The library's conversion of a sheet to so many output words: its reply, and the words that it says were written.
fn written(convert: Convert, sheet: &[u64], room: usize, lent: &mut Lent) -> (ConversionReply, Vec<u64>) {
    let reply = lent.lend(room, |output| convert(sheet, output));
    let count = if reply.number == 0 { reply.count } else { 0 };
    (reply, lent.first(count).to_vec())
}

/// The sums of each block are the same in both units, since weighted exposure is in hundredths of a percent in both.
fn compare_sums(library: &Library, sheet: &[u64], converted: &[u64]) -> Result<(), Difference> {
    let rows = Layout::of_sheet(sheet).rows as u64;
    (0..=blocks_of(rows)).try_for_each(|block| {
        let [first, other] = [sheet, converted].map(|sheet| (library.block_sums)(sheet, block));
        same(Part::SumsInOtherUnit, first, other).map_err(|difference| difference.of(Asked::Block(block)))
    })
}

/// The converted sheet, converted again, is the first one with all facts stated.
fn compare_twice(convert: Convert, sheet: &[u64], converted: &[u64], lent: &mut Lent) -> Result<(), Difference> {
    let mut filled = Vec::new();
    write_with_facts(sheet, FACTS, &mut filled);
    let (reply, twice) = written(convert, converted, filled.len(), lent);
    let due = ConversionReply::writing(filled.len() as u64);
    same(Part::ConvertedTwice, (due, filled), (reply, twice))
}

#[cfg(test)]
mod tests {
    use super::*;
    use crate::answer::{refusal, LineWord, SumWord};
    use crate::library::{BlockReply, Reply};
    use crate::sheet::{unit, Fact, FEWEST_FACTS};
    use std::collections::BTreeSet;

    /// Whether a sheet that is not refused is in hundredths.
    fn in_hundredths(sheet: &[u64]) -> bool {
        Layout::of_sheet(sheet).fact_word(sheet, Fact::Unit) == unit::HUNDREDTHS
    }

    /// The proved library, with a charge of 1 more in hundredths.
    fn unit_matters(sheet: &[u64], results: &mut [u64]) -> Reply {
        let mut reply = (Library::PROVED.weigh)(sheet, results);
        reply.charge += u64::from(reply.number == 0 && in_hundredths(sheet));
        reply
    }

    /// The proved library, with a least weight of 1 more on the first line in hundredths.
    fn unit_matters_to_lines(sheet: &[u64], results: &mut [u64]) -> Reply {
        let reply = (Library::PROVED.weigh)(sheet, results);
        if reply.number == 0 && in_hundredths(sheet) {
            results[LineWord::LeastWeight as usize] += 1;
        }
        reply
    }

    /// The proved library, with 13 at the place that it has in a sheet of the fewest facts.
    fn thin_as_before(sheet: &[u64], results: &mut [u64]) -> Reply {
        let mut reply = (Library::PROVED.weigh)(sheet, results);
        if reply.number == refusal::THIN {
            reply.place -= sheet[Layout::FACTS_COUNT] - FEWEST_FACTS;
        }
        reply
    }

    /// The proved library, which accepts in hundredths what it refuses by 13 in percent.
    fn thin_accepted(sheet: &[u64], results: &mut [u64]) -> Reply {
        let reply = (Library::PROVED.weigh)(sheet, results);
        match reply.number == refusal::THIN && in_hundredths(sheet) {
            true => Reply::accepting(0, 0),
            false => reply,
        }
    }

    /// The proved library, with weighted exposure of 1 more in hundredths.
    fn sums_in_unit(sheet: &[u64], block: u64) -> BlockReply {
        let mut reply = (Library::PROVED.block_sums)(sheet, block);
        reply.sums[SumWord::KnownWeightedExposure as usize] += u64::from(in_hundredths(sheet));
        reply
    }

    /// The proved library, with a change of what it wrote from a sheet in this unit, given reply and output.
    fn rewritten(
        of: u64,
        sheet: &[u64],
        output: &mut [u64],
        change: fn(&mut ConversionReply, &mut [u64]),
    ) -> ConversionReply {
        let mut reply = (Library::PROVED.convert)(sheet, output);
        if reply.number == 0 && in_hundredths(sheet) == (of == unit::HUNDREDTHS) {
            change(&mut reply, output);
        }
        reply
    }

    /// The parts in which the first sheets differ, for this library.
    fn parts(library: Library) -> BTreeSet<String> {
        let mut lent = Lent::default();
        let cases = (0..2_000).map(|index| Case::new(5, index));
        let differences = cases.filter_map(|case| compare(&library, &case, &mut lent).err());
        differences.map(|difference| difference.part.to_string()).collect()
    }

    /// A library for which the unit matters to the answer, to a line or to the place of 13, or which accepts in one unit
    /// what it refuses in the other, is found out; the proved one is not.
    #[test]
    fn answers_in_both_units_are_compared() {
        let other_unit = BTreeSet::from([Part::OtherUnit.to_string()]);
        for weigh in [unit_matters, unit_matters_to_lines, thin_as_before, thin_accepted] {
            let library = Library {
                weigh,
                ..Library::PROVED
            };
            assert_eq!(parts(library), other_unit);
        }
        assert_eq!(parts(Library::PROVED), BTreeSet::new());
    }

    /// A library for which the unit matters to sums is found out.
    #[test]
    fn sums_in_both_units_are_compared() {
        let library = Library {
            block_sums: sums_in_unit,
            ..Library::PROVED
        };
        assert_eq!(parts(library), BTreeSet::from([Part::SumsInOtherUnit.to_string()]));
    }

    /// A library that writes another word, refuses or counts other words in the second conversion, or in the first, is
    /// found out.
    #[test]
    fn second_conversions_are_compared() {
        let refuses: Convert = |sheet, output| {
            rewritten(unit::HUNDREDTHS, sheet, output, |reply, _| {
                *reply = ConversionReply::refusing(refusal::NOT_WHOLE_PERCENT, 0)
            })
        };
        let other_word: Convert = |sheet, output| {
            rewritten(unit::HUNDREDTHS, sheet, output, |_, output| {
                output[output.len() - 1] += 1
            })
        };
        for convert in [refuses, other_word] {
            let library = Library {
                convert,
                ..Library::PROVED
            };
            let met = parts(library);
            assert!(met.contains(&Part::ConvertedTwice.to_string()), "{met:?}");
        }
        let fewer: Convert = |sheet, output| rewritten(unit::PERCENT, sheet, output, |reply, _| reply.count -= 1);
        let library = Library {
            convert: fewer,
            ..Library::PROVED
        };
        assert!(parts(library).contains(&Part::Count.to_string()));
    }
}
