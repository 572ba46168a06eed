//! All comparisons of one sheet.

use crate::amended;
use crate::blocks;
use crate::case::Case;
use crate::conversion;
use crate::conversion_law;
use crate::difference::{Asked, Difference, Part};
use crate::kind::{Amendments, File, Relation};
use crate::lent::Lent;
use crate::library::Library;
use crate::opening;
use crate::second;
use crate::tally::Tally;
use crate::text;
use crate::words;
use independent::{Deal, Refusal};

/// Compares all that is compared of one sheet and notes what was met.
pub fn check(library: &Library, case: &Case, lent: &mut Lent, tally: &mut Tally) -> Result<(), Difference> {
    let expected = independent::weigh(&case.sheet, case.room as u64);
    let said = lent.lend(case.room, |results| (library.weigh)(&case.sheet, results));
    words::compare(&expected, &said, lent)?;
    tally.note(case, &expected, lent);
    if case.file_kind != File::Unused {
        check_file(library, case, lent, tally).map_err(|difference| difference.of(Asked::File))?;
    }
    check_second(library, case, &expected, lent, tally)?;
    let blocks = blocks::compare(library.block_sums, case)?;
    tally.note_blocks(&case.sheet, &expected, &blocks);
    let conversions = conversion::compare(library.convert, case, lent)?;
    conversion_law::compare(library, case, lent)?;
    tally.note_conversions(case, &expected, &conversions);
    check_opened(library, case, &expected, tally)
}

/// Compares the opening of the sheet's pool, and its amendments where there are some.
fn check_opened(
    library: &Library,
    case: &Case,
    expected: &Result<Deal, Refusal>,
    tally: &mut Tally,
) -> Result<(), Difference> {
    let opening = opening::compare(library, case)?;
    tally.amended.note_opening(case, expected, &opening);
    if case.list != Amendments::Unused {
        let stages = amended::compare(library, case)?;
        tally.amended.note_stages(case, &stages);
    }
    Ok(())
}

/// Compares the answer to the sheet's file, with the room of the sheet, and the report on it.
fn check_file(library: &Library, case: &Case, lent: &mut Lent, tally: &mut Tally) -> Result<(), Difference> {
    let expected = independent::weigh_file(&case.file, case.room as u64);
    let said = lent.lend(case.room, |results| (library.weigh_file)(&case.file, results));
    words::compare(&expected, &said, lent)?;
    text::compare(library.report, &case.file)?;
    tally.note_file(&case.file, &expected);
    Ok(())
}

/// Compares the second sheet with the first.
fn check_second(
    library: &Library,
    case: &Case,
    expected: &Result<Deal, Refusal>,
    lent: &mut Lent,
    tally: &mut Tally,
) -> Result<(), Difference> {
    let compared = match case.relation {
        Relation::Unused => true,
        Relation::RowOrder => second::compare_same(Part::RowOrder, library, case, lent).map(|()| true)?,
        Relation::RatingOrder => second::compare_same(Part::RatingOrder, library, case, lent).map(|()| true)?,
        Relation::OtherRatings | Relation::SeniorRatings => {
            let rerated = second::compare_other_ratings(library, case, lent)?;
            rerated.is_some_and(|rerated| {
                tally.note_law(&rerated);
                true
            })
        }
        Relation::WithoutCap => expected.as_ref().is_ok_and(|deal| {
            if second::cap_decided(deal, case) {
                tally.note_cap(&case.sheet, deal);
            }
            true
        }),
        Relation::FactsAdded => {
            second::compare_moved(Part::FactsAdded, library, case, &case.second, lent).map(|()| true)?
        }
        Relation::MonthsForDates => second::compare_same(Part::MonthsForDates, library, case, lent).map(|()| true)?,
        Relation::SaPool => second::compare_same(Part::SaPool, library, case, lent).map(|()| true)?,
        Relation::OtherUnderIrba => second::compare_same(Part::OtherUnderIrba, library, case, lent).map(|()| true)?,
    };
    if compared {
        tally.note_second(case.relation);
    }
    Ok(())
}
