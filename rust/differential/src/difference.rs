//! What the two sides may differ in, and a difference that was found.

use crate::answer::{LineWord, SumWord};
use std::fmt;

/// The compared part in which the sides differ.
#[derive(Debug, Clone, Copy, PartialEq, Eq)]
pub enum Part {
    /// One side weighs, sums, converts, opens or amends, the other refuses.
    Outcome,
    /// The refusal's number.
    Number,
    /// The refusal's place, or a place above 0 of an accepted sheet.
    Place,
    /// The count of tranches or of words written, or a count above 0 on a refusal.
    Count,
    /// The pool charge, or a charge above 0 on a refusal.
    Charge,
    /// A word of a line.
    Line(LineWord),
    /// A word of a block's sums, also one above 0 on a refusal.
    Sum(SumWord),
    /// A word after the lines was written.
    AfterLines,
    /// A result word was written on a refusal.
    ResultsOnRefusal,
    /// A word of the sheet in the other unit.
    Converted,
    /// A word after the sheet in the other unit was written.
    AfterConverted,
    /// An output word was written on a refusal.
    OutputOnRefusal,
    /// The report's text.
    Text,
    /// The answer changes with the order of the pool's rows.
    RowOrder,
    /// The answer changes with the order of a tranche's ratings.
    RatingOrder,
    /// The answer changes with other tranches' ratings, or a line with those of which it depends on none.
    OtherRatings,
    /// The answer changes with facts of 0 that are stated.
    FactsAdded,
    /// The answer changes where months are stated in place of dates.
    MonthsForDates,
    /// The answer of a deal that is not under SEC-IRBA changes with the IRB section.
    SaPool,
    /// The answer under SEC-IRBA changes with statuses and ratings.
    OtherUnderIrba,
    /// The answer changes with the unit of risk weights.
    OtherUnit,
    /// The sums of a block change with the unit of risk weights.
    SumsInOtherUnit,
    /// The sheet converted twice is not the sheet with all facts stated.
    ConvertedTwice,
    /// A word of the sums was written on a refusal.
    SumsOnRefusal,
    /// How often an opened pool is looked at: once after the opening and after each amendment, or never.
    Steps,
    /// A word of the sheet of an opened pool.
    Sheet,
    /// Whether a sheet and sums are an opened pool.
    IsOpened,
    /// Two amendments of different rows give another pool in the other order.
    AmendmentOrder,
    /// One side stopped with a panic.
    Panic,
}

impl fmt::Display for Part {
    /// Prints the part's name.
    fn fmt(&self, to: &mut fmt::Formatter<'_>) -> fmt::Result {
        to.write_str(match self {
            Part::Outcome => "accepted or refused",
            Part::Number => "refusal number",
            Part::Place => "place",
            Part::Count => "count",
            Part::Charge => "pool charge",
            Part::Line(word) => word.name(),
            Part::Sum(word) => word.name(),
            Part::AfterLines => "a word after the lines was written",
            Part::ResultsOnRefusal => "results were written on a refusal",
            Part::Converted => "converted word",
            Part::AfterConverted => "a word after the converted sheet was written",
            Part::OutputOnRefusal => "output was written on a refusal",
            Part::Text => "report text",
            Part::RowOrder => "order of rows",
            Part::RatingOrder => "order of ratings",
            Part::OtherRatings => "other tranches' ratings",
            Part::FactsAdded => "facts of 0 added",
            Part::MonthsForDates => "months in place of dates",
            Part::SaPool => "an SA pool without the section",
            Part::OtherUnderIrba => "statuses and ratings under SEC-IRBA",
            Part::OtherUnit => "the other unit",
            Part::SumsInOtherUnit => "sums in the other unit",
            Part::ConvertedTwice => "converted twice",
            Part::SumsOnRefusal => "sums were written on a refusal",
            Part::Steps => "steps of an opened pool",
            Part::Sheet => "word of the sheet",
            Part::IsOpened => "an opened pool",
            Part::AmendmentOrder => "order of amendments",
            Part::Panic => "a panic",
        })
    }
}

/// What was asked for.
#[derive(Debug, Clone, Copy, PartialEq, Eq)]
pub enum Asked {
    /// The lines of the sheet's words.
    Words,
    /// The lines of the sheet's file, or its report.
    File,
    /// The sums of the block of this number.
    Block(u64),
    /// The sheet in the other unit, with so many output words.
    Conversion(usize),
    /// The opening of the sheet's pool.
    Opening,
    /// The opened pool after so many amendments, in the answer to the last of them or in what it then is.
    Amendment(usize),
}

impl fmt::Display for Asked {
    /// Prints what was asked for where it is not the sheet's words, after the name of a part.
    fn fmt(&self, to: &mut fmt::Formatter<'_>) -> fmt::Result {
        match self {
            Asked::Words => Ok(()),
            Asked::File => to.write_str(" of the file"),
            Asked::Block(block) => write!(to, " of block {block}"),
            Asked::Conversion(room) => write!(to, " of the conversion to {room} words"),
            Asked::Opening => to.write_str(" of the opening"),
            Asked::Amendment(steps) => write!(to, " after {steps} amendments"),
        }
    }
}

/// A difference between the two sides.
#[derive(Debug, Clone, PartialEq, Eq)]
pub struct Difference {
    /// In which part.
    pub part: Part,
    /// What it should be.
    pub expected: String,
    /// What the compared library said.
    pub said: String,
    /// In the answer to what. Of a panic this is not known, and said to be the sheet's words.
    pub asked: Asked,
}

impl Difference {
    /// A difference in this part.
    pub fn new(part: Part, expected: impl fmt::Debug, said: impl fmt::Debug) -> Difference {
        Difference {
            part,
            expected: format!("{expected:?}"),
            said: format!("{said:?}"),
            asked: Asked::Words,
        }
    }

    /// The same difference, in the answer to this.
    pub fn of(self, asked: Asked) -> Difference {
        Difference { asked, ..self }
    }
}

impl fmt::Display for Difference {
    /// Prints the part, what is due and what was said, on one line.
    fn fmt(&self, to: &mut fmt::Formatter<'_>) -> fmt::Result {
        let Difference {
            part,
            asked,
            expected,
            said,
        } = self;
        write!(to, "{part}{asked}: expected {expected}, said {said}")
    }
}

/// No difference where both are equal, else one in this part.
pub fn same<T: PartialEq + fmt::Debug>(part: Part, expected: T, said: T) -> Result<(), Difference> {
    if expected == said {
        return Ok(());
    }
    Err(Difference::new(part, expected, said))
}
