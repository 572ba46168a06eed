//! Refusals of an amendment (document 02, S-10). They have the numbers of a sheet's refusals, but their places are in the
//! words of the amendment, and 1, 2 and 3 say something else there; so they have a type of their own.

use std::error::Error;
use std::fmt;

use crate::refusal::Reason;

/// Why an amendment is refused: one case for each refusal number that an amendment can get.
#[derive(Debug, Clone, Copy, PartialEq, Eq, Hash)]
#[non_exhaustive]
pub enum AmendmentReason {
    /// 1: fewer words than [`AMENDMENT_WORDS`](crate::AMENDMENT_WORDS); the place is the amendment's length.
    MissingWord,
    /// 2: the pool has no row of this number; place 0.
    RowNumber,
    /// 3: more words than [`AMENDMENT_WORDS`](crate::AMENDMENT_WORDS); the place of the first beyond them.
    WordsFollow,
    /// 5: an exposure or nominal amount outside 1 to 10^10.
    PoolAmount,
    /// 6: a risk weight above 1250%, in the sheet's unit.
    RiskWeight,
    /// 7: a status that the deal can't have.
    Status,
    /// A number that is not listed. The library never gives one; one would mean that another archive was linked in its
    /// place. The number is kept here, so that nothing false is said of it.
    Unlisted(u64),
}

impl AmendmentReason {
    /// The refusal's number.
    pub const fn number(self) -> u64 {
        match self {
            AmendmentReason::MissingWord => 1,
            AmendmentReason::RowNumber => 2,
            AmendmentReason::WordsFollow => 3,
            AmendmentReason::PoolAmount => 5,
            AmendmentReason::RiskWeight => 6,
            AmendmentReason::Status => 7,
            AmendmentReason::Unlisted(number) => number,
        }
    }

    /// The reason that a number stands for.
    const fn of(number: u64) -> AmendmentReason {
        match number {
            1 => AmendmentReason::MissingWord,
            2 => AmendmentReason::RowNumber,
            3 => AmendmentReason::WordsFollow,
            5 => AmendmentReason::PoolAmount,
            6 => AmendmentReason::RiskWeight,
            7 => AmendmentReason::Status,
            _ => AmendmentReason::Unlisted(number),
        }
    }
}

impl fmt::Display for AmendmentReason {
    /// Says what is wrong; of a row's words, as for a sheet.
    fn fmt(&self, f: &mut fmt::Formatter<'_>) -> fmt::Result {
        match *self {
            AmendmentReason::MissingWord => {
                f.pad("the amendment ends before its fifth word; the place is the number of its words")
            }
            AmendmentReason::RowNumber => f.pad("the pool has no row of this number; rows are counted from 1"),
            AmendmentReason::WordsFollow => f.pad("words follow the fifth of the amendment; the place of the first"),
            AmendmentReason::PoolAmount => Reason::PoolAmount.fmt(f),
            AmendmentReason::RiskWeight => Reason::RiskWeight.fmt(f),
            AmendmentReason::Status => Reason::Status.fmt(f),
            AmendmentReason::Unlisted(number) => Reason::Unlisted(number).fmt(f),
        }
    }
}

/// The refusal of an amendment: its number, its place in the words of the amendment, counted from 0, and its reason.
///
/// It prints `amendment refused 2 at 0: the pool has no row of this number; rows are counted from 1`.
#[derive(Debug, Clone, Copy, PartialEq, Eq, Hash)]
pub struct AmendmentRefusal {
    number: u64,
    place: u64,
}

impl AmendmentRefusal {
    /// The refusal with a number and a place as the library gives them.
    pub(crate) const fn new(number: u64, place: u64) -> AmendmentRefusal {
        AmendmentRefusal { number, place }
    }

    /// The refusal's number, as [`AmendmentReason`] lists them.
    pub const fn number(&self) -> u64 {
        self.number
    }

    /// The place of the first word that is wrong, missing or one too many, counted from 0 in the words of the amendment:
    /// the row's number, exposure amount, nominal amount, risk weight, status.
    pub const fn place(&self) -> u64 {
        self.place
    }

    /// The reason that the number stands for. A number that is not listed gives [`AmendmentReason::Unlisted`].
    pub const fn reason(&self) -> AmendmentReason {
        AmendmentReason::of(self.number)
    }
}

impl fmt::Display for AmendmentRefusal {
    /// Prints number and place, then what is wrong.
    fn fmt(&self, f: &mut fmt::Formatter<'_>) -> fmt::Result {
        let AmendmentRefusal { number, place } = self;
        write!(f, "amendment refused {number} at {place}: {}", self.reason())
    }
}

impl Error for AmendmentRefusal {}

#[cfg(test)]
mod tests {
    use super::{AmendmentReason, AmendmentRefusal};

    /// Each listed number gives its own reason, and every other one is kept and said to be none that is listed.
    #[test]
    fn each_number_has_its_reason() {
        for number in (0..30).chain([u64::MAX]) {
            let refusal = AmendmentRefusal::new(number, 4);
            assert_eq!(refusal.reason().number(), number);
            let listed = [1, 2, 3, 5, 6, 7].contains(&number);
            assert_eq!(
                refusal.reason() != AmendmentReason::Unlisted(number),
                listed,
                "{number}"
            );
            let unlisted = format!("amendment refused {number} at 4: a number that is not listed; ");
            assert_eq!(!refusal.to_string().starts_with(&unlisted), listed, "{refusal}");
        }
    }
}
