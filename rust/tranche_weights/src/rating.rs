//! The ratings of a tranche (document 01, "The rating table").

use std::fmt;

use crate::sheet_error::SheetError;

/// A long-term grade. The list is whole: it has all grades of the standard's rating tables.
#[derive(Debug, Clone, Copy, PartialEq, Eq, Hash)]
pub enum LongTerm {
    /// AAA.
    Aaa = 1,
    /// AA+.
    AaPlus = 2,
    /// AA.
    Aa = 3,
    /// AA-.
    AaMinus = 4,
    /// A+.
    APlus = 5,
    /// A.
    A = 6,
    /// A-.
    AMinus = 7,
    /// BBB+.
    BbbPlus = 8,
    /// BBB.
    Bbb = 9,
    /// BBB-.
    BbbMinus = 10,
    /// BB+.
    BbPlus = 11,
    /// BB.
    Bb = 12,
    /// BB-.
    BbMinus = 13,
    /// B+.
    BPlus = 14,
    /// B.
    B = 15,
    /// B-.
    BMinus = 16,
    /// CCC+, CCC or CCC-.
    Ccc = 17,
    /// Below CCC-.
    BelowCccMinus = 18,
}

/// The long-term grades with their names, by rating code from 1.
const LONG_TERM: [(LongTerm, &str); 18] = [
    (LongTerm::Aaa, "AAA"),
    (LongTerm::AaPlus, "AA+"),
    (LongTerm::Aa, "AA"),
    (LongTerm::AaMinus, "AA-"),
    (LongTerm::APlus, "A+"),
    (LongTerm::A, "A"),
    (LongTerm::AMinus, "A-"),
    (LongTerm::BbbPlus, "BBB+"),
    (LongTerm::Bbb, "BBB"),
    (LongTerm::BbbMinus, "BBB-"),
    (LongTerm::BbPlus, "BB+"),
    (LongTerm::Bb, "BB"),
    (LongTerm::BbMinus, "BB-"),
    (LongTerm::BPlus, "B+"),
    (LongTerm::B, "B"),
    (LongTerm::BMinus, "B-"),
    (LongTerm::Ccc, "CCC+ to CCC-"),
    (LongTerm::BelowCccMinus, "below CCC-"),
];

/// A short-term grade. The list is whole, as that of [`LongTerm`] is.
#[derive(Debug, Clone, Copy, PartialEq, Eq, Hash)]
pub enum ShortTerm {
    /// A-1/P-1.
    First = 21,
    /// A-2/P-2.
    Second = 22,
    /// A-3/P-3.
    Third = 23,
    /// All other short-term ratings.
    Other = 24,
}

/// The short-term grades with their names, by rating code from 21.
const SHORT_TERM: [(ShortTerm, &str); 4] = [
    (ShortTerm::First, "A-1/P-1"),
    (ShortTerm::Second, "A-2/P-2"),
    (ShortTerm::Third, "A-3/P-3"),
    (ShortTerm::Other, "all other short-term ratings"),
];

impl fmt::Display for LongTerm {
    /// Prints the grade as the agencies name it.
    fn fmt(&self, f: &mut fmt::Formatter<'_>) -> fmt::Result {
        f.pad(LONG_TERM[*self as usize - 1].1)
    }
}

impl fmt::Display for ShortTerm {
    /// Prints the grade as the agencies name it.
    fn fmt(&self, f: &mut fmt::Formatter<'_>) -> fmt::Result {
        f.pad(SHORT_TERM[*self as usize - 21].1)
    }
}

/// A rating of a tranche.
///
/// ```
/// use tranche_weights::{LongTerm, Rating, SheetError};
///
/// let rating = Rating::try_from(9)?;
/// assert_eq!(rating, LongTerm::Bbb.into());
/// assert_eq!((rating.code(), rating.to_string()), (9, "BBB".to_string()));
/// # Ok::<(), SheetError>(())
/// ```
#[derive(Debug, Clone, Copy, PartialEq, Eq, Hash)]
#[non_exhaustive]
pub enum Rating {
    /// A long-term rating.
    LongTerm(LongTerm),
    /// A short-term rating.
    ShortTerm(ShortTerm),
}

impl Rating {
    /// The rating code, as it stands in the sheet: 1 (AAA) to 18 (below CCC-) for the long-term grades in their order,
    /// 21 (A-1/P-1) to 24 (all others) for the short-term ones.
    pub const fn code(self) -> u64 {
        match self {
            Rating::LongTerm(grade) => grade as u64,
            Rating::ShortTerm(grade) => grade as u64,
        }
    }
}

impl TryFrom<u64> for Rating {
    type Error = SheetError;

    /// The rating of a code; any number that is no code is the error. Code 0 stands in a sheet for no rating, and is
    /// none.
    fn try_from(code: u64) -> Result<Rating, SheetError> {
        match code {
            1..=18 => Ok(LONG_TERM[code as usize - 1].0.into()),
            21..=24 => Ok(SHORT_TERM[code as usize - 21].0.into()),
            _ => Err(SheetError::Rating(code)),
        }
    }
}

impl From<Rating> for u64 {
    /// The rating code, as it stands in the sheet.
    fn from(rating: Rating) -> u64 {
        rating.code()
    }
}

impl From<LongTerm> for Rating {
    /// The long-term rating of that grade.
    fn from(grade: LongTerm) -> Rating {
        Rating::LongTerm(grade)
    }
}

impl From<ShortTerm> for Rating {
    /// The short-term rating of that grade.
    fn from(grade: ShortTerm) -> Rating {
        Rating::ShortTerm(grade)
    }
}

impl fmt::Display for Rating {
    /// Prints the grade as the agencies name it.
    fn fmt(&self, f: &mut fmt::Formatter<'_>) -> fmt::Result {
        match self {
            Rating::LongTerm(grade) => grade.fmt(f),
            Rating::ShortTerm(grade) => grade.fmt(f),
        }
    }
}

#[cfg(test)]
mod tests {
    use super::{LONG_TERM, SHORT_TERM};

    /// Grades are found by their codes, so each table must follow them.
    #[test]
    fn tables_follow_the_codes() {
        assert!((1..).zip(LONG_TERM).all(|(code, (grade, _))| grade as u64 == code));
        assert!((21..).zip(SHORT_TERM).all(|(code, (grade, _))| grade as u64 == code));
    }
}
