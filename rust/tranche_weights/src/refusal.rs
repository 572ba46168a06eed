//! Refusals (document 01, "Refusals, by who can cause them"; document 02, S-1, S-3, S-5, S-8 and S-9).

use std::error::Error;
use std::fmt;

/// Why a sheet is refused: one case for each refusal number; 12 is no longer given.
#[derive(Debug, Clone, Copy, PartialEq, Eq, Hash)]
#[non_exhaustive]
pub enum Reason {
    /// 1: the sheet ends before a word that it needs; the place is the sheet's length.
    MissingWord,
    /// 2: a count is outside its limits.
    Count,
    /// 3: words follow the last section; the place of the first.
    WordsFollow,
    /// 4: a fact is none of its codes.
    Fact,
    /// 5: an exposure or nominal amount outside 1 to 10^10.
    PoolAmount,
    /// 6: a risk weight above 1250%, in the sheet's unit.
    RiskWeight,
    /// 7: a status that the deal can't have.
    Status,
    /// 8: a tranche amount outside 1 to 10^13, or more held than the amount.
    TrancheAmount,
    /// 9: a class out of order.
    Class,
    /// 10: a maturity outside 1 to 1200 months.
    Maturity,
    /// 11: a rating code that is not listed.
    Rating,
    /// 13: a tranche under the formula (by SEC-SA an unrated one that finds no rating to take, or any in a
    /// re-securitisation; by SEC-IRBA any) whose attachment and detachment points are equal, above the pool charge; the
    /// place of its amount.
    ThinTranche,
    /// 14: fewer words lent than the tranches' lines, or the converted sheet, take; place 0.
    Room,
    /// 15: a file's length is no multiple of [`BYTES_PER_WORD`](crate::BYTES_PER_WORD), or above
    /// [`FILE_BYTES`](crate::FILE_BYTES); place 0.
    FileLength,
    /// 16: an STC mark on a re-securitisation.
    StcMark,
    /// 17: with a reporting date: a date that does not exist or lies outside the years 2000 to 2199, or a maturity not
    /// after the reporting date.
    Date,
    /// 18: a figure of the IRB section is outside its limits.
    IrbFigure,
    /// 19: in a conversion to whole percent, a risk weight that is no multiple of 100 hundredths; the first such.
    NotWholePercent,
    /// A number that is not listed. The library never gives one; one would mean that another archive was linked in its
    /// place. The number is kept here, so that nothing false is said of it.
    Unlisted(u64),
}

impl Reason {
    /// The refusal's number.
    pub const fn number(self) -> u64 {
        match self {
            Reason::MissingWord => 1,
            Reason::Count => 2,
            Reason::WordsFollow => 3,
            Reason::Fact => 4,
            Reason::PoolAmount => 5,
            Reason::RiskWeight => 6,
            Reason::Status => 7,
            Reason::TrancheAmount => 8,
            Reason::Class => 9,
            Reason::Maturity => 10,
            Reason::Rating => 11,
            Reason::ThinTranche => 13,
            Reason::Room => 14,
            Reason::FileLength => 15,
            Reason::StcMark => 16,
            Reason::Date => 17,
            Reason::IrbFigure => 18,
            Reason::NotWholePercent => 19,
            Reason::Unlisted(number) => number,
        }
    }
}

impl fmt::Display for Reason {
    /// Says what is wrong.
    fn fmt(&self, f: &mut fmt::Formatter<'_>) -> fmt::Result {
        let listed = LISTED.iter().find(|(reason, _)| reason == self);
        f.pad(listed.map_or(UNLISTED, |(_, wrong)| *wrong))
    }
}

/// Every listed reason with what is wrong, in the words of the repository's README ("Refusals"), by number.
const LISTED: &[(Reason, &str)] = &[
    (Reason::MissingWord, "the sheet ends too early; the place is its length"),
    (
        Reason::Count,
        "a count is outside its limits: 4 to 7 facts, 1 to 1,000 pool rows, 1 to 32 tranches, \
         1 for the IRB section",
    ),
    (
        Reason::WordsFollow,
        "words follow the last section; the place of the first",
    ),
    (Reason::Fact, "a fact is none of its codes"),
    (Reason::PoolAmount, "an exposure or nominal amount is 0 or above 10^10"),
    (Reason::RiskWeight, "a risk weight is above 1250%, in the sheet's unit"),
    (Reason::Status, "a status that the deal can't have"),
    (
        Reason::TrancheAmount,
        "a tranche amount is 0 or above 10^13, or more is held than there is",
    ),
    (Reason::Class, "a class out of order"),
    (Reason::Maturity, "a maturity outside 1 to 1200 months"),
    (Reason::Rating, "a rating that is not in the list"),
    (
        Reason::ThinTranche,
        "a tranche under the formula (by SEC-SA an unrated one that finds no rating to take, or any in a \
         re-securitisation; by SEC-IRBA any) whose class is so thin that its attachment and detachment points are \
         equal, above the pool charge; the place of its amount",
    ),
    (
        Reason::Room,
        "the calling program lent too few words for the lines or for the converted sheet; place 0",
    ),
    (
        Reason::FileLength,
        "the file's length is no multiple of 8, or above 33,928 bytes; place 0",
    ),
    (Reason::StcMark, "an STC mark on a re-securitisation"),
    (
        Reason::Date,
        "with a reporting date: a date that does not exist or lies outside the years 2000 to 2199, or a maturity not \
         after the reporting date",
    ),
    (Reason::IrbFigure, "a figure of the IRB section is outside its limits"),
    (
        Reason::NotWholePercent,
        "in a conversion to whole percent: a risk weight that is no multiple of 100 hundredths",
    ),
];

/// What is wrong where the number is not listed.
const UNLISTED: &str = "a number that is not listed; another archive is linked in the library's place";

/// A refusal: its number, its place in the sheet, counted in words from 0, and its reason.
///
/// It prints as the report does, and then says what is wrong:
/// `refused 6 at 8: a risk weight is above 1250%, in the sheet's unit`.
#[derive(Debug, Clone, Copy, PartialEq, Eq, Hash)]
pub struct Refusal {
    number: u64,
    place: u64,
}

impl Refusal {
    /// The refusal with a number and a place as the library gives them.
    pub(crate) const fn new(number: u64, place: u64) -> Refusal {
        Refusal { number, place }
    }

    /// The refusal's number, as [`Reason`] lists them.
    pub const fn number(&self) -> u64 {
        self.number
    }

    /// The place of the first word that is wrong, counted from 0. Where [`Reason`] names another place for the number,
    /// it is that one.
    pub const fn place(&self) -> u64 {
        self.place
    }

    /// The reason that the number stands for. A number that is not listed gives [`Reason::Unlisted`].
    pub fn reason(&self) -> Reason {
        let listed = LISTED.iter().find(|(reason, _)| reason.number() == self.number);
        listed.map_or(Reason::Unlisted(self.number), |(reason, _)| *reason)
    }
}

impl fmt::Display for Refusal {
    /// Prints number and place as the report does, then what is wrong.
    fn fmt(&self, f: &mut fmt::Formatter<'_>) -> fmt::Result {
        write!(f, "refused {} at {}: {}", self.number, self.place, self.reason())
    }
}

impl Error for Refusal {}

#[cfg(test)]
mod tests {
    use super::{Reason, Refusal, LISTED};
    use crate::limits::{
        BYTES_PER_WORD, FEWEST_FACTS, FILE_BYTES, HUNDREDTHS_PER_PERCENT, MONTHS, MOST_FACTS, MOST_ROWS, MOST_TRANCHES,
        POOL_AMOUNT, RISK_WEIGHT_PERCENT, TRANCHE_AMOUNT, YEARS,
    };

    /// The repository's README.
    const README: &str = include_str!(concat!(env!("CARGO_MANIFEST_DIR"), "/../../README.md"));

    /// The README's table of refusals: of each line that begins with a number, that number and the second column.
    fn readme_table() -> Vec<(u64, &'static str)> {
        let (_, after) = README
            .split_once("\n## Refusals\n")
            .expect("the README has a section on refusals");
        let section = after.split_once("\n## ").map_or(after, |(section, _)| section);
        let entry = |line: &'static str| {
            let mut columns = line.strip_prefix("| ")?.split(" | ");
            Some((columns.next()?.parse().ok()?, columns.next()?))
        };
        section.lines().filter_map(entry).collect()
    }

    /// The README's table has just these numbers, each with just this text.
    #[test]
    fn the_readme_says_the_same() {
        let listed = LISTED.iter().map(|(reason, wrong)| (reason.number(), *wrong));
        assert_eq!(readme_table(), listed.collect::<Vec<_>>());
    }

    /// A number with a comma between thousands.
    fn grouped(number: usize) -> String {
        format!("{},{:03}", number / 1000, number % 1000)
    }

    /// The power of ten that a limit is, as a text writes it.
    fn power(limit: u64) -> String {
        let exponent = limit.ilog10();
        assert_eq!(limit, 10u64.pow(exponent));
        format!("10^{exponent}")
    }

    /// A text that names limits names those of the crate.
    #[test]
    fn texts_name_the_limits() {
        let (pool, tranche) = (power(POOL_AMOUNT.1), power(TRANCHE_AMOUNT.1));
        let ((shortest, longest), (first, last)) = (MONTHS, YEARS);
        let (rows, bytes) = (grouped(MOST_ROWS), grouped(FILE_BYTES));
        let facts = format!("{FEWEST_FACTS} to {MOST_FACTS} facts");
        let counts = format!("{facts}, 1 to {rows} pool rows, 1 to {MOST_TRANCHES} tranches, 1 for the IRB section");
        let parts = [
            (Reason::Count, counts),
            (Reason::PoolAmount, format!("above {pool}")),
            (Reason::RiskWeight, format!("above {}%", RISK_WEIGHT_PERCENT.1)),
            (Reason::TrancheAmount, format!("above {tranche}, ")),
            (Reason::Maturity, format!("outside {shortest} to {longest} months")),
            (
                Reason::FileLength,
                format!("multiple of {BYTES_PER_WORD}, or above {bytes} bytes; "),
            ),
            (Reason::Date, format!("outside the years {first} to {last}, ")),
            (
                Reason::NotWholePercent,
                format!("multiple of {HUNDREDTHS_PER_PERCENT} hundredths"),
            ),
        ];
        for (reason, part) in parts {
            assert!(reason.to_string().contains(&part), "{reason}: {part}");
        }
    }

    /// The refusal number that is no longer given.
    const GONE: u64 = 12;

    /// The list has the numbers from 1 on in order, but the one that is gone, and each gives its own reason.
    #[test]
    fn the_list_has_each_number_once() {
        let numbers = (1..).filter(|number| *number != GONE);
        for ((reason, wrong), number) in LISTED.iter().zip(numbers) {
            assert_eq!(reason.number(), number);
            assert_eq!(Refusal::new(number, 0).reason(), *reason);
            assert_eq!(reason.to_string(), *wrong);
        }
    }

    /// A number that is not listed is kept and said to be none that is.
    #[test]
    fn an_unlisted_number_is_kept() {
        let highest = LISTED.iter().map(|(reason, _)| reason.number()).fold(0, u64::max);
        for number in [0, GONE, highest + 1, u64::MAX] {
            let refusal = Refusal::new(number, 3);
            assert_eq!(refusal.reason(), Reason::Unlisted(number));
            assert_eq!(refusal.reason().number(), number);
            assert!(refusal
                .to_string()
                .starts_with(&format!("refused {number} at 3: a number that is not listed; ")));
        }
    }
}
