//! What a run must meet on some amendment that is refused (S-10): each limit of its words, and the order of judgement.

use crate::amended_feature::Step;
use crate::amendment::AMENDMENT_WORDS;
use crate::answer::refusal;
use crate::seen::DealKind;
use crate::sheet::{status, unit, RowWord, POOL_AMOUNT, RISK_WEIGHT, RISK_WEIGHT_PERCENT, ROWS};
use independent::Refusal;

/// The place of the row's number in an amendment.
const NUMBER: usize = 0;
/// The place of a word of the row in an amendment.
const fn of_row(word: RowWord) -> usize {
    1 + word as usize
}

/// What must be met on some amendment that is refused for a word.
#[derive(Debug, Clone, Copy, PartialEq, Eq)]
pub enum AmendmentRefusal {
    /// By 2 for the row number 0.
    NumberZero,
    /// By 2 for the number after the last row's.
    NumberAfterLast,
    /// By 2 for the number after the last row's of a full pool.
    NumberAfterMost,
    /// By 2 for a number that is a row's where it is cut to 32 bits.
    NumberAbove32Bits,
    /// By 5 for this amount.
    Amount(RowWord, u64),
    /// By 6 for this risk weight in a sheet of this unit.
    Weight(u64, u64),
    /// By 7 for this status in a deal of this kind.
    Status(DealKind, u64),
    /// For any word, after an amendment that changed the sheet.
    AfterAmended,
    /// For any word, twice running.
    AfterRefused,
    /// For any word, where the lines are refused by 13.
    Thin,
}

impl AmendmentRefusal {
    /// All features with their names.
    pub(crate) const TABLE: [(AmendmentRefusal, &'static str); 23] = [
        (AmendmentRefusal::NumberZero, "amendment: refusal 2 for row 0"),
        (
            AmendmentRefusal::NumberAfterLast,
            "amendment: refusal 2 after the last row",
        ),
        (AmendmentRefusal::NumberAfterMost, "amendment: refusal 2 for row 1,001"),
        (
            AmendmentRefusal::NumberAbove32Bits,
            "amendment: refusal 2 above 32 bits",
        ),
        (amount(RowWord::Exposure, 0), "amendment: refusal 5 for exposure 0"),
        (
            amount(RowWord::Exposure, POOL_AMOUNT + 1),
            "amendment: refusal 5, exposure above",
        ),
        (amount(RowWord::Nominal, 0), "amendment: refusal 5 for nominal 0"),
        (
            amount(RowWord::Nominal, POOL_AMOUNT + 1),
            "amendment: refusal 5, nominal above",
        ),
        (
            AmendmentRefusal::Weight(unit::PERCENT, RISK_WEIGHT_PERCENT + 1),
            "amendment: refusal 6, percent, 1,251",
        ),
        (
            AmendmentRefusal::Weight(unit::PERCENT, RISK_WEIGHT),
            "amendment: refusal 6, percent, 125,000",
        ),
        (
            AmendmentRefusal::Weight(unit::HUNDREDTHS, RISK_WEIGHT + 1),
            "amendment: refusal 6, hundredths, 125,001",
        ),
        (ordinary(status::TRANCHE), "amendment: refusal 7, ordinary, 3"),
        (ordinary(status::TRANCHE + 1), "amendment: refusal 7, ordinary, 4"),
        (stc(status::TRANCHE), "amendment: refusal 7, STC, 3"),
        (stc(status::TRANCHE + 1), "amendment: refusal 7, STC, 4"),
        (
            resecuritisation(status::PAYING),
            "amendment: refusal 7, re-securitisation, 0",
        ),
        (
            resecuritisation(status::DELINQUENT),
            "amendment: refusal 7, re-securitisation, 1",
        ),
        (
            resecuritisation(status::NOT_KNOWN),
            "amendment: refusal 7, re-securitisation, 2",
        ),
        (
            resecuritisation(status::TRANCHE + 1),
            "amendment: refusal 7, re-securitisation, 4",
        ),
        (
            resecuritisation(status::TRANCHE + 2),
            "amendment: refusal 7, re-securitisation, 5",
        ),
        (AmendmentRefusal::AfterAmended, "amendment: refused after a change"),
        (AmendmentRefusal::AfterRefused, "amendment: refused twice running"),
        (AmendmentRefusal::Thin, "amendment: refused, 13 of the lines"),
    ];

    /// Whether a step shows the feature.
    pub(crate) fn shown(self, step: &Step) -> bool {
        let Some(Refusal { number, place }) = step.refused() else {
            return false;
        };
        let word = step.amendment.get(place as usize).copied();
        let rows = step.layout.rows as u64;
        let at = |due, at: usize, meant| (number, place as usize, word) == (due, at, Some(meant));
        match self {
            AmendmentRefusal::NumberZero => at(refusal::COUNT, NUMBER, 0),
            AmendmentRefusal::NumberAfterLast => at(refusal::COUNT, NUMBER, rows + 1),
            AmendmentRefusal::NumberAfterMost => at(refusal::COUNT, NUMBER, ROWS + 1) && rows == ROWS,
            AmendmentRefusal::NumberAbove32Bits => {
                let cut = word.filter(|&word| word > rows).map(|word| u64::from(word as u32));
                number == refusal::COUNT && cut.is_some_and(|cut| (1..=rows).contains(&cut))
            }
            AmendmentRefusal::Amount(of, word) => at(refusal::POOL_AMOUNT, of_row(of), word),
            AmendmentRefusal::Weight(unit, word) => {
                at(refusal::RISK_WEIGHT, of_row(RowWord::RiskWeight), word) && step.unit == unit
            }
            AmendmentRefusal::Status(kind, word) => {
                at(refusal::STATUS, of_row(RowWord::Status), word) && step.kind == kind
            }
            AmendmentRefusal::AfterAmended => step.before().pool.words() != step.opened().pool.words(),
            AmendmentRefusal::AfterRefused => step.before().refused.is_some(),
            AmendmentRefusal::Thin => step.is_thin(step.before()),
        }
    }
}

/// The feature of a bad amount.
const fn amount(of: RowWord, word: u64) -> AmendmentRefusal {
    AmendmentRefusal::Amount(of, word)
}

/// The feature of a bad status in an ordinary deal without the mark.
const fn ordinary(word: u64) -> AmendmentRefusal {
    AmendmentRefusal::Status(DealKind::Ordinary, word)
}

/// The feature of a bad status in an STC deal.
const fn stc(word: u64) -> AmendmentRefusal {
    AmendmentRefusal::Status(DealKind::Stc, word)
}

/// The feature of a bad status in a re-securitisation.
const fn resecuritisation(word: u64) -> AmendmentRefusal {
    AmendmentRefusal::Status(DealKind::Resecuritisation, word)
}

/// What must be met on some amendment that is refused for its length, or for a word beside another fault.
#[derive(Debug, Clone, Copy, PartialEq, Eq)]
pub enum AmendmentOrder {
    /// By 1, of so many good words.
    Missing(usize),
    /// By 3 for one word.
    OneFollows,
    /// By 3 for more than one.
    MoreFollow,
    /// For a word at this place, where a later one is missing.
    BadBeforeMissing(usize),
    /// For a word at this place, where words follow the last.
    BadBeforeFollowing(usize),
    /// For a word at this place, where the one after it is bad as well.
    BadBeforeBad(usize),
}

impl AmendmentOrder {
    /// All features with their names.
    pub(crate) const TABLE: [(AmendmentOrder, &'static str); 20] = [
        (AmendmentOrder::Missing(0), "amendment: refusal 1 at 0"),
        (AmendmentOrder::Missing(1), "amendment: refusal 1 at 1"),
        (AmendmentOrder::Missing(2), "amendment: refusal 1 at 2"),
        (AmendmentOrder::Missing(3), "amendment: refusal 1 at 3"),
        (AmendmentOrder::Missing(4), "amendment: refusal 1 at 4"),
        (AmendmentOrder::OneFollows, "amendment: refusal 3 for one word"),
        (AmendmentOrder::MoreFollow, "amendment: refusal 3 for more words"),
        (
            AmendmentOrder::BadBeforeMissing(0),
            "amendment: bad word 0 before a missing one",
        ),
        (
            AmendmentOrder::BadBeforeMissing(1),
            "amendment: bad word 1 before a missing one",
        ),
        (
            AmendmentOrder::BadBeforeMissing(2),
            "amendment: bad word 2 before a missing one",
        ),
        (
            AmendmentOrder::BadBeforeMissing(3),
            "amendment: bad word 3 before a missing one",
        ),
        (
            AmendmentOrder::BadBeforeFollowing(0),
            "amendment: bad word 0 before a sixth",
        ),
        (
            AmendmentOrder::BadBeforeFollowing(1),
            "amendment: bad word 1 before a sixth",
        ),
        (
            AmendmentOrder::BadBeforeFollowing(2),
            "amendment: bad word 2 before a sixth",
        ),
        (
            AmendmentOrder::BadBeforeFollowing(3),
            "amendment: bad word 3 before a sixth",
        ),
        (
            AmendmentOrder::BadBeforeFollowing(4),
            "amendment: bad word 4 before a sixth",
        ),
        (AmendmentOrder::BadBeforeBad(0), "amendment: bad words 0 and 1"),
        (AmendmentOrder::BadBeforeBad(1), "amendment: bad words 1 and 2"),
        (AmendmentOrder::BadBeforeBad(2), "amendment: bad words 2 and 3"),
        (AmendmentOrder::BadBeforeBad(3), "amendment: bad words 3 and 4"),
    ];

    /// Whether a step shows the feature.
    pub(crate) fn shown(self, step: &Step) -> bool {
        let Some(Refusal { number, place }) = step.refused() else {
            return false;
        };
        let length = step.amendment.len();
        let of_word = ![refusal::MISSING, refusal::WORDS_FOLLOW].contains(&number);
        let bad_at = |at: usize| of_word && place as usize == at;
        match self {
            AmendmentOrder::Missing(at) => (number, place) == (refusal::MISSING, at as u64),
            AmendmentOrder::OneFollows => number == refusal::WORDS_FOLLOW && length == AMENDMENT_WORDS + 1,
            AmendmentOrder::MoreFollow => number == refusal::WORDS_FOLLOW && length > AMENDMENT_WORDS + 1,
            AmendmentOrder::BadBeforeMissing(at) => bad_at(at) && length < AMENDMENT_WORDS,
            AmendmentOrder::BadBeforeFollowing(at) => bad_at(at) && length > AMENDMENT_WORDS,
            AmendmentOrder::BadBeforeBad(at) => bad_at(at) && step.is_bad(at + 1),
        }
    }
}
