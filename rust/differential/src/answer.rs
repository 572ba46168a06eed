//! The numbers of an answer, by "The deal sheet" and "Refusals, by who can cause them" of document 01, by S-1, S-3, S-5
//! to S-7 and S-9: the words of a line, the words of a block's sums, the approaches, the refusals.

use crate::sheet::TRANCHES;
use independent::{BlockSums, Totals};

/// The words of a line, by their places.
#[derive(Debug, Clone, Copy, PartialEq, Eq)]
pub enum LineWord {
    /// The approach's word.
    Approach,
    /// A.
    Attachment,
    /// D.
    Detachment,
    /// The weight.
    Weight,
    /// The risk-weighted amount.
    RiskWeighted,
    /// The capital.
    Capital,
    /// The least weight.
    LeastWeight,
}

impl LineWord {
    /// Its name.
    pub const fn name(self) -> &'static str {
        match self {
            LineWord::Approach => "approach",
            LineWord::Attachment => "attachment point",
            LineWord::Detachment => "detachment point",
            LineWord::Weight => "weight",
            LineWord::RiskWeighted => "risk-weighted amount",
            LineWord::Capital => "capital",
            LineWord::LeastWeight => "least weight",
        }
    }
}

/// Result words for each tranche.
pub const LINE_WORDS: usize = LineWord::LeastWeight as usize + 1;
/// Result words for the most tranches.
pub const MOST_RESULTS: usize = LINE_WORDS * TRANCHES as usize;

/// The words of a block's sums, by their places.
#[derive(Debug, Clone, Copy, PartialEq, Eq)]
pub enum SumWord {
    /// Exposure over all rows.
    Exposure,
    /// Nominal over all rows.
    Nominal,
    /// Exposure times risk weight, in hundredths of a percent, over all rows.
    WeightedExposure,
    /// Exposure over the rows with known status.
    KnownExposure,
    /// Nominal over the rows with known status.
    KnownNominal,
    /// The same over the rows with known status.
    KnownWeightedExposure,
    /// Nominal over the delinquent rows.
    LateNominal,
}

impl SumWord {
    /// All words with their names, in the order of the enum.
    pub const TABLE: [(SumWord, &'static str); 7] = [
        (SumWord::Exposure, "exposure"),
        (SumWord::Nominal, "nominal"),
        (SumWord::WeightedExposure, "weighted exposure"),
        (SumWord::KnownExposure, "known exposure"),
        (SumWord::KnownNominal, "known nominal"),
        (SumWord::KnownWeightedExposure, "known weighted exposure"),
        (SumWord::LateNominal, "late nominal"),
    ];

    /// Its name.
    pub const fn name(self) -> &'static str {
        SumWord::TABLE[self as usize].1
    }
}

/// The words of a block's sums.
pub const SUM_WORDS: usize = SumWord::TABLE.len();

/// The words of independent sums, in their order.
pub fn sum_words(sums: &BlockSums) -> [u64; SUM_WORDS] {
    let of = |totals: &Totals| [totals.exposure, totals.nominal, totals.weighted_exposure];
    let ([exposure, nominal, weighted], [known_exposure, known_nominal, known_weighted]) =
        (of(&sums.all), of(&sums.known));
    [
        exposure,
        nominal,
        weighted,
        known_exposure,
        known_nominal,
        known_weighted,
        sums.late_nominal,
    ]
}

/// The approaches, by their words.
#[derive(Debug, Clone, Copy, PartialEq, Eq)]
pub enum Approach {
    /// The fallback of 1250%.
    Fallback,
    /// The rating table.
    SecErba,
    /// The formula.
    SecSa,
    /// The formula with charge and parameter of the IRB section.
    SecIrba,
}

impl Approach {
    /// All approaches with their names, in the order of the enum.
    pub const TABLE: &'static [(Approach, &'static str)] = &[
        (Approach::Fallback, "fallback"),
        (Approach::SecErba, "SEC-ERBA"),
        (Approach::SecSa, "SEC-SA"),
        (Approach::SecIrba, "SEC-IRBA"),
    ];

    /// The word that a line has for the approach.
    pub const fn word(self) -> u64 {
        self as u64
    }
}

/// The refusals, by number.
pub mod refusal {
    /// A needed word is missing.
    pub const MISSING: u64 = 1;
    /// A count is outside its limits.
    pub const COUNT: u64 = 2;
    /// Words follow the last section.
    pub const WORDS_FOLLOW: u64 = 3;
    /// A fact is outside its codes.
    pub const FACT: u64 = 4;
    /// A pool amount is outside its limits.
    pub const POOL_AMOUNT: u64 = 5;
    /// A risk weight is above the limit of its unit.
    pub const RISK_WEIGHT: u64 = 6;
    /// A status is none that a row of the deal can have.
    pub const STATUS: u64 = 7;
    /// A tranche amount is outside its limits, or the amount held above it.
    pub const TRANCHE_AMOUNT: u64 = 8;
    /// A class is out of order.
    pub const CLASS: u64 = 9;
    /// A maturity is outside its months.
    pub const MATURITY: u64 = 10;
    /// A rating code is not listed.
    pub const RATING: u64 = 11;
    /// The formula applies, A equals D, and D is above the charge.
    pub const THIN: u64 = 13;
    /// Results shorter than the lines, or an output shorter than the rewritten sheet.
    pub const ROOM: u64 = 14;
    /// A file's length is no multiple of a word's bytes, or above the longest.
    pub const FILE_LENGTH: u64 = 15;
    /// An STC mark on a re-securitisation.
    pub const STC_RESECURITISATION: u64 = 16;
    /// A date does not exist or is outside the years, or a maturity is not after the reporting date.
    pub const DATE: u64 = 17;
    /// A figure of the IRB section is outside its limits.
    pub const IRB_FIGURE: u64 = 18;
    /// A risk weight that is to be written in whole percent is no multiple of it.
    pub const NOT_WHOLE_PERCENT: u64 = 19;

    /// The numbers that a run must meet.
    pub const MET: &[u64] = &[
        MISSING,
        COUNT,
        WORDS_FOLLOW,
        FACT,
        POOL_AMOUNT,
        RISK_WEIGHT,
        STATUS,
        TRANCHE_AMOUNT,
        CLASS,
        MATURITY,
        RATING,
        THIN,
        ROOM,
        FILE_LENGTH,
        STC_RESECURITISATION,
        DATE,
        IRB_FIGURE,
        NOT_WHOLE_PERCENT,
    ];

    /// The place of a number in the list.
    pub fn place(number: u64) -> usize {
        let place = MET.iter().position(|&met| met == number);
        place.unwrap_or_else(|| panic!("refusal {number} is not in the list of those that a run meets"))
    }

    /// Whether a sheet's words alone, or the deal that they state, are refused by this number: neither the room nor the
    /// length of a file, and not the conversion.
    pub fn is_of_words(number: u64) -> bool {
        MET.contains(&number) && ![ROOM, FILE_LENGTH, NOT_WHOLE_PERCENT].contains(&number)
    }
}

#[cfg(test)]
mod tests {
    use super::*;

    /// The word of an approach is its place in the enum, and so is the place of a sum, so the tables must follow them.
    #[test]
    fn tables_follow_the_enums() {
        assert!((0..)
            .zip(Approach::TABLE)
            .all(|(place, entry)| entry.0 as usize == place));
        assert!((0..)
            .zip(SumWord::TABLE)
            .all(|(place, entry)| entry.0 as usize == place));
    }

    /// Sums have the order of S-7.
    #[test]
    fn sums_stand_in_their_order() {
        let [all, known] = [1, 4].map(|first| Totals {
            exposure: first,
            nominal: first + 1,
            weighted_exposure: first + 2,
        });
        let sums = BlockSums {
            all,
            known,
            late_nominal: 7,
        };
        assert_eq!(sum_words(&sums), [1, 2, 3, 4, 5, 6, 7]);
    }

    /// The approaches have the words of document 01 and S-5.
    #[test]
    fn words_are_those_of_the_paper() {
        let words = [
            Approach::Fallback,
            Approach::SecErba,
            Approach::SecSa,
            Approach::SecIrba,
        ];
        assert_eq!(words.map(Approach::word), [0, 1, 2, 3]);
    }

    /// Each number that a run must meet is in the list once, and 0, which accepts, is not.
    #[test]
    fn numbers_are_listed_once() {
        assert!(refusal::MET.is_sorted_by(|one, next| one < next));
        assert!((0..)
            .zip(refusal::MET)
            .all(|(place, &number)| refusal::place(number) == place));
        let of_words = [refusal::MISSING, refusal::THIN, refusal::DATE];
        assert!(!refusal::is_of_words(0) && of_words.into_iter().all(refusal::is_of_words));
        let others = [refusal::ROOM, refusal::FILE_LENGTH, refusal::NOT_WHOLE_PERCENT];
        assert!(!others.into_iter().any(refusal::is_of_words));
    }
}
