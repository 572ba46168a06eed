//! What a run must meet on some amendment that is accepted (S-10): the words of its row, which row it is, and the row
//! that it takes the place of.

use crate::amended_feature::Step;
use crate::seen::DealKind;
use crate::sheet::{
    status, unit, RowWord, BLOCK_ROWS, ONE_PERCENT, POOL_AMOUNT, RISK_WEIGHT, RISK_WEIGHT_PERCENT, ROWS,
};

/// What must be met on some amendment that is accepted.
#[derive(Debug, Clone, Copy, PartialEq, Eq)]
pub enum AmendmentFeature {
    /// A word of the row is this amount.
    Amount(RowWord, u64),
    /// The risk weight is this word, in a sheet of this unit.
    Weight(u64, u64),
    /// The risk weight is no whole percent.
    PartPercent,
    /// This status, in a deal of this kind.
    Status(DealKind, u64),
    /// A status in place of another.
    StatusChange(u64, u64),
    /// A delinquent row in place of one of another nominal amount.
    LateNominal,
    /// An unknown row in place of one of another exposure.
    UnknownExposure,
    /// The only row.
    OnlyRow,
    /// The first of several rows.
    FirstRow,
    /// The last of several rows.
    LastRow,
    /// The row of this number, where more follow.
    Row(u64),
    /// The last row of a full pool.
    LastOfMost,
}

impl AmendmentFeature {
    /// All features with their names.
    pub(crate) const TABLE: [(AmendmentFeature, &'static str); 31] = [
        (AmendmentFeature::Amount(RowWord::Exposure, 1), "amendment: exposure 1"),
        (
            AmendmentFeature::Amount(RowWord::Exposure, POOL_AMOUNT),
            "amendment: highest exposure",
        ),
        (AmendmentFeature::Amount(RowWord::Nominal, 1), "amendment: nominal 1"),
        (
            AmendmentFeature::Amount(RowWord::Nominal, POOL_AMOUNT),
            "amendment: highest nominal",
        ),
        (
            AmendmentFeature::Weight(unit::PERCENT, 0),
            "amendment: percent, weight 0",
        ),
        (
            AmendmentFeature::Weight(unit::PERCENT, RISK_WEIGHT_PERCENT),
            "amendment: percent, weight 1,250",
        ),
        (
            AmendmentFeature::Weight(unit::HUNDREDTHS, 0),
            "amendment: hundredths, weight 0",
        ),
        (
            AmendmentFeature::Weight(unit::HUNDREDTHS, RISK_WEIGHT),
            "amendment: hundredths, weight 125,000",
        ),
        (AmendmentFeature::PartPercent, "amendment: weight of no whole percent"),
        (
            AmendmentFeature::Status(DealKind::Ordinary, status::PAYING),
            "amendment: ordinary, status 0",
        ),
        (
            AmendmentFeature::Status(DealKind::Ordinary, status::DELINQUENT),
            "amendment: ordinary, status 1",
        ),
        (
            AmendmentFeature::Status(DealKind::Ordinary, status::NOT_KNOWN),
            "amendment: ordinary, status 2",
        ),
        (
            AmendmentFeature::Status(DealKind::Stc, status::PAYING),
            "amendment: STC, status 0",
        ),
        (
            AmendmentFeature::Status(DealKind::Stc, status::DELINQUENT),
            "amendment: STC, status 1",
        ),
        (
            AmendmentFeature::Status(DealKind::Stc, status::NOT_KNOWN),
            "amendment: STC, status 2",
        ),
        (
            AmendmentFeature::Status(DealKind::Resecuritisation, status::TRANCHE),
            "amendment: re-securitisation, status 3",
        ),
        (
            change(status::PAYING, status::DELINQUENT),
            "amendment: paying to delinquent",
        ),
        (
            change(status::PAYING, status::NOT_KNOWN),
            "amendment: paying to not known",
        ),
        (
            change(status::DELINQUENT, status::PAYING),
            "amendment: delinquent to paying",
        ),
        (
            change(status::DELINQUENT, status::NOT_KNOWN),
            "amendment: delinquent to not known",
        ),
        (
            change(status::NOT_KNOWN, status::PAYING),
            "amendment: not known to paying",
        ),
        (
            change(status::NOT_KNOWN, status::DELINQUENT),
            "amendment: not known to delinquent",
        ),
        (AmendmentFeature::LateNominal, "amendment: nominal of a delinquent row"),
        (
            AmendmentFeature::UnknownExposure,
            "amendment: exposure of an unknown row",
        ),
        (AmendmentFeature::OnlyRow, "amendment: only row"),
        (AmendmentFeature::FirstRow, "amendment: first row"),
        (AmendmentFeature::LastRow, "amendment: last row"),
        (AmendmentFeature::Row(2), "amendment: second row"),
        (AmendmentFeature::Row(BLOCK_ROWS), "amendment: row 50"),
        (AmendmentFeature::Row(BLOCK_ROWS + 1), "amendment: row 51"),
        (AmendmentFeature::LastOfMost, "amendment: row 1,000"),
    ];

    /// Whether a step shows the feature.
    pub(crate) fn shown(self, step: &Step) -> bool {
        let Some((number, old, new)) = step.rows() else {
            return false;
        };
        let rows = step.layout.rows as u64;
        let [of_old, of_new] = [old, new].map(|row| move |word: RowWord| row[word as usize]);
        let [from, to] = [of_old(RowWord::Status), of_new(RowWord::Status)];
        let weight = of_new(RowWord::RiskWeight);
        let other = |word| of_old(word) != of_new(word);
        match self {
            AmendmentFeature::Amount(of, amount) => of_new(of) == amount,
            AmendmentFeature::Weight(unit, word) => (step.unit, weight) == (unit, word),
            AmendmentFeature::PartPercent => step.unit == unit::HUNDREDTHS && !weight.is_multiple_of(ONE_PERCENT),
            AmendmentFeature::Status(kind, code) => (step.kind, to) == (kind, code),
            AmendmentFeature::StatusChange(old, new) => (from, to) == (old, new),
            AmendmentFeature::LateNominal => [from, to] == [status::DELINQUENT; 2] && other(RowWord::Nominal),
            AmendmentFeature::UnknownExposure => [from, to] == [status::NOT_KNOWN; 2] && other(RowWord::Exposure),
            AmendmentFeature::OnlyRow => rows == 1,
            AmendmentFeature::FirstRow => number == 1 && rows > 1,
            AmendmentFeature::LastRow => number == rows && rows > 1,
            AmendmentFeature::Row(of) => number == of && rows > of,
            AmendmentFeature::LastOfMost => number == ROWS,
        }
    }
}

/// The feature of a status in place of another.
const fn change(from: u64, to: u64) -> AmendmentFeature {
    AmendmentFeature::StatusChange(from, to)
}
