//! What is answered to a sheet: a weighed deal, the sums of a block of its pool, or a refusal. The converter's answer
//! is the words it writes, or a refusal.

/// A refusal: its number and its place, as listed under "Refusals, by who can cause them".
#[derive(Debug, Clone, Copy, PartialEq, Eq)]
pub struct Refusal {
    pub number: u64,
    pub place: u64,
}

/// A weighed deal: the pool charge in millionths, and one line per tranche in the order of the sheet.
#[derive(Debug, Clone, PartialEq, Eq)]
pub struct Deal {
    pub charge: u64,
    pub lines: Vec<Line>,
}

/// One tranche's line. Approach is 0 for the fallback, 1 for SEC-ERBA, 2 for SEC-SA, 3 for SEC-IRBA. Attachment and
/// detachment are A and D in millionths. `amounts` lists every triple that the papers admit, in rising order of
/// weight: one triple, or two where two raw weights pass and still differ after floor and cap. `least_weights` lists
/// every least weight that S-6 admits, in rising order: one, or two where two numbers pass and still differ after floor
/// and cap. Each triple may stand with each least weight, and none of these is above its weight.
#[derive(Debug, Clone, PartialEq, Eq)]
pub struct Line {
    pub approach: u64,
    pub attachment: u64,
    pub detachment: u64,
    pub amounts: Vec<Amounts>,
    pub least_weights: Vec<u64>,
}

/// The weight in hundredths of a percent, and the two amounts that follow from it and the amount held.
#[derive(Debug, Clone, Copy, PartialEq, Eq)]
pub struct Amounts {
    pub weight: u64,
    pub risk_weighted: u64,
    pub capital: u64,
}

/// The seven sums of S-7 over some rows of a pool: three over all of them, the same three over those with known status,
/// and the nominal amounts of the delinquent ones.
#[derive(Debug, Clone, Copy, Default, PartialEq, Eq)]
pub struct BlockSums {
    pub all: Totals,
    pub known: Totals,
    pub late_nominal: u64,
}

/// Sums over some rows: exposure, nominal, and exposure times risk weight in hundredths of a percent, whatever the unit
/// of the sheet.
#[derive(Debug, Clone, Copy, Default, PartialEq, Eq)]
pub struct Totals {
    pub exposure: u64,
    pub nominal: u64,
    pub weighted_exposure: u64,
}
