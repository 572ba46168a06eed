//! What keeps a typed amendment from being made.

use std::error::Error;
use std::fmt;

use crate::amendment_refusal::AmendmentRefusal;
use crate::risk_weight::RiskWeight;

/// Why an [`Amendment`](crate::Amendment) is not made. The pool is then as it was.
#[derive(Debug, Clone, Copy, PartialEq, Eq, Hash)]
#[non_exhaustive]
pub enum AmendmentError {
    /// The risk weight, which is no whole percent, can't stand in the pool's sheet, which is in whole percent.
    ///
    /// [`OpenedPool::in_other_unit`](crate::OpenedPool::in_other_unit) gives the pool in hundredths of a percent, which
    /// takes it.
    NotWholePercent(RiskWeight),
    /// The library refuses the amendment.
    Refused(AmendmentRefusal),
}

impl From<AmendmentRefusal> for AmendmentError {
    /// The error of a refused amendment.
    fn from(refusal: AmendmentRefusal) -> AmendmentError {
        AmendmentError::Refused(refusal)
    }
}

impl fmt::Display for AmendmentError {
    /// Says in one line what is wrong, and of a weight what to do.
    fn fmt(&self, f: &mut fmt::Formatter<'_>) -> fmt::Result {
        match self {
            AmendmentError::NotWholePercent(weight) => write!(
                f,
                "a risk weight of {weight}% can't stand in a sheet in whole percent: convert the sheet to hundredths of a \
                 percent first"
            ),
            AmendmentError::Refused(refusal) => refusal.fmt(f),
        }
    }
}

impl Error for AmendmentError {}
