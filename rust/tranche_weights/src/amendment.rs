//! An amendment of a pool (document 02, S-10).

use crate::amendment_error::AmendmentError;
use crate::limits::AMENDMENT_WORDS;
use crate::pool::{Row, Status, SECURITISATION_TRANCHE};
use crate::risk_weight::Unit;

/// A row that is to stand in place of another in an opened pool, with that row's number. [`OpenedPool`] has an example.
///
/// Rows are counted from 1 in the order of the sheet, and keep their numbers.
///
/// [`OpenedPool`]: crate::OpenedPool
#[derive(Debug, Clone, Copy, PartialEq, Eq, Hash)]
pub struct Amendment {
    number: u64,
    row: Row,
    status: u64,
}

impl Amendment {
    /// The amendment of an ordinary pool, STC or not: this row, with its status, in place of the row of this number.
    pub const fn ordinary(number: u64, row: Row, status: Status) -> Amendment {
        Amendment {
            number,
            row,
            status: status as u64,
        }
    }

    /// The amendment of a re-securitisation: this row, a securitisation tranche, in place of the row of this number.
    pub const fn resecuritisation(number: u64, row: Row) -> Amendment {
        Amendment {
            number,
            row,
            status: SECURITISATION_TRANCHE,
        }
    }

    /// The words of the amendment for a sheet of this unit. A weight that the unit can't say is an error.
    pub(crate) const fn words(&self, unit: Unit) -> Result<[u64; AMENDMENT_WORDS], AmendmentError> {
        let weight = self.row.risk_weight;
        if matches!(unit, Unit::WholePercent) && !weight.is_whole_percent() {
            return Err(AmendmentError::NotWholePercent(weight));
        }
        let [exposure, nominal, weight, status] = self.row.words(unit, self.status);
        Ok([self.number, exposure, nominal, weight, status])
    }
}
