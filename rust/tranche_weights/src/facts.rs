//! The facts of a deal (document 01, "The deal sheet"; document 02, S-3 and S-5).

use crate::date::Date;
use crate::pool_kind::PoolKind;

/// What is said of the deal as a whole: nothing at first, and then what each `with_…` says.
///
/// That a deal is STC or a re-securitisation is said where its sheet is started, by
/// [`SheetBuilder`](crate::SheetBuilder). The unit of the risk weights follows from the rows.
///
/// ```
/// use tranche_weights::Facts;
///
/// let facts = Facts::new().with_due_diligence_held(true);
/// assert!(facts.due_diligence_held && !facts.pool_composition_known);
/// ```
#[derive(Debug, Clone, Copy, Default, PartialEq, Eq, Hash)]
#[non_exhaustive]
pub struct Facts {
    /// The pool kind, with the figures of the IRB section where it has one.
    pub pool_kind: PoolKind,
    /// Due diligence is held. Without it every tranche gets the fallback of 1250%.
    pub due_diligence_held: bool,
    /// The pool's composition is known. Without it no tranche gets the cap of the senior class, the average risk weight
    /// of the pool or, under SEC-IRBA, its IRB average weight.
    pub pool_composition_known: bool,
    /// The reporting date. With it the maturity of every tranche is a date, and without it a number of months.
    pub reporting_date: Option<Date>,
}

impl Facts {
    /// The pool is under the standardised approach, no due diligence is held, the pool's composition is not known, and
    /// there is no reporting date.
    pub const fn new() -> Facts {
        Facts {
            pool_kind: PoolKind::Sa,
            due_diligence_held: false,
            pool_composition_known: false,
            reporting_date: None,
        }
    }

    /// The same facts, with this pool kind.
    #[must_use]
    pub const fn with_pool_kind(self, kind: PoolKind) -> Facts {
        Facts {
            pool_kind: kind,
            ..self
        }
    }

    /// The same facts, with due diligence held or not.
    #[must_use]
    pub const fn with_due_diligence_held(self, held: bool) -> Facts {
        Facts {
            due_diligence_held: held,
            ..self
        }
    }

    /// The same facts, with the pool's composition known or not.
    #[must_use]
    pub const fn with_pool_composition_known(self, known: bool) -> Facts {
        Facts {
            pool_composition_known: known,
            ..self
        }
    }

    /// The same facts, with a reporting date or without one.
    ///
    /// With one, each tranche is made by [`Tranche::maturing_on`](crate::Tranche::maturing_on).
    #[must_use]
    pub const fn with_reporting_date(self, date: Option<Date>) -> Facts {
        Facts {
            reporting_date: date,
            ..self
        }
    }
}
