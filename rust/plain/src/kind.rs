//! "Which approach, then floor, then cap": what hangs on the kind of a deal.

use crate::rating::{self, Table};
use crate::sheet::Facts;

/// What differs between the kinds of deals.
pub struct Kind {
    /// The supervisory parameter p of SEC-SA.
    pub parameter: f64,
    /// The floor of class 1.
    pub senior_floor: f64,
    /// The floor of the classes below.
    pub floor: f64,
    /// The rating table.
    pub table: &'static Table,
}

/// An ordinary securitisation.
static ORDINARY: Kind = Kind {
    parameter: 1.0,
    senior_floor: 1_500.0,
    floor: 1_500.0,
    table: &rating::GENERAL,
};

/// An STC deal.
static STC: Kind = Kind {
    parameter: 0.5,
    senior_floor: 1_000.0,
    floor: 1_500.0,
    table: &rating::STC,
};

/// A re-securitisation. Its ratings are not used.
static RESECURITISATION: Kind = Kind {
    parameter: 1.5,
    senior_floor: 10_000.0,
    floor: 10_000.0,
    table: &rating::GENERAL,
};

impl Kind {
    /// The kind of a deal.
    pub fn of(facts: &Facts) -> &'static Kind {
        if facts.resecuritisation {
            &RESECURITISATION
        } else if facts.stc {
            &STC
        } else {
            &ORDINARY
        }
    }
}
