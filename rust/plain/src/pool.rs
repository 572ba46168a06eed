//! "Points and pool charge": the sums over the rows, and the charge and the cap that follow from them.

use crate::limits::{ROW_WORDS, SUM_WORDS};

/// The status codes of a row.
pub mod status {
    /// Pays.
    pub const PAYING: u64 = 0;
    /// Delinquent.
    pub const DELINQUENT: u64 = 1;
    /// Not known.
    pub const NOT_KNOWN: u64 = 2;
    /// A securitisation tranche.
    pub const TRANCHE: u64 = 3;
}

/// One row of the pool.
pub struct Row {
    pub exposure: u64,
    pub nominal: u64,
    /// In the unit of the sheet, or in hundredths of a percent.
    pub risk_weight: u64,
    pub status: u64,
}

impl Row {
    /// The row with its risk weight in hundredths of a percent, of which the unit that it is in is so many.
    pub fn in_hundredths(self, unit: u64) -> Row {
        Row {
            risk_weight: self.risk_weight * unit,
            ..self
        }
    }
}

impl From<&[u64; ROW_WORDS]> for Row {
    /// Names the words of a row.
    fn from(&[exposure, nominal, risk_weight, status]: &[u64; ROW_WORDS]) -> Self {
        Row {
            exposure,
            nominal,
            risk_weight,
            status,
        }
    }
}

/// Sums over a set of rows. The largest, 1,000 rows of 10^10 at 1250%, fits a word.
#[derive(Clone, Copy, Default)]
struct Sums {
    exposure: u64,
    nominal: u64,
    /// Exposure times risk weight: in the unit of the sheet while rows are added, then in hundredths of a percent.
    weighted: u64,
}

impl Sums {
    /// Adds one row.
    fn add(&mut self, row: &Row) {
        self.exposure += row.exposure;
        self.nominal += row.nominal;
        self.weighted += row.exposure * row.risk_weight;
    }

    /// Takes one row of them out again.
    fn remove(&mut self, row: &Row) {
        self.exposure -= row.exposure;
        self.nominal -= row.nominal;
        self.weighted -= row.exposure * row.risk_weight;
    }

    /// Adds the sums over other rows.
    fn add_sums(&mut self, others: &Sums) {
        self.exposure += others.exposure;
        self.nominal += others.nominal;
        self.weighted += others.weighted;
    }

    /// The sums over the rows that are not among the others.
    fn less(&self, others: &Sums) -> Sums {
        Sums {
            exposure: self.exposure - others.exposure,
            nominal: self.nominal - others.nominal,
            weighted: self.weighted - others.weighted,
        }
    }

    /// The three sums in the order of S-7.
    fn words(&self) -> [u64; 3] {
        [self.exposure, self.nominal, self.weighted]
    }

    /// The base charge of the rows, in millionths.
    fn base(&self) -> f64 {
        (8.0 * self.weighted as f64 / self.exposure as f64).ceil()
    }
}

/// Sums over all rows, over the rows of unknown status, and the nominal amount of the delinquent ones.
#[derive(Clone, Copy, Default)]
pub struct Pool {
    all: Sums,
    unknown: Sums,
    late: u64,
}

impl Pool {
    /// Adds a row to the sums that it belongs to.
    pub fn add(&mut self, row: &Row) {
        self.all.add(row);
        match row.status {
            status::DELINQUENT => self.late += row.nominal,
            status::NOT_KNOWN => self.unknown.add(row),
            _ => {}
        }
    }

    /// Takes a row out of the sums that it belongs to. Its risk weight is in the unit that these are in.
    pub fn remove(&mut self, row: &Row) {
        self.all.remove(row);
        match row.status {
            status::DELINQUENT => self.late -= row.nominal,
            status::NOT_KNOWN => self.unknown.remove(row),
            _ => {}
        }
    }

    /// The seven sums of S-7: exposure, nominal and weighted exposure over all rows, the same over the rows with known
    /// status, and late nominal.
    pub fn sums(&self) -> [u64; SUM_WORDS] {
        let [exposure, nominal, weighted] = self.all.words();
        let [known_exposure, known_nominal, known_weighted] = self.all.less(&self.unknown).words();
        [
            exposure,
            nominal,
            weighted,
            known_exposure,
            known_nominal,
            known_weighted,
            self.late,
        ]
    }

    /// Adds the sums of a block of rows.
    pub fn add_block(&mut self, block: &Pool) {
        self.all.add_sums(&block.all);
        self.unknown.add_sums(&block.unknown);
        self.late += block.late;
    }

    /// Brings the weighted sums to hundredths of a percent, of which the unit of the risk weights is so many.
    pub fn scale_weighted(&mut self, unit: u64) {
        self.all.weighted *= unit;
        self.unknown.weighted *= unit;
    }

    /// N, the sum of nominal amounts.
    pub fn nominal(&self) -> u64 {
        self.all.nominal
    }

    /// The base charge over all rows, in millionths.
    pub fn base(&self) -> f64 {
        self.all.base()
    }

    /// The pool charge in millionths; none where more than 5% of all exposure has no known status.
    pub fn charge(&self) -> Option<f64> {
        if 20 * self.unknown.exposure > self.all.exposure {
            return None;
        }
        let known = self.all.less(&self.unknown);
        let late = (self.late as f64 * 1e6 / known.nominal as f64).ceil();
        let charge = (((1e6 - late) * known.base() + 500_000.0 * late) / 1e6).ceil();
        if self.unknown.exposure == 0 {
            return Some(charge);
        }
        let unknown = self.unknown.exposure as f64 * 1e6;
        Some(((known.exposure as f64 * charge + unknown) / self.all.exposure as f64).ceil())
    }

    /// The senior cap: the mean risk weight of all rows, in hundredths of a percent.
    pub fn cap(&self) -> f64 {
        (self.all.weighted as f64 / self.all.exposure as f64).ceil()
    }
}
