//! "Which approach, then floor, then cap" and "The formula and its series", tranche by tranche.

use crate::date::Date;
use crate::irba::Parameter;
use crate::kind::Kind;
use crate::limits::{LINE_WORDS, RATINGS, TRANCHE_WORDS};
use crate::points::Points;
use crate::rating::{self, maturity_fifths};
use crate::sheet::{is_rated, ratings_of, Deal, Irb, Tranche};

/// 1250%, in hundredths of a percent.
const FULL: f64 = 125_000.0;

/// The charge that is reported where more than 5% of all exposure has no known status, in millionths.
const UNKNOWN_CHARGE: f64 = 1e6;

/// The approaches with their result words.
#[derive(Clone, Copy, PartialEq)]
pub enum Approach {
    Fallback = 0,
    SecErba = 1,
    SecSa = 2,
    SecIrba = 3,
}

impl Approach {
    /// Whether the weight comes from the formula.
    pub fn by_formula(self) -> bool {
        matches!(self, Approach::SecSa | Approach::SecIrba)
    }
}

impl Deal<'_> {
    /// Which tranches are rated: a bit for each, the lowest for the first.
    fn rated(&self) -> u32 {
        let bits = self.tranches.iter().zip(0..);
        bits.fold(0, |rated, (words, bit)| {
            rated | u32::from(is_rated(ratings_of(words))) << bit
        })
    }

    /// The IRB section of a deal under SEC-IRBA, by the approach of every tranche.
    #[inline(always)]
    fn irb_under(&self, approach: Option<Approach>) -> Option<Irb> {
        self.irb.filter(|_| approach == Some(Approach::SecIrba)).map(Irb::from)
    }

    /// The pool charge K in millionths, with the section where SEC-IRBA holds; none where it is not known. Inlined: apart it
    /// is slower.
    #[inline(always)]
    fn charge_with(&self, irb: Option<&Irb>) -> Option<f64> {
        match irb {
            Some(irb) => Some(irb.mixed_charge(self.pool)),
            None => self.pool.charge(),
        }
    }

    /// The pool charge as it is reported.
    pub fn charge(&self) -> f64 {
        let irb = self.irb_under(self.approach());
        self.charge_with(irb.as_ref()).unwrap_or(UNKNOWN_CHARGE)
    }

    /// The approach of every tranche; none where it depends on the tranche's ratings.
    fn approach(&self) -> Option<Approach> {
        if !self.facts.due_diligence {
            Some(Approach::Fallback)
        } else if self.facts.resecuritisation {
            Some(Approach::SecSa)
        } else if self.irb.is_some_and(|words| Irb::from(words).suffices()) {
            Some(Approach::SecIrba)
        } else {
            None
        }
    }
}

/// What all tranches of a deal share.
pub struct Terms {
    /// The pool charge K as it is reported.
    pub charge: f64,
    charge_known: bool,
    /// The approach of every tranche; none where it depends on the tranche's ratings.
    approach: Option<Approach>,
    /// The rated tranches, a bit for each; none where no approach depends on ratings.
    rated: u32,
    reporting_date: Option<Date>,
    kind: &'static Kind,
    /// The parameter under SEC-IRBA, which takes the place of the kind's.
    irba: Option<Parameter>,
    /// The cap of class 1; infinite where the deal has none.
    senior_cap: f64,
}

impl Terms {
    /// Works out the charge and the cap of a deal, and names its kind.
    pub fn of(deal: &Deal) -> Self {
        let facts = &deal.facts;
        let approach = deal.approach();
        let irb = deal.irb_under(approach);
        let charge = deal.charge_with(irb.as_ref());
        let average = || irb.as_ref().map_or_else(|| deal.pool.cap(), |irb| irb.average as f64);
        let capped = facts.composition_known && !facts.resecuritisation;
        let charge_known = charge.is_some();
        let charge = charge.unwrap_or(UNKNOWN_CHARGE);
        Terms {
            charge,
            charge_known,
            approach,
            rated: if approach.is_none() { deal.rated() } else { 0 },
            reporting_date: facts.reporting_date,
            kind: Kind::of(facts),
            irba: irb.as_ref().map(|irb| Parameter::of(irb, charge, facts.stc)),
            senior_cap: if capped { average() } else { f64::INFINITY },
        }
    }

    /// The ratings that count for a tranche of the deal (S-8): its own, or else those that it finds.
    pub fn ratings<'a>(&self, deal: &Deal<'a>, words: &'a [u64; TRANCHE_WORDS]) -> &'a [u64; RATINGS] {
        let own = ratings_of(words);
        if self.rated == 0 || is_rated(own) {
            return own;
        }
        self.inferred(deal, &words.into()).unwrap_or(own)
    }

    /// The ratings of the first rated row that is of the tranche's class or one below and has no fewer months. Classes never
    /// fall from row to row, so this row is of the most senior class.
    fn inferred<'a>(&self, deal: &Deal<'a>, tranche: &Tranche) -> Option<&'a [u64; RATINGS]> {
        let months = self.months(tranche.maturity);
        let mut left = self.rated;
        while left != 0 {
            let words = &deal.tranches[left.trailing_zeros() as usize];
            let row = Tranche::from(words);
            if row.class >= tranche.class && self.months(row.maturity) >= months {
                return Some(ratings_of(words));
            }
            // Clears the lowest bit, that of this row.
            left &= left - 1;
        }
        None
    }

    /// Which approach a tranche takes by the ratings that count for it.
    pub fn approach(&self, ratings: &[u64; RATINGS]) -> Approach {
        if let Some(approach) = self.approach {
            approach
        } else if is_rated(ratings) {
            Approach::SecErba
        } else if self.charge_known {
            Approach::SecSa
        } else {
            Approach::Fallback
        }
    }

    /// The result words of a tranche with the ratings that count for it.
    pub fn line(&self, tranche: &Tranche, ratings: &[u64; RATINGS], points: &Points) -> [u64; LINE_WORDS] {
        let approach = self.approach(ratings);
        // Floor and cap are whole, so rounding after them gives what rounding before them would.
        let figure = match approach {
            Approach::Fallback => FULL,
            Approach::SecErba => self.limited(tranche, self.rated_figure(tranche, ratings, points)),
            Approach::SecSa => self.limited(tranche, self.formula(self.kind.parameter, points)),
            Approach::SecIrba => self.limited(tranche, self.formula(self.irba_parameter(tranche), points)),
        };
        let weight = figure.ceil();
        // The figure rounded down, without a second rounding.
        let least_weight = weight as u64 - u64::from(figure < weight);
        let weighted = tranche.held as f64 * weight;
        let risk_weighted = (weighted / 1e4).ceil();
        let capital = (weighted * 8.0 / 1e6).ceil();
        [
            approach as u64,
            points.attachment as u64,
            points.detachment as u64,
            weight as u64,
            risk_weighted as u64,
            capital as u64,
            least_weight,
        ]
    }

    /// A figure raised to the floor of its class, then lowered to the cap of class 1.
    fn limited(&self, tranche: &Tranche, figure: f64) -> f64 {
        if tranche.class == 1 {
            figure.max(self.kind.senior_floor).min(self.senior_cap)
        } else {
            figure.max(self.kind.floor)
        }
    }

    /// The figure by the ratings that are present: of three the middle one, of fewer the highest.
    fn rated_figure(&self, tranche: &Tranche, ratings: &[u64; RATINGS], points: &Points) -> f64 {
        let months = self.months(tranche.maturity);
        let mut figures = [0.0; RATINGS];
        let mut count = 0;
        for &code in ratings.iter().filter(|&&code| code != 0) {
            figures[count] = rating::figure(self.kind.table, code, tranche.class == 1, months, points);
            count += 1;
        }
        let [first, second, third] = figures;
        match count {
            RATINGS => first.max(second.min(third)).min(second.max(third)),
            _ => first.max(second),
        }
    }

    /// The months of a maturity.
    fn months(&self, maturity: u64) -> u64 {
        match self.reporting_date {
            Some(reporting_date) => reporting_date.months_to(maturity.into()),
            None => maturity,
        }
    }

    /// The supervisory parameter of a tranche under SEC-IRBA; that of the kind where SEC-IRBA does not apply. Not
    /// inlined: the other approaches need none of it.
    #[inline(never)]
    fn irba_parameter(&self, tranche: &Tranche) -> f64 {
        match &self.irba {
            Some(irba) => irba.at(tranche.class == 1, maturity_fifths(self.months(tranche.maturity))),
            None => self.kind.parameter,
        }
    }

    /// The raw weight of the formula, before it is rounded. With D above K the tranche has a thickness: the other sheets
    /// were refused.
    fn formula(&self, parameter: f64, points: &Points) -> f64 {
        let Points { attachment, detachment } = *points;
        if detachment <= self.charge {
            return FULL;
        }
        if self.charge == 0.0 {
            return 0.0;
        }
        let scale = parameter * self.charge;
        let lower = (attachment - self.charge).max(0.0);
        let upper = detachment - self.charge;
        let full_part = (self.charge - attachment).max(0.0);
        let part = full_part + scale * ((-lower / scale).exp() - (-upper / scale).exp());
        (FULL * part / (detachment - attachment)).min(FULL)
    }
}
