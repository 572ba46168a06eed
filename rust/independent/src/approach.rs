//! "Which approach, then floor, then cap" of document 01, with the STC deals of S-1, SEC-IRBA of S-5, the least weight of
//! S-6 and the deals in which ratings are inferred, by S-8. Weights are in hundredths of a percent.

use crate::answer::{Amounts, Line, Refusal};
use crate::charge::{average_risk_weight_times, pool_charge, to_word, Points};
use crate::formula::{raw_weights, Admitted, Terms, HIGHEST_WEIGHT};
use crate::inferred;
use crate::irba;
use crate::rating::{self, Table};
use crate::sheet::{Facts, Irb, Row, Sheet, Tranche};

/// The number of the refusal of a tranche under the formula with A equal to D, above the charge.
const NO_THICKNESS: u64 = 13;

/// The four approaches, with the numbers that a line reports.
#[derive(Debug, Clone, Copy, PartialEq, Eq)]
pub enum Approach {
    Fallback = 0,
    SecErba = 1,
    SecSa = 2,
    SecIrba = 3,
}

impl Approach {
    /// Whether the weight is that of document 01's formula.
    fn by_formula(self) -> bool {
        matches!(self, Approach::SecSa | Approach::SecIrba)
    }
}

/// What differs between an ordinary securitisation, an STC deal and a re-securitisation. The supervisory parameter of
/// SEC-SA is in millionths. Class 1 has a floor of its own.
struct DealKind {
    parameter: u64,
    senior_floor: u64,
    floor: u64,
}

/// Supervisory parameter 1 and floor 1,500.
const ORDINARY: DealKind = DealKind {
    parameter: 1_000_000,
    senior_floor: 1_500,
    floor: 1_500,
};
/// Supervisory parameter 0.5, floor 1,000 for class 1 and 1,500 below.
const STC: DealKind = DealKind {
    parameter: 500_000,
    senior_floor: 1_000,
    floor: 1_500,
};
/// Supervisory parameter 1.5 and floor 10,000.
const RESECURITISATION: DealKind = DealKind {
    parameter: 1_500_000,
    senior_floor: 10_000,
    floor: 10_000,
};

impl DealKind {
    /// The kind of a deal.
    fn of(facts: &Facts) -> DealKind {
        if facts.resecuritisation {
            RESECURITISATION
        } else if facts.stc {
            STC
        } else {
            ORDINARY
        }
    }

    /// The floor of a class.
    fn floor(&self, class: u64) -> u64 {
        if class == 1 {
            self.senior_floor
        } else {
            self.floor
        }
    }
}

/// The least share of exposure with an IRB charge under SEC-IRBA: 95%.
const IRB_SHARE: u64 = 950_000;

/// The IRB section of a deal under SEC-IRBA; nothing for any other deal. SEC-IRBA holds for all tranches of an ordinary
/// deal with due diligence whose pool is an IRB pool, or a mixed pool with a share of at least 95%. The share of an IRB
/// pool is the whole, so the share alone tells.
pub fn irb_of(sheet: &Sheet) -> Option<&Irb> {
    let ordinary = sheet.facts.due_diligence_held && !sheet.facts.resecuritisation;
    sheet.irb.as_ref().filter(|irb| ordinary && irb.share >= IRB_SHARE)
}

/// The figures that all tranches of a deal share.
pub struct Figures<'a> {
    /// The facts.
    pub facts: &'a Facts,
    /// The IRB section, where SEC-IRBA holds.
    pub irb: Option<&'a Irb>,
    /// The charge: that of S-5 under SEC-IRBA, else document 01's.
    pub charge: u64,
    /// Whether the unknown rows are above 5% of all exposure.
    pub unknown_above_limit: bool,
    /// The figure of the cap: the IRB average under SEC-IRBA, else the pool's.
    pub average_weight: u64,
}

impl<'a> Figures<'a> {
    /// The figures of a sheet's deal.
    pub fn of(sheet: &'a Sheet) -> Figures<'a> {
        let irb = irb_of(sheet);
        let pool = pool_charge(&sheet.pool);
        Figures {
            facts: &sheet.facts,
            irb,
            charge: irb.map_or(pool.charge, |irb| irba::charge(irb, &sheet.pool)),
            unknown_above_limit: pool.unknown_above_limit,
            average_weight: irb.map_or_else(|| average_weight(&sheet.pool), |irb| irb.average),
        }
    }
}

/// The tranche with the ratings that count for it in place of its own, among the tranches of its deal. They are inferred
/// in "an ordinary deal without SEC-IRBA", and in no other. The tranche keeps "its own class, maturity and thickness".
/// Without due diligence the fallback comes before any rating.
pub fn with_ratings_that_count(figures: &Figures, tranches: &[Tranche], tranche: &Tranche) -> Tranche {
    let infers = !figures.facts.resecuritisation && figures.irb.is_none();
    Tranche {
        ratings: match infers {
            true => inferred::ratings_that_count(tranches, tranche),
            false => tranche.ratings,
        },
        ..*tranche
    }
}

/// The approach, by the first of these that holds: no due diligence, fallback; re-securitisation, SEC-SA; SEC-IRBA for
/// the deal, SEC-IRBA; any of the three ratings present, SEC-ERBA; unknown above 5%, fallback; else SEC-SA. The ratings
/// of the tranche are those that count.
pub fn choose(figures: &Figures, tranche: &Tranche) -> Approach {
    if !figures.facts.due_diligence_held {
        Approach::Fallback
    } else if figures.facts.resecuritisation {
        Approach::SecSa
    } else if figures.irb.is_some() {
        Approach::SecIrba
    } else if inferred::is_rated(tranche) {
        Approach::SecErba
    } else if figures.unknown_above_limit {
        Approach::Fallback
    } else {
        Approach::SecSa
    }
}

/// Refusal 13: the formula applies, A equals D, and D is above the charge; place of the tranche amount.
pub fn refuse_no_thickness(approach: Approach, points: &Points, charge: u64, place: u64) -> Result<(), Refusal> {
    let no_thickness = points.attachment == points.detachment;
    if approach.by_formula() && no_thickness && points.detachment > charge {
        return Err(Refusal {
            number: NO_THICKNESS,
            place,
        });
    }
    Ok(())
}

/// The pool's average in the cap: (sum of exposure x risk weight) / (sum of exposure) over all rows, rounded up. Document
/// 01 has 100 times that for weights in whole percent.
fn average_weight(pool: &[Row]) -> u64 {
    to_word(average_risk_weight_times(1, pool))
}

/// The cap, where it applies: to class 1 of a deal with known composition that is no re-securitisation.
fn cap(figures: &Figures, tranche: &Tranche) -> Option<u64> {
    let facts = figures.facts;
    let applies = tranche.class == 1 && !facts.resecuritisation && facts.composition_known;
    applies.then_some(figures.average_weight)
}

/// The supervisory parameter of a tranche, in millionths: S-5's under SEC-IRBA, else that of the deal's kind.
pub fn parameter(figures: &Figures, tranche: &Tranche) -> u64 {
    match figures.irb {
        Some(irb) => irba::Sum::of(irb, figures.charge, tranche).parameter(figures.facts.stc),
        None => DealKind::of(figures.facts).parameter,
    }
}

/// What a number gives that a weight or a least weight of a tranche starts from: raised to the floor of its class, then
/// lowered to the cap.
pub fn limited(figures: &Figures, tranche: &Tranche, raw: u64) -> u64 {
    let floor = DealKind::of(figures.facts).floor(tranche.class);
    floor_then_cap(raw, floor, cap(figures, tranche))
}

/// What the rating table of the deal gives a tranche, before floor and cap.
fn by_table(figures: &Figures, tranche: &Tranche, thickness: u64) -> Admitted {
    let table = Table::of(figures.facts.stc);
    Admitted {
        weights: vec![rating::weight(table, tranche, thickness)],
        least_weights: vec![rating::least_weight(table, tranche, thickness)],
    }
}

/// Raises each of some numbers to the floor, then lowers it to the cap. The numbers rise, and floor and cap keep that
/// order, so equal ones stand side by side then and one of them is dropped.
fn limit_all(figures: &Figures, tranche: &Tranche, numbers: &mut Vec<u64>) {
    for number in numbers.iter_mut() {
        *number = limited(figures, tranche, *number);
    }
    numbers.dedup();
}

/// The weights and least weights that the papers admit. Both are 125,000 under the fallback, without floor and cap. Under
/// the other approaches floor and cap act on each number that the approach admits.
fn admitted(figures: &Figures, tranche: &Tranche, approach: Approach, points: &Points) -> Admitted {
    let &Points { attachment, detachment } = points;
    let mut numbers = match approach {
        Approach::Fallback => return Admitted::both(HIGHEST_WEIGHT),
        Approach::SecErba => by_table(figures, tranche, detachment - attachment),
        Approach::SecSa | Approach::SecIrba => raw_weights(&Terms {
            charge: figures.charge,
            attachment,
            detachment,
            parameter: parameter(figures, tranche),
        }),
    };
    limit_all(figures, tranche, &mut numbers.weights);
    limit_all(figures, tranche, &mut numbers.least_weights);
    numbers
}

/// A tranche's line. Each admitted weight has its own amounts; the least weight has none.
pub fn line(figures: &Figures, tranche: &Tranche, approach: Approach, points: Points) -> Line {
    let Admitted { weights, least_weights } = admitted(figures, tranche, approach, &points);
    let amounts = weights.into_iter().map(|weight| amounts(tranche.held, weight));
    Line {
        approach: approach as u64,
        attachment: points.attachment,
        detachment: points.detachment,
        amounts: amounts.collect(),
        least_weights,
    }
}

/// The weight is raised to the floor, then lowered to the cap, also below the floor.
fn floor_then_cap(weight: u64, floor: u64, cap: Option<u64>) -> u64 {
    let raised = weight.max(floor);
    cap.map_or(raised, |cap| raised.min(cap))
}

/// Risk-weighted amount: held x weight / 10,000, rounded up. Capital: held x weight x 8 / 10^6, rounded up.
fn amounts(held: u64, weight: u64) -> Amounts {
    let product = u128::from(held) * u128::from(weight);
    Amounts {
        weight,
        risk_weighted: to_word(product.div_ceil(10_000)),
        capital: to_word((product * 8).div_ceil(1_000_000)),
    }
}

#[cfg(test)]
mod tests {
    use super::*;
    use crate::sheet::{PoolKind, Status, WeightUnit};

    /// Checked deal: rows (2, 100%) and (1, 50%) have cap 8,334. Unknown rows count in it too.
    #[test]
    fn cap_is_rounded_up_over_all_rows() {
        let row = |exposure, risk_weight, status| Row {
            exposure,
            nominal: 1,
            risk_weight,
            status,
        };
        assert_eq!(
            average_weight(&[row(2, 10_000, Status::Paying), row(1, 5_000, Status::Paying)]),
            8_334
        );
        assert_eq!(
            average_weight(&[row(2, 10_000, Status::Unknown), row(1, 5_000, Status::Delinquent)]),
            8_334
        );
    }

    /// Parts of a percent count in the cap: rows (2, 37.5%) and (1, 0.01%) have an average of 2,500.33 hundredths.
    #[test]
    fn cap_counts_parts_of_a_percent() {
        let row = |exposure, risk_weight| Row {
            exposure,
            nominal: 1,
            risk_weight,
            status: Status::Paying,
        };
        assert_eq!(average_weight(&[row(1, 3_750)]), 3_750);
        assert_eq!(
            [0, 1].map(|part| average_weight(&[row(2, 3_750), row(1, part)])),
            [2_500, 2_501]
        );
    }

    /// The facts of a deal with due diligence and known composition.
    fn facts(resecuritisation: bool, stc: bool) -> Facts {
        Facts {
            pool_kind: PoolKind::Sa,
            resecuritisation,
            due_diligence_held: true,
            composition_known: true,
            stc,
            reporting_date: None,
            weight_unit: WeightUnit::Percent,
        }
    }

    /// Parameter and floors of the three kinds of deals. Class 1 of an STC deal alone has another floor than the classes
    /// below it.
    #[test]
    fn parameters_and_floors() {
        let of = |resecuritisation, stc| {
            let kind = DealKind::of(&facts(resecuritisation, stc));
            (kind.parameter, [1, 2, 32].map(|class| kind.floor(class)))
        };
        assert_eq!(of(false, false), (1_000_000, [1_500, 1_500, 1_500]));
        assert_eq!(of(false, true), (500_000, [1_000, 1_500, 1_500]));
        assert_eq!(of(true, false), (1_500_000, [10_000, 10_000, 10_000]));
    }

    /// Floor first, then cap, also below the floor. Floor after cap would lift the 1,000 to 1,500.
    #[test]
    fn cap_comes_after_floor() {
        assert_eq!(floor_then_cap(0, 1_500, None), 1_500);
        assert_eq!(floor_then_cap(0, 1_500, Some(1_000)), 1_000);
        assert_eq!(floor_then_cap(9_000, 1_500, Some(8_334)), 8_334);
        assert_eq!(floor_then_cap(2_000, 1_500, Some(8_334)), 2_000);
    }

    /// Both amounts are rounded up from the weight, each once.
    #[test]
    fn amounts_are_rounded_up() {
        assert_eq!(
            amounts(800, 2_000),
            Amounts {
                weight: 2_000,
                risk_weighted: 160,
                capital: 13
            }
        );
        assert_eq!(
            amounts(1, 1),
            Amounts {
                weight: 1,
                risk_weighted: 1,
                capital: 1
            }
        );
        assert_eq!(
            amounts(0, 125_000),
            Amounts {
                weight: 125_000,
                risk_weighted: 0,
                capital: 0
            }
        );
    }

    /// A sheet of one tranche with these facts and ratings, an unknown row above or within 5%, and an IRB section with
    /// this share, where there is one.
    fn sheet(facts: Facts, ratings: [u64; 3], unknown_above_limit: bool, share: Option<u64>) -> Sheet {
        let row = |exposure, status| Row {
            exposure,
            nominal: 1,
            risk_weight: 10_000,
            status,
        };
        let unknown = if unknown_above_limit { 6 } else { 5 };
        Sheet {
            facts,
            pool: vec![row(95, Status::Paying), row(unknown, Status::Unknown)],
            tranches: vec![Tranche {
                amount: 1,
                class: 1,
                months: 1,
                held: 1,
                ratings,
                place: 0,
            }],
            irb: share.map(|share| Irb {
                charge: 0,
                loss: 0,
                loans: 1,
                retail: false,
                share,
                average: 7,
            }),
        }
    }

    /// The approach of the tranche of such a sheet.
    fn chosen(facts: Facts, ratings: [u64; 3], unknown_above_limit: bool, share: Option<u64>) -> Approach {
        let sheet = sheet(facts, ratings, unknown_above_limit, share);
        choose(&Figures::of(&sheet), &sheet.tranches[0])
    }

    /// The steps of the choice, each with all later ones open. The STC mark decides nothing in it.
    #[test]
    fn approach_in_order() {
        let irb = Some(1_000_000);
        for stc in [false, true] {
            let without = |resecuritisation| Facts {
                due_diligence_held: false,
                ..facts(resecuritisation, stc)
            };
            for resecuritisation in [false, true] {
                assert_eq!(
                    chosen(without(resecuritisation), [1, 0, 0], true, irb),
                    Approach::Fallback
                );
            }
            assert_eq!(chosen(facts(true, stc), [1, 0, 0], true, irb), Approach::SecSa);
            let ordinary =
                |ratings, unknown_above_limit, share| chosen(facts(false, stc), ratings, unknown_above_limit, share);
            assert_eq!(ordinary([1, 0, 0], true, irb), Approach::SecIrba);
            for ratings in [[1, 0, 0], [0, 18, 0], [0, 0, 24]] {
                assert_eq!(ordinary(ratings, true, None), Approach::SecErba);
            }
            assert_eq!(ordinary([0, 0, 0], true, None), Approach::Fallback);
            assert_eq!(ordinary([0, 0, 0], false, None), Approach::SecSa);
        }
    }

    /// SEC-IRBA holds from a share of 950,000 on; below it the deal has the approach, the charge and the cap of an SA
    /// pool. So has a re-securitisation and a deal without due diligence, whatever its share.
    #[test]
    fn share_of_irb_exposure() {
        let ordinary = facts(false, false);
        let without = Facts {
            due_diligence_held: false,
            ..ordinary
        };
        let figures = |facts, share| {
            let sheet = sheet(facts, [0; 3], false, share);
            let Figures {
                charge, average_weight, ..
            } = Figures::of(&sheet);
            (choose(&Figures::of(&sheet), &sheet.tranches[0]), charge, average_weight)
        };
        // 5% unknown over a base of 80,000, and with a twentieth of that base over an IRB charge of 0.
        let (sa_pool, irb) = ((126_000, 10_000), (4_000, 7));
        assert_eq!(figures(ordinary, Some(950_000)), (Approach::SecIrba, irb.0, irb.1));
        for share in [None, Some(0), Some(949_999)] {
            assert_eq!(figures(ordinary, share), (Approach::SecSa, sa_pool.0, sa_pool.1));
        }
        for (facts, approach) in [(without, Approach::Fallback), (facts(true, false), Approach::SecSa)] {
            assert_eq!(figures(facts, Some(1_000_000)), (approach, sa_pool.0, sa_pool.1));
        }
    }

    /// Ratings are inferred in ordinary deals, STC or not, and of a mixed pool below the least share; neither in a
    /// re-securitisation nor under SEC-IRBA. The ratings alone are another's.
    #[test]
    fn deals_with_inferred_ratings() {
        let counting = |facts, share| {
            let mut sheet = sheet(facts, [0; 3], false, share);
            sheet.tranches.push(Tranche {
                amount: 5,
                class: 2,
                months: 9,
                held: 3,
                ratings: [7, 0, 8],
                place: 7,
            });
            let unrated = &sheet.tranches[0];
            let counted = with_ratings_that_count(&Figures::of(&sheet), &sheet.tranches, unrated);
            let kept = |of: &Tranche| [of.amount, of.class, of.months, of.held, of.place];
            assert_eq!(kept(&counted), kept(unrated));
            counted.ratings
        };
        for stc in [false, true] {
            for share in [None, Some(949_999)] {
                assert_eq!(counting(facts(false, stc), share), [7, 0, 8]);
            }
            assert_eq!(counting(facts(false, stc), Some(950_000)), [0; 3]);
        }
        for share in [None, Some(0), Some(1_000_000)] {
            assert_eq!(counting(facts(true, false), share), [0; 3]);
        }
    }

    /// Refusal 13 covers the two approaches of the formula, above the charge alone.
    #[test]
    fn no_thickness_under_the_formula() {
        let refused = |approach, attachment, detachment| {
            let points = Points { attachment, detachment };
            refuse_no_thickness(approach, &points, 50, 9).is_err()
        };
        for approach in [Approach::SecSa, Approach::SecIrba] {
            assert!(refused(approach, 51, 51) && !refused(approach, 50, 50) && !refused(approach, 51, 52));
        }
        assert!(!refused(Approach::Fallback, 51, 51) && !refused(Approach::SecErba, 51, 51));
    }
}
