//! The checked deals and the misreadings of document 01, the STC deals of S-1, several ratings by S-2, maturities as
//! dates by S-3, risk weights in hundredths by S-9, and the largest deal, as whole sheets. The deals of S-5 stand apart,
//! and so do floor and cap of S-6, the inferred ratings of S-8 and the converter of S-9.

mod common;

use common::{file, room, sheet, sheet_with, Facts, Row, Tranche};
use independent::approach::Approach;
use independent::sheet::{self, FILE_BYTES, ROWS_MOST, TRANCHES_MOST};
use independent::{weigh, weigh_file, Amounts, Deal, Line};

/// Facts of an ordinary deal with due diligence and known composition.
const ORDINARY: Facts = &[0, 0, 1, 1];
/// Facts of an STC deal with due diligence and known composition.
const STC: Facts = &[0, 0, 1, 1, 1];
/// Facts of a re-securitisation with due diligence and known composition.
const RESECURITISATION: Facts = &[0, 1, 1, 1];

/// A paying pool of 1,000 at one risk weight.
fn pool_at(risk_weight: u64) -> Vec<Row> {
    vec![[1_000, 1_000, risk_weight, 0]]
}

/// A tranche held whole, with one rating.
fn tranche(amount: u64, class: u64, months: u64, rating: u64) -> Tranche {
    [amount, class, months, amount, rating, 0, 0]
}

/// Weighs an accepted sheet with just enough room for its results.
fn weighed(facts: Facts, pool: &[Row], tranches: &[Tranche]) -> Deal {
    weigh(&sheet(facts, pool, tranches), room(tranches.len())).expect("an accepted sheet")
}

/// The weights that a line admits.
fn weights(line: &Line) -> Vec<u64> {
    line.amounts.iter().map(|amounts| amounts.weight).collect()
}

/// The approach, A, D, the weights and the least weights of a line.
type Summary = (u64, u64, u64, Vec<u64>, Vec<u64>);

/// The summary of each line.
fn summary(deal: &Deal) -> Vec<Summary> {
    let of_line = |line: &Line| {
        let least_weights = line.least_weights.clone();
        (
            line.approach,
            line.attachment,
            line.detachment,
            weights(line),
            least_weights,
        )
    };
    deal.lines.iter().map(of_line).collect()
}

/// The summary of a line whose weight is not open, and its least weight too.
fn closed(approach: u64, attachment: u64, detachment: u64, weight: u64) -> Summary {
    (approach, attachment, detachment, vec![weight], vec![weight])
}

/// Checked deal: the whole report of the sample sheet, read as a file, with its totals.
#[test]
fn sample_sheet() {
    let words = [
        4, 0, 0, 1, 1, 2, 950, 950, 100, 0, 50, 50, 100, 1, 3, 800, 1, 72, 800, 1, 0, 0, 150, 2, 72, 100, 9, 0, 0, 50,
        3, 72, 50, 0, 0, 0,
    ];
    let line = |approach, attachment, detachment, weight, risk_weighted, capital| {
        let amounts = vec![Amounts {
            weight,
            risk_weighted,
            capital,
        }];
        Line {
            approach,
            attachment,
            detachment,
            amounts,
            least_weights: vec![weight],
        }
    };
    let lines = vec![
        line(1, 200_000, 1_000_000, 2_000, 160, 13),
        line(1, 50_000, 200_000, 26_350, 264, 22),
        line(2, 0, 50_000, 125_000, 625, 50),
    ];
    let deal = weigh_file(&file(&words), room(3)).expect("an accepted file");
    assert_eq!(deal, Deal { charge: 101_000, lines });
    assert_eq!(weigh(&words, room(3)), Ok(deal.clone()));
    let total = |figure: fn(&Amounts) -> u64| deal.lines.iter().map(|line| figure(&line.amounts[0])).sum::<u64>();
    assert_eq!((total(|a| a.risk_weighted), total(|a| a.capital)), (1_049, 85));
}

/// Checked deals: senior AA, 36 months: 3,100; non-senior A+, 12 months, half thick: 4,000.
#[test]
fn rated_tranches() {
    let deal = weighed(
        ORDINARY,
        &pool_at(100),
        &[tranche(500, 1, 36, 3), tranche(500, 2, 12, 5)],
    );
    assert_eq!(
        summary(&deal),
        [closed(1, 500_000, 1_000_000, 3_100), closed(1, 0, 500_000, 4_000)]
    );
}

/// Checked deal: senior AAA over loans of 10%: 1,000. Floor after cap would lift it to 1,500. No cap holds where the
/// composition is not known, and none for class 2.
#[test]
fn senior_cap_below_floor() {
    let tranches = [tranche(500, 1, 72, 1), tranche(400, 1, 12, 21), tranche(100, 2, 12, 21)];
    let weights_with = |facts| {
        summary(&weighed(facts, &pool_at(10), &tranches))
            .into_iter()
            .map(|line| line.3)
            .collect()
    };
    let known: Vec<Vec<u64>> = weights_with(ORDINARY);
    let unknown: Vec<Vec<u64>> = weights_with(&[0, 0, 1, 0]);
    assert_eq!(known, [[1_000], [1_000], [1_500]]);
    assert_eq!(unknown, [[2_000], [1_500], [1_500]]);
}

/// Misreading: maturity cut to five years before the 80% rule. 72 months would give 252 and senior AAA 1,900.
#[test]
fn maturity_is_cut_after_the_rule() {
    let weight_at = |months| weights(&weighed(ORDINARY, &pool_at(100), &[tranche(1_000, 1, months, 1)]).lines[0]);
    assert_eq!(
        [1, 12, 36, 60, 72, 1200].map(weight_at),
        [[1_500], [1_500], [1_700], [1_900], [2_000], [2_000]]
    );
}

/// Checked deal: rows (2, 100%) and (1, 50%): base 66,667, cap 8,334. The formula's line is capped as a rated one is.
#[test]
fn base_charge_and_cap() {
    let pool = [[2, 2, 100, 0], [1, 1, 50, 0]];
    let deal = weighed(ORDINARY, &pool, &[tranche(3, 1, 72, 18)]);
    assert_eq!((deal.charge, weights(&deal.lines[0])), (66_667, vec![8_334]));
    assert_eq!(
        weights(&weighed(ORDINARY, &pool, &[tranche(3, 1, 72, 0)]).lines[0]),
        [8_334]
    );
}

/// Checked deal: base 80,000, none late, 5% unknown: charge 126,000; 5.1%: fallback, which takes no cap. A rating still
/// gives SEC-ERBA there. The unrated tranche is the longer one, so that it takes no rating.
#[test]
fn unknown_rows() {
    let pool = |unknown| [[1_000 - unknown, 1, 100, 0], [unknown, 1, 100, 2]];
    let tranches = [tranche(1, 1, 73, 0), tranche(1, 2, 72, 9)];
    let within = weighed(ORDINARY, &pool(50), &tranches);
    let above = weighed(ORDINARY, &pool(51), &tranches);
    assert_eq!((within.charge, within.lines[0].approach), (126_000, 2));
    // 31,500 x (e^(-374/126) - e^(-874/126)) = 1,588.3
    assert_eq!(weights(&within.lines[0]), [1_589, 1_590]);
    assert_eq!(within.lines[0].least_weights, [1_587, 1_588]);
    let rated = closed(1, 0, 500_000, 15_500);
    assert_eq!(
        (above.charge, summary(&above)),
        (1_000_000, vec![closed(0, 500_000, 1_000_000, 125_000), rated])
    );
}

/// Checked deals: K = 0 and D above 0: raw 0, which the floor raises and the cap of 0 lowers again; K = 0 and D = 0:
/// 125,000.
#[test]
fn charge_zero() {
    let tranches = [tranche(500, 1, 72, 0), tranche(500, 2, 72, 0), tranche(1, 3, 72, 0)];
    let deal = weighed(ORDINARY, &pool_at(0), &tranches);
    let lines = [
        closed(2, 500_000, 1_000_000, 0),
        closed(2, 0, 500_000, 1_500),
        closed(2, 0, 0, 125_000),
    ];
    assert_eq!((deal.charge, summary(&deal)), (0, lines.to_vec()));
}

/// Checked deals: D = K gives 125,000; K = A = 100,000 and D = 200,000 give 79,016 or 79,017, where e^(-u/s) taken as 0
/// would give 125,000. The value is 79,015.07. Each weight has its own amounts.
#[test]
fn formula_at_the_charge() {
    let tranches = [tranche(800, 1, 72, 0), tranche(100, 2, 72, 0), tranche(100, 3, 72, 0)];
    let deal = weighed(ORDINARY, &pool_at(125), &tranches);
    assert_eq!(deal.charge, 100_000);
    assert_eq!(
        summary(&deal)[1..],
        [
            (2, 100_000, 200_000, vec![79_016, 79_017], vec![79_014, 79_015]),
            closed(2, 0, 100_000, 125_000)
        ]
    );
    let mut held_more = tranches;
    held_more[1] = [100_000_000, 2, 72, 100_000_000, 0, 0, 0];
    let pool = [[1_000, 1_000_000_000, 125, 0]];
    held_more[0][0] = 800_000_000;
    held_more[2][0] = 100_000_000;
    let amounts = |weight, risk_weighted, capital| Amounts {
        weight,
        risk_weighted,
        capital,
    };
    let two = [
        amounts(79_016, 790_160_000, 63_212_800),
        amounts(79_017, 790_170_000, 63_213_600),
    ];
    assert_eq!(weighed(ORDINARY, &pool, &held_more).lines[1].amounts, two);
}

/// Checked deal: K = 100,000, A = 50,000 and D = 150,000 give 111,684 or 111,685. The value is 111,683.67.
#[test]
fn formula_across_the_charge() {
    let tranches = [tranche(850, 1, 72, 0), tranche(100, 2, 72, 0), tranche(50, 3, 72, 0)];
    let deal = weighed(ORDINARY, &pool_at(125), &tranches);
    assert_eq!(
        summary(&deal)[1..],
        [
            (2, 50_000, 150_000, vec![111_684, 111_685], vec![111_683]),
            closed(2, 0, 50_000, 125_000)
        ]
    );
}

/// A re-securitisation: parameter 1.5, floor 10,000, no cap, ratings not used. K = A = 100,000 and D = 200,000 have the
/// value 187,500 x (1 - e^(-2/3)) = 91,234.29.
#[test]
fn resecuritisation() {
    let tranches = [tranche(800, 1, 72, 1), tranche(100, 2, 72, 24), tranche(100, 3, 72, 0)];
    let deal = weighed(RESECURITISATION, &[[1_000, 1_000, 125, 3]], &tranches);
    assert_eq!(deal.charge, 100_000);
    let open = (2, 100_000, 200_000, vec![91_235, 91_236], vec![91_233, 91_234]);
    assert_eq!(summary(&deal)[1], open);
    let low_charge = weighed(RESECURITISATION, &[[1_000, 1_000, 1, 3]], &tranches);
    assert_eq!(summary(&low_charge)[0], closed(2, 200_000, 1_000_000, 10_000));
}

/// A fifth fact of 0 changes nothing, in an ordinary deal and in a re-securitisation.
#[test]
fn fifth_fact_of_zero() {
    let tranches = [tranche(800, 1, 72, 1), tranche(150, 2, 72, 0), tranche(50, 3, 72, 9)];
    for (resecuritisation, status) in [(0, 0), (1, 3)] {
        let pool = [[1_000, 1_000, 125, status]];
        let four = weighed(&[0, resecuritisation, 1, 1], &pool, &tranches);
        let five = weighed(&[0, resecuritisation, 1, 1, 0], &pool, &tranches);
        assert_eq!(four, five);
    }
}

/// The formula of an STC deal has parameter 0.5. K = A = 100,000 and D = 200,000 have the value
/// 62,500 x (1 - e^(-2)) = 54,041.54; class 1 has 7,812.5 x (e^(-2) - e^(-18)) = 1,057.31. Below the charge the weight
/// is 125,000 as in any deal.
#[test]
fn stc_parameter() {
    let tranches = [tranche(800, 1, 72, 0), tranche(100, 2, 72, 0), tranche(100, 3, 72, 0)];
    let deal = weighed(STC, &pool_at(125), &tranches);
    let lines = [
        (2, 200_000, 1_000_000, vec![1_058, 1_059], vec![1_056, 1_057]),
        (2, 100_000, 200_000, vec![54_042, 54_043], vec![54_041]),
        closed(2, 0, 100_000, 125_000),
    ];
    assert_eq!((deal.charge, summary(&deal)), (100_000, lines.to_vec()));
}

/// The weights of an STC deal's lines over a pool at one risk weight, of whose composition nothing is known.
fn stc_weights(risk_weight: u64, tranches: &[Tranche]) -> Vec<Vec<u64>> {
    let deal = weighed(&[0, 0, 1, 0, 1], &pool_at(risk_weight), tranches);
    deal.lines.iter().map(weights).collect()
}

/// The floor of an STC deal is 1,000 for class 1, in all its rows, and 1,500 below, for the formula and for the table.
/// Senior AAA is at the floor by its figure; non-senior AAA at one year and one tenth thick is 1,350 and is raised.
#[test]
fn stc_floors() {
    let formula = [
        tranche(500, 1, 72, 0),
        tranche(100, 1, 72, 0),
        tranche(300, 2, 72, 0),
        tranche(100, 3, 72, 0),
    ];
    assert_eq!(stc_weights(1, &formula)[..3], [[1_000], [1_000], [1_500]]);
    let table = [tranche(800, 1, 72, 1), tranche(100, 2, 12, 1), tranche(100, 3, 12, 21)];
    assert_eq!(stc_weights(100, &table), [[1_000], [1_500], [1_500]]);
}

/// The cap of an STC deal acts after its floor, also below it, on a rated tranche and under the formula.
#[test]
fn stc_cap() {
    let tranches = [tranche(500, 1, 72, 1), tranche(400, 1, 73, 0), tranche(100, 2, 72, 21)];
    let deal = weighed(STC, &pool_at(5), &tranches);
    assert_eq!(deal.lines[1].approach, 2);
    let all: Vec<Vec<u64>> = deal.lines.iter().map(weights).collect();
    assert_eq!(all, [[500], [500], [1_500]]);
}

/// An STC deal is rated by the second table, short-term grades too. Of three ratings the middle weight counts.
#[test]
fn stc_table() {
    // Senior AA, 36 months: (15 + 5 x 96 / 240)%. BBB, 60 months: (180 + 75 x 192 / 240)% x 0.9. BB, 72 months:
    // 655% x 0.9.
    let long_term = [tranche(800, 1, 36, 3), tranche(100, 2, 60, 9), tranche(100, 3, 72, 12)];
    assert_eq!(stc_weights(100, &long_term), [[1_700], [21_600], [58_950]]);
    for (code, senior, junior) in [
        (21, 1_000, 1_500),
        (22, 3_000, 3_000),
        (23, 6_000, 6_000),
        (24, 125_000, 125_000),
    ] {
        let short_term = [tranche(500, 1, 72, code), tranche(500, 2, 72, code)];
        assert_eq!(stc_weights(100, &short_term), [[senior], [junior]]);
    }
    let several = [[1_000, 1, 12, 0, 1, 22, 5]];
    assert_eq!(stc_weights(100, &several), [[2_000]]);
}

/// Floor and cap act on the weight that counts (S-2). Class 1 over loans of 30%: AAA 20%, AA 40% and BBB 105% give 40%,
/// lowered to 3,000; AAA twice and BBB 2,000. Class 2 of an STC deal, a tenth thick: short-term 10%, AAA 15% x 0.9 and A
/// 60% x 0.9 give 13.5%, raised to 1,500.
#[test]
fn floor_and_cap_after_several_ratings() {
    let tranches = [[500, 1, 72, 0, 1, 3, 9], [500, 1, 72, 0, 1, 1, 9]];
    let deal = weighed(&[0, 0, 1, 1], &pool_at(30), &tranches);
    let all: Vec<Vec<u64>> = deal.lines.iter().map(weights).collect();
    assert_eq!(all, [[3_000], [2_000]]);
    let marked = [[900, 1, 12, 0, 1, 0, 0], [100, 2, 12, 0, 21, 1, 6]];
    assert_eq!(stc_weights(100, &marked), [[1_000], [1_500]]);
}

/// A non-senior weight of an STC deal is not raised to the senior figure. AA, 13 months, one tenth thick: 1,433, and
/// 1,500 by the floor, against 1,509. A+, 12 months, half thick: 1,750 against 2,000. The worst grade, half thick: 62,500
/// against 125,000. In a deal without the mark the comparison decides.
#[test]
fn stc_non_senior_below_senior() {
    let double_a = [tranche(900, 1, 13, 3), tranche(100, 2, 13, 3)];
    assert_eq!(stc_weights(100, &double_a), [[1_509], [1_500]]);
    let single_a = [tranche(500, 1, 12, 5), tranche(500, 2, 12, 5)];
    assert_eq!(stc_weights(100, &single_a), [[2_000], [1_750]]);
    let worst = [tranche(500, 1, 12, 18), tranche(500, 2, 12, 18)];
    assert_eq!(stc_weights(100, &worst), [[125_000], [62_500]]);
    for (tranches, senior) in [(single_a, 4_000), (worst, 125_000)] {
        let deal = weighed(&[0, 0, 1, 0, 0], &pool_at(100), &tranches);
        assert!(deal.lines.iter().all(|line| weights(line) == [senior]));
    }
}

/// The fallback of an STC deal is 125,000: without due diligence for all tranches, above 5% unknown for the unrated.
#[test]
fn stc_fallback() {
    let tranches = [tranche(900, 1, 72, 1), tranche(100, 2, 72, 0)];
    let without = weighed(&[0, 0, 0, 1, 1], &pool_at(100), &tranches);
    let lines = [closed(0, 100_000, 1_000_000, 125_000), closed(0, 0, 100_000, 125_000)];
    assert_eq!(summary(&without), lines);
    let unknown = weighed(STC, &[[949, 949, 100, 0], [51, 51, 100, 2]], &tranches);
    let rated = closed(1, 100_000, 1_000_000, 1_000);
    assert_eq!(summary(&unknown), [rated, lines[1].clone()]);
}

/// Without due diligence every line is the fallback, with no cap, also for a rated tranche of a re-securitisation.
#[test]
fn no_due_diligence() {
    let tranches = [tranche(900, 1, 72, 1), tranche(100, 2, 72, 0)];
    let lines = [closed(0, 100_000, 1_000_000, 125_000), closed(0, 0, 100_000, 125_000)];
    for (resecuritisation, status) in [(0, 0), (1, 3)] {
        let deal = weighed(&[0, resecuritisation, 0, 1], &[[1_000, 1_000, 10, status]], &tranches);
        assert_eq!((deal.charge, summary(&deal)), (8_000, lines.to_vec()));
    }
}

/// Equal classes share both points. Two raw weights that meet at the floor are listed once.
#[test]
fn pari_passu_and_equal_weights() {
    let tranches = [
        tranche(200, 1, 72, 0),
        tranche(300, 2, 72, 0),
        tranche(100, 2, 72, 0),
        tranche(400, 3, 72, 0),
    ];
    let deal = weighed(&[0, 0, 1, 0], &pool_at(100), &tranches);
    assert_eq!(summary(&deal)[0], closed(2, 800_000, 1_000_000, 1_500));
    assert_eq!(summary(&deal)[1], closed(2, 400_000, 800_000, 1_500));
    assert_eq!(summary(&deal)[2], summary(&deal)[1]);
}

/// The months that a sheet with this reporting date and this maturity is read with.
fn months(reporting_date: u64, maturity: u64) -> u64 {
    let words = sheet(
        &[0, 0, 1, 1, 0, reporting_date],
        &pool_at(100),
        &[tranche(1_000, 1, maturity, 1)],
    );
    sheet::read(&words).expect("an accepted sheet").tranches[0].months
}

/// The months of S-3, the request's two examples first; month ends, 29 February and the limits. Without a date, with 0
/// for it, the word is the months.
#[test]
fn months_of_maturities() {
    for (reporting_date, maturity, expected) in [
        (20_270_131, 20_270_228, 1),
        (20_270_228, 20_270_331, 2),
        (20_270_131, 20_270_201, 1),
        (20_270_131, 20_270_331, 2),
        (20_270_430, 20_270_531, 2),
        (20_000_229, 20_040_228, 48),
        (20_000_229, 20_040_229, 48),
        (20_000_228, 20_040_229, 49),
        (20_960_229, 21_000_228, 48),
        (21_000_228, 21_000_301, 1),
        (21_991_230, 21_991_231, 1),
        (20_000_101, 21_000_101, 1_200),
        (20_991_231, 21_991_231, 1_200),
        (0, 1, 1),
        (0, 1_200, 1_200),
    ] {
        assert_eq!(
            months(reporting_date, maturity),
            expected,
            "{reporting_date} {maturity}"
        );
    }
}

/// The rating table reads the months counted, here from 31 January 2024. Senior AA has 36 months up to 31 January 2027,
/// and 37 on the day after. Non-senior BBB, a tenth thick, has 48 up to 31 January 2028, and 49 in February: (220 + 90
/// x 144 / 240)% x 0.9 and (220 + 90 x 148 / 240)% x 0.9.
#[test]
fn table_reads_months_counted() {
    let weights_at = |maturities: [u64; 2]| {
        let tranches = [tranche(900, 1, maturities[0], 3), tranche(100, 2, maturities[1], 9)];
        let deal = weighed(&[0, 0, 1, 0, 0, 20_240_131], &pool_at(100), &tranches);
        deal.lines.iter().map(weights).collect::<Vec<_>>()
    };
    assert_eq!(weights_at([20_270_131, 20_280_131]), [[3_100], [24_660]]);
    assert_eq!(weights_at([20_270_201, 20_280_229]), [[3_125], [24_795]]);
    assert_eq!(weights_at([20_270_101, 20_280_201]), [[3_100], [24_795]]);
}

/// Nothing else depends on the form: a deal with dates has the lines of the deal with 0 for the reporting date and with
/// the months counted, and so has one with fewer facts.
#[test]
fn dates_and_months_give_the_same_lines() {
    let in_form = |facts: Facts, status, maturities: [u64; 3]| {
        let [first, second, third] = maturities;
        let tranches = [
            tranche(800, 1, first, 1),
            tranche(150, 2, second, 9),
            tranche(50, 3, third, 0),
        ];
        weighed(facts, &[[1_000, 1_000, 125, status]], &tranches)
    };
    let (dates, counted) = ([20_270_228, 20_300_331, 21_270_131], [1, 38, 1_200]);
    for (resecuritisation, stc, status) in [(0, 0, 0), (0, 1, 0), (1, 0, 3)] {
        let facts = |date| [0, resecuritisation, 1, 1, stc, date];
        let dated = in_form(&facts(20_270_131), status, dates);
        assert_eq!(dated, in_form(&facts(0), status, counted));
        assert_eq!(dated, in_form(&facts(0)[..5], status, counted));
    }
}

/// Facts of an ordinary deal with due diligence and known composition, in hundredths.
const HUNDREDTHS: Facts = &[0, 0, 1, 1, 0, 0, 1];

/// A deal in hundredths has the charge and the lines of the same deal in whole percent, where a seventh fact of 0 changes
/// nothing.
#[test]
fn unit_of_risk_weights() {
    let tranches = [tranche(800, 1, 72, 1), tranche(150, 2, 72, 0), tranche(50, 3, 72, 9)];
    for (resecuritisation, stc, status) in [(0, 0, 0), (0, 1, 0), (1, 0, 3)] {
        let in_unit = |unit, weight: u64| {
            let pool = [[2, 700, 100 * weight, status], [1, 300, 50 * weight, status]];
            weighed(&[0, resecuritisation, 1, 1, stc, 0, unit], &pool, &tranches)
        };
        let pool = [[2, 700, 100, status], [1, 300, 50, status]];
        let six = weighed(&[0, resecuritisation, 1, 1, stc, 0], &pool, &tranches);
        assert_eq!(six.charge, 66_667);
        assert_eq!([in_unit(0, 1), in_unit(1, 100)], [six.clone(), six]);
    }
}

/// Loans of 37.5% have charge 30,000 and cap 3,750, which lowers the 40% of a senior AA. Class 2 goes down to 0:
/// 125,000 x (30,000 + 30,000 x (1 - e^(-47/3))) / 500,000 = 14,999.999.
#[test]
fn loans_of_37_and_a_half_percent() {
    let tranches = [tranche(500, 1, 72, 3), tranche(500, 2, 72, 0)];
    let deal = weighed(HUNDREDTHS, &pool_at(3_750), &tranches);
    let lines = [
        closed(1, 500_000, 1_000_000, 3_750),
        (2, 0, 500_000, vec![15_000, 15_001], vec![14_999]),
    ];
    assert_eq!((deal.charge, summary(&deal)), (30_000, lines.to_vec()));
}

/// Charge and cap are rounded up from hundredths, once: rows (2, 37.5%) and (1, 0.01%) have 20,002.67 and 2,500.33.
#[test]
fn charge_and_cap_from_hundredths() {
    let deal = weighed(HUNDREDTHS, &[[2, 2, 3_750, 0], [1, 1, 1, 0]], &[tranche(3, 1, 72, 18)]);
    assert_eq!((deal.charge, weights(&deal.lines[0])), (20_003, vec![2_501]));
}

/// The largest deal: the most facts, rows and tranches and an IRB section, all amounts and weights at their most, fills
/// the largest file, in either unit. Each tranche holds the whole pool, so all but the first have A = D = 0.
#[test]
fn largest_amounts() {
    for (unit, risk_weight) in [(0, 1_250), (1, 125_000)] {
        largest_amounts_in(unit, risk_weight);
    }
}

/// The same in one unit, with its highest risk weight.
fn largest_amounts_in(unit: u64, risk_weight: u64) {
    let most = 10_000_000_000;
    let pool = vec![[most, most, risk_weight, 0]; ROWS_MOST];
    let tranches: Vec<Tranche> = (1..=TRANCHES_MOST as u64)
        .map(|class| tranche(ROWS_MOST as u64 * most, class, 21_991_231, 0))
        .collect();
    let irb = [1_000_000, 1_000_000, 1_000_000, 1, 1_000_000, 125_000];
    let words = sheet_with(irb, &[2, 0, 1, 1, 1, 20_991_231, unit], &pool, &tranches);
    assert_eq!(file(&words).len(), FILE_BYTES);
    let deal = weigh_file(&file(&words), room(TRANCHES_MOST)).expect("an accepted file");
    assert_eq!((deal.charge, deal.lines.len()), (1_000_000, TRANCHES_MOST));
    let amounts = Amounts {
        weight: 125_000,
        risk_weighted: 125_000_000_000_000,
        capital: 10_000_000_000_000,
    };
    assert!(deal
        .lines
        .iter()
        .all(|line| line.approach == Approach::SecIrba as u64 && line.attachment == 0 && line.amounts == [amounts]));
    assert!(deal.lines.iter().all(|line| line.least_weights == [125_000]));
    assert!(deal
        .lines
        .iter()
        .enumerate()
        .all(|(i, line)| line.detachment == if i == 0 { 1_000_000 } else { 0 }));
}

/// The largest deal once more, cut into equal slices that all go through the formula: weights and least weights rise
/// toward the most junior slice, and every slice above the charge admits two neighbours, one only at 125,000.
#[test]
fn largest_deal_in_slices() {
    let most = 10_000_000_000;
    let pool = vec![[most, most, 20, 0]; ROWS_MOST];
    let slice = most * ROWS_MOST as u64 / TRANCHES_MOST as u64;
    let tranches: Vec<Tranche> = (1..=TRANCHES_MOST as u64)
        .map(|class| tranche(slice, class, 1200, 0))
        .collect();
    let deal = weighed(&[0, 0, 1, 0], &pool, &tranches);
    assert_eq!(deal.charge, 16_000);
    let all: Vec<Vec<u64>> = deal.lines.iter().map(weights).collect();
    assert!(all.is_sorted());
    assert!(deal.lines.iter().map(|line| &line.least_weights).is_sorted());
    assert_eq!((&all[0], &deal.lines[0].least_weights), (&vec![1_500], &vec![1_500]));
    assert!(all[30].len() == 2 && all[30][1] == all[30][0] + 1);
    assert_eq!((deal.lines[31].attachment, deal.lines[31].detachment), (0, 31_250));
}
