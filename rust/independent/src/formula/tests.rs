//! The quick decision against the checked deals and against the series' ends in exact fractions.

use super::rational::Ratio;
use super::series::{low_and_up, End, Ends};
use super::*;
use std::ops::RangeInclusive;

/// The terms of an ordinary deal.
fn ordinary(charge: u64, attachment: u64, detachment: u64) -> Terms {
    Terms {
        charge,
        attachment,
        detachment,
        parameter: 1_000_000,
    }
}

/// The terms of an STC deal.
fn stc(charge: u64, attachment: u64, detachment: u64) -> Terms {
    Terms {
        parameter: 500_000,
        ..ordinary(charge, attachment, detachment)
    }
}

/// The terms of a re-securitisation.
fn resecuritisation(charge: u64, attachment: u64, detachment: u64) -> Terms {
    Terms {
        parameter: 1_500_000,
        ..ordinary(charge, attachment, detachment)
    }
}

/// Holds the quick decision to these raw weights, and to these numbers from which the least weight starts.
#[track_caller]
fn admits(terms: Terms, weights: &[u64], least_weights: &[u64]) {
    let admitted = Admitted {
        weights: weights.to_vec(),
        least_weights: least_weights.to_vec(),
    };
    assert_eq!(raw_weights(&terms), admitted, "{terms:?}");
}

/// Checked deals: K = 0 and D above 0: raw 0. K = 0 and D = 0: 125,000. D = K: 125,000, also with A = D = K, which sent
/// through the exponential would divide by zero. The least weight starts from the same.
#[test]
fn charge_zero_and_detachment_at_charge() {
    for terms in [
        ordinary(0, 0, 1),
        resecuritisation(0, 500_000, 1_000_000),
        stc(0, 500_000, 1_000_000),
    ] {
        admits(terms, &[0], &[0]);
    }
    for terms in [
        stc(100_000, 100_000, 100_000),
        ordinary(0, 0, 0),
        ordinary(100_000, 0, 100_000),
        ordinary(100_000, 100_000, 100_000),
        ordinary(1_000_000, 0, 1_000_000),
    ] {
        admits(terms, &[125_000], &[125_000]);
    }
}

/// Checked deals: K = A = 100,000 and D = 200,000 give 79,016 or 79,017. To take e^(-u/s) as 0 would give 125,000.
/// K = 100,000, A = 50,000 and D = 150,000 give 111,684 or 111,685. The values are 79,015.07 and 111,683.67: two numbers
/// lie less than one and a half below the first, one below the second.
#[test]
fn two_neighbours_pass() {
    admits(
        ordinary(100_000, 100_000, 200_000),
        &[79_016, 79_017],
        &[79_014, 79_015],
    );
    admits(ordinary(100_000, 50_000, 150_000), &[111_684, 111_685], &[111_683]);
}

/// The same points in an STC deal: 62,500 x (1 - e^(-2)) = 54,041.54, and 62,500 x (2 - e^(-1)) = 102,007.53.
#[test]
fn two_neighbours_pass_in_an_stc_deal() {
    admits(stc(100_000, 100_000, 200_000), &[54_042, 54_043], &[54_041]);
    admits(stc(100_000, 50_000, 150_000), &[102_008, 102_009], &[102_007]);
}

/// The first of these points in a re-securitisation: 187,500 x (1 - e^(-2/3)) = 91,234.29.
#[test]
fn two_neighbours_pass_in_a_resecuritisation() {
    let terms = resecuritisation(100_000, 100_000, 200_000);
    admits(terms, &[91_235, 91_236], &[91_233, 91_234]);
}

/// Where the value is above 124,999, only 125,000 passes as a raw weight, which is never above it. The least weight never
/// starts from 125,000 there, however near the value is: 124,999.99999994, .96, .99999987 and .88, then 124,998.99.
#[test]
fn one_passes_at_the_top() {
    for terms in [
        ordinary(999_999, 0, 1_000_000),
        resecuritisation(999_999, 999_999, 1_000_000),
        stc(999_999, 0, 1_000_000),
        ordinary(500_000, 500_000, 500_001),
    ] {
        admits(terms, &[125_000], &[124_999]);
    }
    admits(ordinary(62_000, 62_000, 62_001), &[124_999, 125_000], &[124_998]);
}

/// At the bottom, with K = 1, A = 0 and D far above, the value is 250,000 / D less next to nothing. The least weight
/// starts from 0 up to a value of 1.5, and from 1 above 1.
#[test]
fn zero_passes_at_the_bottom() {
    admits(ordinary(1, 0, 1_000_000), &[1, 2], &[0]); // 0.25
    admits(ordinary(1, 0, 400_000), &[1, 2], &[0]); // 0.625
    admits(ordinary(1, 0, 249_999), &[2, 3], &[0, 1]); // 1.000004
    admits(ordinary(1, 0, 200_000), &[2, 3], &[0, 1]); // 1.25
    admits(ordinary(1, 0, 160_000), &[2, 3], &[1]); // 1.5625
    admits(ordinary(1, 0, 110_000), &[3, 4], &[1, 2]); // 2.27
}

/// The highest number that the least weight may start from is just below the lowest raw weight, and no number of the one
/// sort is more than three below one of the other.
#[test]
fn least_weights_lie_below_weights() {
    for terms in varied_terms(2_000, 1_000_000).iter().chain(&edge_terms()) {
        let Admitted { weights, least_weights } = raw_weights(terms);
        let [highest, highest_least] = [&weights, &least_weights].map(|list| list[list.len() - 1]);
        assert_eq!(weights[0], highest_least + 1, "{terms:?}");
        assert!(highest <= least_weights[0] + 3, "{terms:?}");
    }
}

/// Refusal 13 keeps a tranche without thickness above the charge away from the formula.
#[test]
#[should_panic(expected = "without thickness")]
fn no_thickness_is_not_weighed() {
    raw_weights(&ordinary(1, 2, 2));
}

/// The next of a fixed row of numbers that look random (xorshift).
fn next_number(state: &mut u64) -> u64 {
    *state ^= *state << 13;
    *state ^= *state >> 7;
    *state ^= *state << 17;
    *state
}

/// Terms of every kind whose exponent u/s is at most `most`: large and small charges, A below, at and above K, whole
/// thickness down to one millionth, the three parameters of SEC-SA and some of SEC-IRBA.
fn varied_terms(count: u64, most: u64) -> Vec<Terms> {
    let mut state = 0x9E37_79B9_7F4A_7C15;
    let mut terms = Vec::new();
    for round in 0..count {
        let mut below = |limit: u64| next_number(&mut state) % limit;
        let charge = 1 + below([999_999, 100_000, 1_000, 30, 1][round as usize % 5]);
        let parameter = [500_000, 1_000_000, 1_500_000, 300_000, 300_001 + below(3_450_000)][round as usize % 6 % 5];
        let reach = (1_000_000 - charge).min(charge * parameter * most / 1_000_000);
        let detachment = charge + 1 + below(reach);
        let attachment = match round % 7 {
            0 => 0,
            1 => charge,
            2 => charge - 1,
            3 => (charge + 1).min(detachment - 1),
            4 => detachment - 1,
            _ => below(detachment),
        };
        terms.push(Terms {
            charge,
            attachment,
            detachment,
            parameter,
        });
    }
    terms
}

/// Terms at the edges of their limits whose exponent u/s is moderate: the largest charges, the smallest charges, l/s up
/// to 2,000.
fn edge_terms() -> Vec<Terms> {
    vec![
        ordinary(999_999, 0, 1_000_000),
        ordinary(999_999, 999_999, 1_000_000),
        resecuritisation(1, 0, 2),
        stc(999_999, 999_999, 1_000_000),
        stc(1, 0, 2),
        ordinary(1, 1, 2),
        ordinary(1, 40, 41),
        resecuritisation(1, 11, 13),
        ordinary(1, 300, 301),
        ordinary(500, 999_999, 1_000_000),
        stc(1_000, 999_999, 1_000_000),
        ordinary(1_000, 0, 1_000_000),
        resecuritisation(1_000, 3_000, 1_000_000),
    ]
}

/// Terms whose value lies so little above a whole number, or a whole number and a half, that 64 bits do not decide, each
/// with its halves, rounded up.
fn near_terms() -> [(Terms, u64); 10] {
    [
        (ordinary(20_833, 20_833, 20_834), 249_995),
        (resecuritisation(41_666, 41_666, 41_669), 249_995),
        (ordinary(93_749, 93_749, 93_752), 249_997),
        (ordinary(93_749, 93_746, 93_752), 249_999),
        (ordinary(187_499, 187_499, 187_502), 249_999),
        (stc(149_998, 149_998, 150_001), 249_996),
        (ordinary(74_999, 74_999, 75_002), 249_996),
        (resecuritisation(149_998, 149_998, 150_007), 249_996),
        (ordinary(62_499, 62_496, 62_502), 249_998),
        (ordinary(124_999, 124_999, 125_002), 249_998),
    ]
}

/// Holds the quick decision to the ends in exact fractions. A whole number that passes by a smaller admitted k passes by
/// a larger one too, since upper ends fall and lower ends rise. So at every k the numbers that pass must be among those
/// of the quick decision, and from some k on they must be all of them.
fn agrees_with_series(terms: &Terms) {
    let quick = raw_weights(terms);
    let near = quick.weights[0].saturating_sub(3)..=quick.weights[0] + 3;
    let first = (2 * terms.u()).div_ceil(terms.s()); // k + 2 >= 2q
    for added in [0, 4, 30, 60, 120] {
        let ends = Ends::new(terms, first + added).expect("k is admitted");
        let slow = Admitted {
            weights: near.clone().filter(|&weight| ends.pass(weight)).collect(),
            least_weights: near.clone().filter(|&weight| ends.pass_least(weight)).collect(),
        };
        if slow == quick {
            return;
        }
        let among = |some: &[u64], all: &[u64]| some.iter().all(|weight| all.contains(weight));
        assert!(
            among(&slow.weights, &quick.weights) && among(&slow.least_weights, &quick.least_weights),
            "{terms:?}: {slow:?} pass, not {quick:?}"
        );
    }
    panic!("{terms:?}: not all of {quick:?} pass");
}

/// The quick decision agrees with the series on varied terms, at the edges and near whole numbers and halves.
#[test]
fn quick_decision_agrees_with_series() {
    varied_terms(350, 40)
        .iter()
        .chain(&edge_terms())
        .chain(near_terms().iter().map(|(terms, _)| terms))
        .for_each(agrees_with_series);
}

/// Holds the quick decision to an exact bound that is good for exponents of any size. Low(j) is below e^q for every j,
/// also one that is not admitted, so e^(-u/s) lies between 0 and 1/Low(j). For e^(-l/s) the bounds are 1 where l is 0,
/// 1/Up(j) and 1/Low(j) where j is admitted, else 0 and 1/Low(j). The value then lies between the two ends made of these
/// bounds, and above 0. So each number near it is told to pass or not to pass by the distances of document 01 and S-6,
/// here counted in halves.
fn agrees_with_bound(terms: &Terms) {
    let j = 160;
    let (low_l, up_l) = low_and_up(terms.l(), terms.s(), j);
    let (low_u, _) = low_and_up(terms.u(), terms.s(), j);
    let zero = Ratio::of_words(0, 1);
    let admitted = (j + 2) * terms.s() >= 2 * terms.l();
    let least_l = if admitted { up_l.inverse() } else { zero.clone() };
    let upper = End::new(terms, &low_l.inverse(), &zero);
    let lower = End::new(terms, &least_l, &low_u.inverse());
    let above = |halves: u64| halves == 0 || lower.at_least(&Ratio::of_words(halves, 2));
    let below = |halves: u64| upper.at_most(&Ratio::of_words(halves, 2));
    let between = |least: u64, most: u64| {
        let inside = above(least) && below(most);
        assert!(
            inside || below(least) || above(most),
            "{terms:?}: the bound does not tell"
        );
        inside
    };
    let quick = raw_weights(terms);
    let near = quick.weights[0].saturating_sub(3)..=quick.weights[0] + 3;
    let slow = Admitted {
        weights: near
            .clone()
            .filter(|weight| between((2 * weight).saturating_sub(4), 2 * weight))
            .collect(),
        least_weights: near.filter(|weight| between(2 * weight, 2 * weight + 3)).collect(),
    };
    assert_eq!(quick, slow, "{terms:?}");
}

/// Exponents from 70 to nearly 2,000,000, where the value is below a whole number by far less than any unit (K = 1 and
/// D = 250,000 give 1 less e^(-249,999) / 2), below a whole number and a half by as little (K = 3 and D = 500,000 give
/// 1.5 less next to nothing), or above 0 by as little.
#[test]
fn quick_decision_agrees_with_bound_for_large_exponents() {
    let mut terms = Vec::new();
    for (at, weights, least_weights) in [
        (ordinary(1, 0, 250_000), [1, 2], &[0][..]),
        (ordinary(16, 0, 1_000_000), [4, 5], &[3]),
        (ordinary(1, 999_999, 1_000_000), [1, 2], &[0]),
        (stc(1, 0, 187_500), [1, 2], &[0]),
        (stc(16, 0, 1_000_000), [3, 4], &[2]),
        (ordinary(1, 0, 500_000), [1, 2], &[0]),
        (ordinary(3, 0, 500_000), [2, 3], &[0, 1]),
        (ordinary(5, 0, 500_000), [3, 4], &[1, 2]),
        (resecuritisation(2, 0, 250_000), [3, 4], &[1, 2]),
    ] {
        admits(at, &weights, least_weights);
        terms.push(at);
    }
    terms.extend([
        ordinary(1, 2, 1_000_000),
        ordinary(1, 1, 1_000_000),
        resecuritisation(1, 0, 1_000_000),
        stc(1, 0, 1_000_000),
    ]);
    for charge in [1, 2, 3, 40, 1_000, 2_345, 9_000] {
        for attachment in [0, charge - 1, charge, charge + 1, charge * 4, charge * 60, charge * 110] {
            terms.push(ordinary(charge, attachment, 1_000_000));
            terms.push(resecuritisation(charge, attachment, 999_983));
            terms.push(stc(charge, attachment, 999_979));
        }
    }
    terms.iter().for_each(agrees_with_bound);
}

/// A first try that does not decide is followed by one that does, and longer numbers do not change what was decided.
#[test]
fn more_precision_changes_nothing() {
    for (near, halves) in near_terms() {
        assert_eq!(halves_within::<2>(&near), None, "{near:?}");
        assert_eq!(halves_within::<3>(&near), Some(halves), "{near:?}");
    }
    for terms in varied_terms(2_000, 1_000_000) {
        assert_eq!(halves_within::<5>(&terms), Some(halves_rounded_up(&terms)), "{terms:?}");
    }
}

/// Misreading: e^(-l/s) rounded down with nothing added back. With 32 bits after the point and a tranche of one
/// millionth, the value so worked falls short by more than 1, and so does the raw weight, rounded up.
#[test]
fn rounding_down_falls_short() {
    let terms = ordinary(500_000, 600_000, 600_001);
    let rounded_down = |distance: u64, bits: u64| {
        let exponential = decay::<3>(distance, terms.s()).low;
        u128::from(exponential.times(1 << bits).rounded_down()) << (60 - bits)
    };
    let difference = rounded_down(terms.l(), 32) - rounded_down(terms.u(), 60);
    let t = u128::from(WHOLE / HIGHEST_WEIGHT * terms.thickness());
    let misread = (difference * u128::from(terms.s())).div_ceil(t << 60);
    let lowest = u128::from(raw_weights(&terms).weights[0]);
    assert!(misread + 1 < lowest && misread + 100 > lowest);
}

/// A k below 2q - 2 is not admitted, and an admitted k may still have ends too far apart for any number to pass by it.
///
/// By hand, for K = 10, A = 50, D = 60 and k = 8: for q = 4 Low is 16,831/315 and Up is 4,445/81; for q = 5 Low is
/// 1,115,309/8,064 and Up is 10,819,031/72,576. The upper end is 125,000 x (315/16,831 - 72,576/10,819,031) = 1,500.91,
/// the lower end 125,000 x (81/4,445 - 8,064/1,115,309) = 1,374.05. The value is 1,447.21.
#[test]
fn only_admitted_k_count() {
    let terms = ordinary(10, 50, 60); // l/s = 4, u/s = 5
    let whole = |number| Ratio::of_words(number, 1);
    assert!(Ends::new(&terms, 7).is_none());
    let coarse = Ends::new(&terms, 8).expect("8 + 2 >= 2 x 5");
    assert!(coarse.upper.at_most(&whole(1_501)) && !coarse.upper.at_most(&whole(1_500)));
    assert!(coarse.upper.at_least(&whole(1_500)) && !coarse.upper.at_least(&whole(1_501)));
    assert!(coarse.lower.at_most(&whole(1_375)) && !coarse.lower.at_most(&whole(1_374)));
    assert!(coarse.lower.at_least(&whole(1_374)) && !coarse.lower.at_least(&whole(1_375)));
    assert!(coarse.lower.more_than_less_two(1_376) && !coarse.lower.more_than_less_two(1_377));
    let Admitted { weights, least_weights } = raw_weights(&terms);
    assert!(!weights.iter().any(|&weight| coarse.pass(weight)));
    assert!(!least_weights.iter().any(|&weight| coarse.pass_least(weight)));
    agrees_with_series(&terms);
}

/// The ends of the checked deals. For K = A = 100,000 and D = 200,000, k = 7 has the ends 79,014.599 and 79,015.438, by
/// which one number passes each way; k = 8 has 79,015.018 and 79,015.111, by which all do. For K = 100,000, A = 50,000
/// and D = 150,000, k = 5 has 111,682.594 and 111,684.589, by which none does; k = 6 has 111,683.592 and 111,683.734.
#[test]
fn numbers_that_pass_by_one_k() {
    let passing = |terms: &Terms, k, near: RangeInclusive<u64>| {
        let ends = Ends::new(terms, k).expect("an admitted k");
        let weights: Vec<u64> = near.clone().filter(|&weight| ends.pass(weight)).collect();
        let least_weights: Vec<u64> = near.filter(|&weight| ends.pass_least(weight)).collect();
        (weights, least_weights)
    };
    let at_charge = |k| passing(&ordinary(100_000, 100_000, 200_000), k, 79_005..=79_025);
    assert_eq!(at_charge(7), (vec![79_016], vec![79_014]));
    assert_eq!(at_charge(8), (vec![79_016, 79_017], vec![79_014, 79_015]));
    let across = |k| passing(&ordinary(100_000, 50_000, 150_000), k, 111_675..=111_695);
    assert_eq!(across(5), (vec![], vec![]));
    assert_eq!(across(6), (vec![111_684, 111_685], vec![111_683]));
}
