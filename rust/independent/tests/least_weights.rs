//! The least weight of S-6 as whole sheets: by the rating tables, by the formula, with floor and cap, and where both words
//! start from one number.

mod common;

use common::{file, room, sheet, sheet_with, Facts, Irb, Row, Tranche};
use independent::formula::Admitted;
use independent::weigh_file;

/// Facts of an ordinary deal with due diligence, whose composition is not known, so that no cap holds.
const UNCAPPED: Facts = &[0, 0, 1, 0];
/// The same with known composition.
const CAPPED: Facts = &[0, 0, 1, 1];
/// The same as the first with the STC mark.
const STC: Facts = &[0, 0, 1, 0, 1];

/// What each line of an accepted file of so many tranches admits.
fn of_file(words: &[u64], tranches: usize) -> Vec<Admitted> {
    let deal = weigh_file(&file(words), room(tranches)).expect("an accepted file");
    let lines = deal.lines.into_iter().map(|line| Admitted {
        weights: line.amounts.iter().map(|amounts| amounts.weight).collect(),
        least_weights: line.least_weights,
    });
    lines.collect()
}

/// What each line of a deal over a pool of a million admits, whose rows have these exposures and risk weights. Every
/// tranche is one of a class of its own, given by its amount, months and ratings.
fn all_admitted(facts: Facts, rows: &[[u64; 2]], tranches: &[(u64, u64, [u64; 3])]) -> Vec<Admitted> {
    let nominal = 1_000_000 / rows.len() as u64;
    let row = |&[exposure, percent]: &[u64; 2]| [exposure, nominal, percent, 3 * facts[1]];
    let pool: Vec<Row> = rows.iter().map(row).collect();
    let mut list: Vec<Tranche> = Vec::new();
    for (class, &(amount, months, [first, second, third])) in (1..).zip(tranches) {
        list.push([amount, class, months, 0, first, second, third]);
    }
    of_file(&sheet(facts, &pool, &list), list.len())
}

/// What a line admits, shorter to write.
fn admitted(weights: &[u64], least_weights: &[u64]) -> Admitted {
    Admitted {
        weights: weights.to_vec(),
        least_weights: least_weights.to_vec(),
    }
}

/// What a tranche of class 2 admits that is so thick and goes down to 0, with these months and ratings.
fn of_second(facts: Facts, thickness: u64, months: u64, ratings: [u64; 3]) -> Admitted {
    let tranches = [(1_000_000 - thickness, 72, [1, 0, 0]), (thickness, months, ratings)];
    all_admitted(facts, &[[1, 100]], &tranches).remove(1)
}

/// The example of two ratings with one weight: AAA of 72 months, 285,715 millionths thick, is 49.99995%, and the
/// short-term grade 22 is 50%. The exact figures are picked among and then rounded down.
#[test]
fn exact_figures_are_picked() {
    let rated = |ratings| of_second(UNCAPPED, 285_715, 72, ratings);
    assert_eq!(rated([1, 0, 0]), admitted(&[5_000], &[4_999]));
    assert_eq!(rated([22, 0, 0]), Admitted::both(5_000));
    for ratings in [[1, 22, 0], [0, 22, 1], [22, 24, 1]] {
        assert_eq!(rated(ratings), Admitted::both(5_000), "{ratings:?}");
    }
    for ratings in [[1, 22, 21], [22, 1, 1]] {
        assert_eq!(rated(ratings), admitted(&[5_000], &[4_999]), "{ratings:?}");
    }
}

/// The floor raises a table's least weight. Non-senior AAA of an STC deal is 20% at 24 months, and 15% where a quarter
/// thick: a millionth more thickness leaves 14.99998%, and a millionth less 15.00002%.
#[test]
fn floor_and_the_table() {
    let rated = |thickness| of_second(STC, thickness, 24, [1, 0, 0]);
    assert_eq!(rated(249_999), admitted(&[1_501], &[1_500]));
    for thickness in [250_000, 250_001, 400_000] {
        assert_eq!(rated(thickness), Admitted::both(1_500));
    }
}

/// The cap lowers a table's least weight. Senior AAA of 13 months is 15.0833%; loans of 15% and 16% give the cap.
#[test]
fn cap_and_the_table() {
    let capped = |at_16: u64| {
        let rows = [[100 - at_16, 15], [at_16, 16]];
        all_admitted(CAPPED, &rows, &[(1_000_000, 13, [1, 0, 0])]).remove(0)
    };
    assert_eq!(capped(10), admitted(&[1_509], &[1_508]));
    assert_eq!(capped(9), admitted(&[1_509], &[1_508]));
    assert_eq!(capped(8), Admitted::both(1_508));
    assert_eq!(capped(7), Admitted::both(1_507));
    let below_floor = all_admitted(CAPPED, &[[1, 10]], &[(1_000_000, 13, [1, 0, 0])]);
    assert_eq!(below_floor, [Admitted::both(1_000)]);
}

/// What class 1 admits down to this point, over loans of 125%: a charge of 100,000 and a cap of 12,500.
fn senior_down_to(facts: Facts, point: u64) -> Admitted {
    all_admitted(facts, &[[1, 125]], &[(1_000_000 - point, 72, [0; 3])]).remove(0)
}

/// The floor raises the formula's least weight, here the 1,000 of class 1 of an STC deal, and numbers that it makes equal
/// are listed once. The values are 1,001.001, 1,000.513, 1,000.494, 999.988 and 998.995.
#[test]
fn floor_and_the_formula() {
    for (point, weights, least_weights) in [
        (202_919, &[1_002, 1_003][..], &[1_000, 1_001][..]),
        (202_945, &[1_001, 1_002], &[1_000]),
        (202_946, &[1_001, 1_002], &[1_000]),
        (202_973, &[1_000, 1_001], &[1_000]),
        (203_026, &[1_000], &[1_000]),
    ] {
        assert_eq!(senior_down_to(STC, point), admitted(weights, least_weights), "{point}");
    }
}

/// The cap lowers the formula's least weight. The values are 12,501.471, 12,500.584, 12,500.473, 12,499.918, 12,499.030
/// and 12,498.920; without the cap two weights pass each time.
#[test]
fn cap_and_the_formula() {
    for (point, weights, least_weights) in [
        (111_834, &[12_500][..], &[12_500][..]),
        (111_842, &[12_500], &[12_500]),
        (111_843, &[12_500], &[12_499, 12_500]),
        (111_848, &[12_500], &[12_499]),
        (111_856, &[12_500], &[12_498, 12_499]),
        (111_857, &[12_499, 12_500], &[12_498]),
    ] {
        assert_eq!(
            senior_down_to(CAPPED, point),
            admitted(weights, least_weights),
            "{point}"
        );
        assert_eq!(senior_down_to(UNCAPPED, point).weights.len(), 2);
    }
}

/// Where K is 0 and D above it, both words start from 0: floor and cap act on both. Where D is at most K, both are
/// 125,000.
#[test]
fn charge_zero_and_points_at_it() {
    let over = |facts, percent| {
        let tranches = [(500_000, 72, [0; 3]), (500_000, 72, [0; 3]), (1, 72, [0; 3])];
        all_admitted(facts, &[[1, percent]], &tranches)
    };
    assert_eq!(over(UNCAPPED, 0), [1_500, 1_500, 125_000].map(Admitted::both));
    assert_eq!(over(CAPPED, 0), [0, 1_500, 125_000].map(Admitted::both));
    assert_eq!(over(STC, 0), [1_000, 1_500, 125_000].map(Admitted::both));
    assert_eq!(over(&[0, 1, 1, 0], 0), [10_000, 10_000, 125_000].map(Admitted::both));
    assert_eq!(over(CAPPED, 1_250), [125_000; 3].map(Admitted::both));
    assert_eq!(over(UNCAPPED, 625)[1..], [125_000; 2].map(Admitted::both));
}

/// Under SEC-IRBA the cap lowers the 125,000 of class 1 where D is at most K, and the floor's 1,500 where K is 0, in both
/// words.
#[test]
fn cap_under_irba() {
    let capped = |charge, average| {
        let irb: Irb = [charge, 0, 25, 0, 1_000_000, average];
        let tranche = [1_000_000, 1, 36, 0, 0, 0, 0];
        let words = sheet_with(irb, &[1, 0, 1, 1], &[[1, 1_000_000, 100, 0]], &[tranche]);
        of_file(&words, 1).remove(0)
    };
    for average in [0, 700, 7_000, 125_000] {
        assert_eq!(capped(1_000_000, average), Admitted::both(average));
    }
    for (average, weight) in [(0, 0), (700, 700), (1_500, 1_500), (7_000, 1_500)] {
        assert_eq!(capped(0, average), Admitted::both(weight));
    }
}

/// The fallback's least weight is 125,000, with no floor and no cap, though a cap of 1,000 would hold.
#[test]
fn fallback() {
    for facts in [&[0, 0, 0, 1][..], &[0, 0, 0, 1, 1], &[0, 1, 0, 1]] {
        let deal = all_admitted(facts, &[[1, 10]], &[(900_000, 72, [0; 3]), (100_000, 72, [1, 0, 0])]);
        assert_eq!(deal, [125_000; 2].map(Admitted::both));
    }
}
