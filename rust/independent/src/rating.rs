//! "The rating table" of document 01, with the second table of S-1, the several ratings of S-2 and the least weight of
//! S-6. Table figures are in percent, weights in hundredths of a percent.

use crate::charge::{to_word, WHOLE};
use crate::sheet::Tranche;

/// The figures of a rating table, and what is done with those of a non-senior tranche.
pub struct Table {
    /// The rows of grades 1 to 18: senior 1 year, senior 5 years, non-senior 1 year, non-senior 5 years.
    long_term: [[u64; 4]; 18],
    /// The short-term grades 21 to 24, unadjusted.
    short_term: [u64; 4],
    /// Whether a non-senior weight is held no lower than the senior figure.
    compared: bool,
}

/// Document 01's table: Tables 2 and 1 of source document 001.
static GENERAL: Table = Table {
    long_term: [
        [15, 20, 15, 70],
        [15, 30, 15, 90],
        [25, 40, 30, 120],
        [30, 45, 40, 140],
        [40, 50, 60, 160],
        [50, 65, 80, 180],
        [60, 70, 120, 210],
        [75, 90, 170, 260],
        [90, 105, 220, 310],
        [120, 140, 330, 420],
        [140, 160, 470, 580],
        [160, 180, 620, 760],
        [200, 225, 750, 860],
        [250, 280, 900, 950],
        [310, 340, 1050, 1050],
        [380, 420, 1130, 1130],
        [460, 505, 1250, 1250],
        [1250, 1250, 1250, 1250],
    ],
    short_term: [15, 50, 100, 1250],
    compared: true,
};
/// The table of STC deals: Tables 4 and 3 of source document 001. CRE42.14 has no comparison with the senior figure.
static STC: Table = Table {
    long_term: [
        [10, 10, 15, 40],
        [10, 15, 15, 55],
        [15, 20, 15, 70],
        [15, 25, 25, 80],
        [20, 30, 35, 95],
        [30, 40, 60, 135],
        [35, 40, 95, 170],
        [45, 55, 150, 225],
        [55, 65, 180, 255],
        [70, 85, 270, 345],
        [120, 135, 405, 500],
        [135, 155, 535, 655],
        [170, 195, 645, 740],
        [225, 250, 810, 855],
        [280, 305, 945, 945],
        [340, 380, 1015, 1015],
        [415, 455, 1250, 1250],
        [1250, 1250, 1250, 1250],
    ],
    short_term: [10, 30, 60, 1250],
    compared: false,
};

impl Table {
    /// The table of a deal, by whether it is an STC deal.
    pub fn of(stc: bool) -> &'static Table {
        if stc {
            &STC
        } else {
            &GENERAL
        }
    }
}

/// One year in fifths of a month.
pub const ONE_YEAR: u64 = 60;
/// Five years in fifths of a month.
const FIVE_YEARS: u64 = 300;

/// The parts of a hundredth of a percent in which every exact weight is whole: 240 from the line between the two
/// maturities, and 10^6 from the thickness.
const PARTS: u128 = (FIVE_YEARS - ONE_YEAR) as u128 * WHOLE;

/// The exact weight by one rating, in those parts.
#[derive(Debug, Clone, Copy, PartialEq, Eq, PartialOrd, Ord)]
struct Exact(u128);

impl Exact {
    /// The least whole number of hundredths that is not below the weight.
    fn rounded_up(self) -> u64 {
        to_word(self.0.div_ceil(PARTS))
    }

    /// The largest whole number of hundredths that is not above the weight.
    fn rounded_down(self) -> u64 {
        to_word(self.0 / PARTS)
    }
}

/// The weight of a rated tranche whose thickness D - A is given in millionths. The weight by each rating is worked out in
/// full, rounded up, before they are compared.
pub fn weight(table: &Table, tranche: &Tranche, thickness: u64) -> u64 {
    let exact = exact_weights(table, tranche, thickness);
    that_counts(exact.into_iter().map(Exact::rounded_up).collect())
}

/// The number from which the least weight of such a tranche starts. The exact weights are compared, and the one that
/// counts is rounded down.
pub fn least_weight(table: &Table, tranche: &Tranche, thickness: u64) -> u64 {
    that_counts(exact_weights(table, tranche, thickness)).rounded_down()
}

/// The exact weight by each rating of a tranche. Rating code 0 is no rating.
fn exact_weights(table: &Table, tranche: &Tranche, thickness: u64) -> Vec<Exact> {
    let rated = tranche.ratings.iter().filter(|&&code| code != 0);
    rated
        .map(|&code| exact_weight(table, code, tranche.class == 1, tranche.months, thickness))
        .collect()
}

/// Which of the weights by one, two or three ratings counts. One is on its own; of two the higher counts; of three the
/// two lowest are picked, and the higher of these counts.
fn that_counts<W: Ord + Copy>(mut weights: Vec<W>) -> W {
    weights.sort_unstable();
    match weights[..] {
        [only] => only,
        [_, higher] => higher,
        [_, higher_of_two_lowest, _] => higher_of_two_lowest,
        _ => unreachable!("a rated tranche has one to three ratings"),
    }
}

/// Tranche maturity in fifths of a month: 4 x months + 12, held within 60 and 300.
pub fn maturity(months: u64) -> u64 {
    (4 * months + 12).clamp(ONE_YEAR, FIVE_YEARS)
}

/// The exact weight by one rating. Short-term grades are unadjusted. A senior tranche takes the senior figure. A
/// non-senior one takes its own figure times (1 - min(D - A, one half)), then, where the table compares them, no lower
/// than the senior figure.
fn exact_weight(table: &Table, code: u64, senior: bool, months: u64, thickness: u64) -> Exact {
    if code > 18 {
        return Exact(100 * u128::from(table.short_term[code as usize - 21]) * PARTS);
    }
    let [senior_one, senior_five, junior_one, junior_five] = table.long_term[code as usize - 1];
    let senior_figure = between(senior_one, senior_five, months) * WHOLE;
    let kept = WHOLE - u128::from(thickness).min(WHOLE / 2);
    let junior_figure = between(junior_one, junior_five, months) * kept;
    let figure = match (senior, table.compared) {
        (true, _) => senior_figure,
        (false, true) => junior_figure.max(senior_figure),
        (false, false) => junior_figure,
    };
    Exact(100 * figure)
}

/// 240 times the figure at the tranche's maturity, on the straight line from `one_year` at 60 to `five_years` at 300.
fn between(one_year: u64, five_years: u64, months: u64) -> u128 {
    let maturity = maturity(months);
    u128::from(one_year * (FIVE_YEARS - maturity) + five_years * (maturity - ONE_YEAR))
}

#[cfg(test)]
mod tests {
    use super::*;

    /// Checked deal: months 1 and 12 give 60; 36 gives 156; 71 gives 296; 72 and 1200 give 300. To cut the maturity to
    /// five years before the 80% rule would give 252 for 72 months.
    #[test]
    fn maturity_in_fifths() {
        let months = [1, 12, 13, 36, 71, 72, 73, 1200];
        assert_eq!(months.map(maturity), [60, 60, 64, 156, 296, 300, 300, 300]);
    }

    /// The exact weight by one rating, rounded up and rounded down.
    fn both_ways(table: &Table, code: u64, senior: bool, months: u64, thickness: u64) -> [u64; 2] {
        let exact = exact_weight(table, code, senior, months, thickness);
        [exact.rounded_up(), exact.rounded_down()]
    }

    /// The weight by one rating.
    fn grade_weight(table: &Table, code: u64, senior: bool, months: u64, thickness: u64) -> u64 {
        exact_weight(table, code, senior, months, thickness).rounded_up()
    }

    /// Checked deal: senior AA, 36 months: 3,100. A senior tranche's thickness does not count.
    #[test]
    fn senior_between_the_years() {
        assert_eq!(grade_weight(&GENERAL, 3, true, 36, 500_000), 3_100);
        assert_eq!(grade_weight(&GENERAL, 3, true, 36, 0), 3_100);
        // (15 + 5 x 96 / 240)%
        assert_eq!(grade_weight(&STC, 3, true, 36, 500_000), 1_700);
    }

    /// Checked deal: non-senior A+, 12 months, half thick: 4,000, which is the senior figure.
    #[test]
    fn non_senior_is_no_lower_than_senior() {
        assert_eq!(grade_weight(&GENERAL, 5, false, 12, 500_000), 4_000);
        assert_eq!(grade_weight(&GENERAL, 5, false, 12, 0), 6_000);
    }

    /// In an STC deal a non-senior weight may lie below the senior figure: A+, 12 months, half thick; AA, 13 months,
    /// one tenth thick; the worst grade, half thick.
    #[test]
    fn stc_non_senior_is_not_raised_to_senior() {
        assert_eq!(grade_weight(&STC, 5, false, 12, 500_000), 1_750);
        assert_eq!(grade_weight(&STC, 5, true, 12, 500_000), 2_000);
        // (15 + 55 x 4 / 240)% x 0.9 = 14.325%, and (15 + 5 x 4 / 240)% = 15.0833%
        assert_eq!(grade_weight(&STC, 3, false, 13, 100_000), 1_433);
        assert_eq!(grade_weight(&STC, 3, true, 13, 100_000), 1_509);
        assert_eq!(grade_weight(&STC, 18, false, 72, 500_000), 62_500);
        assert_eq!(grade_weight(&STC, 18, true, 72, 500_000), 125_000);
    }

    /// More than half thick counts as half; the result is rounded up once.
    #[test]
    fn thickness_is_held_at_one_half() {
        let double_b = |months, thickness| grade_weight(&GENERAL, 12, false, months, thickness);
        assert_eq!([double_b(72, 500_000), double_b(72, 1_000_000)], [38_000, 38_000]);
        // 760% x 0.999999 = 759.99924%
        assert_eq!(double_b(72, 1), 76_000);
        // (620 + 140 x 4 / 240)% x 0.9 = 560.1%, and with 1 millionth more thickness just below
        assert_eq!([double_b(13, 100_000), double_b(13, 100_001)], [56_010, 56_010]);
        assert_eq!(double_b(13, 99_999), 56_011);
        assert_eq!(grade_weight(&STC, 12, false, 72, 1_000_000), 32_750);
    }

    /// Short-term grades take no adjustment, and their weights are whole.
    #[test]
    fn short_term_is_unadjusted() {
        let short_term = |table| [21, 22, 23, 24].map(|code| both_ways(table, code, false, 72, 500_000));
        assert_eq!(
            short_term(&GENERAL),
            [1_500, 5_000, 10_000, 125_000].map(|weight| [weight; 2])
        );
        assert_eq!(
            short_term(&STC),
            [1_000, 3_000, 6_000, 125_000].map(|weight| [weight; 2])
        );
    }

    /// An exact weight is rounded down and up, and stays where it is whole: senior AA has 25% + 15% x 1/60 = 25.25% at 13
    /// months, and AA+ 15% + 15% x 1/60 = 15.25%; AAA 15% + 5% x 1/60 = 15.0833%, and at 15 months 15.25%. Non-senior BB
    /// of 72 months has 760% x 0.999999 = 759.99924%, and 760% without thickness.
    #[test]
    fn rounded_both_ways() {
        assert_eq!(both_ways(&GENERAL, 3, true, 13, 0), [2_525; 2]);
        assert_eq!(both_ways(&GENERAL, 2, true, 13, 0), [1_525; 2]);
        assert_eq!(both_ways(&GENERAL, 1, true, 13, 0), [1_509, 1_508]);
        assert_eq!(both_ways(&GENERAL, 1, true, 15, 0), [1_525; 2]);
        assert_eq!(both_ways(&GENERAL, 12, false, 72, 1), [76_000, 75_999]);
        assert_eq!(both_ways(&GENERAL, 12, false, 72, 0), [76_000; 2]);
        assert_eq!(both_ways(&STC, 3, false, 13, 100_000), [1_433, 1_432]);
    }

    /// A tranche of 72 months that has these ratings.
    fn tranche(class: u64, ratings: [u64; 3]) -> Tranche {
        Tranche {
            amount: 1,
            class,
            months: 72,
            held: 1,
            ratings,
            place: 0,
        }
    }

    /// The weight of such a tranche without thickness.
    fn rated(table: &Table, class: u64, ratings: [u64; 3]) -> u64 {
        weight(table, &tranche(class, ratings), 0)
    }

    /// Of several ratings the exact weights are compared. Non-senior AAA, 285,715 millionths thick, is 70% x 0.714285 =
    /// 49.99995%, and the short-term grade 22 is 50%: both weigh 5,000, and the least weight is that of the higher, of
    /// two and of the two lowest of three, in any order. Of three with a lower one, AAA is the higher of the two lowest.
    #[test]
    fn exact_weights_are_compared() {
        let both = |table, ratings| {
            let tranche = tranche(2, ratings);
            [weight, least_weight].map(|worked: fn(&Table, &Tranche, u64) -> u64| worked(table, &tranche, 285_715))
        };
        assert_eq!(
            [1, 22].map(|code| both(&GENERAL, [code, 0, 0])),
            [[5_000, 4_999], [5_000; 2]]
        );
        for ratings in [[1, 22, 0], [22, 1, 0], [0, 1, 22], [22, 0, 1]] {
            assert_eq!(both(&GENERAL, ratings), [5_000; 2], "{ratings:?}");
        }
        for ratings in [[1, 22, 23], [22, 1, 23], [23, 1, 22], [22, 23, 1]] {
            assert_eq!(both(&GENERAL, ratings), [5_000; 2], "{ratings:?}");
        }
        for ratings in [
            [1, 22, 21],
            [22, 1, 21],
            [21, 1, 22],
            [22, 21, 1],
            [1, 1, 22],
            [1, 22, 1],
        ] {
            assert_eq!(both(&GENERAL, ratings), [5_000, 4_999], "{ratings:?}");
        }
        // In an STC deal AAA is 40% x 0.714285 = 28.5714%, and the grade 22 is 30%.
        assert_eq!(both(&STC, [1, 22, 0]), [3_000; 2]);
        assert_eq!(both(&STC, [1, 22, 21]), [2_858, 2_857]);
    }

    /// One rating counts in any of the words; of two the higher weight counts, whichever word has none.
    #[test]
    fn one_and_two_ratings() {
        for ratings in [[1, 0, 0], [0, 1, 0], [0, 0, 1]] {
            assert_eq!(rated(&GENERAL, 2, ratings), 7_000);
        }
        for ratings in [[1, 18, 0], [1, 0, 18], [0, 1, 18], [18, 1, 0], [18, 0, 1], [0, 18, 1]] {
            assert_eq!(rated(&GENERAL, 2, ratings), 125_000);
        }
        assert_eq!(rated(&GENERAL, 2, [21, 0, 1]), 7_000);
        assert_eq!(rated(&STC, 2, [21, 0, 1]), 4_000);
    }

    /// Of three the two lowest weights are picked and the higher of these counts, in any order: AAA 70%, short-term 50%
    /// and 100%; in an STC deal 40%, 30% and 60%.
    #[test]
    fn three_ratings() {
        for ratings in [
            [1, 22, 23],
            [1, 23, 22],
            [22, 1, 23],
            [22, 23, 1],
            [23, 1, 22],
            [23, 22, 1],
        ] {
            assert_eq!(rated(&GENERAL, 2, ratings), 7_000);
            assert_eq!(rated(&STC, 2, ratings), 4_000);
        }
    }

    /// Equal ratings count separately: two with a lower one and with a higher one, and three.
    #[test]
    fn equal_ratings_count_separately() {
        for ratings in [[1, 9, 9], [9, 1, 9], [9, 9, 1], [9, 9, 9]] {
            assert_eq!(rated(&GENERAL, 2, ratings), 31_000);
        }
        for ratings in [[1, 1, 9], [1, 9, 1], [9, 1, 1]] {
            assert_eq!(rated(&GENERAL, 2, ratings), 7_000);
        }
    }

    /// Weights are compared and not codes: senior AA 40%, short-term 50% and BBB 105%.
    #[test]
    fn weights_are_compared_and_not_codes() {
        assert_eq!(rated(&GENERAL, 1, [3, 22, 9]), 5_000);
        assert_eq!(rated(&GENERAL, 1, [9, 3, 22]), 5_000);
    }

    /// Weights never fall from one grade to the next, at either end of the maturities, and are no higher in an STC deal:
    /// a slip in a table would show.
    #[test]
    fn worse_grades_weigh_no_less() {
        for table in [&GENERAL, &STC] {
            let rows = &table.long_term;
            for column in 0..4 {
                assert!(rows.windows(2).all(|rows| rows[0][column] <= rows[1][column]));
            }
            assert!(rows
                .iter()
                .all(|row| row[0] <= row[1] && row[2] <= row[3] && row[0] <= row[2] && row[1] <= row[3]));
            assert!(table.short_term.is_sorted());
        }
        let figures = |table: &'static Table| table.long_term.as_flattened().iter().chain(&table.short_term);
        assert!(figures(&STC)
            .zip(figures(&GENERAL))
            .all(|(stc, general)| stc <= general));
    }
}
