//! "The rating table", and the second one for STC deals: the figure that a rating gives.

use crate::points::Points;

/// The figures of a rating table, in percent.
pub struct Table {
    /// The codes 1 to 18: senior 1 year, senior 5 years, non-senior 1 year, non-senior 5 years.
    long_term: [[f64; 4]; 18],
    /// The codes 21 to 24.
    short_term: [f64; 4],
    /// Whether a non-senior figure is raised to the senior one.
    compared: bool,
}

/// The table of document 01.
pub static GENERAL: Table = Table {
    long_term: [
        [15.0, 20.0, 15.0, 70.0],
        [15.0, 30.0, 15.0, 90.0],
        [25.0, 40.0, 30.0, 120.0],
        [30.0, 45.0, 40.0, 140.0],
        [40.0, 50.0, 60.0, 160.0],
        [50.0, 65.0, 80.0, 180.0],
        [60.0, 70.0, 120.0, 210.0],
        [75.0, 90.0, 170.0, 260.0],
        [90.0, 105.0, 220.0, 310.0],
        [120.0, 140.0, 330.0, 420.0],
        [140.0, 160.0, 470.0, 580.0],
        [160.0, 180.0, 620.0, 760.0],
        [200.0, 225.0, 750.0, 860.0],
        [250.0, 280.0, 900.0, 950.0],
        [310.0, 340.0, 1050.0, 1050.0],
        [380.0, 420.0, 1130.0, 1130.0],
        [460.0, 505.0, 1250.0, 1250.0],
        [1250.0, 1250.0, 1250.0, 1250.0],
    ],
    short_term: [15.0, 50.0, 100.0, 1250.0],
    compared: true,
};

/// The table of STC deals, Tables 3 and 4 of source document 001. It has no comparison.
pub static STC: Table = Table {
    long_term: [
        [10.0, 10.0, 15.0, 40.0],
        [10.0, 15.0, 15.0, 55.0],
        [15.0, 20.0, 15.0, 70.0],
        [15.0, 25.0, 25.0, 80.0],
        [20.0, 30.0, 35.0, 95.0],
        [30.0, 40.0, 60.0, 135.0],
        [35.0, 40.0, 95.0, 170.0],
        [45.0, 55.0, 150.0, 225.0],
        [55.0, 65.0, 180.0, 255.0],
        [70.0, 85.0, 270.0, 345.0],
        [120.0, 135.0, 405.0, 500.0],
        [135.0, 155.0, 535.0, 655.0],
        [170.0, 195.0, 645.0, 740.0],
        [225.0, 250.0, 810.0, 855.0],
        [280.0, 305.0, 945.0, 945.0],
        [340.0, 380.0, 1015.0, 1015.0],
        [415.0, 455.0, 1250.0, 1250.0],
        [1250.0, 1250.0, 1250.0, 1250.0],
    ],
    short_term: [10.0, 30.0, 60.0, 1250.0],
    compared: false,
};

/// The tranche maturity of so many months, in fifths of a month: 80% of what is past one year, within one and five years.
pub fn maturity_fifths(months: u64) -> f64 {
    (4 * months + 12).clamp(60, 300) as f64
}

/// The figure of a rating that is present, in hundredths of a percent, before it is rounded.
pub fn figure(table: &Table, code: u64, senior: bool, months: u64, points: &Points) -> f64 {
    if code > table.long_term.len() as u64 {
        return 100.0 * table.short_term[code as usize - 21];
    }
    let [senior_1, senior_5, other_1, other_5] = table.long_term[code as usize - 1];
    // Past one year: 0 to 240.
    let past_year = maturity_fifths(months) - 60.0;
    // Percent times 240, so that the one division comes last.
    let at_maturity = |year_1: f64, year_5: f64| 240.0 * year_1 + (year_5 - year_1) * past_year;
    let senior_figure = at_maturity(senior_1, senior_5) * 1e6;
    let figure = if senior {
        senior_figure
    } else {
        let thickness = (points.detachment - points.attachment).min(500_000.0);
        let figure = at_maturity(other_1, other_5) * (1e6 - thickness);
        if table.compared {
            figure.max(senior_figure)
        } else {
            figure
        }
    };
    100.0 * figure / 240e6
}

#[cfg(test)]
mod tests {
    use super::*;

    const THIN: Points = Points {
        attachment: 0.0,
        detachment: 0.0,
    };

    const HALF: Points = Points {
        attachment: 0.0,
        detachment: 500_000.0,
    };

    /// The 80% rule: months 1 and 12 weigh alike, and so do 72 and 1200; 71 is one step below 72.
    #[test]
    fn maturity_is_held_within_one_and_five_years() {
        let senior_aa = |months| figure(&GENERAL, 3, true, months, &THIN);
        assert_eq!([senior_aa(1), senior_aa(12)], [2_500.0, 2_500.0]);
        assert_eq!([senior_aa(72), senior_aa(1200)], [4_000.0, 4_000.0]);
        assert_eq!([senior_aa(36), senior_aa(71)], [3_100.0, 3_975.0]);
    }

    /// A short-term grade is the same for every class, maturity and thickness.
    #[test]
    fn short_term_grades_are_unadjusted() {
        let codes = [21, 22, 23, 24];
        for (table, expected) in [
            (&GENERAL, [1_500.0, 5_000.0, 10_000.0, 125_000.0]),
            (&STC, [1_000.0, 3_000.0, 6_000.0, 125_000.0]),
        ] {
            assert_eq!(codes.map(|code| figure(table, code, true, 1, &THIN)), expected);
            assert_eq!(codes.map(|code| figure(table, code, false, 72, &HALF)), expected);
        }
    }

    /// Non-senior A+ at one year, half thick: the senior figure, and in an STC deal half of its own, which is lower.
    #[test]
    fn non_senior_figure_is_raised_to_the_senior_one_but_in_an_stc_deal() {
        let single_a = |table, senior| figure(table, 5, senior, 12, &HALF);
        assert_eq!(
            [single_a(&GENERAL, true), single_a(&GENERAL, false)],
            [4_000.0, 4_000.0]
        );
        assert_eq!([single_a(&STC, true), single_a(&STC, false)], [2_000.0, 1_750.0]);
    }

    /// Senior AAA at 14 months: 15 + 5 × 8 / 240 = 15.1666…%.
    #[test]
    fn figure_is_not_rounded() {
        let figure = figure(&GENERAL, 1, true, 14, &THIN);
        assert!(1_516.0 < figure && figure < 1_517.0, "{figure}");
    }
}
