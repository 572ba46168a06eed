//! The sheets that are timed.

use tranche_weights::{AMENDMENT_WORDS, BLOCK_ROWS, MOST_ROWS, MOST_TRANCHES, ROW_WORDS, TRANCHE_WORDS};

/// Result words for the most tranches that a sheet can hold.
pub const ROOM: usize = tranche_weights::RESULT_WORDS;

/// Facts of an ordinary deal of an SA pool, due diligence held, pool composition known.
const ORDINARY: &[u64] = &[0, 0, 1, 1];

/// The same with the STC mark.
const STC: &[u64] = &[0, 0, 1, 1, 1];

/// Those of an ordinary deal with a reporting date.
const DATED: &[u64] = &[0, 0, 1, 1, 0, 20_260_630];

/// Those of an ordinary deal whose risk weights are in hundredths of a percent.
const HUNDREDTHS: &[u64] = &[0, 0, 1, 1, 0, 0, 1];

/// Those of an ordinary deal of a mixed pool.
const MIXED: &[u64] = &[2, 0, 1, 1];

/// The IRB section of a mixed pool with its count: IRB charge, average loss given default, effective number of loans,
/// wholesale, share of exposure with an IRB charge, IRB average weight.
const IRB_SECTION: &[u64] = &[1, 120_000, 450_000, 40, 0, 970_000, 15_000];

/// A row of the pool: exposure amount, nominal amount, risk weight, status.
type Row = [u64; ROW_WORDS];

/// A row of a tranche: amount, class, maturity, amount held, ratings.
type Tranche = [u64; TRANCHE_WORDS];

/// An amendment: the number of a row, counted from 1, then the row that takes its place.
pub type Amendment = [u64; AMENDMENT_WORDS];

/// Rows that are amended in turn, each twice before the amendments begin anew.
const AMENDED_ROWS: u64 = 32;

/// Where a tranche's row holds its maturity.
const MATURITY: usize = 2;

/// The months of a maturity longer than that of any rated tranche in the large deal, so that a tranche that has it finds
/// no rating to take.
const LONGEST: u64 = 120;

/// The rated tranches of the deal with inferred ratings: number, months and rating. They stand in the middle, with the
/// shorter maturities, and at the end.
const INFERRED_FROM: [(u64, u64, u64); 3] = [(10, 36, 9), (20, 48, 12), (31, 60, 14)];

/// The sheets on which the versions are compared, with their names in the table.
pub fn compared() -> [(&'static str, Vec<u64>); 15] {
    [
        ("small: 3 rows, 3 tranches, one unrated", small()),
        ("small, all tranches rated", small_rated()),
        ("small, three ratings on each tranche", small_rated_thrice()),
        ("small, all tranches with a short-term rating", small_short_term()),
        ("small, all tranches rated, maturities as dates", small_dated()),
        ("small, risk weights in hundredths of a percent", small_hundredths()),
        ("small STC deal: 3 rows, 3 tranches, one unrated", small_stc()),
        ("small STC deal, all tranches rated", small_stc_rated()),
        ("small SEC-IRBA deal: mixed pool, 3 rows, 3 tranches", small_irba()),
        ("small, 51 rows: just past one block", past_one_block()),
        ("large: 1,000 rows, 32 tranches", large()),
        ("large, refused at its last word", large_refused()),
        ("formula: 3 rows, 32 SEC-SA tranches, 3 millionths each", thin()),
        (
            "formula: 3 rows, 32 SEC-SA tranches, 1% each",
            with_tranches(MOST_TRANCHES as u64),
        ),
        ("inferred: 3 rows, 32 tranches, 29 of them unrated", inferred()),
    ]
}

/// The shape of document 01's checked deal, with a junior tranche that is unrated and reaches above the pool charge, so
/// that its weight needs the exponential.
pub fn small() -> Vec<u64> {
    sheet(ORDINARY, &few_rows(100), &three_tranches(1_000_000_000, 0))
}

/// The same, but the junior tranche has a rating.
fn small_rated() -> Vec<u64> {
    sheet(ORDINARY, &few_rows(100), &three_tranches(1_000_000_000, 14))
}

/// The same, but each tranche has three ratings, of different weights and in different orders.
fn small_rated_thrice() -> Vec<u64> {
    let mut tranches = three_tranches(1_000_000_000, 14);
    let ratings = [[1, 3, 2], [9, 10, 8], [15, 13, 14]];
    for (tranche, ratings) in tranches.iter_mut().zip(ratings) {
        tranche[TRANCHE_WORDS - 3..].copy_from_slice(&ratings);
    }
    sheet(ORDINARY, &few_rows(100), &tranches)
}

/// The small deal with a short-term grade on each tranche, from the first down.
fn small_short_term() -> Vec<u64> {
    let mut tranches = three_tranches(1_000_000_000, 0);
    for (tranche, grade) in tranches.iter_mut().zip(21..) {
        tranche[TRANCHE_WORDS - 3] = grade;
    }
    sheet(ORDINARY, &few_rows(100), &tranches)
}

/// The small deal with all tranches rated, a reporting date and the maturities as dates that are as many months on: with a
/// later day of the month, an earlier one and the same.
fn small_dated() -> Vec<u64> {
    let mut tranches = three_tranches(1_000_000_000, 14);
    let maturities = [20_320_531, 20_310_615, 20_290_630];
    for (tranche, maturity) in tranches.iter_mut().zip(maturities) {
        tranche[MATURITY] = maturity;
    }
    sheet(DATED, &few_rows(100), &tranches)
}

/// The small deal with risk weights in hundredths of a percent, 100%, 99.75% and 100%.
fn small_hundredths() -> Vec<u64> {
    sheet(HUNDREDTHS, &few_rows(10_000), &three_tranches(1_000_000_000, 0))
}

/// The small deal as an STC deal: half the parameter, and the second rating table.
fn small_stc() -> Vec<u64> {
    sheet(STC, &few_rows(100), &three_tranches(1_000_000_000, 0))
}

/// The same, but the junior tranche has a rating.
fn small_stc_rated() -> Vec<u64> {
    sheet(STC, &few_rows(100), &three_tranches(1_000_000_000, 14))
}

/// The small deal as one of a mixed pool with so many IRB loans that every tranche takes SEC-IRBA, whatever its rating.
fn small_irba() -> Vec<u64> {
    let tranches = three_tranches(1_000_000_000, 0);
    [&sheet(MIXED, &few_rows(100), &tranches), IRB_SECTION].concat()
}

/// A pool of one row more than a block has, with three tranches.
fn past_one_block() -> Vec<u64> {
    with_rows(BLOCK_ROWS as u64 + 1)
}

/// The most rows and tranches; two tranches to a class here and there, and every second one unrated. Those are the
/// longest, so that they take no rating and the formula.
pub fn large() -> Vec<u64> {
    large_of(MOST_ROWS as u64)
}

/// The same tranches, of the same shares, over a pool of the given number of rows.
pub fn large_of(count: u64) -> Vec<u64> {
    let rows = rows(count);
    let amount = nominal(&rows) / MOST_TRANCHES as u64;
    let mut class = 1;
    let tranche = |number: u64| {
        class += u64::from(number % 5 != 4 && number > 0);
        let rated = number.is_multiple_of(2);
        let rating = if rated { 1 + number / 2 } else { 0 };
        let second = if number.is_multiple_of(8) { 1 + number / 3 } else { 0 };
        [
            amount,
            class,
            if rated { 12 + 3 * number } else { LONGEST },
            amount / (1 + number % 3),
            rating,
            second,
            0,
        ]
    };
    let tranches: Vec<Tranche> = (0..MOST_TRANCHES as u64).map(tranche).collect();
    sheet(ORDINARY, &rows, &tranches)
}

/// Amendments of the large deal's pool with the given number of rows, spread over it. Each leaves the row its status and
/// changes its other words: some of the exposure has been repaid, the nominal amount is a little above the first one, so
/// that the tranches still fit the pool, and the risk weight is another one.
pub fn amendments(count: u64) -> Vec<Amendment> {
    let rows = rows(count);
    let amendment = |number: u64| {
        let row = number % AMENDED_ROWS * 619 % count;
        let [exposure, nominal, risk_weight, status] = rows[row as usize];
        let other_weight = 40 + (risk_weight - 40 + number) % 61;
        [
            row + 1,
            exposure - 1_000 * number,
            nominal + 1 + number,
            other_weight,
            status,
        ]
    };
    (1..=2 * AMENDED_ROWS).map(amendment).collect()
}

/// Writes the amendment's row over that of its number in a sheet.
pub fn replace_row(sheet: &mut [u64], amendment: &Amendment) {
    let [number, row @ ..] = amendment;
    let first_row = 2 + sheet[0] as usize;
    let place = first_row + ROW_WORDS * (*number as usize - 1);
    sheet[place..place + ROW_WORDS].copy_from_slice(row);
}

/// The large deal with a last word that is no rating code.
fn large_refused() -> Vec<u64> {
    let mut sheet = large();
    sheet.pop();
    sheet.push(19);
    sheet
}

/// Tranches of three millionths of the pool, all above the pool charge, so that each weight needs two exponentials that
/// lie close together. The risk weights are high, so that the weights lie above the floor.
fn thin() -> Vec<u64> {
    sheet(ORDINARY, &few_rows(500), &unrated_tranches(MOST_TRANCHES as u64, 3_000))
}

/// The same pool with the given number of such tranches, but each a hundredth of the pool. Much thinner tranches, and points
/// very far above the charge, take the proved formula less time.
pub fn with_tranches(count: u64) -> Vec<u64> {
    sheet(ORDINARY, &few_rows(500), &unrated_tranches(count, 10_000_000))
}

/// The same pool with tranches of a hundredth, of 30, 45 and 60 months in turn. Three of them are rated, and each other one
/// takes the rating of the first of these below it that is long enough.
fn inferred() -> Vec<u64> {
    let mut tranches = unrated_tranches(MOST_TRANCHES as u64, 10_000_000);
    for (tranche, months) in tranches.iter_mut().zip([30, 45, 60].into_iter().cycle()) {
        tranche[MATURITY] = months;
    }
    for (number, months, rating) in INFERRED_FROM {
        let tranche = &mut tranches[number as usize];
        (tranche[MATURITY], tranche[TRANCHE_WORDS - 3]) = (months, rating);
    }
    sheet(ORDINARY, &few_rows(500), &tranches)
}

/// A pool of the given number of rows, with three tranches.
pub fn with_rows(count: u64) -> Vec<u64> {
    let rows = rows(count);
    sheet(ORDINARY, &rows, &three_tranches(nominal(&rows), 0))
}

/// The sheet of the given facts and rows.
fn sheet(facts: &[u64], rows: &[Row], tranches: &[Tranche]) -> Vec<u64> {
    let sections = [facts, rows.as_flattened(), tranches.as_flattened()];
    let counts = [facts.len(), rows.len(), tranches.len()].map(|count| [count as u64]);
    let counted = counts.iter().zip(sections);
    counted.flat_map(|(count, words)| [count, words].concat()).collect()
}

/// Three rows of 10^9 in all, of the given risk weight or a little less, one of them delinquent.
fn few_rows(risk_weight: u64) -> [Row; 3] {
    [
        [600_000_000, 600_000_000, risk_weight, 0],
        [350_000_000, 350_000_000, risk_weight - 25, 0],
        [50_000_000, 50_000_000, risk_weight, 1],
    ]
}

/// Rows of varied amounts and risk weights; two of a hundred are delinquent, and two have no known status.
fn rows(count: u64) -> Vec<Row> {
    let row = |number: u64| {
        let varied = number.wrapping_mul(0x9E37_79B9_7F4A_7C15) >> 32;
        let exposure = 500_000 + varied % 1_000_000;
        let status = match number % 50 {
            17 => 1,
            33 => 2,
            _ => 0,
        };
        [exposure, exposure + varied % 1_000, 40 + varied % 61, status]
    };
    (0..count).map(row).collect()
}

/// The sum of nominal amounts.
fn nominal(rows: &[Row]) -> u64 {
    rows.iter().map(|row| row[1]).sum()
}

/// Senior AAA, BBB, and a junior tranche of the given rating: 70%, 15% and 15% of the pool.
fn three_tranches(nominal: u64, junior: u64) -> [Tranche; 3] {
    let (senior, part) = (nominal / 100 * 70, nominal / 100 * 15);
    [
        [senior, 1, 72, senior, 1, 0, 0],
        [part, 2, 60, part / 2, 9, 0, 0],
        [part, 3, 36, part, junior, 0, 0],
    ]
}

/// Unrated tranches of the same amount, a class each, from the top of the pool down.
fn unrated_tranches(count: u64, amount: u64) -> Vec<Tranche> {
    (1..=count).map(|class| [amount, class, 60, amount, 0, 0, 0]).collect()
}

#[cfg(test)]
mod tests {
    use super::*;
    use independent::{Deal, Line};
    use tranche_weights::Approach;

    /// The exact answer to a sheet that must be accepted.
    fn deal(sheet: &[u64]) -> Deal {
        independent::weigh(sheet, ROOM as u64).expect("an accepted sheet")
    }

    /// Whether a line's weight needs the exponential.
    fn needs_formula(line: &Line, charge: u64) -> bool {
        let by_formula = [Approach::SecSa, Approach::SecIrba].contains(&line.approach.into());
        by_formula && charge >= 1 && line.detachment > charge
    }

    /// The unrated tranche takes the formula, with and without the STC mark, with risk weights in hundredths and with a
    /// second block.
    #[test]
    fn small_deals_are_as_named() {
        for small in [small(), small_hundredths(), small_stc(), past_one_block()] {
            let small = deal(&small);
            let approaches: Vec<Approach> = small.lines.iter().map(|line| line.approach.into()).collect();
            assert_eq!(approaches, [Approach::SecErba, Approach::SecErba, Approach::SecSa]);
            assert!(needs_formula(&small.lines[2], small.charge));
        }
        let rated = |line: &Line| line.approach == Approach::SecErba.word();
        let all_rated = [
            small_rated(),
            small_rated_thrice(),
            small_short_term(),
            small_dated(),
            small_stc_rated(),
        ];
        for sheet in all_rated {
            assert!(deal(&sheet).lines.iter().all(rated));
        }
    }

    /// Every tranche takes SEC-IRBA and needs the exponential; the base charge counts; and floor, cap and 1250% hide no
    /// weight but the senior one.
    #[test]
    fn irba_deal_takes_the_formula_throughout() {
        let irba = deal(&small_irba());
        // 0.97 × 120,000 + 0.03 × 73,000.
        assert_eq!(irba.charge, 118_590);
        for line in &irba.lines {
            assert_eq!(line.approach, Approach::SecIrba.word());
            assert!(needs_formula(line, irba.charge));
        }
        let junior = &irba.lines[1..];
        assert!(junior
            .iter()
            .all(|line| (1_501..125_000).contains(&line.amounts[0].weight)));
    }

    /// The weights of a sheet's lines.
    fn weights(sheet: &[u64]) -> Vec<u64> {
        deal(sheet).lines.iter().map(|line| line.amounts[0].weight).collect()
    }

    /// With maturities as dates each weight is that of the months.
    #[test]
    fn dates_are_as_many_months_on() {
        assert_eq!(weights(&small_dated()), weights(&small_rated()));
    }

    /// The row of 99.75% is 35% of the pool, so that the base charge is 70 millionths less than 80,000; a twentieth is late.
    /// It is no whole percent.
    #[test]
    fn hundredths_count() {
        let hundredths = deal(&small_hundredths());
        assert_eq!(hundredths.charge, (19 * 79_930 + 500_000_u64).div_ceil(20));
        assert!(independent::convert(&small_hundredths(), u64::MAX).is_err_and(|refusal| refusal.number == 19));
    }

    /// With short-term grades each weight is the grade's figure; the first is the floor too, and the cap lowers none.
    #[test]
    fn short_term_figures_count() {
        assert_eq!(weights(&small_short_term()), [1_500, 5_000, 10_000]);
    }

    /// With three ratings each weight is that of the middle one, and neither floor nor cap hides it: AA+ 30%, BBB and B+ as
    /// where they are alone.
    #[test]
    fn middle_ratings_count() {
        let (one, three) = (weights(&small_rated()), weights(&small_rated_thrice()));
        assert_eq!(three[0], 3_000);
        assert_eq!(three[1..], one[1..]);
    }

    /// With the STC mark every weight of the small deals is lower.
    #[test]
    fn stc_deals_weigh_less() {
        for (marked, unmarked) in [(small_stc(), small()), (small_stc_rated(), small_rated())] {
            let (marked, unmarked) = (deal(&marked), deal(&unmarked));
            let mut lines = marked.lines.iter().zip(&unmarked.lines);
            assert!(lines.all(|(one, other)| one.amounts[0].weight < other.amounts[0].weight));
        }
    }

    /// The deal just past one block has 51 rows: a full block, and one of a single row.
    #[test]
    fn one_row_is_past_one_block() {
        let (sheet, rows) = (past_one_block(), rows(51));
        let of_block = |block| independent::block_sums(&sheet, block).map(|sums| sums.all.nominal);
        let due = [&rows[..50], &rows[50..], &[]].map(|rows| Ok(nominal(rows)));
        assert_eq!([0, 1, 2].map(of_block), due);
    }

    /// Half of the tranches are rated, and no other takes a rating; the damage is found at the last word and not before.
    #[test]
    fn large_deal_mixes_approaches_and_its_damaged_form_is_refused_at_the_end() {
        let large = deal(&large());
        assert_eq!(large.lines.len(), MOST_TRANCHES);
        let of = |approach: Approach| large.lines.iter().filter(move |line| line.approach == approach.word());
        let counts = [Approach::SecErba, Approach::SecSa].map(|approach| of(approach).count());
        assert_eq!(counts, [MOST_TRANCHES / 2; 2]);
        let sheet = large_refused();
        let refusal = independent::weigh(&sheet, ROOM as u64).expect_err("a refused sheet");
        assert_eq!((refusal.number, refusal.place), (11, sheet.len() as u64 - 1));
    }

    /// With every number of rows, each amendment leaves half of the tranches rated and the others under the formula, so that
    /// the deals differ in rows alone.
    #[test]
    fn amended_deals_keep_their_approaches() {
        for count in [1, BLOCK_ROWS as u64, 250, MOST_ROWS as u64] {
            let mut sheet = large_of(count);
            for amendment in amendments(count) {
                replace_row(&mut sheet, &amendment);
                let amended = deal(&sheet);
                let of = |approach: Approach| {
                    amended
                        .lines
                        .iter()
                        .filter(move |line| line.approach == approach.word())
                };
                let counts = [Approach::SecErba, Approach::SecSa].map(|approach| of(approach).count());
                assert_eq!(counts, [MOST_TRANCHES / 2; 2], "{count} rows: {amendment:?}");
            }
        }
    }

    /// So it does with three tranches, of which the junior one takes the formula.
    #[test]
    fn amended_small_deals_keep_their_approaches() {
        for count in [1, MOST_ROWS as u64] {
            let mut sheet = with_rows(count);
            for amendment in amendments(count) {
                replace_row(&mut sheet, &amendment);
                let amended = deal(&sheet);
                let junior = &amended.lines[2];
                assert!(needs_formula(junior, amended.charge), "{count} rows: {amendment:?}");
            }
        }
    }

    /// Each amendment changes all words of its row but the status, also where the amendments begin anew.
    #[test]
    fn amendments_change_their_rows() {
        for count in [1, BLOCK_ROWS as u64, 250, MOST_ROWS as u64] {
            let mut rows = rows(count);
            let amendments = amendments(count);
            for [number, new @ ..] in [&amendments[..], &amendments].concat() {
                let row = &mut rows[number as usize - 1];
                let same = row.iter().zip(new).map(|(old, new)| *old == new);
                assert_eq!(
                    same.collect::<Vec<_>>(),
                    [false, false, false, true],
                    "{count} rows: {number}"
                );
                *row = new;
            }
        }
    }

    /// A lies above the charge, so neither exponential is that of 0; and neither floor nor cap hides the raw weight.
    #[test]
    fn unrated_tranches_all_need_two_exponentials() {
        for sheet in [thin(), with_tranches(MOST_TRANCHES as u64)] {
            let deal = deal(&sheet);
            assert_eq!(deal.lines.len(), MOST_TRANCHES);
            let both = |line: &Line| needs_formula(line, deal.charge) && line.attachment > deal.charge;
            assert!(deal.lines.iter().all(both));
            assert!(deal.lines.iter().all(|line| line.amounts[0].weight > 1_500));
            assert!(
                deal.lines[0].amounts[0].weight < 100 * 475,
                "below the least risk weight, so below the cap"
            );
        }
    }

    /// Every line is by the rating table, and all tranches but three are unrated. Without the rating of any of the three,
    /// other lines than its own change: these take it.
    #[test]
    fn inferred_deal_takes_ratings_of_others() {
        let sheet = inferred();
        let deal = deal(&sheet);
        assert!(deal.lines.iter().all(|line| line.approach == Approach::SecErba.word()));
        let first_rating = |number: usize| sheet.len() - TRANCHE_WORDS * (MOST_TRANCHES - number) + TRANCHE_WORDS - 3;
        let unrated = (0..MOST_TRANCHES).filter(|&number| sheet[first_rating(number)] == 0);
        assert_eq!(unrated.count(), MOST_TRANCHES - INFERRED_FROM.len());
        for (number, _, _) in INFERRED_FROM {
            let mut without = sheet.clone();
            without[first_rating(number as usize)] = 0;
            let lines = weights(&sheet).into_iter().zip(weights(&without));
            assert!(lines.filter(|(one, other)| one != other).count() > 4, "{number}");
        }
    }

    /// With every number of rows the junior tranche takes the formula, so that the steps differ in rows alone.
    #[test]
    fn growing_deals_keep_their_approaches() {
        for count in [1, 10, 100, 250, 500, MOST_ROWS as u64] {
            let deal = deal(&with_rows(count));
            assert!(needs_formula(&deal.lines[2], deal.charge), "{count} rows");
        }
    }
}
