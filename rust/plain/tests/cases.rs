//! Document 01's checked deals and refusals, the STC deals of S-1, several ratings by S-2, the dates of S-3, the IRB
//! section of S-5, the seventh word of S-6, the blocks of S-7, the inferred ratings of S-8 and the unit of risk weights of
//! S-9, through the one function that callers have.

use plain::LINE_WORDS;

/// The words of a pool row.
type Row = [u64; 4];

/// The words of a tranche row.
type Tranche = [u64; 7];

/// The facts' section of an ordinary deal.
const FACTS: [u64; 5] = [4, 0, 0, 1, 1];

/// The facts' section of an STC deal.
const STC: [u64; 6] = [5, 0, 0, 1, 1, 1];

/// The facts' section of an ordinary deal with risk weights in hundredths of a percent.
const HUNDREDTHS: [u64; 8] = [7, 0, 0, 1, 1, 0, 0, 1];

/// Where a line holds its approach.
const APPROACH: usize = 0;

/// Where a line holds its weight.
const WEIGHT: usize = 3;

/// Where a line holds the figure after floor and cap rounded down.
const LEAST_WEIGHT: usize = 6;

/// The whole deal of "Checked deals".
const CHECKED: [u64; 36] = [
    4, 0, 0, 1, 1, 2, 950, 950, 100, 0, 50, 50, 100, 1, 3, 800, 1, 72, 800, 1, 0, 0, 150, 2, 72, 100, 9, 0, 0, 50, 3,
    72, 50, 0, 0, 0,
];

/// A sheet of the given facts, pool rows and tranche rows.
fn sheet(facts: &[u64], rows: &[Row], tranches: &[Tranche]) -> Vec<u64> {
    let counted = |count: usize| [count as u64];
    [
        facts,
        &counted(rows.len()),
        rows.as_flattened(),
        &counted(tranches.len()),
        tranches.as_flattened(),
    ]
    .concat()
}

/// The charge and the lines of a sheet that must be accepted.
fn weighed(sheet: &[u64]) -> (u64, Vec<[u64; LINE_WORDS]>) {
    let mut results = [0; 4 * LINE_WORDS];
    let (count, charge) = plain::weigh(sheet, &mut results).expect("an accepted sheet");
    let lines = results.as_chunks().0[..count as usize].to_vec();
    (charge, lines)
}

/// An ordinary tranche of 72 months, wholly held.
fn tranche(amount: u64, class: u64, rating: u64) -> Tranche {
    [amount, class, 72, amount, rating, 0, 0]
}

/// The text of "Checked deals", word by word.
#[test]
fn checked_deal_gives_the_lines_of_01_and_writes_no_later_word() {
    let mut results = [77; 3 * LINE_WORDS + 2];
    assert_eq!(plain::weigh(&CHECKED, &mut results), Ok((3, 101_000)));
    let (lines, later) = results.as_chunks::<LINE_WORDS>();
    assert_eq!(lines[0], [1, 200_000, 1_000_000, 2_000, 160, 13, 2_000]);
    assert_eq!(lines[1], [1, 50_000, 200_000, 26_350, 264, 22, 26_350]);
    assert_eq!(lines[2], [2, 0, 50_000, 125_000, 625, 50, 125_000]);
    assert_eq!(later, [77, 77]);
}

/// Senior AA at 36 months; non-senior A+ at 12 months, half thick; senior AAA over loans of 10%; one rating, two with none
/// in each word, three in every order.
#[test]
fn rated_cases() {
    let loans = [[1_000, 1_000, 100, 0]];
    let (_, lines) = weighed(&sheet(&FACTS, &loans, &[[1_000, 1, 36, 0, 3, 0, 0]]));
    assert_eq!(lines[0][WEIGHT], 3_100);
    let (_, lines) = weighed(&sheet(&FACTS, &loans, &[tranche(500, 1, 1), [500, 2, 12, 0, 5, 0, 0]]));
    assert_eq!(lines[1][WEIGHT], 4_000);
    let (_, lines) = weighed(&sheet(&FACTS, &[[1_000, 1_000, 10, 0]], &[tranche(1_000, 1, 1)]));
    assert_eq!(lines[0][WEIGHT], 1_000);
    for (ratings, weight) in [
        ([3, 0, 0], 4_000),
        ([0, 1, 3], 4_000),
        ([3, 0, 1], 4_000),
        ([1, 3, 0], 4_000),
        ([1, 22, 3], 4_000),
        ([1, 3, 22], 4_000),
        ([22, 1, 3], 4_000),
        ([22, 3, 1], 4_000),
        ([3, 1, 22], 4_000),
        ([3, 22, 1], 4_000),
        ([1, 3, 1], 2_000),
        ([3, 1, 3], 4_000),
    ] {
        let [first, second, third] = ratings;
        let (_, lines) = weighed(&sheet(&FACTS, &loans, &[[1_000, 1, 72, 0, first, second, third]]));
        assert_eq!(lines[0][WEIGHT], weight, "{ratings:?}");
    }
}

/// The rows (2, 100%) and (1, 50%).
#[test]
fn charge_and_cap_round_up() {
    let (charge, lines) = weighed(&sheet(&FACTS, &[[2, 2, 100, 0], [1, 1, 50, 0]], &[tranche(3, 1, 18)]));
    assert_eq!((charge, lines[0][WEIGHT]), (66_667, 8_334));
}

/// A base of 80,000 with 5% unknown, and with 5.1%.
#[test]
fn unknown_rows_above_a_twentieth_give_the_fallback() {
    let pool = |unknown| [[1_000 - unknown, 1_000 - unknown, 100, 0], [unknown, unknown, 100, 2]];
    let (charge, lines) = weighed(&sheet(&FACTS, &pool(50), &[tranche(1_000, 1, 0)]));
    assert_eq!((charge, lines[0][APPROACH]), (126_000, 2));
    let (charge, lines) = weighed(&sheet(&FACTS, &pool(51), &[tranche(1_000, 1, 0)]));
    assert_eq!((charge, lines[0][APPROACH], lines[0][WEIGHT]), (1_000_000, 0, 125_000));
}

/// Rows of one unit, of every 25 one delinquent and one of unknown status.
fn unit_rows(count: u64) -> Vec<Row> {
    let status = |row| match row % 25 {
        7 => 1,
        24 => 2,
        _ => 0,
    };
    (0..count).map(|row| [1, 1, 100, status(row)]).collect()
}

/// Rows in several blocks, the last one full or not, have the charge and the lines of one row for each status.
#[test]
fn blocks_add_up() {
    for count in [49, 50, 51, 99, 100, 101, 950, 951, 1_000] {
        let rows = unit_rows(count);
        let of_status = |status| {
            let units = rows.iter().filter(|row| row[3] == status).count() as u64;
            [units, units, 100, status]
        };
        let tranches = [tranche(count / 2, 1, 1), tranche(count / 3, 2, 0)];
        let by_status = sheet(&FACTS, &[0, 1, 2].map(of_status), &tranches);
        assert_eq!(
            weighed(&sheet(&FACTS, &rows, &tranches)),
            weighed(&by_status),
            "{count}"
        );
    }
}

/// A bad word of a later block and one that is missing there are refused at their places.
#[test]
fn later_blocks_are_judged() {
    let words = sheet(&FACTS, &unit_rows(101), &[tranche(1, 1, 1)]);
    for (row, word, bad, number) in [(49, 0, 0, 5), (50, 1, 0, 5), (99, 2, 1_251, 6), (100, 3, 3, 7)] {
        let place = 6 + 4 * row + word;
        let mut changed = words.clone();
        changed[place] = bad;
        refused(&changed, LINE_WORDS, number, place as u64);
        refused(&words[..place], LINE_WORDS, 1, place as u64);
    }
}

/// K = 0: the raw weight is 0 where D is above 0, so floor and cap decide; where D is 0 too it is 125,000.
#[test]
fn formula_without_charge_gives_cap_floor_or_all() {
    let tranches = [tranche(500, 1, 0), tranche(500, 2, 0), tranche(5, 3, 0)];
    let (charge, lines) = weighed(&sheet(&FACTS, &[[1_000, 1_000, 0, 0]], &tranches));
    assert_eq!(charge, 0);
    assert_eq!(
        [lines[0][WEIGHT], lines[1][WEIGHT], lines[2][WEIGHT]],
        [0, 1_500, 125_000]
    );
}

/// The weights of these cases are open by one, and `f64` may add one: each must be within 2 of 01's lower figure.
#[test]
fn formula_cases_are_near_those_of_01() {
    let loans = [[1_000, 1_000, 125, 0]];
    for (amounts, expected) in [([800, 100, 100], 79_016), ([850, 100, 50], 111_684)] {
        let [senior, middle, junior] = amounts;
        let tranches = [tranche(senior, 1, 0), tranche(middle, 2, 0), tranche(junior, 3, 0)];
        let (charge, lines) = weighed(&sheet(&FACTS, &loans, &tranches));
        assert_eq!(charge, 100_000);
        assert!(
            lines[1][WEIGHT].abs_diff(expected) <= 2,
            "{} for {expected}",
            lines[1][WEIGHT]
        );
        assert_eq!(lines[2][WEIGHT], 125_000, "D = K, or D below K");
    }
}

/// Parameter 1.5 and floor 10,000; the ratings are not used and class 1 has no cap.
#[test]
fn resecuritisation_takes_its_own_parameter_and_floor_and_no_ratings() {
    let facts = [4, 0, 1, 1, 1];
    let tranches = [tranche(800, 1, 1), tranche(100, 2, 1), tranche(100, 3, 1)];
    let (charge, lines) = weighed(&sheet(&facts, &[[1_000, 1_000, 125, 3]], &tranches));
    assert_eq!(charge, 100_000);
    // 125,000 × 1.5 × (1 − e^(−2/3)) = 91,234.29…
    assert!(lines[1][WEIGHT].abs_diff(91_235) <= 2, "{}", lines[1][WEIGHT]);
    // 125,000 × 150,000 × (e^(−2/3) − e^(−6)) / 800,000 = 11,975.1…
    assert!(lines[0][WEIGHT].abs_diff(11_976) <= 2, "{}", lines[0][WEIGHT]);
    assert_eq!(lines[0][APPROACH], 2, "SEC-SA in spite of the ratings");
    let (_, lines) = weighed(&sheet(&facts, &[[1_000, 1_000, 10, 3]], &[tranche(1_000, 1, 1)]));
    assert_eq!(lines[0][WEIGHT], 10_000, "the floor, and no cap");
}

/// Parameter 0.5: 125,000 × 0.5 × (1 − e^(−2)) = 54,041.5… for K = A = 100,000 and D = 200,000.
#[test]
fn stc_deal_takes_half_the_parameter() {
    let tranches = [tranche(800, 1, 0), tranche(100, 2, 0), tranche(100, 3, 0)];
    let (charge, lines) = weighed(&sheet(&STC, &[[1_000, 1_000, 125, 0]], &tranches));
    assert_eq!(charge, 100_000);
    assert!(lines[1][WEIGHT].abs_diff(54_042) <= 2, "{}", lines[1][WEIGHT]);
    assert_eq!(lines[2][WEIGHT], 125_000, "D = K");
}

/// Floor 1,000 for class 1 and 1,500 below, by the formula and by the table; the cap acts after the floor. The unrated
/// tranches are a month longer than the rated one, so that they take no rating.
#[test]
fn stc_deal_takes_its_own_floors() {
    let unknown = [5, 0, 0, 1, 0, 1];
    let unrated = |amount, class| [amount, class, 73, amount, 0, 0, 0];
    let tranches = [unrated(500, 1), unrated(400, 2), tranche(100, 3, 21)];
    let weights = |facts: &[u64], risk_weight| {
        let (_, lines) = weighed(&sheet(facts, &[[1_000, 1_000, risk_weight, 0]], &tranches));
        [lines[0][WEIGHT], lines[1][WEIGHT], lines[2][WEIGHT]]
    };
    assert_eq!(weights(&unknown, 1), [1_000, 1_500, 1_500]);
    assert_eq!(weights(&STC, 1), [100, 1_500, 1_500]);
}

/// Senior AA at 36 months; non-senior A+ at 12 months, half thick, below the senior figure of 2,000.
#[test]
fn stc_deal_takes_its_own_table() {
    let loans = [[1_000, 1_000, 100, 0]];
    let (_, lines) = weighed(&sheet(
        &STC,
        &loans,
        &[[500, 1, 36, 0, 3, 0, 0], [500, 2, 12, 0, 5, 0, 0]],
    ));
    assert_eq!([lines[0][WEIGHT], lines[1][WEIGHT]], [1_700, 1_750]);
}

/// The fifth fact is 0 or 1, and 0 in a re-securitisation; with 0 the answer is that of four facts.
#[test]
fn stc_mark_is_judged_at_the_fifth_fact() {
    let with_facts = |facts: &[u64]| [facts, &CHECKED[5..]].concat();
    assert_eq!(weighed(&with_facts(&[5, 0, 0, 1, 1, 0])), weighed(&CHECKED));
    refused(&with_facts(&[5, 0, 0, 1, 1, 2]), 3 * LINE_WORDS, 4, 5);
    refused(&with_facts(&[5, 0, 1, 1, 1, u64::MAX]), 3 * LINE_WORDS, 4, 5);
    refused(&with_facts(&[5, 0, 1, 1, 1, 1]), 3 * LINE_WORDS, 16, 5);
    refused(&[5, 0, 1, 1, 1], 3 * LINE_WORDS, 1, 5);
}

/// A sheet of two rated tranches with this reporting date, its sixth fact, and this maturity of both.
fn dated(reporting_date: u64, maturity: u64) -> Vec<u64> {
    let facts = [6, 0, 0, 1, 1, 0, reporting_date];
    let rated = |class, rating| [500, class, maturity, 0, rating, 0, 0];
    sheet(&facts, &[[1_000, 1_000, 100, 0]], &[rated(1, 3), rated(2, 9)])
}

/// The lines are those of the months; a reporting date of 0 is none.
#[test]
fn dates_give_the_months() {
    for (reporting_date, maturity, months) in [
        (20_260_131, 20_280_131, 24),
        (20_260_131, 20_280_229, 25),
        (20_240_229, 20_260_228, 24),
        (20_240_229, 20_260_301, 25),
        (20_260_228, 20_280_331, 26),
        (20_000_101, 21_000_101, 1_200),
    ] {
        let by_months = weighed(&dated(0, months));
        assert_eq!(weighed(&dated(reporting_date, maturity)), by_months, "{months} months");
    }
    let with_zeros = [&[6, 0, 0, 1, 1, 0, 0], &CHECKED[5..]].concat();
    assert_eq!(weighed(&with_zeros), weighed(&CHECKED));
}

/// 17 at the sixth fact or at a maturity, before 10 and after 16; without a reporting date a date is too many months.
#[test]
fn dates_are_refused_at_their_places() {
    let (fact, maturity) = (6, 15);
    for (reporting_date, maturing, number, place) in [
        (36, 20_321_116, 17, fact),
        (21_000_229, 21_321_116, 17, fact),
        (22_000_101, 22_000_102, 17, fact),
        (u64::MAX, 20_321_116, 17, fact),
        (20_261_116, 0, 17, maturity),
        (20_261_116, 36, 17, maturity),
        (20_261_116, 20_320_230, 17, maturity),
        (20_261_116, 20_261_116, 17, maturity),
        (20_261_116, 20_261_115, 17, maturity),
        (20_261_116, u64::MAX, 17, maturity),
        (20_261_116, 21_261_117, 10, maturity),
        (0, 20_321_116, 10, maturity),
        (0, 0, 10, maturity),
    ] {
        refused(&dated(reporting_date, maturing), 2 * LINE_WORDS, number, place);
    }
    refused(&[6, 0, 1, 1, 1, 1, 36], 0, 16, 5);
    refused(&[6, 0, 0, 1, 1, 0], 0, 1, 6);
}

/// The facts' section of an ordinary deal of an IRB pool.
const IRB: [u64; 5] = [4, 1, 0, 1, 1];

/// The same of a mixed pool.
const MIXED: [u64; 5] = [4, 2, 0, 1, 1];

/// An IRB section: IRB charge 60,000, loss 450,000, this number of loans, retail or not, this share, average 8,500.
fn section(loans: u64, retail: u64, share: u64) -> [u64; 7] {
    [1, 60_000, 450_000, loans, retail, share, 8_500]
}

/// Tranches of 90%, 5% and 5% of a pool of 1,000; ratings are not used.
const IRB_TRANCHES: [Tranche; 3] = [
    [900, 1, 72, 900, 1, 0, 0],
    [50, 2, 36, 50, 9, 0, 0],
    [50, 3, 36, 50, 0, 0, 0],
];

/// The charge and the weights of an accepted sheet with an IRB section whose lines are all SEC-IRBA.
fn weighed_by_irba(facts: &[u64], rows: &[Row], section: &[u64]) -> (u64, Vec<u64>) {
    let (charge, lines) = weighed(&[&sheet(facts, rows, &IRB_TRANCHES), section].concat());
    assert!(lines.iter().all(|line| line[APPROACH] == 3));
    (charge, lines.iter().map(|line| line[WEIGHT]).collect())
}

/// Each weight is that of the papers or one more.
fn near(weights: &[u64], expected: &[u64]) {
    let mut pairs = weights.iter().zip(expected);
    assert!(
        pairs.all(|(weight, least)| (*least..=least + 1).contains(weight)),
        "{weights:?} for {expected:?}"
    );
}

/// Each row of coefficients; wholesale is split at 25 loans and retail is not.
#[test]
fn irba_weights_by_every_row_of_coefficients() {
    let loans = [[1_000, 1_000, 100, 0]];
    for (number, retail, expected) in [
        (25, 0, [1_816, 79_617, 125_000]),
        (24, 0, [2_252, 83_871, 125_000]),
        (25, 1, [4_788, 85_496, 125_000]),
        (24, 1, [4_788, 85_496, 125_000]),
    ] {
        let (charge, weights) = weighed_by_irba(&IRB, &loans, &section(number, retail, 1_000_000));
        assert_eq!(charge, 60_000);
        near(&weights, &expected);
    }
    let (_, weights) = weighed_by_irba(&[5, 1, 0, 1, 1, 1], &loans, &section(100, 0, 1_000_000));
    near(&weights[..1], &[1_000]);
}

/// The base charge is over all rows, late and unknown ones too; it is rounded up before it is mixed.
#[test]
fn irba_charge_mixes_in_the_base_charge() {
    let rows = [[400, 400, 50, 0], [100, 100, 100, 1], [500, 500, 150, 2]];
    let (charge, weights) = weighed_by_irba(&MIXED, &rows, &section(100, 0, 950_000));
    assert_eq!(charge, 61_200);
    near(&weights, &[1_500, 76_813, 125_000]);
    let thirds = [[400, 400, 100, 2], [200, 200, 50, 2]];
    assert_eq!(weighed_by_irba(&MIXED, &thirds, &section(100, 0, 970_000)).0, 60_201);
}

/// The IRB average lowers class 1, also below the floor, and no other class; it needs a known composition.
#[test]
fn irba_cap_is_the_irb_average() {
    let loans = [[1_000, 1_000, 100, 0]];
    let capped = |facts: &[u64], average| {
        let section = [1, 60_000, 450_000, 24, 1, 1_000_000, average];
        weighed_by_irba(facts, &loans, &section).1
    };
    assert_eq!(capped(&IRB, 900)[0], 900);
    assert_eq!(capped(&IRB, 0)[0], 0);
    near(&capped(&IRB, 0)[1..], &[85_496, 125_000]);
    near(&capped(&[4, 1, 0, 1, 0], 0)[..1], &[4_788]);
}

/// Below a share of 950,000, in a re-securitisation and without due diligence the answer is that of the same SA pool.
#[test]
fn section_changes_nothing_where_irba_does_not_apply() {
    let rows = [[950, 950, 100, 0], [50, 50, 100, 1]];
    let tranches_held = [[1_000, 1_000, 100, 3]];
    for (rows, facts, share) in [
        (&rows[..], [4, 2, 0, 1, 1], 949_999),
        (&rows, [4, 2, 0, 1, 1], 0),
        (&rows, [4, 1, 0, 0, 1], 1_000_000),
        (&tranches_held, [4, 1, 1, 1, 1], 1_000_000),
        (&tranches_held, [4, 2, 1, 1, 1], 950_000),
    ] {
        let mut sa_pool = facts;
        sa_pool[1] = 0;
        let with_section = [&sheet(&facts, rows, &IRB_TRANCHES), &section(100, 0, share)[..]].concat();
        assert_eq!(
            weighed(&with_section),
            weighed(&sheet(&sa_pool, rows, &IRB_TRANCHES)),
            "{facts:?}"
        );
    }
    let least = [&sheet(&MIXED, &rows, &IRB_TRANCHES), &section(100, 0, 950_000)[..]].concat();
    assert_eq!(weighed(&least).0, 61_000);
}

/// 2 at the count, 18 at each word, 1 where one is missing, 3 after the last; an SA pool has no section.
#[test]
fn irb_section_is_judged_in_place() {
    let rows = [[1_000, 1_000, 100, 0]];
    let [irb, mixed] = [IRB, MIXED].map(|facts| sheet(&facts, &rows, &IRB_TRANCHES));
    let start = irb.len();
    for (pool, word, value, number) in [
        (&irb, 0, 0, 2),
        (&irb, 0, 2, 2),
        (&irb, 1, 1_000_001, 18),
        (&irb, 2, 1_000_001, 18),
        (&irb, 3, 0, 18),
        (&irb, 3, 1_000_001, 18),
        (&irb, 4, 2, 18),
        (&irb, 5, 999_999, 18),
        (&mixed, 5, 1_000_001, 18),
        (&mixed, 6, 125_001, 18),
    ] {
        let mut section = section(100, 0, 1_000_000);
        section[word] = value;
        refused(
            &[pool, &section[..]].concat(),
            3 * LINE_WORDS,
            number,
            (start + word) as u64,
        );
    }
    let whole = [&mixed, &section(100, 0, 999_999)[..]].concat();
    assert_eq!(weighed(&whole).0, 60_001);
    for length in start..whole.len() {
        refused(&whole[..length], 3 * LINE_WORDS, 1, length as u64);
    }
    refused(&[&whole[..], &[0]].concat(), 0, 3, whole.len() as u64);
    let sa_pool = sheet(&FACTS, &rows, &IRB_TRANCHES);
    refused(
        &[&sa_pool, &section(100, 0, 1_000_000)[..]].concat(),
        0,
        3,
        start as u64,
    );
}

/// Under SEC-IRBA a rating does not help a tranche without thickness, and the mixed charge decides.
#[test]
fn empty_tranche_under_irba_is_refused_by_its_charge() {
    let tranches = [tranche(9_000_000, 1, 1), tranche(1, 2, 1), tranche(1_000_002, 3, 0)];
    let pool = sheet(&IRB, &[[10_000_003, 10_000_003, 100, 0]], &tranches);
    let with_charge = |charge| [&pool, &[1, charge, 450_000, 100, 0, 1_000_000, 8_500][..]].concat();
    refused(&with_charge(60_000), 3 * LINE_WORDS, 13, 18);
    let (_, lines) = weighed(&with_charge(120_000));
    assert_eq!(lines[1][..4], [3, 100_000, 100_000, 125_000]);
}

/// The rows with their risk weights, which are in percent, in hundredths.
fn in_hundredths(rows: &[Row]) -> Vec<Row> {
    let finer = |&[exposure, nominal, percent, status]: &Row| [exposure, nominal, 100 * percent, status];
    rows.iter().map(finer).collect()
}

/// The same risk weights in hundredths give the same charge and lines, and so does a seventh fact of 0: late and unknown
/// rows, rows of several blocks, and a re-securitisation.
#[test]
fn either_unit_gives_the_same_lines() {
    let statuses = [[900, 800, 63, 0], [60, 150, 1_250, 1], [40, 50, 7, 2]];
    let tranches_held = [[2, 700, 100, 3], [1, 300, 50, 3]];
    for (rows, resecuritisation) in [(&statuses[..], 0), (&unit_rows(101), 0), (&tranches_held, 1)] {
        let tranches = [tranche(60, 1, 0), tranche(20, 2, 0), tranche(10, 3, 0)];
        let seven = |unit, rows: &[Row]| weighed(&sheet(&[7, 0, resecuritisation, 1, 1, 0, 0, unit], rows, &tranches));
        let four = weighed(&sheet(&[4, 0, resecuritisation, 1, 1], rows, &tranches));
        assert_eq!(seven(0, rows), four);
        assert_eq!(seven(1, &in_hundredths(rows)), four);
    }
}

/// Loans of 37.5% cap a senior AA of 40%; rows (2, 37.5%) and (1, 0.01%) have 20,002.67 and 2,500.33. A twentieth unknown
/// over the 37.5%: 0.95 × 30,000 + 50,000.
#[test]
fn parts_of_a_percent_count() {
    for (rows, charge, cap) in [
        (&[[1_000, 1_000, 3_750, 0]][..], 30_000, 3_750),
        (&[[2, 2, 3_750, 0], [1, 1, 1, 0]], 20_003, 2_501),
        (&[[95, 95, 3_750, 0], [5, 5, 0, 2]], 78_500, 3_563),
    ] {
        let (found, lines) = weighed(&sheet(&HUNDREDTHS, rows, &[tranche(3, 1, 3)]));
        assert_eq!((found, lines[0][WEIGHT]), (charge, cap));
    }
}

/// The base charge of a mixed pool by hundredths: 70% × 0.05 over 0.95 × 60,000, and 70.5%. The IRB average is in hundredths
/// in either unit.
#[test]
fn irb_section_is_the_same_in_either_unit() {
    let of = |unit, weight| {
        let capped = [1, 60_000, 450_000, 24, 1, 950_000, 900];
        let (charge, weights) = weighed_by_irba(&[7, 2, 0, 1, 1, 0, 0, unit], &[[1_000, 1_000, weight, 0]], &capped);
        (charge, weights[0])
    };
    assert_eq!([of(0, 70), of(1, 7_000)], [(59_800, 900); 2]);
    assert_eq!(of(1, 7_050), (59_820, 900));
}

/// 4 at the seventh fact, after 17 at the sixth; 6 by the unit; 1 where the seventh fact is missing.
#[test]
fn unit_and_risk_weights_are_judged_in_place() {
    let deal = |unit, weight| {
        let facts = [7, 0, 0, 1, 1, 0, 0, unit];
        sheet(&facts, &[[1_000, 1_000, weight, 0]], &[tranche(1_000, 1, 1)])
    };
    for (unit, weight, number, place) in [
        (2, 0, 4, 7),
        (u64::MAX, 1_251, 4, 7),
        (0, 1_251, 6, 11),
        (0, 125_000, 6, 11),
        (1, 125_001, 6, 11),
        (1, u64::MAX, 6, 11),
    ] {
        refused(&deal(unit, weight), LINE_WORDS, number, place);
    }
    assert_eq!(weighed(&deal(0, 1_250)), weighed(&deal(1, 125_000)));
    assert_eq!(weighed(&deal(1, 1_251)).0, 10_008);
    refused(&[7, 0, 0, 1, 1, 0, 36, 2], 0, 17, 6);
    refused(&[7, 0, 0, 1, 1, 0, 0], 0, 1, 7);
}

/// The weights of an accepted sheet, each with the seventh word.
fn ends(sheet: &[u64]) -> Vec<[u64; 2]> {
    let (_, lines) = weighed(sheet);
    lines.iter().map(|line| [line[WEIGHT], line[LEAST_WEIGHT]]).collect()
}

/// The facts' section of an ordinary deal whose composition is not known.
const UNKNOWN: [u64; 5] = [4, 0, 0, 1, 0];

/// Loans of 10^6 at a weight of 100%.
const LOANS: [Row; 1] = [[1_000_000, 1_000_000, 100, 0]];

/// Senior AAA at 13 months, 1,508.33…; non-senior AAA at five years, 6,300 and 6,135.801.
#[test]
fn table_weights_are_rounded_up_and_down() {
    let tranches = [
        [700_000, 1, 13, 700_000, 1, 0, 0],
        tranche(100_000, 2, 1),
        tranche(123_457, 3, 1),
    ];
    let sheet = sheet(&FACTS, &LOANS, &tranches);
    assert_eq!(ends(&sheet), [[1_509, 1_508], [6_300, 6_300], [6_136, 6_135]]);
    // 700,000 × 1,509 × 8 / 10^6; by 1,508 it would be 8,445.
    assert_eq!(weighed(&sheet).1[0][4..6], [105_630, 8_451]);
}

/// Non-senior AAA at five years, thickness 285,715: 4,999.995, and 5,000 by the short-term grade. Both are 5,000 rounded
/// up. AA+ is above them and the best short-term grade below.
#[test]
fn seventh_word_is_picked_among_exact_figures() {
    for (ratings, expected) in [
        ([1, 0, 0], 4_999),
        ([1, 22, 0], 5_000),
        ([22, 0, 1], 5_000),
        ([1, 22, 2], 5_000),
        ([2, 22, 1], 5_000),
        ([22, 1, 21], 4_999),
        ([21, 1, 22], 4_999),
    ] {
        let [first, second, third] = ratings;
        let tranches = [tranche(714_285, 1, 1), [285_715, 2, 72, 0, first, second, third]];
        let found = ends(&sheet(&FACTS, &LOANS, &tranches));
        assert_eq!(found[1], [5_000, expected], "{ratings:?}");
    }
}

/// By the table of an STC deal 1,499.985, and by the formula 187.57: raised to 1,500. A cap of 1,508 over 1,508.33… and over
/// 3,016 by the formula.
#[test]
fn floor_and_cap_act_on_the_seventh_word() {
    let raised = [tranche(599_990, 1, 1), [10, 2, 12, 0, 1, 0, 0], tranche(100_000, 3, 0)];
    let found = ends(&sheet(&STC, &LOANS, &raised));
    assert_eq!(found, [[1_000, 1_000], [1_500, 1_500], [1_500, 1_500]]);
    let loans = [[920_000, 920_000, 15, 0], [80_000, 80_000, 16, 0]];
    let capped = [[500_000, 1, 13, 0, 1, 0, 0], tranche(500_000, 1, 0)];
    assert_eq!(ends(&sheet(&FACTS, &loans, &capped)), [[1_508, 1_508]; 2]);
    assert_eq!(ends(&sheet(&UNKNOWN, &loans, &capped))[0], [1_509, 1_508]);
}

/// 51,797.63 and, with D just above K, 124,999.99998; D not above K; K = 0 with no cap and with a cap of 0.
#[test]
fn formula_gives_both_ends() {
    let tranches = [
        tranche(750_000, 1, 0),
        tranche(169_999, 2, 0),
        tranche(40_001, 3, 0),
        tranche(40_000, 4, 0),
    ];
    let found = ends(&sheet(&FACTS, &LOANS, &tranches));
    assert_eq!(
        found,
        [[1_593, 1_592], [51_798, 51_797], [125_000, 124_999], [125_000, 125_000]]
    );
    let free = [[1_000_000, 1_000_000, 0, 0]];
    assert_eq!(ends(&sheet(&UNKNOWN, &free, &tranches[..1])), [[1_500, 1_500]]);
    assert_eq!(ends(&sheet(&FACTS, &free, &tranches[..1])), [[0, 0]]);
}

/// 39,815.54 in a re-securitisation, 111,683.67 in an STC deal, 79,616.09 under SEC-IRBA.
#[test]
fn formula_gives_both_ends_at_every_parameter() {
    let tranches = [tranche(700_000, 1, 0), tranche(150_000, 2, 0)];
    let resecuritisation = sheet(&[4, 0, 1, 1, 1], &[[1_000_000, 1_000_000, 100, 3]], &tranches);
    assert_eq!(ends(&resecuritisation), [[10_000, 10_000], [39_816, 39_815]]);
    let tranches = [tranche(900_000, 1, 1), tranche(40_000, 2, 0)];
    assert_eq!(ends(&sheet(&STC, &LOANS, &tranches))[1], [111_684, 111_683]);
    let irb_pool = sheet(&IRB, &[[1_000, 1_000, 100, 0]], &IRB_TRANCHES);
    let found = ends(&[&irb_pool, &section(25, 0, 1_000_000)[..]].concat());
    assert_eq!(found, [[1_816, 1_815], [79_617, 79_616], [125_000, 125_000]]);
}

/// The rating would give 2,000, and the cap 10,000.
#[test]
fn no_due_diligence_gives_the_fallback() {
    let (_, lines) = weighed(&sheet(
        &[4, 0, 0, 0, 1],
        &[[1_000, 1_000, 100, 0]],
        &[tranche(1_000, 1, 1)],
    ));
    assert_eq!(lines[0], [0, 0, 1_000_000, 125_000, 12_500, 1_000, 125_000]);
}

/// Each change is made to the checked deal alone; the refusal and its place are 01's, and no result word is written.
#[test]
fn each_bad_word_is_refused_at_its_place() {
    let changes = [
        (0, 3, 2),
        (0, 8, 2),
        (1, 3, 4),
        (2, 2, 4),
        (3, 2, 4),
        (4, u64::MAX, 4),
        (5, 0, 2),
        (5, 1_001, 2),
        (6, 0, 5),
        (7, 10_000_000_001, 5),
        (8, 1_251, 6),
        (9, 3, 7),
        (9, 4, 7),
        (14, 33, 2),
        (15, 10_000_000_000_001, 8),
        (16, 2, 9),
        (17, 0, 10),
        (18, 801, 8),
        (19, 19, 11),
        (20, 20, 11),
        (21, 25, 11),
        (23, 3, 9),
        (31, 1_201, 10),
    ];
    for (place, word, number) in changes {
        let mut sheet = CHECKED;
        sheet[place] = word;
        refused(&sheet, 3 * LINE_WORDS, number, place as u64);
    }
    let mut resecuritisation = CHECKED;
    resecuritisation[2] = 1;
    refused(&resecuritisation, 3 * LINE_WORDS, 7, 9);
}

/// Every shortened form of the checked deal is refused at its length; 3 comes before 14.
#[test]
fn missing_and_following_words_are_refused_then_short_results() {
    for length in 0..CHECKED.len() {
        refused(&CHECKED[..length], 3 * LINE_WORDS, 1, length as u64);
    }
    let longer = [&CHECKED[..], &[1, 2]].concat();
    refused(&longer, 0, 3, 36);
    refused(&CHECKED, 3 * LINE_WORDS - 1, 14, 0);
}

/// Refusal 13 names the first tranche without thickness above the charge; one passes that is rated, or that takes the
/// rating of the next class, which has 72 months.
#[test]
fn empty_tranche_above_the_charge_is_refused() {
    let deal = |months, rating| {
        let tranches = [
            tranche(5_000_000, 1, 1),
            [1, 2, months, 1, rating, 0, 0],
            tranche(1, 3, 1),
            tranche(1, 4, 0),
        ];
        sheet(&FACTS, &[[10_000_003, 10_000_003, 100, 0]], &tranches)
    };
    refused(&deal(73, 0), 4 * LINE_WORDS, 13, 18);
    refused(&deal(73, 1), 4 * LINE_WORDS, 13, 32);
    refused(&deal(72, 0), 4 * LINE_WORDS, 13, 32);
    refused(&deal(73, 0), 4 * LINE_WORDS - 1, 14, 0);
}

/// The approach and the weight of the first line of a sheet of these facts and tranches, over loans of 100%.
fn first_line(facts: &[u64], tranches: &[Tranche]) -> (u64, u64) {
    let status = 3 * facts[2];
    let (_, lines) = weighed(&sheet(facts, &[[1_000, 1_000, 100, status]], tranches));
    (lines[0][APPROACH], lines[0][WEIGHT])
}

/// The ratings of the first row long enough of the most senior class, its own first, with its own class, maturity and
/// thickness: senior A 65%, BBB 105% and BB 180% at five years.
#[test]
fn unrated_tranche_takes_the_ratings_of_another() {
    let unrated = tranche(400, 1, 0);
    let rated = |class, months, rating| [100, class, months, 0, 0, rating, 0];
    for (others, weight) in [
        ([rated(1, 72, 6), rated(1, 72, 9)], 6_500),
        ([rated(1, 71, 6), rated(1, 73, 9)], 10_500),
        ([rated(2, 72, 9), rated(2, 73, 6)], 10_500),
        ([rated(2, 71, 9), rated(2, 73, 6)], 6_500),
        ([rated(2, 1_200, 12), rated(3, 72, 6)], 18_000),
        ([rated(2, 71, 12), rated(3, 72, 6)], 6_500),
    ] {
        let [one, other] = others;
        assert_eq!(first_line(&UNKNOWN, &[unrated, one, other]), (1, weight), "{others:?}");
    }
    // 310% × 0.9 beside 310% × 0.6.
    let tranches = [tranche(500, 1, 1), tranche(100, 2, 0), tranche(400, 3, 9)];
    assert_eq!(
        ends(&sheet(&UNKNOWN, &[[1_000, 1_000, 100, 0]], &tranches)),
        [[2_000; 2], [27_900; 2], [18_600; 2]]
    );
}

/// An earlier row of its class counts too. Nothing is taken from a senior class, from a row a month shorter, also where
/// both are five years, or from one that takes its ratings.
#[test]
fn ratings_come_from_the_own_or_a_junior_class_and_no_shorter_row() {
    let approaches = |tranches: &[Tranche]| {
        let (_, lines) = weighed(&sheet(&UNKNOWN, &[[1_000, 1_000, 100, 0]], tranches));
        lines.iter().map(|line| line[APPROACH]).collect::<Vec<_>>()
    };
    assert_eq!(approaches(&[tranche(500, 1, 5), tranche(500, 1, 0)]), [1, 1]);
    assert_eq!(approaches(&[tranche(500, 1, 5), tranche(500, 2, 0)]), [1, 2]);
    for months in [12, 36, 74] {
        let longer = [500, 1, months, 0, 0, 0, 0];
        assert_eq!(approaches(&[longer, [500, 2, months - 1, 0, 5, 0, 0]]), [2, 1]);
    }
    let chain = [
        tranche(400, 1, 0),
        [200, 2, 100, 0, 0, 0, 0],
        [200, 3, 99, 0, 9, 0, 0],
        [200, 4, 100, 0, 6, 0, 0],
    ];
    assert_eq!(first_line(&UNKNOWN, &chain), (1, 10_500));
}

/// Not in a re-securitisation, under SEC-IRBA and without due diligence; with more than 5% unknown it comes before the
/// fallback.
#[test]
fn ratings_are_inferred_in_ordinary_deals() {
    let with = |rating| [tranche(900, 1, 0), tranche(100, 2, rating)];
    for facts in [[4, 0, 1, 1, 0], [4, 0, 0, 0, 0]] {
        assert_eq!(first_line(&facts, &with(9)), first_line(&facts, &with(0)));
    }
    let rows = [[1_000, 1_000, 100, 0]];
    let with_section = |share, rating| {
        let words = [&sheet(&MIXED, &rows, &with(rating)), &section(25, 0, share)[..]].concat();
        weighed(&words).1[0]
    };
    assert_eq!(with_section(950_000, 9), with_section(950_000, 0));
    assert_eq!(with_section(949_999, 9)[APPROACH], 1);
    let unknown = [[949, 949, 100, 0], [51, 51, 100, 2]];
    let (_, lines) = weighed(&sheet(&UNKNOWN, &unknown, &with(9)));
    assert_eq!((lines[0][APPROACH], lines[0][WEIGHT]), (1, 10_500));
}

/// Months of dates are compared: from 15 January 2024 there are 37 on 10 February 2027 and on 20 January, and 36 on 15
/// January.
#[test]
fn months_of_dates_are_compared() {
    let facts = [6, 0, 0, 1, 0, 0, 20_240_115];
    for (other, approach) in [(20_270_120, 1), (20_270_210, 1), (20_270_115, 2)] {
        for unrated in [20_270_210, 20_270_120] {
            let tranches = [[500, 1, unrated, 0, 0, 0, 0], [500, 2, other, 0, 9, 0, 0]];
            assert_eq!(first_line(&facts, &tranches).0, approach, "{unrated} {other}");
        }
    }
}

/// A sheet that must be refused so, with no result word written.
fn refused(sheet: &[u64], room: usize, number: u64, place: u64) {
    let mut results = vec![77; room];
    assert_eq!(plain::weigh(sheet, &mut results), Err((number, place)));
    assert!(results.iter().all(|&word| word == 77), "results are untouched");
}
