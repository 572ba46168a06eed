//! The inferred ratings of S-8 as whole sheets: what is taken and what stays the tranche's own, where nothing is taken,
//! refusal 13, and on whose ratings a line depends.

mod common;

use common::{file, room, sheet, sheet_with, Facts, Row, Tranche};
use independent::{weigh_file, Deal, Line, Refusal};

/// Facts of an ordinary deal with due diligence, whose composition is not known, so that no cap holds.
const UNCAPPED: Facts = &[0, 0, 1, 0];
/// The same with known composition.
const CAPPED: Facts = &[0, 0, 1, 1];
/// The same as the first with the STC mark.
const STC: Facts = &[0, 0, 1, 0, 1];

/// The fallback, as a line reports it.
const FALLBACK: u64 = 0;
/// SEC-ERBA, as a line reports it.
const SEC_ERBA: u64 = 1;
/// SEC-SA, as a line reports it.
const SEC_SA: u64 = 2;

/// A paying pool of 1,000 at 100%.
const POOL: &[Row] = &[[1_000, 1_000, 100, 0]];

/// A tranche of which nothing is held, with this maturity and these ratings.
fn rated(amount: u64, class: u64, maturity: u64, [first, second, third]: [u64; 3]) -> Tranche {
    [amount, class, maturity, 0, first, second, third]
}

/// The same with one rating, or with none.
fn tranche(amount: u64, class: u64, maturity: u64, rating: u64) -> Tranche {
    rated(amount, class, maturity, [rating, 0, 0])
}

/// Weighs the file of a sheet.
fn weighed(facts: Facts, pool: &[Row], tranches: &[Tranche]) -> Result<Deal, Refusal> {
    weigh_file(&file(&sheet(facts, pool, tranches)), room(tranches.len()))
}

/// The lines of an accepted sheet.
fn lines(facts: Facts, pool: &[Row], tranches: &[Tranche]) -> Vec<Line> {
    weighed(facts, pool, tranches).expect("an accepted sheet").lines
}

/// The approach, the lowest weight and the lowest least weight of each line of a sheet over the pool at 100%.
fn ends(facts: Facts, tranches: &[Tranche]) -> Vec<(u64, u64, u64)> {
    let of_line = |line: &Line| (line.approach, line.amounts[0].weight, line.least_weights[0]);
    lines(facts, POOL, tranches).iter().map(of_line).collect()
}

/// The approach and the lowest weight of the first line of such a sheet.
fn first(facts: Facts, tranches: &[Tranche]) -> (u64, u64) {
    let (approach, weight, _) = ends(facts, tranches)[0];
    (approach, weight)
}

/// An unrated senior tranche takes the A+ of class 2 and is senior: 40% at one year, 44% at 36 months and 50% at five
/// years, by its own maturity. Class 2, of 72 months and half thick, has 160% x 0.5.
#[test]
fn own_class_and_maturity() {
    for (months, weight) in [(12, 4_000), (36, 4_400), (72, 5_000)] {
        let tranches = [tranche(500, 1, months, 0), tranche(500, 2, 72, 5)];
        let expected = [(SEC_ERBA, weight, weight), (SEC_ERBA, 8_000, 8_000)];
        assert_eq!(ends(UNCAPPED, &tranches), expected, "{months}");
    }
}

/// A tranche of class 2, a tenth thick, takes the BBB of class 3, which is four tenths thick: 310% x 0.9 beside 310% x
/// 0.6.
#[test]
fn own_thickness() {
    let tranches = [tranche(500, 1, 72, 1), tranche(100, 2, 72, 0), tranche(400, 3, 72, 9)];
    let expected = [2_000, 27_900, 18_600].map(|weight| (SEC_ERBA, weight, weight));
    assert_eq!(ends(UNCAPPED, &tranches), expected);
}

/// Ratings come from the own class, from earlier and later rows, and from junior classes, whichever is the first row of
/// the most senior class: senior A 65%, BBB 105% and BB 180% at five years.
#[test]
fn row_that_is_taken() {
    let unrated = tranche(400, 1, 72, 0);
    let [a, bbb, bb] = [6, 9, 12];
    for (others, weight) in [
        ([tranche(100, 1, 72, a), tranche(100, 1, 72, bbb)], 6_500),
        ([tranche(100, 1, 71, a), tranche(100, 1, 72, bbb)], 10_500),
        ([tranche(100, 2, 72, bbb), tranche(100, 2, 1_200, a)], 10_500),
        ([tranche(100, 2, 71, bbb), tranche(100, 2, 1_200, a)], 6_500),
        ([tranche(100, 2, 1_200, bb), tranche(100, 3, 72, a)], 18_000),
        ([tranche(100, 2, 71, bb), tranche(100, 3, 72, a)], 6_500),
    ] {
        let [one, other] = others;
        assert_eq!(
            first(UNCAPPED, &[unrated, one, other]),
            (SEC_ERBA, weight),
            "{others:?}"
        );
    }
    let earlier = [tranche(400, 1, 72, a), unrated, tranche(100, 1, 72, bbb)];
    assert_eq!(ends(UNCAPPED, &earlier)[1], (SEC_ERBA, 6_500, 6_500));
}

/// Nothing is taken from a senior class or from one that is shorter by a month, though 73 and 74 months are both five
/// years of tranche maturity and 11 and 12 one year: SEC-SA is left.
#[test]
fn nothing_to_take() {
    let junior = [tranche(500, 1, 1_200, 1), tranche(500, 2, 1, 0)];
    assert_eq!(ends(UNCAPPED, &junior)[1].0, SEC_SA);
    for months in [12, 36, 72, 74, 1_200] {
        let shorter = [tranche(500, 1, months, 0), tranche(500, 2, months - 1, 1)];
        assert_eq!(first(UNCAPPED, &shorter).0, SEC_SA, "{months}");
        let equal = [tranche(500, 1, months, 0), tranche(500, 2, months, 1)];
        assert_eq!(first(UNCAPPED, &equal).0, SEC_ERBA, "{months}");
    }
}

/// A tranche that takes ratings hands none on. The first takes BBB, senior 105% at five years; the second, of class 2
/// and a longer maturity, takes A.
#[test]
fn no_chains() {
    let tranches = [
        tranche(400, 1, 72, 0),
        tranche(200, 2, 100, 0),
        tranche(200, 3, 99, 9),
        tranche(200, 4, 100, 6),
    ];
    assert_eq!(first(UNCAPPED, &tranches), (SEC_ERBA, 10_500));
    // Non-senior A of five years, a fifth thick: 180% x 0.8.
    assert_eq!(ends(UNCAPPED, &tranches)[1], (SEC_ERBA, 14_400, 14_400));
}

/// All ratings of the row are taken, and count as S-2 says: of AAA 20%, short-term 50% and AA 40% the middle one, of AAA
/// and AA the higher one. A short-term grade is unadjusted.
#[test]
fn several_ratings() {
    for (ratings, weight) in [
        ([1, 22, 3], 4_000),
        ([0, 1, 3], 4_000),
        ([0, 0, 22], 5_000),
        ([18, 1, 1], 2_000),
    ] {
        let tranches = [tranche(500, 1, 72, 0), rated(500, 2, 72, ratings)];
        assert_eq!(first(UNCAPPED, &tranches), (SEC_ERBA, weight), "{ratings:?}");
    }
}

/// An STC deal infers by its own table: senior AA of 36 months is 17%, and non-senior, half thick, 37% x 0.5. Its floor
/// of 1,500 raises the 10% of the first short-term grade below class 1.
#[test]
fn stc_deals() {
    let tranches = [tranche(500, 1, 36, 0), tranche(500, 2, 36, 3)];
    assert_eq!(
        ends(STC, &tranches),
        [(SEC_ERBA, 1_700, 1_700), (SEC_ERBA, 1_850, 1_850)]
    );
    let floor = [tranche(500, 1, 37, 0), tranche(100, 2, 36, 0), tranche(400, 3, 36, 21)];
    assert_eq!(ends(STC, &floor)[1], (SEC_ERBA, 1_500, 1_500));
}

/// Cap and least weight go by the ratings taken: senior AAA of 13 months is 15.0833%, and over loans of 10% the cap
/// lowers it.
#[test]
fn cap_and_least_weight() {
    let tranches = [tranche(500, 1, 13, 0), tranche(500, 2, 72, 1)];
    for facts in [CAPPED, UNCAPPED] {
        assert_eq!(ends(facts, &tranches)[0], (SEC_ERBA, 1_509, 1_508));
    }
    let capped = &lines(CAPPED, &[[1_000, 1_000, 10, 0]], &tranches)[0];
    assert_eq!(
        (capped.amounts[0].weight, &capped.least_weights[..]),
        (1_000, &[1_000][..])
    );
}

/// Ratings are inferred before unknown rows above 5% give the fallback, which is left where there is none to take.
#[test]
fn unknown_rows() {
    let pool = [[949, 949, 100, 0], [51, 51, 100, 2]];
    let approaches = |months| {
        let tranches = [tranche(500, 1, 36, 0), tranche(500, 2, months, 9)];
        let lines = lines(UNCAPPED, &pool, &tranches);
        lines.iter().map(|line| line.approach).collect::<Vec<_>>()
    };
    assert_eq!(approaches(36), [SEC_ERBA, SEC_ERBA]);
    assert_eq!(approaches(35), [FALLBACK, SEC_ERBA]);
}

/// A re-securitisation, a deal under SEC-IRBA and one without due diligence infer nothing: the lines are those of the
/// same deal without any rating. A mixed pool below the least share infers as an SA pool.
#[test]
fn deals_without_inferred_ratings() {
    let with = |rating| [tranche(900, 1, 36, 0), tranche(100, 2, 36, rating)];
    let irb = |share| [100_000, 450_000, 25, 0, share, 125_000];
    let weighed_with = |kind, resecuritisation, due_diligence, share, rating| {
        let facts = [kind, resecuritisation, due_diligence, 0];
        let pool = [[1_000, 1_000, 100, 3 * resecuritisation]];
        let words = match kind {
            0 => sheet(&facts, &pool, &with(rating)),
            _ => sheet_with(irb(share), &facts, &pool, &with(rating)),
        };
        weigh_file(&file(&words), room(2)).expect("an accepted file").lines[0].clone()
    };
    for (kind, resecuritisation, due_diligence, share, approach) in [
        (0, 1, 1, 0, 2),
        (1, 1, 1, 1_000_000, 2),
        (1, 0, 1, 1_000_000, 3),
        (2, 0, 1, 950_000, 3),
        (0, 0, 0, 0, 0),
        (1, 0, 0, 1_000_000, 0),
    ] {
        let line = |rating| weighed_with(kind, resecuritisation, due_diligence, share, rating);
        assert_eq!(line(9), line(0));
        assert_eq!(line(9).approach, approach);
    }
    assert_eq!(weighed_with(2, 0, 1, 949_999, 9), weighed_with(0, 0, 1, 0, 9));
    assert_eq!(weighed_with(2, 0, 1, 949_999, 9).approach, SEC_ERBA);
}

/// Months are compared, not dates. From 31 January 2024 a maturity has 36 months up to 31 January 2027, and 37 in
/// February. From 15 January it has 36 up to 15 January 2027, and 37 on the days after it.
#[test]
fn months_of_dates_are_compared() {
    let taken = |from, unrated, other| {
        let tranches = [tranche(500, 1, unrated, 0), tranche(500, 2, other, 9)];
        first(&[0, 0, 1, 0, 0, from], &tranches).0 == SEC_ERBA
    };
    assert!(taken(20_240_131, 20_270_228, 20_270_201));
    assert!(taken(20_240_131, 20_270_201, 20_270_228));
    assert!(!taken(20_240_131, 20_270_201, 20_270_131));
    assert!(taken(20_240_131, 20_270_131, 20_270_201));
    assert!(!taken(20_240_115, 20_270_116, 20_270_115));
    assert!(taken(20_240_115, 20_270_210, 20_270_120));
    assert!(taken(20_240_115, 20_270_115, 20_261_220));
}

/// A deal whose third tranche, at place 25, is so thin that A equals D, far above the charge, with a fourth one of these
/// months and this rating.
fn thin(facts: Facts, status: u64, months: u64, rating: u64) -> Result<Deal, Refusal> {
    let pool = [[10_000_000_000, 10_000_000_000, 10, status]];
    let tranches = [
        tranche(1_000_000, 1, 36, 0),
        tranche(1, 2, 36, 0),
        tranche(1, 3, 36, 0),
        tranche(1_000_000, 4, months, rating),
    ];
    weighed(facts, &pool, &tranches)
}

/// An unrated tranche without thickness that finds a rating no longer meets 13, and has the weight of that rating: BBB of
/// 36 months 256%. One that finds none meets it, and so does one of a re-securitisation.
#[test]
fn no_thickness() {
    let refused = Err(Refusal { number: 13, place: 25 });
    let line = &thin(UNCAPPED, 0, 36, 9).expect("a rating is found").lines[2];
    assert_eq!((line.approach, line.attachment, line.detachment), (1, 999_899, 999_899));
    assert_eq!(line.amounts[0].weight, 25_600);
    assert_eq!(thin(UNCAPPED, 0, 35, 9), refused);
    assert_eq!(thin(UNCAPPED, 0, 36, 0), refused);
    assert_eq!(thin(&[0, 1, 1, 0], 3, 36, 9), refused);
    let senior_only = [tranche(1_000_000, 1, 36, 9), tranche(1, 2, 36, 9), tranche(1, 3, 36, 0)];
    let pool = [[10_000_000_000, 10_000_000_000, 10, 0]];
    assert_eq!(weighed(UNCAPPED, &pool, &senior_only), refused);
}

/// The same under SEC-IRBA, where a rating helps neither the tranche that has it nor another one.
#[test]
fn no_thickness_under_sec_irba() {
    let pool = [[10_000_000_000, 10_000_000_000, 10, 0]];
    let tranches = [tranche(1_000_001, 1, 36, 0), tranche(1, 2, 36, 0), tranche(1, 2, 36, 9)];
    let words = sheet_with([0, 0, 1, 0, 1_000_000, 0], &[1, 0, 1, 0], &pool, &tranches);
    let refused = Err(Refusal { number: 13, place: 18 });
    assert_eq!(weigh_file(&file(&words), room(3)), refused);
}

/// Codes that are no rating, long-term ones and short-term ones.
const CODES: [u64; 5] = [0, 1, 9, 18, 22];

/// The lines of a deal of five tranches in three classes, all of 36 months, with these ratings and facts.
fn five(facts: Facts, ratings: [u64; 5]) -> Vec<Line> {
    let classes = [1, 1, 2, 2, 3];
    let tranches: Vec<Tranche> = classes
        .into_iter()
        .zip(ratings)
        .map(|(class, rating)| tranche(200, class, 36, rating))
        .collect();
    lines(facts, &[[1_000, 1_000, 100, 3 * facts[1]]], &tranches)
}

/// Every list of five of these codes.
fn lists() -> impl Iterator<Item = [u64; 5]> {
    let count = CODES.len();
    (0..count.pow(5)).map(move |number| [1, 5, 25, 125, 625].map(|step| CODES[number / step % count]))
}

/// "A rating may now change lines of its own or a senior class, and no junior one." The lines of a class are the same
/// whatever ratings the classes senior to it have.
#[test]
fn no_junior_line_depends_on_a_rating() {
    for ratings in lists() {
        let all = five(UNCAPPED, ratings);
        let [_, _, third, fourth, fifth] = ratings;
        assert_eq!(
            all[2..],
            five(UNCAPPED, [0, 0, third, fourth, fifth])[2..],
            "{ratings:?}"
        );
        assert_eq!(all[4], five(UNCAPPED, [0, 0, 0, 0, fifth])[4], "{ratings:?}");
    }
}

/// A rated tranche's line depends on no other tranche's ratings, and in a re-securitisation and without due diligence no
/// line does.
#[test]
fn rated_lines_depend_on_their_own_ratings() {
    for ratings in lists() {
        let all = five(UNCAPPED, ratings);
        for (number, line) in all.iter().enumerate().filter(|&(number, _)| ratings[number] != 0) {
            let mut alone = [0; 5];
            alone[number] = ratings[number];
            assert_eq!(*line, five(UNCAPPED, alone)[number], "{ratings:?}");
        }
    }
    for facts in [&[0, 1, 1, 0][..], &[0, 0, 0, 0]] {
        for ratings in [[1; 5], [9, 0, 0, 0, 22], [0, 0, 0, 0, 1]] {
            assert_eq!(five(facts, ratings), five(facts, [0; 5]));
        }
    }
}

/// Ratings of the own class and of a junior class change an unrated tranche's line.
#[test]
fn ratings_change_lines_of_their_own_and_senior_classes() {
    let lines =
        [[0, 0, 0, 0, 0], [0, 9, 0, 0, 0], [0, 0, 9, 0, 0], [0, 0, 0, 0, 9]].map(|ratings| five(UNCAPPED, ratings));
    let [none, own, next, last] = &lines;
    assert!([own, next, last].into_iter().all(|other| other[0] != none[0]));
    assert!(own[2] == none[2] && next[2] != none[2] && last[2] != none[2]);
}
