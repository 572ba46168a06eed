//! SEC-IRBA (S-5) as whole sheets: the published examples of source document 004 (d374, Annex 1), the parameter, which
//! deals have it, its charge, floor and cap.

mod common;

use common::{file, room, sheet, sheet_with, Facts, Irb, Row, Tranche};
use independent::formula::{raw_weights, Admitted, Terms};
use independent::{weigh, weigh_file, Deal, Line};

/// Facts of an IRB pool's deal with due diligence, whose composition is not known, so that no cap holds.
const IRB: Facts = &[1, 0, 1, 0];
/// The same of a mixed pool.
const MIXED: Facts = &[2, 0, 1, 0];
/// The same of an IRB pool with the STC mark.
const STC: Facts = &[1, 0, 1, 0, 1];

/// A paying pool of a million at 100%.
const POOL: &[Row] = &[[1_000_000, 1_000_000, 100, 0]];

/// A tranche held whole, without a rating.
fn tranche(amount: u64, class: u64, months: u64) -> Tranche {
    [amount, class, months, amount, 0, 0, 0]
}

/// The section of an IRB pool that is wholesale.
fn wholesale(charge: u64, loss: u64, loans: u64) -> Irb {
    [charge, loss, loans, 0, 1_000_000, 125_000]
}

/// The section of an IRB pool that is retail.
fn retail(charge: u64, loss: u64, loans: u64) -> Irb {
    [charge, loss, loans, 1, 1_000_000, 125_000]
}

/// The section of a mixed pool with this share.
fn mixed(charge: u64, share: u64) -> Irb {
    [charge, 450_000, 100, 0, share, 125_000]
}

/// Weighs the accepted file of a sheet with a section.
fn weighed(irb: Irb, facts: Facts, pool: &[Row], tranches: &[Tranche]) -> Deal {
    let file = file(&sheet_with(irb, facts, pool, tranches));
    weigh_file(&file, room(tranches.len())).expect("an accepted file")
}

/// The weights and the least weights that a line admits.
fn admitted(line: &Line) -> Admitted {
    Admitted {
        weights: line.amounts.iter().map(|amounts| amounts.weight).collect(),
        least_weights: line.least_weights.clone(),
    }
}

/// What each line of a deal under SEC-IRBA admits.
fn all_admitted(deal: &Deal) -> Vec<Admitted> {
    assert!(deal.lines.iter().all(|line| line.approach == 3));
    deal.lines.iter().map(admitted).collect()
}

/// What the lines of an example's tranches admit, senior first, each of a class of its own, with these amounts and
/// months.
fn example(irb: Irb, amounts: &[u64], months: u64) -> Vec<Admitted> {
    let classes = (1..).zip(amounts);
    let tranches: Vec<Tranche> = classes.map(|(class, &amount)| tranche(amount, class, months)).collect();
    all_admitted(&weighed(irb, IRB, POOL, &tranches))
}

/// That a published weight, at a final legal maturity of 34.5 months, lies between those at 34 and 35.
fn lies_between(published: u64, at: impl Fn(u64) -> Admitted) {
    let [earlier, later] = [34, 35].map(at);
    assert!(
        earlier.weights[1] < published && published < later.least_weights[0],
        "{earlier:?} {published} {later:?}"
    );
}

/// Published example A: the senior tranche has 28.78% with parameter 0.3, the second loss 1,056.94%, the first loss
/// 1,250%.
#[test]
fn published_example_a() {
    let at = |months| example(wholesale(212_400, 818_700, 100), &[700_000, 250_000, 50_000], months);
    let least = Terms {
        charge: 212_400,
        attachment: 300_000,
        detachment: 1_000_000,
        parameter: 300_000,
    };
    // 11,378.6 x (e^(-0.0876 / 0.06372) - e^(-0.7876 / 0.06372)) = 2,877.58
    let senior = Admitted {
        weights: vec![2_878, 2_879],
        least_weights: vec![2_877],
    };
    assert_eq!(raw_weights(&least), senior);
    for months in [34, 35] {
        let lines = at(months);
        assert_eq!([&lines[0], &lines[2]], [&senior, &Admitted::both(125_000)]);
    }
    lies_between(105_694, |months| at(months)[1].clone());
}

/// Published example B, each component as a sheet of its own: component (i) has 56.58%, the second loss, detached at
/// 26.32%, 925.47%; A* has 15% by the floor and C 1,250%.
#[test]
fn published_example_b() {
    lies_between(5_658, |months| {
        example(wholesale(70_000, 450_000, 100), &[950_000, 50_000], months)[0].clone()
    });
    let dilution = |amounts: &[u64], months| example(wholesale(142_400, 1_000_000, 100), amounts, months);
    lies_between(92_547, |months| dilution(&[736_800, 263_200], months)[1].clone());
    for months in [34, 35] {
        let lines = dilution(&[700_000, 250_000, 50_000], months);
        let [floor, highest] = [1_500, 125_000].map(Admitted::both);
        assert_eq!([&lines[0], &lines[2]], [&floor, &highest]);
    }
}

/// Three tranches over a charge of 100,000: the senior one starts above it, the next one lies across it, and the last
/// one below it.
fn across(months: u64) -> [Tranche; 3] {
    [
        tranche(880_000, 1, months),
        tranche(70_000, 2, months),
        tranche(50_000, 3, months),
    ]
}

/// What the first two of these tranches admit in a deal.
fn first_two(deal: &Deal) -> [Admitted; 2] {
    [0, 1].map(|tranche| admitted(&deal.lines[tranche]))
}

/// What the first two of these tranches admit in a deal with this section and a charge of 100,000.
fn by_section(irb: Irb, facts: Facts, months: u64) -> [Admitted; 2] {
    let deal = weighed(irb, facts, POOL, &across(months));
    assert_eq!(deal.charge, 100_000);
    assert_eq!(all_admitted(&deal)[2], Admitted::both(125_000));
    first_two(&deal)
}

/// What the first two of these tranches admit by the formula with these parameters. Neither floor nor cap acts.
fn by_parameters(parameters: [u64; 2]) -> [Admitted; 2] {
    let [senior, junior] = parameters;
    [(120_000, 1_000_000, senior), (50_000, 120_000, junior)].map(|(attachment, detachment, parameter)| {
        raw_weights(&Terms {
            charge: 100_000,
            attachment,
            detachment,
            parameter,
        })
    })
}

/// Each row of coefficients, at 36 months, which are 2.6 years, and a charge of 0.1.
///
/// Wholesale, with a loss of 0.5 (senior: 3.56/25 - 0.185 + 0.275 + 0.182; under 25 loans 0.11 + 2.61/24 - 0.291 +
/// 0.34 + 0.182; non-senior: 0.16 + 2.87/25 - 0.103 + 0.105 + 0.182; under 25 loans 0.22 + 2.35/24 - 0.246 + 0.24 +
/// 0.182, rounded up). Retail, with a loss of 1, on both sides of 25 loans (senior: 0.71 - 0.748 + 0.624; non-senior:
/// 0.55 - 0.578 + 0.702).
#[test]
fn rows_of_coefficients() {
    for (irb, parameters) in [
        (wholesale(100_000, 500_000, 25), [414_400, 458_800]),
        (wholesale(100_000, 500_000, 24), [449_750, 493_917]),
        (retail(100_000, 1_000_000, 25), [586_000, 674_000]),
        (retail(100_000, 1_000_000, 24), [586_000, 674_000]),
    ] {
        assert_eq!(by_section(irb, IRB, 36), by_parameters(parameters), "{irb:?}");
    }
}

/// The maturity of a tranche is after the 80% rule and its limits: 12 months are one year, and from 72 on they are
/// five. Retail senior with a loss of 1: 0.24 a year, less 0.038; non-senior 0.27 a year, less 0.028.
#[test]
fn years_of_maturity() {
    for (months, parameters) in [
        (1, [300_000, 300_000]),
        (12, [300_000, 300_000]),
        (24, [394_000, 458_000]),     // 1.8 years
        (71, [1_146_000, 1_304_000]), // 74/15 years
        (72, [1_162_000, 1_322_000]),
        (1_200, [1_162_000, 1_322_000]),
    ] {
        let weights = by_section(retail(100_000, 1_000_000, 7), IRB, months);
        assert_eq!(weights, by_parameters(parameters), "{months}");
    }
}

/// An STC deal halves the sum. With one loan and a loss of 0.5 it is 2.951 and 2.746, and half of each is above 0.3;
/// with 25 loans it is 0.4144 and 0.4588, and half of each is below.
#[test]
fn stc_halves_the_sum() {
    let one_loan = wholesale(100_000, 500_000, 1);
    assert_eq!(by_section(one_loan, IRB, 36), by_parameters([2_951_000, 2_746_000]));
    assert_eq!(by_section(one_loan, STC, 36), by_parameters([1_475_500, 1_373_000]));
    let many = wholesale(100_000, 500_000, 25);
    assert_eq!(by_section(many, STC, 36), by_parameters([300_000; 2]));
}

/// A negative sum, -0.748 + 0.24 and -0.578 + 0.27, gives parameter 0.3, in an STC deal too.
#[test]
fn sum_below_zero() {
    for facts in [IRB, STC] {
        let weights = by_section(retail(100_000, 0, 1), facts, 1);
        assert_eq!(weights, by_parameters([300_000; 2]));
    }
}

/// The charge of a mixed pool: 0.96 x 102,000 + 0.04 x 52,000 = 100,000, where 52,000 is the base charge of all rows at
/// 65%, late and unknown ones too. The parameter reads this charge and not the 102,000.
#[test]
fn charge_of_a_mixed_pool() {
    let irb = [102_000, 500_000, 25, 0, 960_000, 125_000];
    let expected = by_section(wholesale(100_000, 500_000, 25), IRB, 36);
    let statuses = [[0, 0, 0], [0, 1, 0], [0, 2, 2], [2, 2, 2], [1, 1, 1]];
    for [first, second, third] in statuses {
        let pool = [
            [400_000, 1, 60, first],
            [500_000, 999_998, 70, second],
            [100_000, 1, 60, third],
        ];
        let deal = weighed(irb, MIXED, &pool, &across(36));
        assert_eq!(deal.charge, 100_000);
        assert_eq!(first_two(&deal), expected);
    }
}

/// The section's average is in hundredths whatever the unit of the risk weight word, and the base charge reads the
/// weights in either: 52,000 of loans at 65%, and 52,400 at 65.5%, of which 0.04 are 2,096.
#[test]
fn section_in_either_unit() {
    let capped = |facts: Facts, weight| {
        let irb = [102_000, 500_000, 25, 0, 960_000, 1_499];
        weighed(irb, facts, &[[1_000_000, 1_000_000, weight, 0]], &across(36))
    };
    let percent = capped(&[2, 0, 1, 1], 65);
    assert_eq!(
        (percent.charge, admitted(&percent.lines[0])),
        (100_000, Admitted::both(1_499))
    );
    assert_eq!(capped(&[2, 0, 1, 1, 0, 0, 0], 65), percent);
    assert_eq!(capped(&[2, 0, 1, 1, 0, 0, 1], 6_500), percent);
    let finer = capped(&[2, 0, 1, 1, 0, 0, 1], 6_550);
    assert_eq!(
        (finer.charge, admitted(&finer.lines[0])),
        (100_016, Admitted::both(1_499))
    );
}

/// The answer to the sheet of an SA pool, without a section, that has the other facts.
fn of_sa_pool(facts: Facts, pool: &[Row], tranches: &[Tranche]) -> Deal {
    let facts = [&[0], &facts[1..]].concat();
    weigh(&sheet(&facts, pool, tranches), room(3)).expect("an accepted sheet")
}

/// Tranches of which the first is rated, of 36 months.
fn some_rated() -> [Tranche; 3] {
    let mut tranches = across(36);
    tranches[0][4] = 9;
    tranches
}

/// A mixed pool with a share of 949,999 goes on as an SA pool in everything: charge, approaches, weights and cap. With
/// 950,000 it is under SEC-IRBA, the rated tranche too.
#[test]
fn share_of_95_percent() {
    let pool = [[900, 900_000, 100, 0], [50, 100_000, 125, 1], [50, 100_000, 60, 2]];
    for facts in [&[2, 0, 1, 0][..], &[2, 0, 1, 1], &[2, 0, 1, 1, 1]] {
        for share in [0, 949_999] {
            let deal = weighed(mixed(70_000, share), facts, &pool, &some_rated());
            assert_eq!(deal, of_sa_pool(facts, &pool, &some_rated()));
            assert_eq!(
                deal.lines.iter().map(|line| line.approach).collect::<Vec<_>>(),
                [1, 2, 2]
            );
        }
        for share in [950_000, 1_000_000] {
            let deal = weighed(mixed(70_000, share), facts, &pool, &some_rated());
            assert_eq!(deal.lines.iter().map(|line| line.approach).collect::<Vec<_>>(), [3; 3]);
            // Base 80,000 x 0.9 + 100,000 x 0.05 + 48,000 x 0.05 = 79,400.
            let charge = if share == 950_000 { 70_470 } else { 70_000 };
            assert_eq!(deal.charge, charge);
        }
    }
}

/// Ratings play no part under SEC-IRBA, and neither do rows of unknown status above 5%.
#[test]
fn ratings_and_unknown_rows_play_no_part() {
    let pool = [[1_000_000, 1_000_000, 100, 2]];
    let irb = wholesale(100_000, 500_000, 25);
    let unrated = weighed(irb, IRB, POOL, &across(36));
    assert_eq!(weighed(irb, IRB, &pool, &across(36)), unrated);
    assert_eq!(weighed(irb, IRB, &pool, &some_rated()), unrated);
}

/// A re-securitisation keeps SEC-SA, and without due diligence the fallback stays, whatever the section says, with the
/// charge of document 01.
#[test]
fn section_without_sec_irba() {
    for (facts, status, approach) in [
        (&[1, 1, 1, 1][..], 3, 2),
        (&[2, 1, 1, 1, 0], 3, 2),
        (&[1, 1, 0, 1], 3, 0),
        (&[1, 0, 0, 1], 0, 0),
        (&[2, 0, 0, 1, 1], 0, 0),
    ] {
        let pool = [[900, 900_000, 100, status], [100, 100_000, 125, status]];
        let deal = weighed(wholesale(70_000, 500_000, 25), facts, &pool, &some_rated());
        assert_eq!(deal, of_sa_pool(facts, &pool, &some_rated()));
        assert!(deal.charge == 82_000 && deal.lines.iter().all(|line| line.approach == approach));
    }
}

/// The cap under SEC-IRBA is the IRB average as it stands, below the floor and 0 too, for class 1 of a deal with known
/// composition alone. The pool's own average, 10,000, is not read. It lowers the least weight as the weight: a cap at the
/// lower raw weight leaves the least weight as it is.
#[test]
fn cap_by_the_irb_average() {
    let capped = |composition, average| {
        let irb = [100_000, 500_000, 25, 0, 1_000_000, average];
        first_two(&weighed(irb, &[1, 0, 1, composition], POOL, &across(36)))
    };
    let [senior, junior] = by_parameters([414_400, 458_800]);
    for average in [0, 1, 1_499, 1_501, senior.least_weights[0]] {
        assert_eq!(capped(1, average), [Admitted::both(average), junior.clone()]);
        assert_eq!(capped(0, average), [senior.clone(), junior.clone()]);
    }
    let lower = Admitted {
        weights: vec![senior.weights[0]],
        ..senior.clone()
    };
    assert_eq!(capped(1, senior.weights[0]), [lower, junior.clone()]);
    for average in [senior.weights[1], 125_000] {
        assert_eq!(capped(1, average), [senior.clone(), junior.clone()]);
    }
}

/// The floors under SEC-IRBA: 1,500, and in an STC deal 1,000 for class 1. A charge of 0 gives raw weight 0, which they
/// raise; no point lies below it but 0, whose weight is 125,000. The least weight is the same.
#[test]
fn floors() {
    let tranches = [tranche(500_000, 1, 36), tranche(500_000, 2, 36), tranche(1, 3, 36)];
    let all = |facts, charge| {
        let deal = weighed(wholesale(charge, 0, 25), facts, POOL, &tranches);
        assert_eq!(deal.charge, charge);
        all_admitted(&deal)
    };
    assert_eq!(all(IRB, 0), [1_500, 1_500, 125_000].map(Admitted::both));
    assert_eq!(all(STC, 0), [1_000, 1_500, 125_000].map(Admitted::both));
    assert_eq!(all(STC, 1)[..2], [1_000, 1_500].map(Admitted::both));
    assert_eq!(all(IRB, 500_000)[1..], [125_000; 2].map(Admitted::both));
    assert_eq!(all(IRB, 1_000_000), [125_000; 3].map(Admitted::both));
}

/// Months count from a reporting date as in any deal: from 31 January 2024 they are 36 up to 31 January 2027 and 37 the
/// day after.
#[test]
fn months_from_a_reporting_date() {
    let irb = wholesale(100_000, 500_000, 25);
    let dated = |maturity| {
        let deal = weighed(irb, &[1, 0, 1, 0, 0, 20_240_131], POOL, &across(maturity));
        first_two(&deal)
    };
    assert_eq!(dated(20_270_131), by_section(irb, IRB, 36));
    assert_eq!(dated(20_270_201), by_section(irb, IRB, 37));
    assert_ne!(dated(20_270_131), dated(20_270_201));
}
