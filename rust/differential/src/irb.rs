//! Pool kinds and IRB sections (S-5): good ones for sound deals, bad ones for damage.

use crate::kind::Kind;
use crate::random::Random;
use crate::sheet::{pool_kind, status, Deal, Fact, Irb, IrbWord, IRB_AVERAGE, IRB_SHARE, LOANS, MANY_LOANS, WHOLE};
use crate::tranches;
use independent::approach::{self, Figures};
use independent::charge::{self, Points};
use independent::formula::{raw_weights, Terms};
use independent::irba::Sum;
use independent::sheet::Sheet;

/// Draws the pool kind of a deal of this kind. Most deals that are to show something else have an SA pool.
pub fn draw_pool_kind(kind: Kind, random: &mut Random) -> u64 {
    match kind {
        Kind::IrbPool => pool_kind::IRB,
        Kind::MixedPool => pool_kind::MIXED,
        _ if random.once_in(6) => random.pick(&[pool_kind::IRB, pool_kind::MIXED]),
        _ => pool_kind::SA,
    }
}

/// Fills the IRB section of a deal of this kind, whose facts must be there already.
pub fn fill(kind: Kind, random: &mut Random, deal: &mut Deal) {
    deal.irb = Irb {
        charge: charge(kind, random),
        loss: loss(random),
        loans: loans(random),
        retail: random.below(2),
        share: share(deal.facts[Fact::PoolKind], random),
        average: average(random),
    };
}

/// Draws an IRB charge: mostly one that a pool has, at which some sums are negative and some are not.
fn charge(kind: Kind, random: &mut Random) -> u64 {
    match (kind, random.below(8)) {
        (Kind::ZeroCharge, _) => 0,
        (Kind::SmallCharge, _) => random.between(1, 3),
        (_, 0) => random.pick(&[0, 1, WHOLE - 1, WHOLE]),
        (_, 1) => random.below(WHOLE + 1),
        (_, 2) => random.spread(WHOLE),
        _ => random.between(10_000, 250_000),
    }
}

/// Draws an average loss given default.
fn loss(random: &mut Random) -> u64 {
    match random.once_in(8) {
        true => random.pick(&[0, 1, WHOLE - 1, WHOLE]),
        false => random.below(WHOLE + 1),
    }
}

/// Draws an effective number of loans: few, about the number at which the coefficients change, or many.
fn loans(random: &mut Random) -> u64 {
    match random.below(8) {
        0 | 1 => random.between(1, 3),
        2..=4 => random.between(MANY_LOANS - 2, MANY_LOANS + 1),
        5 => random.between(1, 4 * MANY_LOANS),
        6 => random.spread(LOANS),
        _ => random.pick(&[LOANS - 1, LOANS]),
    }
}

/// Draws a share of exposure with an IRB charge, for a mixed pool mostly at or above the least under SEC-IRBA.
fn share(kind: u64, random: &mut Random) -> u64 {
    match random.below(8) {
        _ if kind == pool_kind::IRB => WHOLE,
        0 => random.below(WHOLE + 1),
        1 => random.pick(&[0, 1, WHOLE - 1, WHOLE]),
        2..=4 => random.between(IRB_SHARE - 1, IRB_SHARE + 1),
        _ => random.between(IRB_SHARE, WHOLE),
    }
}

/// Draws an IRB average weight: about the floors, about the weights of senior tranches, or anywhere.
fn average(random: &mut Random) -> u64 {
    match random.below(8) {
        0 => random.pick(&[0, 1, IRB_AVERAGE - 1, IRB_AVERAGE]),
        1 | 2 => random.below(1_600),
        3..=5 => random.between(1_000, 10_000),
        _ => random.below(IRB_AVERAGE + 1),
    }
}

/// Aims the section of a deal under SEC-IRBA, whose tranches must be there already, now and then at a sum of the
/// parameter, and now and then at the weight of class 1.
pub fn aim(random: &mut Random, deal: &mut Deal) {
    if deal.is_under_irba() && random.once_in(3) {
        aim_at_sum(random, deal);
    }
    if deal.is_under_irba() && random.once_in(8) {
        aim_at_weight(random, deal);
    }
}

/// The deal as the independent implementation reads it.
fn read(deal: &Deal) -> Sheet {
    let mut words = Vec::new();
    deal.write(&mut words);
    independent::sheet::read(&words).expect("a sound sheet")
}

/// Sets the IRB average, which is the cap, to the lower raw weight of class 1 or up to two beside it.
fn aim_at_weight(random: &mut Random, deal: &mut Deal) {
    let sheet = read(deal);
    let figures = Figures::of(&sheet);
    let senior = &sheet.tranches[0];
    let Points { attachment, detachment } =
        charge::points(charge::nominal_sum(&sheet.pool), &sheet.tranches, senior.class);
    let raw = raw_weights(&Terms {
        charge: figures.charge,
        attachment,
        detachment,
        parameter: approach::parameter(&figures, senior),
    });
    let aimed = (raw.weights[0] + random.below(5)).saturating_sub(2);
    deal.irb.average = aimed.min(IRB_AVERAGE);
}

/// Sets the loss so that the parameter's sum of a tranche is within some millionths of 0.3, or of 0.6, of which an STC
/// deal takes half.
fn aim_at_sum(random: &mut Random, deal: &mut Deal) {
    let target = random.pick(&[300_000, 600_000]) + i128::from(random.below(7)) - 3;
    let sheet = read(deal);
    let figures = Figures::of(&sheet);
    let tranche = random.pick(&sheet.tranches);
    let irb = *figures.irb.expect("a deal under SEC-IRBA");
    let [least, most] = [0, WHOLE].map(|loss| {
        let irb = independent::sheet::Irb { loss, ..irb };
        Sum::of(&irb, figures.charge, &tranche)
    });
    let missing = target * least.denominator - least.numerator;
    let loss = missing * i128::from(WHOLE) / (most.numerator - least.numerator);
    if (0..=i128::from(WHOLE)).contains(&loss) {
        deal.irb.loss = loss as u64;
    }
}

/// Changes what plays no part under SEC-IRBA: the status of each row and the ratings of each tranche.
pub fn change_unread(random: &mut Random, deal: &mut Deal) {
    for row in &mut deal.rows {
        row.status = random.pick(&[status::PAYING, status::DELINQUENT, status::NOT_KNOWN]);
    }
    for tranche in &mut deal.tranches {
        tranche.ratings = tranches::any_ratings(random);
    }
}

/// Draws a word of the IRB section and a value outside its limits in a pool of this kind: just outside them, or any.
pub fn bad_word(random: &mut Random, kind: u64) -> (IrbWord, u64) {
    let (word, most) = random.pick(&[
        (IrbWord::Charge, WHOLE),
        (IrbWord::Loss, WHOLE),
        (IrbWord::Loans, LOANS),
        (IrbWord::Retail, 1),
        (IrbWord::Share, WHOLE),
        (IrbWord::Average, IRB_AVERAGE),
    ]);
    let above = random.between(most + 1, u64::MAX);
    let outside = random.pick(&[most + 1, most + 1, u64::MAX, above]);
    let bad = match (word, random.once_in(2)) {
        (IrbWord::Loans, true) => 0,
        (IrbWord::Share, true) if kind == pool_kind::IRB => {
            let below = random.below(WHOLE);
            random.pick(&[0, IRB_SHARE - 1, IRB_SHARE, WHOLE - 1, below])
        }
        _ => outside,
    };
    (word, bad)
}

#[cfg(test)]
mod tests {
    use super::*;
    use std::collections::BTreeSet;

    /// Words outside their limits come for each word, among them the first value above the most and, where there is a
    /// least, the first below it; in an IRB pool the share is never the whole, in a mixed pool always above it.
    #[test]
    fn bad_words_are_outside() {
        let draws = |kind| (0..5_000).map(move |index| bad_word(&mut Random::of_sheet(8, index), kind));
        let good = |kind, word, value| match word {
            IrbWord::Charge | IrbWord::Loss => value <= WHOLE,
            IrbWord::Loans => (1..=LOANS).contains(&value),
            IrbWord::Retail => value <= 1,
            IrbWord::Share => value == WHOLE || kind == pool_kind::MIXED && value < WHOLE,
            IrbWord::Average => value <= IRB_AVERAGE,
        };
        let first = [
            (IrbWord::Charge, 1_000_001),
            (IrbWord::Loss, 1_000_001),
            (IrbWord::Loans, 0),
            (IrbWord::Loans, 1_000_001),
            (IrbWord::Retail, 2),
            (IrbWord::Share, 1_000_001),
            (IrbWord::Average, 125_001),
        ];
        for kind in [pool_kind::IRB, pool_kind::MIXED] {
            assert!(draws(kind).all(|(word, value)| !good(kind, word, value)));
            let missed: Vec<_> = first
                .iter()
                .filter(|&&first| draws(kind).all(|drawn| drawn != first))
                .collect();
            assert!(missed.is_empty(), "{kind}: {missed:?}");
        }
        assert!(draws(pool_kind::IRB).any(|drawn| drawn == (IrbWord::Share, 999_999)));
    }

    /// The share of an IRB pool is the whole; that of a mixed pool meets the least under SEC-IRBA, one less, one more,
    /// and both ends.
    #[test]
    fn shares_follow_the_pool_kind() {
        let shares = |kind| -> BTreeSet<u64> {
            let draws = (0..5_000).map(|index| share(kind, &mut Random::of_sheet(9, index)));
            draws.collect()
        };
        assert_eq!(shares(pool_kind::IRB), BTreeSet::from([WHOLE]));
        let met = shares(pool_kind::MIXED);
        let wanted = [0, 1, IRB_SHARE - 1, IRB_SHARE, IRB_SHARE + 1, WHOLE - 1, WHOLE];
        assert!(wanted.iter().all(|share| met.contains(share)));
    }
}
