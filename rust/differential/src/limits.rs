//! Sheets at the limits: every word at its lowest or highest allowed value.

use crate::random::Random;
use crate::sheet::{
    pool_kind, status, unit, Deal, Fact, Facts, Irb, Row, Tranche, IRB_AVERAGE, LOANS, LONG_TERM, MONTHS, POOL_AMOUNT,
    ROWS, SHORT_TERM, TRANCHES, TRANCHE_AMOUNT, WHOLE,
};
use std::array;

/// At which end the words of one field are.
#[derive(Clone, Copy)]
enum Ends {
    /// All at the lowest value.
    Low,
    /// All at the highest value.
    High,
    /// Each at one of the two.
    Either,
}

impl Ends {
    /// Draws the ends of one field. The highest comes most often, so that the largest sums occur.
    fn draw(random: &mut Random) -> Ends {
        random.pick(&[Ends::Low, Ends::High, Ends::High, Ends::Either])
    }

    /// Draws one word of the field.
    fn word(self, random: &mut Random, low: u64, high: u64) -> u64 {
        match self {
            Ends::Low => low,
            Ends::High => high,
            Ends::Either => random.pick(&[low, high]),
        }
    }
}

/// Fills the whole deal with words at the limits.
pub fn fill(random: &mut Random, deal: &mut Deal) {
    deal.facts = Facts::default();
    deal.facts[Fact::PoolKind] = random.pick(&[pool_kind::SA, pool_kind::IRB, pool_kind::MIXED]);
    deal.facts[Fact::Resecuritisation] = random.below(2);
    deal.facts[Fact::DueDiligence] = u64::from(!random.once_in(4));
    deal.facts[Fact::Composition] = random.below(2);
    if !random.once_in(4) {
        deal.facts[Fact::Stc] = random.below(2 - deal.facts[Fact::Resecuritisation]);
    }
    if !random.once_in(3) {
        deal.facts[Fact::Unit] = random.pick(&[unit::PERCENT, unit::HUNDREDTHS]);
    }
    fill_rows(random, deal);
    fill_tranches(random, deal);
    fill_irb(random, deal);
}

/// The IRB section. The share of an IRB pool is the whole.
fn fill_irb(random: &mut Random, deal: &mut Deal) {
    let mut word = |low, high| random.pick(&[low, high]);
    let share = word(0, WHOLE);
    deal.irb = Irb {
        charge: word(0, WHOLE),
        loss: word(0, WHOLE),
        loans: word(1, LOANS),
        retail: word(0, 1),
        share: if deal.facts[Fact::PoolKind] == pool_kind::IRB {
            WHOLE
        } else {
            share
        },
        average: word(0, IRB_AVERAGE),
    };
}

/// One row or the most.
fn fill_rows(random: &mut Random, deal: &mut Deal) {
    let count = random.pick(&[1, 1, 1, ROWS]);
    let [exposures, nominals, weights, statuses] = array::from_fn(|_| Ends::draw(random));
    deal.rows.clear();
    for _ in 0..count {
        let ordinary = statuses.word(random, status::PAYING, status::NOT_KNOWN);
        let resecuritisation = deal.is_resecuritisation();
        deal.rows.push(Row {
            exposure: exposures.word(random, 1, POOL_AMOUNT),
            nominal: nominals.word(random, 1, POOL_AMOUNT),
            risk_weight: weights.word(random, 0, unit::risk_weight(deal.unit())),
            status: if resecuritisation { status::TRANCHE } else { ordinary },
        });
    }
}

/// One tranche or the most; the lowest class is the one before, the highest one more.
fn fill_tranches(random: &mut Random, deal: &mut Deal) {
    let count = random.pick(&[1, TRANCHES]);
    let [amounts, classes, months, held, ratings] = array::from_fn(|_| Ends::draw(random));
    deal.tranches.clear();
    let mut class = 1;
    for _ in 0..count {
        let amount = amounts.word(random, 1, TRANCHE_AMOUNT);
        deal.tranches.push(Tranche {
            amount,
            class,
            maturity: months.word(random, 1, MONTHS),
            held: held.word(random, 0, amount),
            ratings: array::from_fn(|_| rating(ratings, random)),
        });
        class = classes.word(random, class, class + 1);
    }
}

/// None or the last code; where either may come, also the ends of the two lists of grades.
fn rating(ends: Ends, random: &mut Random) -> u64 {
    match ends {
        Ends::Low => 0,
        Ends::High => SHORT_TERM.1,
        Ends::Either => random.pick(&[0, LONG_TERM.0, LONG_TERM.1, SHORT_TERM.0, SHORT_TERM.1]),
    }
}
