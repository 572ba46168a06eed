//! Random tranches over a given pool.

use crate::answer::LINE_WORDS;
use crate::inferred;
use crate::kind::Kind;
use crate::random::Random;
use crate::sheet::{Deal, Fact, Tranche, LONG_TERM, MONTHS, RATINGS, SHORT_TERM, TRANCHES, TRANCHE_AMOUNT, WHOLE};
use independent::rating::{self, Table};

/// How the pool is divided into classes.
#[derive(Clone, Copy)]
enum Division {
    /// Points anywhere.
    Anywhere,
    /// Points mostly near 0.
    LowEnd,
    /// Points at the pool charge or a few millionths beside it.
    AroundCharge,
    /// Classes of 0, 1 or 2 millionths.
    Thin,
    /// A class about half as thick as the pool.
    HalfThick,
    /// Equal amounts.
    Equal,
    /// Classes that together pass the pool.
    Overshoot,
    /// Amounts that have nothing to do with the pool.
    AnyAmounts,
}

impl Division {
    /// Draws a division for a deal of this kind.
    fn draw(kind: Kind, random: &mut Random) -> Division {
        match kind {
            Kind::AroundCharge => Division::AroundCharge,
            Kind::Thin => Division::Thin,
            Kind::HalfThick => Division::HalfThick,
            Kind::Overshoot => Division::Overshoot,
            Kind::Inferred if random.once_in(3) => Division::Thin,
            _ => match random.below(16) {
                0..=5 => Division::Anywhere,
                6..=8 => Division::LowEnd,
                9..=11 => Division::AroundCharge,
                12 | 13 => Division::Equal,
                14 => Division::Overshoot,
                _ => Division::AnyAmounts,
            },
        }
    }

    /// The amounts of the classes, senior first.
    fn amounts(self, random: &mut Random, deal: &Deal) -> Vec<u64> {
        let pool = deal.nominal();
        let count = class_count(random);
        match self {
            Division::Anywhere => amounts_at(random, pool, |random| (0..count).map(|_| random.below(WHOLE)).collect()),
            Division::LowEnd => amounts_at(random, pool, |random| {
                (0..count).map(|_| random.spread(WHOLE - 1)).collect()
            }),
            Division::AroundCharge => amounts_at(random, pool, |random| points_around(random, charge(deal), count)),
            Division::Thin => amounts_at(random, pool, |random| thin_points(random, charge(deal), count)),
            Division::HalfThick => amounts_at(random, pool, half_thick_points),
            Division::Equal => vec![(pool / count).max(1); count as usize],
            Division::Overshoot => overshooting(random, pool, count),
            Division::AnyAmounts => (0..count).map(|_| random.spread(TRANCHE_AMOUNT)).collect(),
        }
    }
}

/// Draws how many classes a deal has.
fn class_count(random: &mut Random) -> u64 {
    match random.below(16) {
        0 => random.between(1, TRANCHES),
        1..=4 => random.between(1, 10),
        _ => random.between(1, 4),
    }
}

/// The charge of the deal, by document 01 or by S-5. The independent implementation gives it for a sheet with one
/// tranche of class 1, whose points always lie apart.
fn charge(deal: &Deal) -> u64 {
    let mut words = Vec::new();
    Deal {
        facts: deal.facts,
        rows: deal.rows.clone(),
        tranches: vec![Tranche::LEAST],
        irb: deal.irb,
    }
    .write(&mut words);
    let answer = independent::weigh(&words, LINE_WORDS as u64);
    answer.expect("a sound pool with one tranche is accepted").charge
}

/// Points at the charge or up to three millionths beside it, with some anywhere. Equal ones are mostly left out, since
/// they make refusal 13.
fn points_around(random: &mut Random, charge: u64, count: u64) -> Vec<u64> {
    let draw = |random: &mut Random| match random.below(4) {
        0 => random.below(WHOLE),
        1 => charge,
        _ => (charge + random.below(7)).saturating_sub(3),
    };
    let mut points: Vec<u64> = (0..count).map(|_| draw(random)).collect();
    if !random.once_in(8) {
        points.sort_unstable();
        points.dedup();
    }
    points
}

/// Points 0, 1 or 2 millionths apart, from near the charge, near the top or anywhere. Gaps of 0 above the charge make
/// refusal 13, so half of the deals have none.
fn thin_points(random: &mut Random, charge: u64, count: u64) -> Vec<u64> {
    let mut point = match random.below(4) {
        0 => WHOLE - random.below(3),
        1 => charge + random.below(2 * count + 1),
        2 => random.below(charge.max(1)),
        _ => random.below(WHOLE),
    };
    let least = random.below(2);
    let mut next = || {
        let here = point;
        point = point.saturating_sub(random.between(least, 2));
        here
    };
    (0..count).map(|_| next()).collect()
}

/// The attachment points of two classes: the second is one half thick, give or take a millionth, or from two fifths to
/// nearly all of the pool.
fn half_thick_points(random: &mut Random) -> Vec<u64> {
    let thickness = match random.once_in(2) {
        true => random.between(WHOLE / 2 - 1, WHOLE / 2 + 1),
        false => random.between(WHOLE / 5 * 2, WHOLE - 1),
    };
    points_of_second(random, thickness)
}

/// The attachment points of two classes, of which the second is so thick.
fn points_of_second(random: &mut Random, thickness: u64) -> Vec<u64> {
    let top = random.between(thickness, WHOLE - 1);
    vec![top, top - thickness]
}

/// Amounts of classes with the drawn attachment points, put in falling order. Half of the time the lowest class goes
/// down to 0. Within its millionth a point lies at the lower end or anywhere.
fn amounts_at(random: &mut Random, pool: u64, draw: impl FnOnce(&mut Random) -> Vec<u64>) -> Vec<u64> {
    let mut points = draw(random);
    points.sort_unstable_by(|one, other| other.cmp(one));
    if let Some(last) = points.last_mut().filter(|_| random.once_in(2)) {
        *last = 0;
    }
    let within = if random.once_in(2) { 1 } else { (pool / WHOLE).max(1) };
    let mut left = pool;
    let mut class_down_to = |point: u64| {
        let lowest = (u128::from(point.min(WHOLE)) * u128::from(pool)).div_ceil(u128::from(WHOLE)) as u64;
        let target = if point == 0 { 0 } else { lowest + random.below(within) };
        let amount = left.saturating_sub(target).clamp(1, TRANCHE_AMOUNT);
        left = left.saturating_sub(amount);
        amount
    };
    points.into_iter().map(&mut class_down_to).collect()
}

/// Some classes that use up the pool, the last of them by a unit or by far more than is left, then others of any
/// amount.
fn overshooting(random: &mut Random, pool: u64, count: u64) -> Vec<u64> {
    let inside = random.between(1, count);
    let mut amounts = vec![(pool / inside).max(1); inside as usize];
    amounts[inside as usize - 1] = match random.below(3) {
        0 => TRANCHE_AMOUNT,
        1 => pool.min(TRANCHE_AMOUNT),
        _ => (pool / inside + pool % inside + 1).min(TRANCHE_AMOUNT),
    };
    amounts.extend((inside..count).map(|_| random.spread(TRANCHE_AMOUNT)));
    amounts
}

/// How the ratings of a deal's tranches are drawn.
#[derive(Clone, Copy)]
enum Ratings {
    /// No tranche is rated.
    Unrated,
    /// One rating on each, at any of its places.
    One,
    /// One rating on each, of the best grades.
    Good,
    /// Two or more ratings on each.
    Several,
    /// One or more short-term ratings on each.
    ShortTerm,
    /// Each word none or any code.
    Any,
}

impl Ratings {
    /// Draws a way for a deal of this kind.
    fn draw(kind: Kind, random: &mut Random) -> Ratings {
        let rated = match kind {
            Kind::Rated | Kind::HalfThick => true,
            Kind::Stc => random.once_in(2),
            _ => random.once_in(3),
        };
        match (rated, kind) {
            (false, _) => Ratings::Unrated,
            (true, Kind::HalfThick) => random.pick(&[Ratings::One, Ratings::Good, Ratings::Good]),
            (true, _) => random.pick(&[
                Ratings::One,
                Ratings::Several,
                Ratings::ShortTerm,
                Ratings::Any,
                Ratings::Any,
            ]),
        }
    }

    /// Draws the rating words of one tranche.
    fn words(self, random: &mut Random) -> [u64; RATINGS] {
        match self {
            Ratings::Unrated => [0; RATINGS],
            Ratings::One => placed(random, 1, long_term),
            Ratings::Good => placed(random, 1, good),
            Ratings::Several => {
                let count = random.between(2, RATINGS as u64);
                placed(random, count, any_code)
            }
            Ratings::ShortTerm => {
                let count = random.between(1, RATINGS as u64);
                placed(random, count, short_term)
            }
            Ratings::Any => any_ratings(random),
        }
    }
}

/// One or more ratings, at any places of a tranche's ratings.
pub fn some_ratings(random: &mut Random) -> [u64; RATINGS] {
    let count = random.between(1, RATINGS as u64);
    placed(random, count, any_code)
}

/// So many codes at random places of a tranche's ratings.
fn placed(random: &mut Random, count: u64, code: fn(&mut Random) -> u64) -> [u64; RATINGS] {
    let mut words = [0; RATINGS];
    words
        .iter_mut()
        .take(count as usize)
        .for_each(|word| *word = code(random));
    random.shuffle(&mut words);
    words
}

/// A row of a rating table.
fn long_term(random: &mut Random) -> u64 {
    random.between(LONG_TERM.0, LONG_TERM.1)
}

/// One of the first six rows of a rating table.
fn good(random: &mut Random) -> u64 {
    random.between(LONG_TERM.0, LONG_TERM.0 + 5)
}

/// A short-term grade.
fn short_term(random: &mut Random) -> u64 {
    random.between(SHORT_TERM.0, SHORT_TERM.1)
}

/// A rating of either sort.
fn any_code(random: &mut Random) -> u64 {
    if random.once_in(5) {
        short_term(random)
    } else {
        long_term(random)
    }
}

/// The rating words of a tranche, each none or any listed code.
pub fn any_ratings(random: &mut Random) -> [u64; RATINGS] {
    let count = random.below(RATINGS as u64 + 1);
    placed(random, count, any_code)
}

/// Two ratings that are near: a short-term one, and a long-term one whose exact figure, at these months and so thick, is
/// below that of the other by less than a hundredth of a percent.
struct Near {
    short_term: u64,
    long_term: u64,
    months: u64,
    thickness: u64,
}

impl Near {
    /// Draws near ratings for class 2 of a deal with this rating table. A thickness takes at most half of a weight, so
    /// the long-term weight without it is from once to twice the short-term one. The first short-term grade is left out,
    /// which the floor hides. For the last one there always is a long-term grade, one that weighs the same.
    fn draw(random: &mut Random, table: &Table) -> Near {
        let between = random.between(13, 71);
        let months = random.pick(&[12, 72, between]);
        let weight = |code| weight_of_second(table, months, code);
        let long_terms = |short_term: u64| -> Vec<u64> {
            let range = weight(short_term)..=2 * weight(short_term);
            (LONG_TERM.0..=LONG_TERM.1)
                .filter(|&code| range.contains(&weight(code)))
                .collect()
        };
        let mut short_terms: Vec<u64> = (SHORT_TERM.0 + 1..=SHORT_TERM.1).collect();
        short_terms.retain(|&code| !long_terms(code).is_empty());
        let short_term = random.pick(&short_terms);
        let long_term = random.pick(&long_terms(short_term));
        let kept = WHOLE * weight(short_term) / weight(long_term) - random.below(WHOLE / weight(long_term) + 1);
        Near {
            short_term,
            long_term,
            months,
            thickness: WHOLE - kept,
        }
    }

    /// Gives the tranches of class 2 these ratings in any order, now and then with a third one, mostly the lowest or the
    /// highest.
    fn rate(&self, random: &mut Random, tranches: &mut [Tranche]) {
        for tranche in tranches.iter_mut().filter(|tranche| tranche.class == 2) {
            let any = any_code(random);
            let third = random.pick(&[0, 0, SHORT_TERM.0, SHORT_TERM.1, any]);
            tranche.maturity = self.months;
            tranche.ratings = [self.short_term, self.long_term, third];
            random.shuffle(&mut tranche.ratings);
        }
    }
}

/// The weight of a tranche of class 2 without thickness by one rating, before the floor.
fn weight_of_second(table: &Table, months: u64, code: u64) -> u64 {
    let tranche = independent::sheet::Tranche {
        amount: 1,
        class: 2,
        months,
        held: 0,
        ratings: [code, 0, 0],
        place: 0,
    };
    rating::weight(table, &tranche, 0)
}

/// Draws the months of a maturity: around the months where a rule changes, or anywhere; where weights should lie near
/// the senior figures, mostly a short one.
fn months(kind: Kind, random: &mut Random) -> u64 {
    match random.below(4) {
        0..=2 if kind == Kind::HalfThick => random.between(1, 24),
        0 | 1 => random.pick(&[1, 11, 12, 13, 35, 36, 37, 59, 60, 61, 71, 72, 73, MONTHS - 1, MONTHS]),
        2 => random.between(1, 90),
        _ => random.between(1, MONTHS),
    }
}

/// Draws the amount held of a tranche: nothing, all, or a part.
fn held(random: &mut Random, amount: u64) -> u64 {
    match random.below(8) {
        0 => 0,
        1..=3 => amount,
        4 => random.spread(amount),
        _ => random.between(0, amount),
    }
}

/// Fills the deal with tranches of this kind over its pool. Facts, pool and IRB section must be there already. Some
/// classes are split into tranches that rank pari passu.
pub fn fill(kind: Kind, random: &mut Random, deal: &mut Deal) {
    let near = (kind == Kind::NearRatings).then(|| Near::draw(random, Table::of(deal.facts[Fact::Stc] == 1)));
    let amounts = match &near {
        Some(near) => amounts_at(random, deal.nominal(), |random| {
            points_of_second(random, near.thickness)
        }),
        None => Division::draw(kind, random).amounts(random, deal),
    };
    let ratings = Ratings::draw(kind, random);
    let splits = random.once_in(3) || kind == Kind::Inferred;
    deal.tranches.clear();
    let mut spare = TRANCHES as usize - amounts.len();
    for (class, mut left) in (1..).zip(amounts) {
        while left > 0 {
            let split = splits && spare > 0 && left > 1 && random.once_in(3);
            let amount = if split { random.between(1, left - 1) } else { left };
            spare -= usize::from(split);
            left -= amount;
            deal.tranches.push(Tranche {
                amount,
                class,
                maturity: months(kind, random),
                held: held(random, amount),
                ratings: ratings.words(random),
            });
        }
    }
    if let Some(near) = near {
        near.rate(random, &mut deal.tranches);
    }
    if kind == Kind::Inferred {
        inferred::rate(random, &mut deal.tranches);
    }
}
