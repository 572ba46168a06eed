//! Deals in which unrated tranches stand beside rated ones (S-8): which tranches are rated, and maturities about one
//! number of months. Other ratings for second sheets.

use crate::random::Random;
use crate::sheet::{Tranche, MONTHS, RATINGS};
use crate::tranches::{any_ratings, some_ratings};

/// Which tranches of a deal are rated.
#[derive(Clone, Copy)]
enum Rated {
    /// Any, about half of them.
    Half,
    /// Any, about one of four.
    Few,
    /// One.
    One,
    /// Those of the last class.
    LastClass,
    /// Those of class 1.
    FirstClass,
}

impl Rated {
    /// Whether the tranche of this number, from 0, is rated; `one` is the number of the only one.
    fn rates(self, random: &mut Random, tranches: &[Tranche], number: usize, one: usize) -> bool {
        let class = tranches[number].class;
        match self {
            Rated::Half => random.once_in(2),
            Rated::Few => random.once_in(4),
            Rated::One => number == one,
            Rated::LastClass => tranches.last().is_some_and(|last| last.class == class),
            Rated::FirstClass => class == 1,
        }
    }
}

/// Draws the months about which a deal's maturities lie: those at which the rule of tranche maturity changes, and others.
fn middle_months(random: &mut Random) -> u64 {
    let [short, any] = [90, MONTHS - 1].map(|most| random.between(2, most));
    random.pick(&[2, 12, 36, 72, 73, 74, short, short, any])
}

/// Draws the months of one maturity: mostly within a month of the middle ones, else within a year of them or any.
fn months(random: &mut Random, middle: u64) -> u64 {
    let months = match random.below(8) {
        0..=2 => middle,
        3 | 4 => middle - 1,
        5 => middle + 1,
        6 => (middle + random.below(25)).saturating_sub(12),
        _ => random.between(1, MONTHS),
    };
    months.clamp(1, MONTHS)
}

/// Rates some of the tranches anew, and gives all of them maturities about one number of months.
pub fn rate(random: &mut Random, tranches: &mut [Tranche]) {
    let rated = random.pick(&[
        Rated::Half,
        Rated::Half,
        Rated::Few,
        Rated::One,
        Rated::LastClass,
        Rated::FirstClass,
    ]);
    let middle = middle_months(random);
    let one = random.below(tranches.len() as u64) as usize;
    for number in 0..tranches.len() {
        let rates = rated.rates(random, tranches, number, one);
        tranches[number].ratings = if rates { some_ratings(random) } else { [0; RATINGS] };
        tranches[number].maturity = months(random, middle);
    }
}

/// Draws other ratings for one tranche, or for all but one.
pub fn rate_others(random: &mut Random, tranches: &mut [Tranche]) {
    let drawn = random.below(tranches.len() as u64) as usize;
    let alone = random.once_in(2);
    for (number, tranche) in tranches.iter_mut().enumerate() {
        if (number == drawn) == alone {
            tranche.ratings = any_ratings(random);
        }
    }
}

/// Draws other ratings for all tranches of the classes senior to a class, which there must be; to any below class 1.
pub fn rate_seniors(random: &mut Random, tranches: &mut [Tranche]) {
    let last = last_class(tranches);
    let class = random.between(2, last);
    for tranche in tranches.iter_mut().filter(|tranche| tranche.class < class) {
        tranche.ratings = any_ratings(random);
    }
}

/// The class of the last tranche, which is the most junior one.
pub fn last_class(tranches: &[Tranche]) -> u64 {
    tranches.last().map_or(1, |last| last.class)
}

#[cfg(test)]
mod tests {
    use super::*;
    use std::collections::BTreeSet;

    /// Unrated tranches of these classes.
    fn tranches(classes: &[u64]) -> Vec<Tranche> {
        let of_class = |&class: &u64| Tranche {
            class,
            ..Tranche::LEAST
        };
        classes.iter().map(of_class).collect()
    }

    /// Which of some tranches are rated, in a deal drawn anew for each index.
    fn rated(classes: &[u64]) -> BTreeSet<Vec<bool>> {
        let draw = |index| {
            let mut drawn = tranches(classes);
            rate(&mut Random::of_sheet(10, index), &mut drawn);
            drawn.iter().map(|tranche| tranche.ratings != [0; RATINGS]).collect()
        };
        (0..2_000).map(draw).collect()
    }

    /// Every set of three tranches is rated in some deal.
    #[test]
    fn every_set_is_rated() {
        assert_eq!(rated(&[1, 2, 2]).len(), 8);
        assert_eq!(rated(&[1]).len(), 2);
    }

    /// Maturities keep their limits, and are mostly equal or a month apart.
    #[test]
    fn months_are_near_one_another() {
        let mut apart = [0u64; 3];
        for index in 0..2_000 {
            let mut drawn = tranches(&[1, 1]);
            rate(&mut Random::of_sheet(12, index), &mut drawn);
            let [one, other] = [0, 1].map(|number: usize| drawn[number].maturity);
            assert!([one, other].iter().all(|months| (1..=MONTHS).contains(months)));
            apart[one.abs_diff(other).min(2) as usize] += 1;
        }
        assert!(apart.iter().all(|&count| count > 400), "{apart:?}");
    }

    /// Which of some tranches may get other ratings, in any draw.
    fn changed(classes: &[u64], draw: fn(&mut Random, &mut [Tranche])) -> BTreeSet<Vec<bool>> {
        let of_draw = |index| {
            let mut drawn = tranches(classes);
            draw(&mut Random::of_sheet(13, index), &mut drawn);
            drawn.iter().map(|tranche| tranche.ratings != [0; RATINGS]).collect()
        };
        (0..2_000).map(of_draw).collect()
    }

    /// Other ratings come on one tranche or on all but one.
    #[test]
    fn others_are_rated() {
        let met = changed(&[1, 2, 2], rate_others);
        let wanted = [[true, false, false], [true, true, false], [false, true, true]];
        assert!(wanted.iter().all(|set| met.contains(&set[..])));
        assert!(!met.contains(&[true; 3][..]));
    }

    /// Senior classes get other ratings down to any class, and never the last one.
    #[test]
    fn seniors_are_rated() {
        let met = changed(&[1, 1, 2, 3], rate_seniors);
        assert!(met.contains(&[true, true, false, false][..]) && met.contains(&[true, true, true, false][..]));
        assert!(met.iter().all(|set| !set[3]));
        assert_eq!(last_class(&tranches(&[1, 1, 2, 3])), 3);
    }
}
