//! The inferred ratings of S-8: which ratings count for a tranche, its own or those of another one.

use crate::sheet::{Tranche, RATINGS};

/// Whether a tranche is rated: it has a rating of its own. Rating code 0 is no rating.
pub fn is_rated(tranche: &Tranche) -> bool {
    tranche.ratings.iter().any(|&code| code != 0)
}

/// The ratings that count for a tranche among the tranches of its deal, which is "an ordinary deal without SEC-IRBA". A
/// rated tranche has its own. An unrated one "takes that row's ratings", all three words of the row that it finds, and
/// stays unrated where it finds none.
pub fn ratings_that_count(tranches: &[Tranche], tranche: &Tranche) -> [u64; RATINGS] {
    let counts = if is_rated(tranche) {
        Some(tranche)
    } else {
        row_found(tranches, tranche)
    };
    counts.map_or([0; RATINGS], |row| row.ratings)
}

/// The row that an unrated tranche finds: it "looks for rated tranches of its own or a junior class with equal or longer
/// maturity in months. Of these the most senior class counts, and in it the first row."
///
/// Class 1 is the senior class, so junior classes have the higher numbers. Months are compared as they are, not the
/// tranche maturity that follows from them. A tranche that takes ratings is not rated by them, so no other takes them from
/// it.
fn row_found<'a>(tranches: &'a [Tranche], tranche: &Tranche) -> Option<&'a Tranche> {
    let rated = tranches.iter().filter(|other| is_rated(other));
    let of_class = rated.filter(|other| other.class >= tranche.class);
    let long_enough = of_class.filter(|other| other.months >= tranche.months);
    // Of several with the lowest class number this is the first.
    long_enough.min_by_key(|other| other.class)
}

#[cfg(test)]
mod tests {
    use super::*;

    /// A tranche of this class and of so many months, with this as its only rating or with none.
    fn tranche(class: u64, months: u64, rating: u64) -> Tranche {
        Tranche {
            amount: 1,
            class,
            months,
            held: 0,
            ratings: [rating, 0, 0],
            place: 0,
        }
    }

    /// The first rating word that counts for each of some tranches.
    fn counting<const COUNT: usize>(rows: [(u64, u64, u64); COUNT]) -> [u64; COUNT] {
        let tranches = rows.map(|(class, months, rating)| tranche(class, months, rating));
        tranches.map(|tranche| ratings_that_count(&tranches, &tranche)[0])
    }

    /// A rating in any of the three words makes a tranche rated.
    #[test]
    fn one_rating_is_enough() {
        let rated = |ratings| {
            is_rated(&Tranche {
                ratings,
                ..tranche(1, 1, 0)
            })
        };
        assert!([[1, 0, 0], [0, 18, 0], [0, 0, 24]].into_iter().all(rated));
        assert!(!rated([0, 0, 0]));
    }

    /// An unrated tranche takes the ratings of its own class, of an earlier or a later row, or of a junior class, and
    /// never of a senior one.
    #[test]
    fn own_or_junior_class() {
        assert_eq!(counting([(1, 36, 5), (1, 36, 0)]), [5, 5]);
        assert_eq!(counting([(1, 36, 0), (1, 36, 5)]), [5, 5]);
        assert_eq!(counting([(1, 36, 0), (2, 36, 0), (3, 36, 5)]), [5, 5, 5]);
        assert_eq!(counting([(1, 36, 5), (2, 36, 0), (2, 36, 0)]), [5, 0, 0]);
        assert_eq!(counting([(1, 36, 0), (1, 36, 0)]), [0, 0]);
    }

    /// Months are equal or longer. They are compared as they are: 73 and 74 months are both five years of tranche
    /// maturity, and 11 and 12 one year.
    #[test]
    fn equal_or_longer_maturity() {
        for months in [11, 12, 36, 73, 1_199] {
            assert_eq!(counting([(1, months, 0), (2, months, 5)]), [5, 5], "{months}");
            assert_eq!(counting([(1, months, 0), (2, months + 1, 5)]), [5, 5], "{months}");
            assert_eq!(counting([(1, months + 1, 0), (2, months, 5)]), [0, 5], "{months}");
        }
        assert_eq!(counting([(1, 1, 0), (2, 1_200, 5)]), [5, 5]);
    }

    /// The most senior class counts, its own before all others, whichever class has the better rating or the nearer
    /// months; a class that is too short does not count.
    #[test]
    fn most_senior_class() {
        assert_eq!(counting([(1, 36, 0), (2, 60, 9), (3, 36, 5)]), [9, 9, 5]);
        assert_eq!(counting([(1, 36, 0), (2, 35, 9), (3, 36, 5)]), [5, 9, 5]);
        assert_eq!(counting([(1, 36, 0), (1, 60, 9), (2, 36, 5)]), [9, 9, 5]);
        assert_eq!(counting([(1, 36, 12), (2, 36, 0), (3, 36, 5)]), [12, 5, 5]);
    }

    /// In the class that counts the first row is taken, of those that are long enough.
    #[test]
    fn first_row_of_the_class() {
        assert_eq!(counting([(1, 36, 0), (2, 36, 9), (2, 36, 5)]), [9, 9, 5]);
        assert_eq!(counting([(1, 36, 0), (2, 35, 9), (2, 37, 5), (2, 36, 6)]), [5, 9, 5, 6]);
        assert_eq!(counting([(1, 36, 9), (1, 36, 0), (1, 36, 5)]), [9, 9, 5]);
    }

    /// A rated tranche keeps its own, beside an earlier row of its class.
    #[test]
    fn rated_keeps_its_own() {
        assert_eq!(counting([(1, 36, 9), (1, 36, 5), (2, 36, 7)]), [9, 5, 7]);
    }

    /// A tranche that takes ratings hands none on: the first, of 12 months, takes those of the third. The second, of 60
    /// months, is of a more senior class and takes those of the fourth.
    #[test]
    fn no_chains() {
        assert_eq!(counting([(1, 12, 0), (2, 60, 0), (3, 36, 9), (4, 72, 5)]), [9, 5, 9, 5]);
    }

    /// All three words of the row are taken, as they stand.
    #[test]
    fn all_ratings_of_the_row() {
        let found = Tranche {
            ratings: [0, 24, 7],
            ..tranche(2, 36, 0)
        };
        let unrated = tranche(1, 36, 0);
        assert_eq!(ratings_that_count(&[unrated, found], &unrated), [0, 24, 7]);
    }
}
