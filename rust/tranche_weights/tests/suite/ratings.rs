//! The ratings with their codes and names (document 01, "The rating table").

use tranche_weights::{LongTerm, Rating, SheetError, ShortTerm};

/// The names of the long-term grades, by rating code from 1.
const LONG_TERM: [&str; 18] = [
    "AAA",
    "AA+",
    "AA",
    "AA-",
    "A+",
    "A",
    "A-",
    "BBB+",
    "BBB",
    "BBB-",
    "BB+",
    "BB",
    "BB-",
    "B+",
    "B",
    "B-",
    "CCC+ to CCC-",
    "below CCC-",
];

/// The names of the short-term grades, by rating code from 21.
const SHORT_TERM: [&str; 4] = ["A-1/P-1", "A-2/P-2", "A-3/P-3", "all other short-term ratings"];

/// Every code is that of the rating that it gives, and the rating has the grade's name.
#[test]
fn ratings_follow_their_codes() -> Result<(), SheetError> {
    for (code, name) in (1..).zip(LONG_TERM).chain((21..).zip(SHORT_TERM)) {
        let rating = Rating::try_from(code)?;
        assert_eq!((rating.code(), u64::from(rating)), (code, code));
        assert_eq!(rating.to_string(), name);
        assert_eq!(code <= 18, matches!(rating, Rating::LongTerm(_)));
    }
    Ok(())
}

/// No other number is a code; 0 stands for no rating, and is none.
#[test]
fn other_numbers_are_no_ratings() {
    for number in [0, 19, 20, 25, u64::MAX] {
        assert_eq!(Rating::try_from(number), Err(SheetError::Rating(number)));
    }
}

/// A grade and its rating print alike, to the width asked for.
#[test]
fn grades_have_names() {
    assert_eq!(
        format!("{:>4}|{:<4}|", LongTerm::AaMinus, Rating::from(LongTerm::A)),
        " AA-|A   |"
    );
    assert_eq!(
        ShortTerm::Second.to_string(),
        Rating::from(ShortTerm::Second).to_string()
    );
}
