//! The limited numbers (document 01, "The deal sheet"; document 02, S-5).

use tranche_weights::{AverageWeight, Loans, Millionths, Months, PoolAmount, SheetError, TrancheAmount};

/// Holds a limited number to its limits: both are taken and given back, what is beyond them is answered with the
/// number's own error.
fn hold_limits<N: TryFrom<u64, Error = SheetError> + Into<u64>>(limits: [u64; 2], error: fn(u64) -> SheetError) {
    let taken = |value| N::try_from(value).map(N::into);
    let [lowest, highest] = limits;
    assert_eq!(limits.map(taken), limits.map(Ok));
    for beyond in lowest.checked_sub(1).into_iter().chain([highest + 1, u64::MAX]) {
        assert_eq!(taken(beyond), Err(error(beyond)));
    }
}

/// Each limited number takes its two limits and nothing beyond them.
#[test]
fn numbers_keep_their_limits() {
    hold_limits::<PoolAmount>([1, 10_000_000_000], SheetError::PoolAmount);
    hold_limits::<TrancheAmount>([1, 10_000_000_000_000], SheetError::TrancheAmount);
    hold_limits::<Months>([1, 1200], SheetError::Months);
    hold_limits::<Millionths>([0, 1_000_000], SheetError::Millionths);
    hold_limits::<Loans>([1, 1_000_000], SheetError::Loans);
    hold_limits::<AverageWeight>([0, 125_000], SheetError::AverageWeight);
}

/// The limits can be read, and `new` and `get` do what the conversions do.
#[test]
fn limits_can_be_read() {
    assert_eq!([PoolAmount::LOWEST, PoolAmount::HIGHEST], [1, 10_000_000_000]);
    assert_eq!([TrancheAmount::LOWEST, TrancheAmount::HIGHEST], [1, 10_000_000_000_000]);
    assert_eq!([Months::LOWEST, Months::HIGHEST], [1, 1200]);
    assert_eq!([Millionths::LOWEST, Millionths::HIGHEST], [0, 1_000_000]);
    assert_eq!([Loans::LOWEST, Loans::HIGHEST], [1, 1_000_000]);
    assert_eq!([AverageWeight::LOWEST, AverageWeight::HIGHEST], [0, 125_000]);
    assert_eq!(Months::new(60).map(Months::get), Ok(60));
    assert_eq!(Months::new(0), Months::try_from(0));
}

/// A number prints as its value does, to the width asked for.
#[test]
fn numbers_print_their_value() -> Result<(), SheetError> {
    assert_eq!(PoolAmount::new(950)?.to_string(), "950");
    assert_eq!(format!("{:>5}|", Loans::new(100)?), "  100|");
    assert_eq!(format!("{:03}", Months::new(72)?), "072");
    assert_eq!(format!("{:<4}|", TrancheAmount::new(80)?), "80  |");
    Ok(())
}
