//! Numbers that hold only what document 01 admits under "The deal sheet", and document 02 in S-5.

use std::fmt;

use crate::limits;
use crate::sheet_error::SheetError;

/// Makes a type of whole numbers within limits; a value outside them is answered with the error of the same name.
macro_rules! limited {
    ($(#[$doc:meta])* $name:ident, $limits:path) => {
        $(#[$doc])*
        #[derive(Debug, Clone, Copy, PartialEq, Eq, PartialOrd, Ord, Hash)]
        pub struct $name(u64);

        impl $name {
            /// The lowest value.
            pub const LOWEST: u64 = $limits.0;
            /// The highest value.
            pub const HIGHEST: u64 = $limits.1;

            /// Takes a value from [`LOWEST`](Self::LOWEST) to [`HIGHEST`](Self::HIGHEST).
            ///
            /// # Errors
            ///
            #[doc = concat!("[`SheetError::", stringify!($name), "`] with any other value.")]
            pub const fn new(value: u64) -> Result<Self, SheetError> {
                match value {
                    Self::LOWEST..=Self::HIGHEST => Ok(Self(value)),
                    _ => Err(SheetError::$name(value)),
                }
            }

            /// The value, as it stands in the sheet.
            pub const fn get(self) -> u64 {
                self.0
            }
        }

        impl TryFrom<u64> for $name {
            type Error = SheetError;

            /// Takes a value as `new` does.
            fn try_from(value: u64) -> Result<Self, SheetError> {
                Self::new(value)
            }
        }

        impl From<$name> for u64 {
            /// The value, as it stands in the sheet.
            fn from(number: $name) -> u64 {
                number.get()
            }
        }

        impl fmt::Display for $name {
            /// Prints the value, as a `u64` prints.
            fn fmt(&self, f: &mut fmt::Formatter<'_>) -> fmt::Result {
                self.0.fmt(f)
            }
        }
    };
}

limited! {
    /// Exposure amount or nominal amount of a pool row, in whole currency units: 1 to 10^10.
    PoolAmount, limits::POOL_AMOUNT
}

limited! {
    /// Amount of a tranche, in whole currency units: 1 to 10^13.
    TrancheAmount, limits::TRANCHE_AMOUNT
}

limited! {
    /// Final legal maturity of a tranche, in months: 1 to 1200.
    Months, limits::MONTHS
}

limited! {
    /// A figure in millionths, 0 to 10^6: 10^6 is 100%, 80,000 is 8%.
    Millionths, limits::MILLIONTHS
}

limited! {
    /// Effective number of loans in a pool: 1 to 10^6.
    Loans, limits::LOANS
}

limited! {
    /// Average weight of a pool, in hundredths of a percent: 0 to 125,000, which is 1250%.
    AverageWeight, limits::AVERAGE_WEIGHT
}
