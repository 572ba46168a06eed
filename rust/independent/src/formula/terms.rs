//! The terms of document 01's formula.

use crate::sheet::WHOLE;

/// The highest weight, 1250%.
pub const HIGHEST_WEIGHT: u64 = 125_000;

/// What the formula is worked from: charge K, A, D and the parameter p, all in millionths.
#[derive(Debug, Clone, Copy, PartialEq, Eq)]
pub struct Terms {
    pub charge: u64,
    pub attachment: u64,
    pub detachment: u64,
    pub parameter: u64,
}

/// The formula's lengths. Those along which s is measured are counted in millionths of a millionth, so that s is a
/// whole number too.
impl Terms {
    /// s = p x K, in millionths of a millionth.
    pub(super) fn s(&self) -> u64 {
        self.parameter * self.charge
    }

    /// max(K - A, 0), in millionths of a millionth.
    pub(super) fn below_charge(&self) -> u64 {
        WHOLE * self.charge.saturating_sub(self.attachment)
    }

    /// l = max(A - K, 0), in millionths of a millionth.
    pub(super) fn l(&self) -> u64 {
        WHOLE * self.attachment.saturating_sub(self.charge)
    }

    /// u = D - K, for D above K, in millionths of a millionth.
    pub(super) fn u(&self) -> u64 {
        WHOLE * (self.detachment - self.charge)
    }

    /// D - A, in millionths.
    pub(super) fn thickness(&self) -> u64 {
        self.detachment - self.attachment
    }
}
