//! What the library answers to a sheet and to an amendment, as its C functions give it.

use crate::amendment_refusal::AmendmentRefusal;
use crate::limits::SUM_WORDS;
use crate::refusal::Refusal;
use crate::sums::BlockSums;

/// The four numbers that the library answers to a sheet, as its C functions give them.
#[derive(Debug, Clone, Copy, PartialEq, Eq, Hash)]
#[non_exhaustive]
pub struct Reply {
    /// The refusal's number; 0 where the sheet is accepted.
    pub number: u64,
    /// The refusal's place; 0 where the sheet is accepted.
    pub place: u64,
    /// The number of tranches; 0 on a refusal.
    pub count: u64,
    /// The pool charge, in millionths; 0 on a refusal.
    pub charge: u64,
}

impl Reply {
    /// The reply that accepts a sheet: number and place are 0.
    pub const fn accepting(count: u64, charge: u64) -> Reply {
        Reply {
            number: 0,
            place: 0,
            count,
            charge,
        }
    }

    /// The reply that refuses a sheet: count and charge are 0.
    pub const fn refusing(number: u64, place: u64) -> Reply {
        Reply {
            number,
            place,
            count: 0,
            charge: 0,
        }
    }

    /// Count and charge of an accepted sheet.
    ///
    /// # Errors
    ///
    /// The [`Refusal`] where the number is not 0.
    pub const fn outcome(self) -> Result<Weighed, Refusal> {
        match self.number {
            0 => Ok(Weighed {
                count: self.count,
                charge: self.charge,
            }),
            number => Err(Refusal::new(number, self.place)),
        }
    }
}

/// What the library answers to a sheet that it weighed.
#[derive(Debug, Clone, Copy, PartialEq, Eq, Hash)]
#[non_exhaustive]
pub struct Weighed {
    /// The number of tranches: the lines of so many now stand in the results.
    pub count: u64,
    /// The pool charge, in millionths.
    pub charge: u64,
}

/// What the library answers to a sheet and the number of a block of its rows, as its C function gives it.
#[derive(Debug, Clone, Copy, PartialEq, Eq, Hash)]
#[non_exhaustive]
pub struct BlockReply {
    /// The refusal's number; 0 where the sheet has none.
    pub number: u64,
    /// The refusal's place; 0 where the sheet has none.
    pub place: u64,
    /// The words of the sums: the fields of [`BlockSums`], in their order and units; each 0 on a refusal.
    pub sums: [u64; SUM_WORDS],
}

impl BlockReply {
    /// The reply with the sums of a block: number and place are 0.
    pub const fn summing(sums: [u64; SUM_WORDS]) -> BlockReply {
        BlockReply {
            number: 0,
            place: 0,
            sums,
        }
    }

    /// The reply that refuses a sheet: every sum is 0.
    pub const fn refusing(number: u64, place: u64) -> BlockReply {
        BlockReply {
            number,
            place,
            sums: [0; SUM_WORDS],
        }
    }

    /// The sums of the block.
    ///
    /// # Errors
    ///
    /// The [`Refusal`] where the number is not 0.
    pub const fn outcome(self) -> Result<BlockSums, Refusal> {
        match self.number {
            0 => Ok(BlockSums::of(self.sums)),
            number => Err(Refusal::new(number, self.place)),
        }
    }
}

/// What the library answers to a sheet that is to be converted, as its C function gives it.
#[derive(Debug, Clone, Copy, PartialEq, Eq, Hash)]
#[non_exhaustive]
pub struct ConversionReply {
    /// The refusal's number; 0 where the sheet was converted.
    pub number: u64,
    /// The refusal's place in the sheet as given; 0 where the sheet was converted.
    pub place: u64,
    /// The words of the converted sheet, which now stand in the output; 0 on a refusal.
    pub count: u64,
}

impl ConversionReply {
    /// The reply that so many words were written: number and place are 0.
    pub const fn writing(count: u64) -> ConversionReply {
        ConversionReply {
            number: 0,
            place: 0,
            count,
        }
    }

    /// The reply that refuses a sheet: no word was written.
    pub const fn refusing(number: u64, place: u64) -> ConversionReply {
        ConversionReply {
            number,
            place,
            count: 0,
        }
    }

    /// The number of words written.
    ///
    /// # Errors
    ///
    /// The [`Refusal`] where the number is not 0.
    pub const fn outcome(self) -> Result<usize, Refusal> {
        match self.number {
            0 => Ok(self.count as usize),
            number => Err(Refusal::new(number, self.place)),
        }
    }
}

/// What the library answers to a sheet whose pool is to be opened, as its C function gives it.
#[derive(Debug, Clone, Copy, PartialEq, Eq, Hash)]
#[non_exhaustive]
pub struct OpeningReply {
    /// The refusal's number; 0 where the pool is opened.
    pub number: u64,
    /// The refusal's place; 0 where the pool is opened.
    pub place: u64,
}

impl OpeningReply {
    /// The reply that the pool is opened: number and place are 0.
    pub const fn opening() -> OpeningReply {
        OpeningReply { number: 0, place: 0 }
    }

    /// The reply that refuses a sheet.
    pub const fn refusing(number: u64, place: u64) -> OpeningReply {
        OpeningReply { number, place }
    }

    /// Nothing where the pool is opened.
    ///
    /// # Errors
    ///
    /// The [`Refusal`] where the number is not 0.
    pub const fn outcome(self) -> Result<(), Refusal> {
        match self.number {
            0 => Ok(()),
            number => Err(Refusal::new(number, self.place)),
        }
    }
}

/// What the library answers to an amendment, as its C function gives it.
#[derive(Debug, Clone, Copy, PartialEq, Eq, Hash)]
#[non_exhaustive]
pub struct AmendmentReply {
    /// The refusal's number; 0 where the pool is amended.
    pub number: u64,
    /// The refusal's place in the words of the amendment; 0 where the pool is amended.
    pub place: u64,
}

impl AmendmentReply {
    /// The reply that the pool is amended: number and place are 0.
    pub const fn amending() -> AmendmentReply {
        AmendmentReply { number: 0, place: 0 }
    }

    /// The reply that refuses an amendment.
    pub const fn refusing(number: u64, place: u64) -> AmendmentReply {
        AmendmentReply { number, place }
    }

    /// Nothing where the pool is amended.
    ///
    /// # Errors
    ///
    /// The [`AmendmentRefusal`] where the number is not 0.
    pub const fn outcome(self) -> Result<(), AmendmentRefusal> {
        match self.number {
            0 => Ok(()),
            number => Err(AmendmentRefusal::new(number, self.place)),
        }
    }
}
