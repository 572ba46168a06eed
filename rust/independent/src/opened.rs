//! The opened pool of S-10: a whole sheet that is amended row by row.
//!
//! Nothing is corrected here. After each amendment the changed sheet is read as a fresh one, and sums, charge and lines
//! are worked out from its rows: "After any run of amendments each sum equals that of the rows worked out afresh, and so
//! does the charge".

use crate::answer::{BlockSums, Refusal};
use crate::approach::Figures;
use crate::block;
use crate::sheet::{self, Sheet, ROW_WORDS};

/// An opened pool: the words of a sheet that gets no refusal before 14, and what they are read as.
#[derive(Debug, Clone)]
pub struct OpenedPool {
    words: Vec<u64>,
    sheet: Sheet,
}

impl OpenedPool {
    /// Opens a sheet. One "that gets a refusal before 14 returns it and is not opened": that of its words from place 0
    /// upward, then 3. 13 and 14 are not judged.
    pub fn open(words: &[u64]) -> Result<OpenedPool, Refusal> {
        Ok(OpenedPool {
            sheet: sheet::read(words)?,
            words: words.to_vec(),
        })
    }

    /// The words of the sheet as it stands.
    pub fn words(&self) -> &[u64] {
        &self.words
    }

    /// What they are read as.
    pub fn sheet(&self) -> &Sheet {
        &self.sheet
    }

    /// The seven sums of S-7 over all rows.
    pub fn sums(&self) -> BlockSums {
        block::sums_over(&self.sheet.pool)
    }

    /// The charge that an answer to the sheet reports: S-5's under SEC-IRBA, else document 01's. It is there also where a
    /// tranche meets 13.
    pub fn charge(&self) -> u64 {
        Figures::of(&self.sheet).charge
    }

    /// Replaces a row: five words, the row's number counted from 1 and then the row, in the unit of the sheet. On a refusal
    /// nothing changes; its place is counted in the amendment.
    pub fn amend(&mut self, amendment: &[u64]) -> Result<(), Refusal> {
        let row = sheet::read_amendment(amendment, &self.sheet)?;
        let place = sheet::row_place(&self.words, row);
        self.words[place..place + ROW_WORDS].copy_from_slice(&amendment[1..]);
        self.sheet = sheet::read(&self.words).expect("a good row in place of a good row");
        Ok(())
    }
}

/// Whether a sheet and seven sums are an opened pool: the "sheet would open" and its "sums are those of its rows".
pub fn is_opened(words: &[u64], sums: &BlockSums) -> bool {
    OpenedPool::open(words).is_ok_and(|pool| pool.sums() == *sums)
}
