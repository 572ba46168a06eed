//! "A pool that is amended" (S-10): a sheet that is kept with the sums of its pool. An amendment takes the old row out of
//! them and adds the new one, and charge and lines come from the sums, so that the other rows are not read again.

use crate::limits::{ROW_WORDS, SUM_WORDS, TRANCHE_WORDS};
use crate::pool::{Pool, Row};
use crate::sheet::{self, Deal, Facts, Refusal};
use crate::weigh_deal;

/// A sheet that has no bad word, with its facts and the sums of its pool.
#[derive(Clone)]
pub struct OpenedPool {
    words: Vec<u64>,
    facts: Facts,
    pool: Pool,
    /// Place of the first tranche's amount.
    first_tranche: usize,
}

impl OpenedPool {
    /// Opens a sheet, or gives the number and the place of its refusal. Neither a tranche without thickness nor results
    /// are judged here.
    pub fn open(words: Vec<u64>) -> Result<Self, Refusal> {
        let mut pool = Pool::default();
        let Deal {
            facts, first_tranche, ..
        } = sheet::read(&words, &mut pool)?;
        Ok(OpenedPool {
            words,
            facts,
            pool,
            first_tranche,
        })
    }

    /// The words of the sheet as it stands.
    pub fn words(&self) -> &[u64] {
        &self.words
    }

    /// The seven sums of S-7 over all rows, weighted exposure in hundredths of a percent.
    pub fn sums(&self) -> [u64; SUM_WORDS] {
        self.pool.sums()
    }

    /// The pool charge, in millionths, that the sheet is weighed with.
    pub fn charge(&self) -> u64 {
        self.deal().charge() as u64
    }

    /// Weighs the sheet as it stands, as [`weigh`](crate::weigh) does.
    pub fn weigh(&self, results: &mut [u64]) -> Result<(u64, u64), Refusal> {
        weigh_deal(&self.deal(), results)
    }

    /// Replaces a row: five words, the row's number counted from 1 and then the row, in the unit of the sheet. On a refusal
    /// nothing changes.
    pub fn amend(&mut self, amendment: &[u64]) -> Result<(), Refusal> {
        let first_row = self.words[0] as usize + 2;
        let rows = self.words[first_row - 1];
        let (number, new) = sheet::read_amendment(amendment, rows, &self.facts.row_limits())?;
        let (old, _) = self.words[first_row..].as_chunks_mut::<ROW_WORDS>();
        let old = &mut old[number as usize - 1];
        let unit = self.facts.unit();
        self.pool.remove(&Row::from(&*old).in_hundredths(unit));
        old.copy_from_slice(&amendment[1..]);
        self.pool.add(&new.in_hundredths(unit));
        Ok(())
    }

    /// The deal of the sheet as it stands. The section after the tranches, where there is one, ends with its words.
    fn deal(&self) -> Deal<'_> {
        let count = self.words[self.first_tranche - 1] as usize;
        let (tranches, section) = self.words[self.first_tranche..].split_at(TRANCHE_WORDS * count);
        Deal {
            facts: self.facts,
            pool: &self.pool,
            tranches: tranches.as_chunks().0,
            first_tranche: self.first_tranche,
            irb: section.last_chunk(),
        }
    }
}
