//! A run over many sheets on some threads.

use crate::case::Case;
use crate::check::check;
use crate::difference::{Difference, Part};
use crate::lent::Lent;
use crate::library::Library;
use crate::tally::Tally;
use std::panic::{catch_unwind, AssertUnwindSafe};
use std::sync::atomic::{AtomicU64, Ordering};
use std::thread;

/// What a run goes over: sheets 0 to `sheets` − 1 of a seed.
#[derive(Debug, Clone, Copy)]
pub struct Run {
    /// The seed.
    pub seed: u64,
    /// How many sheets.
    pub sheets: u64,
    /// On how many threads. The outcome does not depend on it.
    pub threads: u64,
}

/// A difference with the index of its sheet.
#[derive(Debug, Clone, PartialEq, Eq)]
pub struct Found {
    /// The sheet's index.
    pub index: u64,
    /// The difference.
    pub difference: Difference,
}

impl Run {
    /// Compares all sheets. Gives the counts, or the difference with the lowest index.
    pub fn go(&self, library: &Library) -> Result<Tally, Found> {
        let lowest = &AtomicU64::new(u64::MAX);
        let ends = thread::scope(|scope| {
            let start = |thread| scope.spawn(move || self.part(library, thread, lowest));
            let threads: Vec<_> = (0..self.threads).map(start).collect();
            let ends = threads
                .into_iter()
                .map(|thread| thread.join().expect("a thread catches the panics of its sheets"));
            ends.collect::<Vec<_>>()
        });
        let mut tally = Tally::default();
        let mut first: Option<Found> = None;
        for end in ends {
            match end {
                Ok(part) => tally.add(&part),
                Err(found) if first.as_ref().is_none_or(|other| found.index < other.index) => first = Some(found),
                Err(_) => {}
            }
        }
        first.map_or(Ok(tally), Err)
    }

    /// Compares the sheets of one thread: each index that leaves the thread's number when divided by the count of
    /// threads. A thread stops at its first difference, and where another one has found a difference at a lower index.
    fn part(&self, library: &Library, thread: u64, lowest: &AtomicU64) -> Result<Tally, Found> {
        let mut case = Case::blank();
        let mut lent = Lent::default();
        let mut tally = Tally::default();
        for index in (thread..self.sheets).step_by(self.threads as usize) {
            if lowest.load(Ordering::Relaxed) < index {
                break;
            }
            let checked = catch_unwind(AssertUnwindSafe(|| {
                case.make(self.seed, index);
                check(library, &case, &mut lent, &mut tally)
            }));
            let checked = checked.unwrap_or_else(|_| Err(Difference::new(Part::Panic, "an answer", "a panic")));
            if let Err(difference) = checked {
                lowest.fetch_min(index, Ordering::Relaxed);
                return Err(Found { index, difference });
            }
        }
        Ok(tally)
    }
}
