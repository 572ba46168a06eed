//! The opening of a sheet's pool, what is told of sheets and sums that may be an opened pool, and the comparison of both
//! with the independent answers (S-10).

use crate::answer::{sum_words, SumWord, SUM_WORDS};
use crate::case::Case;
use crate::damage;
use crate::difference::{same, Asked, Difference, Part};
use crate::library::{IsOpened, Library, Open, OpeningReply};
use crate::random::Random;
use crate::sheet::{status, unit, Deal, Layout};
use independent::{OpenedPool, Refusal};

/// What the lent sums hold before the call: no sum is as high.
const UNWRITTEN: [u64; SUM_WORDS] = [u64::MAX; SUM_WORDS];

/// A word of the sums and a word of the sheet that are changed, each alone, so that a pool is mostly not an opened one.
#[derive(Debug, Clone, Copy, Default)]
pub struct Change {
    /// The place of the word of the sums.
    pub sum: usize,
    /// The place of the word of the sheet.
    place: usize,
    /// What is added to the word, past the highest from 0 on.
    by: u64,
}

impl Change {
    /// Draws a change for a sheet that had these places before any damage. One more and one less come often.
    pub fn draw(random: &mut Random, layout: Layout, sheet: &[u64]) -> Change {
        let any = random.word();
        Change {
            sum: random.below(SUM_WORDS as u64) as usize,
            place: damage::place(random, layout, sheet),
            by: random.pick(&[1, 1, u64::MAX, u64::MAX, any]),
        }
    }

    /// The sums with their word changed.
    fn of_sums(&self, mut sums: [u64; SUM_WORDS]) -> [u64; SUM_WORDS] {
        sums[self.sum] = sums[self.sum].wrapping_add(self.by);
        sums
    }

    /// The sheet with its word changed; one that ends before the word gets no other.
    fn of_sheet(&self, sheet: &[u64]) -> Vec<u64> {
        let mut changed = sheet.to_vec();
        if let Some(word) = changed.get_mut(self.place) {
            *word = word.wrapping_add(self.by);
        }
        changed
    }
}

/// The sums of a deal's pool, in the order of their words, before any damage to its sheet.
pub fn sums_of(deal: &Deal) -> [u64; SUM_WORDS] {
    let mut sums = [0; SUM_WORDS];
    let one = unit::hundredths(deal.unit());
    for row in &deal.rows {
        let three = [row.exposure, row.nominal, row.exposure * row.risk_weight * one];
        let known = match row.status {
            status::NOT_KNOWN => [0; 3],
            _ => three,
        };
        let late = match row.status {
            status::DELINQUENT => row.nominal,
            _ => 0,
        };
        let words = three.into_iter().chain(known).chain([late]);
        sums.iter_mut().zip(words).for_each(|(sum, word)| *sum += word);
    }
    sums
}

/// What a sheet with a changed word is, beside the sums that the sheet had before.
#[derive(Debug, Clone, Copy, PartialEq, Eq)]
pub enum Changed {
    /// An opened pool still.
    Opened,
    /// One whose rows have other sums.
    OtherSums,
    /// A sheet that is refused.
    Refused,
}

impl Changed {
    /// What the independent implementation says of such a sheet and these sums.
    fn of(sheet: &[u64], sums: &[u64; SUM_WORDS]) -> Changed {
        match OpenedPool::open(sheet) {
            Ok(pool) if sum_words(&pool.sums()) == *sums => Changed::Opened,
            Ok(_) => Changed::OtherSums,
            Err(_) => Changed::Refused,
        }
    }
}

/// An opening that was compared: the refusal of the sheet, if there is one, and what the changed sheet is.
pub struct Opening {
    /// The refusal of the sheet.
    pub refused: Option<Refusal>,
    /// What the changed sheet is.
    pub changed: Changed,
}

/// Compares the opening of the sheet, and what is told of it with the sums of its rows. A sheet that is refused is told no
/// opened pool with those that it was written with.
pub fn compare(library: &Library, case: &Case) -> Result<Opening, Difference> {
    let opened = OpenedPool::open(&case.sheet);
    let due = opened
        .as_ref()
        .map(|pool| sum_words(&pool.sums()))
        .map_err(|refused| *refused);
    let compared = compare_opening(library.open, &case.sheet, due).and_then(|()| {
        compare_told(
            library.is_opened,
            case,
            &case.sheet,
            due.unwrap_or(case.sums),
            due.is_ok(),
        )
    });
    Ok(Opening {
        refused: due.err(),
        changed: compared.map_err(|difference| difference.of(Asked::Opening))?,
    })
}

/// Number, place and sums are the same; on a refusal no sum was written. Where one side opens and the other refuses, that
/// is the difference.
fn compare_opening(open: Open, sheet: &[u64], due: Result<[u64; SUM_WORDS], Refusal>) -> Result<(), Difference> {
    let mut sums = UNWRITTEN;
    let said = open(sheet, &mut sums);
    let reply = due.map_or_else(
        |refused| OpeningReply::refusing(refused.number, refused.place),
        |_| OpeningReply::opening(),
    );
    if (reply.number == 0) != (said.number == 0) {
        return Err(Difference::new(Part::Outcome, reply, said));
    }
    same(Part::Number, reply.number, said.number)?;
    same(Part::Place, reply.place, said.place)?;
    match due {
        Ok(due) => compare_sums(&due, &sums),
        Err(_) => same(Part::SumsOnRefusal, UNWRITTEN, sums),
    }
}

/// All sums are the same.
pub fn compare_sums(due: &[u64; SUM_WORDS], said: &[u64; SUM_WORDS]) -> Result<(), Difference> {
    let mut words = SumWord::TABLE.iter().zip(due.iter().zip(said));
    words.try_for_each(|((word, _), (due, said))| same(Part::Sum(*word), due, said))
}

/// Whether a sheet and sums are told an opened pool: as they are, with a word of the sums changed, which none is, and with
/// a word of the sheet changed. Gives what the changed sheet is.
pub fn compare_told(
    is_opened: IsOpened,
    case: &Case,
    sheet: &[u64],
    sums: [u64; SUM_WORDS],
    due: bool,
) -> Result<Changed, Difference> {
    same(Part::IsOpened, ("as it is", due), ("as it is", is_opened(sheet, &sums)))?;
    let other_sums = is_opened(sheet, &case.change.of_sums(sums));
    same(Part::IsOpened, ("other sums", false), ("other sums", other_sums))?;
    let changed = case.change.of_sheet(sheet);
    let other = Changed::of(&changed, &sums);
    let said = is_opened(&changed, &sums);
    same(
        Part::IsOpened,
        ("another sheet", other == Changed::Opened),
        ("another sheet", said),
    )?;
    Ok(other)
}

#[cfg(test)]
mod tests {
    use super::*;

    /// The sums that a sound sheet is written with are those of its rows.
    #[test]
    fn sound_sheets_have_their_sums() {
        let cases = (0..2_000).map(|index| Case::new(8, index));
        let sound: Vec<Case> = cases.filter(|case| case.kind.is_sound()).collect();
        assert!(sound.len() > 1_000);
        for case in sound {
            let pool = OpenedPool::open(&case.sheet).expect("a sound sheet");
            assert_eq!(case.sums, sum_words(&pool.sums()));
        }
    }

    /// One word of the sums and one of the sheet are changed, by any number but 0.
    #[test]
    fn one_word_is_changed() {
        let mut random = Random::of_sheet(9, 0);
        for index in 0..500 {
            let case = Case::new(9, index);
            let change = Change::draw(&mut random, Layout::LARGEST, &case.sheet);
            let sums = change.of_sums(case.sums);
            let differ = (0..SUM_WORDS).filter(|&place| sums[place] != case.sums[place]);
            assert_eq!(differ.collect::<Vec<_>>(), [change.sum]);
            let sheet = change.of_sheet(&case.sheet);
            let differ = (0..sheet.len()).filter(|&place| sheet[place] != case.sheet[place]);
            assert!(differ.count() == usize::from(change.place < sheet.len()) && sheet.len() == case.sheet.len());
        }
    }
}
