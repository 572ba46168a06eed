//! An opened pool after each of its amendments by the independent implementation, which loads the changed sheet afresh,
//! and the comparison of what is seen of the library's pool with it (S-10).

use crate::answer::sum_words;
use crate::case::Case;
use crate::difference::{same, Asked, Difference, Part};
use crate::library::{AmendmentReply, IsOpened, Library};
use crate::observed::{Observed, ROOMS};
use crate::opening::{compare_sums, compare_told};
use crate::words;
use independent::{BlockSums, Deal, OpenedPool, Refusal};

/// An opened pool after its opening or after an amendment.
#[derive(Debug, Clone)]
pub struct Stage {
    /// The refusal of the amendment, if there is one; none after the opening.
    pub refused: Option<Refusal>,
    /// The pool.
    pub pool: OpenedPool,
    /// Its sums.
    pub sums: BlockSums,
    /// Its charge.
    pub charge: u64,
    /// The answer to its sheet with each room.
    pub answers: [Result<Deal, Refusal>; ROOMS],
}

impl Stage {
    /// A pool that was opened or amended, with so much room for results.
    fn new(pool: OpenedPool, rooms: [usize; ROOMS]) -> Stage {
        Stage {
            refused: None,
            sums: pool.sums(),
            charge: pool.charge(),
            answers: rooms.map(|room| independent::weigh_opened(&pool, room as u64)),
            pool,
        }
    }

    /// The pool after one more amendment; on a refusal it is as it was.
    fn amended(&self, amendment: &[u64], rooms: [usize; ROOMS]) -> Stage {
        let mut pool = self.pool.clone();
        match pool.amend(amendment) {
            Ok(()) => Stage::new(pool, rooms),
            Err(refused) => Stage {
                refused: Some(refused),
                ..self.clone()
            },
        }
    }

    /// The answer to its sheet with room enough.
    pub fn answer(&self) -> &Result<Deal, Refusal> {
        &self.answers[0]
    }

    /// The reply that is due to the amendment.
    fn reply(&self) -> AmendmentReply {
        self.refused.map_or(AmendmentReply::amending(), |refused| {
            AmendmentReply::refusing(refused.number, refused.place)
        })
    }
}

/// The stages of a sheet's pool: after its opening and after each of its amendments; none where it is not opened.
pub fn stages(case: &Case) -> Vec<Stage> {
    let Ok(pool) = OpenedPool::open(&case.sheet) else {
        return Vec::new();
    };
    let mut stages = vec![Stage::new(pool, case.amended_rooms)];
    for amendment in &case.amendments {
        let next = stages[stages.len() - 1].amended(amendment, case.amended_rooms);
        stages.push(next);
    }
    stages
}

/// Compares the library's pool with the independent one after the opening and after each amendment. Gives the stages.
pub fn compare(library: &Library, case: &Case) -> Result<Vec<Stage>, Difference> {
    let stages = stages(case);
    let observed = (library.amend)(&case.sheet, &case.amendments, case.amended_rooms);
    let last = |difference: Difference| difference.of(Asked::Amendment(case.amendments.len()));
    same(Part::Steps, stages.len(), observed.len()).map_err(last)?;
    for (number, (stage, seen)) in stages.iter().zip(&observed).enumerate() {
        let before = &stages[number.saturating_sub(1)];
        compare_stage(library, case, stage, seen)
            .and_then(|()| compare_with_before(library.is_opened, before, stage))
            .map_err(|difference| difference.of(Asked::Amendment(number)))?;
    }
    compare_swapped(library, case, &stages, &observed).map_err(|difference| difference.of(Asked::Amendment(2)))?;
    Ok(stages)
}

/// Reply, sheet, sums, charge, the answers with each room and what is told of the pool are the same. Where one side amends
/// and the other refuses, that is the difference.
fn compare_stage(library: &Library, case: &Case, stage: &Stage, seen: &Observed) -> Result<(), Difference> {
    let (due, said) = (stage.reply(), seen.reply);
    if (due.number == 0) != (said.number == 0) {
        return Err(Difference::new(Part::Outcome, due, said));
    }
    same(Part::Number, due.number, said.number)?;
    same(Part::Place, due.place, said.place)?;
    compare_sheet(stage.pool.words(), &seen.words)?;
    let sums = sum_words(&stage.sums);
    compare_sums(&sums, &seen.sums)?;
    same(Part::Charge, stage.charge, seen.charge)?;
    for (answer, (reply, lent)) in stage.answers.iter().zip(&seen.weighed) {
        words::compare(answer, reply, lent)?;
    }
    compare_told(library.is_opened, case, &seen.words, seen.sums, true).map(|_| ())
}

/// A sheet and the sums that it had before an amendment are told an opened pool just where the amendment left them.
fn compare_with_before(is_opened: IsOpened, before: &Stage, stage: &Stage) -> Result<(), Difference> {
    let said = is_opened(stage.pool.words(), &sum_words(&before.sums));
    let due = before.sums == stage.sums;
    same(Part::IsOpened, ("sums of before", due), ("sums of before", said))
}

/// The words of the sheet are the same, each at its place, and as many.
fn compare_sheet(due: &[u64], said: &[u64]) -> Result<(), Difference> {
    let mut places = (0..).zip(due.iter().zip(said));
    places.try_for_each(|(place, (due, said))| same(Part::Sheet, (place, due), (place, said)))?;
    same(Part::Sheet, due.len(), said.len())
}

/// Whether the first two amendments are accepted and are of different rows.
pub fn commute(case: &Case, stages: &[Stage]) -> bool {
    match (stages, &case.amendments[..]) {
        ([_, first, second, ..], [one, other, ..]) => {
            first.refused.is_none() && second.refused.is_none() && one[0] != other[0]
        }
        _ => false,
    }
}

/// Two accepted amendments of different rows give the same pool in the other order, by the library's own word.
fn compare_swapped(library: &Library, case: &Case, stages: &[Stage], observed: &[Observed]) -> Result<(), Difference> {
    if !commute(case, stages) {
        return Ok(());
    }
    let swapped = [&case.amendments[1], &case.amendments[0]].map(Vec::clone);
    let other = (library.amend)(&case.sheet, &swapped, case.amended_rooms);
    same(Part::AmendmentOrder, observed.get(2), other.get(2))
}

#[cfg(test)]
mod tests {
    use super::*;
    use crate::library::Amend;

    /// The sheets of a run with a list of amendments.
    fn cases() -> impl Iterator<Item = Case> {
        let cases = (0..2_000).map(|index| Case::new(11, index));
        cases.filter(|case| !case.amendments.is_empty())
    }

    /// A pool is opened where its sheet gets no refusal before 14, and there is a stage more than amendments. An accepted
    /// amendment puts its row in the sheet, and a refused one leaves all as it was.
    #[test]
    fn stages_follow_the_amendments() {
        let [mut opened, mut amended, mut refused] = [0; 3];
        for case in cases() {
            let stages = stages(&case);
            let opens = independent::block_sums(&case.sheet, 0).is_ok();
            assert_eq!(stages.len(), if opens { 1 + case.amendments.len() } else { 0 });
            opened += u64::from(opens);
            for (pair, amendment) in stages.windows(2).zip(&case.amendments) {
                let [before, after] = [&pair[0], &pair[1]].map(|stage| stage.pool.words());
                match pair[1].refused {
                    None => {
                        amended += 1;
                        let place = independent::sheet::row_place(after, amendment[0] as usize - 1);
                        let mut changed = before.to_vec();
                        changed[place..place + 4].copy_from_slice(&amendment[1..]);
                        assert_eq!(after, changed);
                    }
                    Some(_) => {
                        refused += 1;
                        assert_eq!((after, pair[1].sums), (before, pair[0].sums));
                    }
                }
            }
        }
        assert!(opened > 100 && amended > 100 && refused > 100);
    }

    /// The first pairs that commute, of which the first changes the sheet, with the stages of their pools.
    fn pairs() -> Vec<(Case, Vec<Stage>)> {
        let with_stages = cases().map(|case| {
            let stages = stages(&case);
            (case, stages)
        });
        let pairs = with_stages
            .filter(|(case, stages)| commute(case, stages) && stages[0].pool.words() != stages[1].pool.words());
        pairs.take(20).collect()
    }

    /// The parts in which the pairs differ in the other order, for this library.
    fn parts(amend: Amend) -> Vec<Part> {
        let library = Library {
            amend,
            ..Library::PROVED
        };
        let differences = pairs().into_iter().filter_map(|(case, stages)| {
            let observed = (Library::PROVED.amend)(&case.sheet, &case.amendments, case.amended_rooms);
            compare_swapped(&library, &case, &stages, &observed).err()
        });
        differences.map(|difference| difference.part).collect()
    }

    /// Two amendments of different rows that are both accepted are made in the other order too. A library that gives
    /// another pool then, or none, is found out each time.
    #[test]
    fn order_of_amendments_is_compared() {
        assert_eq!(parts(Library::PROVED.amend), []);
        let other_sums: Amend = |sheet, amendments, rooms| {
            let mut observed = (Library::PROVED.amend)(sheet, amendments, rooms);
            observed.iter_mut().for_each(|seen| seen.sums[0] += 1);
            observed
        };
        let second_left_out: Amend = |sheet, amendments, rooms| {
            let mut observed = (Library::PROVED.amend)(sheet, amendments, rooms);
            observed[2] = observed[1].clone();
            observed
        };
        let none: Amend = |_, _, _| Vec::new();
        for amend in [other_sums, second_left_out, none] {
            assert_eq!(parts(amend), [Part::AmendmentOrder; 20]);
        }
    }
}
