//! On whose ratings a line may depend (S-8), and what a run must meet by two sheets that differ in ratings alone.

use crate::sheet::Layout;
use crate::sought::{Infers, Tranches};

/// The tranches of two accepted sheets that differ in rating words alone.
pub struct Rerated {
    /// The tranches of the first sheet.
    tranches: Tranches,
    /// The numbers of those whose ratings differ, from 0.
    changed: Vec<usize>,
    /// Of each line whether it differs.
    moved: Vec<bool>,
}

impl Rerated {
    /// The tranches of two such sheets, of whose lines nothing is known yet.
    pub fn new(first: &[u64], second: &[u64]) -> Rerated {
        let layout = Layout::of_sheet(first);
        let changes = |&number: &usize| layout.tranche_words(first, number) != layout.tranche_words(second, number);
        Rerated {
            tranches: Tranches::of(first),
            changed: (0..layout.tranches).filter(changes).collect(),
            moved: Vec::new(),
        }
    }

    /// Notes whether the next line differs.
    pub fn note(&mut self, moved: bool) {
        self.moved.push(moved);
    }

    /// How many lines were noted.
    pub fn lines(&self) -> usize {
        self.moved.len()
    }

    /// The class of a tranche.
    fn class(&self, number: usize) -> u64 {
        self.tranches.sought(number).own().class
    }

    /// Whether all tranches with other ratings are of a class that stands so to the class of a tranche, its own ratings
    /// being the same.
    fn all_changed(&self, number: usize, stands: fn(u64, u64) -> bool) -> bool {
        let class = self.class(number);
        let mut classes = self.changed.iter().map(|&changed| self.class(changed));
        !self.changed.contains(&number) && classes.all(|changed| stands(changed, class))
    }

    /// Whether all tranches with other ratings are of a class senior to that of a tranche.
    fn only_seniors(&self, number: usize) -> bool {
        self.all_changed(number, |changed, class| changed < class)
    }

    /// Whether the line of a tranche must be the same: its own ratings are, and those that differ are of senior classes,
    /// or it is rated, or no rating is inferred in the deal.
    pub fn keeps(&self, number: usize) -> bool {
        let sought = self.tranches.sought(number);
        let own_alone = sought.is_rated() || self.tranches.infers != Infers::Yes;
        let own_kept = !self.changed.contains(&number);
        own_kept && (own_alone || self.only_seniors(number))
    }
}

/// What must be met on some line of two sheets that differ in ratings, though not in those of the line's own tranche.
#[derive(Debug, Clone, Copy, PartialEq, Eq)]
pub enum LawFeature {
    /// Senior classes have other ratings, and the tranche takes those of another one.
    InferredBySeniors,
    /// Senior classes have other ratings, and the tranche has none and takes none.
    UnratedBySeniors,
    /// Its own or a junior class has other ratings, and the tranche is rated.
    Rated,
    /// The same of an unrated tranche in a re-securitisation.
    Resecuritisation,
    /// The same of an unrated tranche under SEC-IRBA.
    SecIrba,
    /// The same of an unrated tranche without due diligence.
    WithoutDiligence,
    /// Its own class has other ratings and no junior one, and the line differs.
    MovedByOwnClass,
    /// Junior classes have other ratings and its own class has not, and the line differs.
    MovedByJuniors,
}

impl LawFeature {
    /// All features with their names, in the order of the enum.
    pub(crate) const TABLE: [(LawFeature, &'static str); 8] = [
        (LawFeature::InferredBySeniors, "kept with senior ratings: inferred"),
        (LawFeature::UnratedBySeniors, "kept with senior ratings: unrated"),
        (LawFeature::Rated, "kept with other ratings: rated"),
        (
            LawFeature::Resecuritisation,
            "kept with other ratings: re-securitisation",
        ),
        (LawFeature::SecIrba, "kept with other ratings: SEC-IRBA"),
        (
            LawFeature::WithoutDiligence,
            "kept with other ratings: no due diligence",
        ),
        (LawFeature::MovedByOwnClass, "moved by ratings: own class"),
        (LawFeature::MovedByJuniors, "moved by ratings: junior class"),
    ];

    /// Whether the line of a tranche shows the feature.
    pub(crate) fn shown(self, rerated: &Rerated, number: usize) -> bool {
        let Rerated {
            tranches,
            changed,
            moved,
        } = rerated;
        if changed.is_empty() || changed.contains(&number) {
            return false;
        }
        let sought = tranches.sought(number);
        let seniors = rerated.only_seniors(number);
        let by_others = |infers| tranches.infers == infers && !seniors;
        match (self, sought.is_rated()) {
            (LawFeature::Rated, true) => by_others(Infers::Yes),
            (_, true) => false,
            (LawFeature::Rated, false) => false,
            (LawFeature::Resecuritisation, false) => by_others(Infers::Resecuritisation),
            (LawFeature::SecIrba, false) => by_others(Infers::SecIrba),
            (LawFeature::WithoutDiligence, false) => by_others(Infers::WithoutDiligence),
            (LawFeature::InferredBySeniors, false) => {
                tranches.infers == Infers::Yes && seniors && sought.found().is_some()
            }
            (LawFeature::UnratedBySeniors, false) => {
                tranches.infers == Infers::Yes && seniors && sought.found().is_none()
            }
            (LawFeature::MovedByOwnClass, false) => {
                moved[number] && rerated.all_changed(number, |changed, class| changed <= class)
            }
            (LawFeature::MovedByJuniors, false) => {
                moved[number] && rerated.all_changed(number, |changed, class| changed != class)
            }
        }
    }
}

#[cfg(test)]
mod tests {
    use super::*;

    /// A sheet of 36 months with these facts, classes and first ratings, over loans of 100%; of an IRB pool with its
    /// section.
    fn sheet(facts: &[u64], classes: &[u64], ratings: &[u64]) -> Vec<u64> {
        let pool = [1, 1_000, 1_000, 100, 3 * facts[1], classes.len() as u64];
        let mut words = [&[facts.len() as u64], facts, &pool].concat();
        for (&class, &rating) in classes.iter().zip(ratings) {
            words.extend([200, class, 36, 0, rating, 0, 0]);
        }
        if facts[0] != 0 {
            words.extend([1, 80_000, 0, 25, 0, 1_000_000, 0]);
        }
        words
    }

    /// The classes of the deals here.
    const CLASSES: &[u64] = &[1, 2, 2, 3];

    /// Two sheets of a deal with these facts that differ in ratings, with all lines noted as the independent answers have
    /// them.
    fn rerated(facts: &[u64], ratings: [[u64; 4]; 2]) -> Rerated {
        let [first, second] = ratings.map(|ratings| sheet(facts, CLASSES, &ratings));
        let [lines, others] =
            [&first, &second].map(|sheet| independent::weigh(sheet, u64::MAX).expect("an accepted sheet").lines);
        let mut rerated = Rerated::new(&first, &second);
        let moved = lines.iter().zip(&others).map(|(line, other)| line != other);
        moved.for_each(|moved| rerated.note(moved));
        assert_eq!(rerated.lines(), 4);
        assert!((0..4).all(|number| !(rerated.keeps(number) && rerated.moved[number])));
        rerated
    }

    /// The facts of a deal in which ratings are inferred.
    const FACTS: &[u64] = &[0, 0, 1, 0];

    /// Which lines are kept by the law.
    fn kept(facts: &[u64], ratings: [[u64; 4]; 2]) -> [bool; 4] {
        let rerated = rerated(facts, ratings);
        [0, 1, 2, 3].map(|number| rerated.keeps(number))
    }

    /// A line is kept by other ratings of senior classes, and by any others where its tranche is rated, but never by its
    /// own.
    #[test]
    fn kept_lines() {
        assert_eq!(kept(FACTS, [[0, 0, 0, 5], [9, 0, 0, 5]]), [false, true, true, true]);
        assert_eq!(kept(FACTS, [[0, 0, 0, 0], [0, 9, 0, 0]]), [false, false, false, true]);
        assert_eq!(kept(FACTS, [[7, 0, 7, 0], [7, 9, 7, 0]]), [true, false, true, true]);
        assert_eq!(kept(FACTS, [[0, 0, 7, 5], [0, 0, 7, 9]]), [false, false, true, false]);
        assert_eq!(kept(FACTS, [[0, 0, 0, 5], [9, 8, 0, 5]]), [false, false, false, true]);
    }

    /// In a re-securitisation, under SEC-IRBA and without due diligence all lines are kept but those with other ratings
    /// of their own.
    #[test]
    fn kept_lines_of_other_deals() {
        for facts in [&[0, 1, 1, 0][..], &[1, 0, 1, 0], &[0, 0, 0, 0]] {
            assert_eq!(kept(facts, [[0, 0, 0, 0], [0, 0, 9, 9]]), [true, true, false, false]);
        }
    }

    /// What each line shows.
    fn shown(facts: &[u64], ratings: [[u64; 4]; 2]) -> [Vec<LawFeature>; 4] {
        let rerated = rerated(facts, ratings);
        [0, 1, 2, 3].map(|number| {
            let features = LawFeature::TABLE.map(|(feature, _)| feature).into_iter();
            features.filter(|feature| feature.shown(&rerated, number)).collect()
        })
    }

    /// Features are counted by the enum's order, so the table must follow it.
    #[test]
    fn table_follows_the_enum() {
        assert!((0..)
            .zip(LawFeature::TABLE)
            .all(|(place, entry)| entry.0 as usize == place));
    }

    /// Lines count by what is changed and by what their tranche has; a line whose own ratings are changed does not.
    #[test]
    fn lines_are_counted() {
        let none = Vec::new;
        let seniors = shown(FACTS, [[9, 0, 0, 5], [0, 0, 0, 5]]);
        let inferred = || vec![LawFeature::InferredBySeniors];
        assert_eq!(seniors, [none(), inferred(), inferred(), none()]);
        let seniors = shown(FACTS, [[9, 0, 0, 0], [8, 0, 0, 0]]);
        let unrated = || vec![LawFeature::UnratedBySeniors];
        assert_eq!(seniors, [none(), unrated(), unrated(), unrated()]);
        let own = shown(FACTS, [[0, 0, 9, 0], [0, 0, 0, 0]]);
        let [juniors, own_class] =
            [LawFeature::MovedByJuniors, LawFeature::MovedByOwnClass].map(|feature| vec![feature]);
        assert_eq!(own, [juniors.clone(), own_class, none(), unrated()]);
        let rated = shown(FACTS, [[9, 0, 0, 5], [9, 0, 0, 6]]);
        assert_eq!(rated, [vec![LawFeature::Rated], juniors.clone(), juniors, none()]);
    }

    /// A line that is not moved by ratings of its own or a junior class shows nothing, and neither does one that could be
    /// moved by both.
    #[test]
    fn lines_that_are_not_counted() {
        assert_eq!(shown(FACTS, [[0, 5, 0, 5], [0, 5, 0, 6]])[0], []);
        let both = shown(FACTS, [[0, 9, 0, 5], [0, 8, 0, 6]]);
        assert_eq!(both[2], []);
        assert_eq!(shown(FACTS, [[0; 4]; 2]), [const { Vec::new() }; 4]);
    }

    /// Unrated tranches of the deals in which nothing is inferred count by the deal, with changes of their own or a junior
    /// class.
    #[test]
    fn lines_of_other_deals_are_counted() {
        for (facts, feature) in [
            (&[0, 1, 1, 0][..], LawFeature::Resecuritisation),
            (&[1, 0, 1, 0], LawFeature::SecIrba),
            (&[1, 0, 0, 0], LawFeature::WithoutDiligence),
        ] {
            let lines = shown(facts, [[0, 0, 9, 0], [0, 0, 0, 0]]);
            assert_eq!(lines, [vec![feature], vec![feature], vec![], vec![]]);
            assert_eq!(shown(facts, [[7, 0, 9, 0], [7, 0, 0, 0]])[0], []);
        }
    }
}
