//! What a run must meet on some sheet by its count of facts, its fifth fact (S-1), its sixth (S-3) and its seventh (S-9),
//! on some sheet by the room for its results, and on some file.

use crate::answer::{refusal, LINE_WORDS};
use crate::seen::DealKind;
use crate::sheet::{Fact, Layout, FACTS, FEWEST_FACTS, FILE_BYTES, WORD_BYTES};
use independent::approach::irb_of;
use independent::{Deal, Refusal};

/// What must be met on some sheet.
#[derive(Debug, Clone, Copy, PartialEq, Eq)]
pub enum SheetFeature {
    /// Accepted with four facts.
    FourFacts,
    /// An ordinary securitisation accepted with a fifth fact of 0.
    FiveFacts,
    /// A re-securitisation accepted with a fifth fact of 0.
    ResecuritisationFiveFacts,
    /// An STC deal accepted.
    Stc,
    /// Accepted with a sixth fact of 0, the last.
    SixFacts,
    /// Accepted with a seventh fact of 0.
    SevenFacts,
    /// An ordinary securitisation accepted with a reporting date.
    Dated,
    /// An STC deal accepted with a reporting date.
    StcDated,
    /// A re-securitisation accepted with a reporting date.
    ResecuritisationDated,
    /// A count of 3 facts refused.
    ThreeFacts,
    /// A count of 8 facts refused.
    EightFacts,
    /// Five facts or more counted, and the fifth missing.
    FifthMissing,
    /// Six facts or more counted, and the sixth missing.
    SixthMissing,
    /// Seven facts counted, and the seventh missing.
    SeventhMissing,
    /// A fifth fact above 1 in an ordinary securitisation.
    FifthAboveOne,
    /// A fifth fact above 1 in a re-securitisation.
    ResecuritisationFifthAboveOne,
    /// An STC deal refused for a tranche without thickness under SEC-SA.
    StcThin,
}

impl SheetFeature {
    /// All features with their names, in the order of the enum.
    pub(crate) const TABLE: [(SheetFeature, &'static str); 17] = [
        (SheetFeature::FourFacts, "accepted with four facts"),
        (SheetFeature::FiveFacts, "accepted with a fifth fact of 0"),
        (
            SheetFeature::ResecuritisationFiveFacts,
            "accepted with that fact, re-securitisation",
        ),
        (SheetFeature::Stc, "accepted as an STC deal"),
        (SheetFeature::SixFacts, "accepted with a sixth fact of 0"),
        (SheetFeature::SevenFacts, "accepted with a seventh fact of 0"),
        (SheetFeature::Dated, "accepted with a reporting date"),
        (SheetFeature::StcDated, "accepted with a date, STC deal"),
        (
            SheetFeature::ResecuritisationDated,
            "accepted with a date, re-securitisation",
        ),
        (SheetFeature::ThreeFacts, "refusal 2 for 3 facts"),
        (SheetFeature::EightFacts, "refusal 2 for 8 facts"),
        (SheetFeature::FifthMissing, "refusal 1 for the fifth fact"),
        (SheetFeature::SixthMissing, "refusal 1 for the sixth fact"),
        (SheetFeature::SeventhMissing, "refusal 1 for the seventh fact"),
        (SheetFeature::FifthAboveOne, "refusal 4 for the fifth fact"),
        (
            SheetFeature::ResecuritisationFifthAboveOne,
            "refusal 4 for it, re-securitisation",
        ),
        (SheetFeature::StcThin, "refusal 13 in an STC deal, SEC-SA"),
    ];

    /// Whether a sheet with this answer shows the feature.
    pub(crate) fn shown(self, sheet: &[u64], answer: &Result<Deal, Refusal>) -> bool {
        match answer {
            Ok(_) => self.shown_by_accepted(sheet),
            Err(refused) => self.shown_by_refused(sheet, refused),
        }
    }

    /// Whether an accepted sheet shows the feature.
    fn shown_by_accepted(self, sheet: &[u64]) -> bool {
        let kind = DealKind::of_sheet(sheet);
        let stated = sheet[Layout::FACTS_COUNT];
        let five = stated == Fact::Stc.number();
        let fact_word = |fact| Layout::of_sheet(sheet).fact_word(sheet, fact);
        let dated = fact_word(Fact::ReportingDate) != 0;
        match self {
            SheetFeature::FourFacts => stated == FEWEST_FACTS,
            SheetFeature::FiveFacts => five && kind == DealKind::Ordinary,
            SheetFeature::ResecuritisationFiveFacts => five && kind == DealKind::Resecuritisation,
            SheetFeature::Stc => kind == DealKind::Stc,
            SheetFeature::SixFacts => stated == Fact::ReportingDate.number() && !dated,
            SheetFeature::SevenFacts => stated == FACTS && fact_word(Fact::Unit) == 0,
            SheetFeature::Dated => dated && kind == DealKind::Ordinary,
            SheetFeature::StcDated => dated && kind == DealKind::Stc,
            SheetFeature::ResecuritisationDated => dated && kind == DealKind::Resecuritisation,
            _ => false,
        }
    }

    /// Whether a refused sheet shows the feature. Words before the place of a refusal are good, so they can be read.
    fn shown_by_refused(self, sheet: &[u64], refused: &Refusal) -> bool {
        let fifth = Layout::fact(Fact::Stc);
        let refused_at = |number, place| (refused.number, refused.place) == (number, place as u64);
        let counts = |facts| sheet.first() == Some(&facts);
        let is_missing = |fact: Fact| {
            let counted = sheet.first().is_some_and(|&counted| counted >= fact.number());
            counted && refused_at(refusal::MISSING, Layout::fact(fact))
        };
        let resecuritisation = || sheet[Layout::fact(Fact::Resecuritisation)] == 1;
        match self {
            SheetFeature::ThreeFacts => refused_at(refusal::COUNT, Layout::FACTS_COUNT) && counts(FEWEST_FACTS - 1),
            SheetFeature::EightFacts => refused_at(refusal::COUNT, Layout::FACTS_COUNT) && counts(FACTS + 1),
            SheetFeature::FifthMissing => is_missing(Fact::Stc),
            SheetFeature::SixthMissing => is_missing(Fact::ReportingDate),
            SheetFeature::SeventhMissing => is_missing(Fact::Unit),
            SheetFeature::FifthAboveOne => refused_at(refusal::FACT, fifth) && !resecuritisation(),
            SheetFeature::ResecuritisationFifthAboveOne => refused_at(refusal::FACT, fifth) && resecuritisation(),
            SheetFeature::StcThin => refused.number == refusal::THIN && is_stc_under_sa(sheet),
            _ => false,
        }
    }
}

/// Whether a sheet that is refused for a tranche without thickness, so that all its words are good, is of an STC deal
/// under SEC-SA: SEC-IRBA alone is the other approach with that refusal.
fn is_stc_under_sa(sheet: &[u64]) -> bool {
    let read = independent::sheet::read(sheet).expect("a sheet of good words");
    read.facts.stc && irb_of(&read).is_none()
}

/// What must be met by the room for the results of some sheet. Of one tranche, one word less is one less for each.
#[derive(Debug, Clone, Copy, PartialEq, Eq)]
pub enum RoomFeature {
    /// Accepted with just the words of its lines.
    Exact,
    /// Refused with one word less, where there are several tranches.
    OneLess,
    /// Refused with one word less for each of several tranches.
    OneLessEach,
}

impl RoomFeature {
    /// All features with their names, in the order of the enum.
    pub(crate) const TABLE: [(RoomFeature, &'static str); 3] = [
        (RoomFeature::Exact, "accepted with just the words of its lines"),
        (RoomFeature::OneLess, "refusal 14 with one word less"),
        (RoomFeature::OneLessEach, "refusal 14 with one less for each tranche"),
    ];

    /// Whether a sheet with so much room and this answer shows the feature. A sheet that is refused for its room has
    /// its counts right.
    pub(crate) fn shown(self, sheet: &[u64], room: usize, answer: &Result<Deal, Refusal>) -> bool {
        let number = answer.as_ref().map_or_else(|refused| refused.number, |_| 0);
        let less_by = |words: fn(usize) -> usize| {
            let tranches = Layout::of_sheet(sheet).tranches;
            room + words(tranches) == LINE_WORDS * tranches && (number == 0 || tranches > 1)
        };
        match self {
            RoomFeature::Exact => number == 0 && less_by(|_| 0),
            RoomFeature::OneLess => number == refusal::ROOM && less_by(|_| 1),
            RoomFeature::OneLessEach => number == refusal::ROOM && less_by(|tranches| tranches),
        }
    }
}

/// What must be met on some file.
#[derive(Debug, Clone, Copy, PartialEq, Eq)]
pub enum FileFeature {
    /// Accepted.
    Accepted,
    /// Refused by its words.
    WordsRefused,
    /// Refused for too little room.
    RoomRefused,
    /// A length that is no multiple of a word's bytes.
    PartOfWord,
    /// The longest length that is read.
    Longest,
    /// Accepted at the longest length that is read: the largest sheet.
    LongestAccepted,
    /// One word longer than that.
    OneWordLonger,
}

impl FileFeature {
    /// All features with their names, in the order of the enum.
    pub(crate) const TABLE: [(FileFeature, &'static str); 7] = [
        (FileFeature::Accepted, "files: accepted"),
        (FileFeature::WordsRefused, "files: refused by their words"),
        (FileFeature::RoomRefused, "files: refused for too little room"),
        (FileFeature::PartOfWord, "files: length no multiple of 8"),
        (FileFeature::Longest, "files: of the longest length"),
        (FileFeature::LongestAccepted, "files: of the longest length, accepted"),
        (FileFeature::OneWordLonger, "files: one word longer"),
    ];

    /// Whether a file with this answer shows the feature.
    pub(crate) fn shown(self, file: &[u8], answer: &Result<Deal, Refusal>) -> bool {
        let number = answer.as_ref().map_or_else(|refusal| refusal.number, |_| 0);
        match self {
            FileFeature::Accepted => number == 0,
            FileFeature::WordsRefused => refusal::is_of_words(number),
            FileFeature::RoomRefused => number == refusal::ROOM,
            FileFeature::PartOfWord => !file.len().is_multiple_of(WORD_BYTES),
            FileFeature::Longest => file.len() == FILE_BYTES,
            FileFeature::LongestAccepted => file.len() == FILE_BYTES && number == 0,
            FileFeature::OneWordLonger => file.len() == FILE_BYTES + WORD_BYTES,
        }
    }
}

#[cfg(test)]
mod tests {
    use super::*;
    use crate::sheet::DAYS;

    /// Features are counted by the enums' order, so the tables must follow it.
    #[test]
    fn tables_follow_the_enums() {
        assert!((0..)
            .zip(SheetFeature::TABLE)
            .all(|(place, entry)| entry.0 as usize == place));
        assert!((0..)
            .zip(RoomFeature::TABLE)
            .all(|(place, entry)| entry.0 as usize == place));
        assert!((0..)
            .zip(FileFeature::TABLE)
            .all(|(place, entry)| entry.0 as usize == place));
    }

    /// The features that a sheet shows with its independent answer and room enough.
    fn shown(sheet: &[u64]) -> Vec<SheetFeature> {
        let answer = independent::weigh(sheet, u64::MAX);
        let features = SheetFeature::TABLE.map(|(feature, _)| feature);
        features
            .into_iter()
            .filter(|feature| feature.shown(sheet, &answer))
            .collect()
    }

    /// A sheet with these facts, one row of this status and two tranches, the second too thin for SEC-SA.
    fn sheet(facts: &[u64], status: u64) -> Vec<u64> {
        let pool = [1, 10_000_000_000, 10_000_000_000, 10, status];
        let dated = facts.get(Fact::ReportingDate as usize).is_some_and(|&date| date != 0);
        let maturity = if dated { DAYS.1 } else { 72 };
        let tranches = [[1_000_001, 1, maturity, 0, 0, 0, 0], [1, 2, maturity, 0, 0, 0, 0]];
        [&[facts.len() as u64], facts, &pool, &[2], tranches.as_flattened()].concat()
    }

    /// Accepted sheets count by their facts, without due diligence so that none is refused by 13.
    #[test]
    fn accepted_sheets_are_counted() {
        assert_eq!(shown(&sheet(&[0, 0, 0, 0], 0)), [SheetFeature::FourFacts]);
        assert_eq!(shown(&sheet(&[0, 1, 0, 0], 3)), [SheetFeature::FourFacts]);
        assert_eq!(shown(&sheet(&[0, 0, 0, 0, 0], 0)), [SheetFeature::FiveFacts]);
        assert_eq!(
            shown(&sheet(&[0, 1, 0, 0, 0], 3)),
            [SheetFeature::ResecuritisationFiveFacts]
        );
        assert_eq!(shown(&sheet(&[0, 0, 0, 0, 1], 0)), [SheetFeature::Stc]);
        assert_eq!(shown(&sheet(&[0, 0, 0, 0, 0, 0], 0)), [SheetFeature::SixFacts]);
        assert_eq!(shown(&sheet(&[0, 1, 0, 0, 0, 0], 3)), [SheetFeature::SixFacts]);
        assert_eq!(shown(&sheet(&[0, 0, 0, 0, 0, 0, 0], 0)), [SheetFeature::SevenFacts]);
        assert_eq!(shown(&sheet(&[0, 0, 0, 0, 0, 0, 1], 0)), []);
        let date = 21_500_101;
        assert_eq!(shown(&sheet(&[0, 0, 0, 0, 0, date], 0)), [SheetFeature::Dated]);
        assert_eq!(shown(&sheet(&[0, 0, 0, 0, 0, date, 1], 0)), [SheetFeature::Dated]);
        let stc = [SheetFeature::Stc, SheetFeature::StcDated];
        assert_eq!(shown(&sheet(&[0, 0, 0, 0, 1, date], 0)), stc);
        assert_eq!(
            shown(&sheet(&[0, 1, 0, 0, 0, date], 3)),
            [SheetFeature::ResecuritisationDated]
        );
    }

    /// Refused sheets count by the number and place of the refusal and by what the facts say; a sheet too short to hold
    /// them, another place or another number counts as nothing.
    #[test]
    fn refused_sheets_are_counted() {
        assert_eq!(shown(&[3]), [SheetFeature::ThreeFacts]);
        assert_eq!(shown(&sheet(&[0; 8], 0)), [SheetFeature::EightFacts]);
        for counted in [5, 6, 7] {
            assert_eq!(shown(&[counted, 0, 0, 0, 0]), [SheetFeature::FifthMissing]);
        }
        for counted in [6, 7] {
            assert_eq!(shown(&[counted, 0, 0, 0, 0, 0]), [SheetFeature::SixthMissing]);
        }
        assert_eq!(shown(&[7, 0, 0, 0, 0, 0, 0]), [SheetFeature::SeventhMissing]);
        assert_eq!(shown(&[5, 0, 0, 0, 0, 2]), [SheetFeature::FifthAboveOne]);
        assert_eq!(
            shown(&[5, 0, 1, 0, 0, 2]),
            [SheetFeature::ResecuritisationFifthAboveOne]
        );
        assert_eq!(shown(&sheet(&[0, 0, 1, 0, 1], 0)), [SheetFeature::StcThin]);
        let with_section = |share| [&sheet(&[2, 0, 1, 0, 1], 0)[..], &[1, 8_000, 0, 1, 0, share, 0]].concat();
        assert_eq!(shown(&with_section(949_999)), [SheetFeature::StcThin]);
        assert_eq!(shown(&with_section(950_000)), []);
        for other in [
            &[][..],
            &[9],
            &[4, 0, 0, 0, 0],
            &[4, 0, 0, 0, 2],
            &[5, 0, 0, 0, 0, 0],
            &[5, 0, 1, 0, 0, 1],
            &[6, 0, 0, 0, 0, 0, 0],
            &[6, 0, 0, 0, 0, 0, 1],
        ] {
            assert_eq!(shown(other), [], "{other:?}");
        }
        assert_eq!(shown(&sheet(&[0, 0, 1, 0], 0)), []);
    }

    /// What a sheet shows by so much room.
    fn shown_by_room(sheet: &[u64], room: usize) -> Vec<RoomFeature> {
        let answer = independent::weigh(sheet, room as u64);
        let features = RoomFeature::TABLE.map(|(feature, _)| feature);
        features
            .into_iter()
            .filter(|feature| feature.shown(sheet, room, &answer))
            .collect()
    }

    /// Rooms count about the words of a line for each tranche, of two tranches 14: just that, one less, and 12. Other
    /// rooms do not count, neither do sheets that are refused for something else, and of one tranche just that alone.
    #[test]
    fn rooms_are_counted() {
        let two = sheet(&[0, 0, 0, 0], 0);
        assert_eq!(shown_by_room(&two, 14), [RoomFeature::Exact]);
        assert_eq!(shown_by_room(&two, 13), [RoomFeature::OneLess]);
        assert_eq!(shown_by_room(&two, 12), [RoomFeature::OneLessEach]);
        assert!([0, 7, 11, 15, 21]
            .into_iter()
            .all(|room| shown_by_room(&two, room).is_empty()));
        let one = [4, 0, 0, 0, 0, 1, 1, 1, 1, 0, 1, 1, 1, 1, 0, 0, 0, 0];
        assert_eq!(shown_by_room(&one, 7), [RoomFeature::Exact]);
        assert_eq!(shown_by_room(&one, 6), []);
        let thin = sheet(&[0, 0, 1, 0], 0);
        assert_eq!(
            [14, 12].map(|room| shown_by_room(&thin, room)),
            [vec![], vec![RoomFeature::OneLessEach]]
        );
        assert!([&[][..], &[4], &two[1..]]
            .into_iter()
            .all(|sheet| shown_by_room(sheet, 7).is_empty()));
    }
}
