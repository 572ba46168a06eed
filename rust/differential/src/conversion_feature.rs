//! What a run must meet on some sheet that is converted to the other unit of risk weights, or refused there (S-9).

use crate::answer::refusal;
use crate::conversion::Asking;
use crate::seen::DealKind;
use crate::sheet::{
    rewritten_words, unit, Fact, IrbWord, Layout, RowWord, FACTS, ONE_PERCENT, RISK_WEIGHT, RISK_WEIGHT_PERCENT,
};
use independent::{Deal, Refusal};

/// A conversion whose answer is known.
pub(crate) struct Converting<'a> {
    sheet: &'a [u64],
    /// How many output words were lent.
    room: usize,
    /// Number and place of the refusal; none where the sheet was written.
    refused: Option<Refusal>,
    /// The number by which the lines of the sheet are refused; 0 where they are not.
    lines_refused: u64,
    /// The places of risk weights that are no whole percents, which 19 would refuse.
    part_percents: Vec<usize>,
}

impl<'a> Converting<'a> {
    /// The conversion of a sheet whose lines have this answer.
    pub(crate) fn new(sheet: &'a [u64], lines: &Result<Deal, Refusal>, asking: &Asking) -> Converting<'a> {
        let refused = asking.answer.as_ref().err().copied();
        let of_words = refused.filter(|refused| refusal::is_of_words(refused.number));
        let judged = of_words.map_or(sheet.len(), |refused| refused.place as usize);
        Converting {
            sheet,
            room: asking.room,
            refused,
            lines_refused: lines.as_ref().map_or_else(|refused| refused.number, |_| 0),
            part_percents: part_percents(sheet, judged),
        }
    }

    /// The places of the sheet and the unit that it is written in; none where it is refused.
    fn written(&self) -> Option<(Layout, u64)> {
        let layout = self.refused.is_none().then(|| Layout::of_sheet(self.sheet))?;
        Some((layout, unit::other(layout.fact_word(self.sheet, Fact::Unit))))
    }
}

/// The places of the risk weights, within their limit, that are no whole percents in a sheet in hundredths whose words
/// before this place are good; none where its rows are not reached. A sheet in hundredths states all facts, as the largest
/// one does, so that its rows begin where that one's do.
fn part_percents(sheet: &[u64], judged: usize) -> Vec<usize> {
    let places = Layout::LARGEST;
    let units = || [sheet[Layout::FACTS_COUNT], sheet[Layout::fact(Fact::Unit)]];
    if judged <= places.pool_count() || units() != [FACTS, unit::HUNDREDTHS] {
        return Vec::new();
    }
    let rows = sheet[places.pool_count()] as usize;
    let weights = (places.risk_weight(0)..sheet.len()).step_by(RowWord::COUNT);
    let part_percent = |&place: &usize| sheet[place] <= RISK_WEIGHT && !sheet[place].is_multiple_of(ONE_PERCENT);
    weights.take(rows).filter(part_percent).collect()
}

/// What a sheet that is written in the other unit states.
#[derive(Debug, Clone, Copy, PartialEq, Eq)]
pub enum ConvertedDeal {
    /// An STC deal.
    Stc,
    /// A re-securitisation.
    Resecuritisation,
    /// A reporting date.
    Dated,
    /// An IRB section, with an IRB average above 0.
    Section,
    /// A tranche for which its lines are refused by 13.
    Thin,
    /// The most words.
    Largest,
}

impl ConvertedDeal {
    /// Whether a sheet with these places states this.
    fn is_of(self, converting: &Converting, layout: &Layout) -> bool {
        let sheet = converting.sheet;
        let average = || layout.irb_words(sheet).map(|irb| irb[IrbWord::Average as usize]);
        match self {
            ConvertedDeal::Stc => DealKind::of_sheet(sheet) == DealKind::Stc,
            ConvertedDeal::Resecuritisation => DealKind::of_sheet(sheet) == DealKind::Resecuritisation,
            ConvertedDeal::Dated => layout.fact_word(sheet, Fact::ReportingDate) != 0,
            ConvertedDeal::Section => average().is_some_and(|average| average > 0),
            ConvertedDeal::Thin => converting.lines_refused == refusal::THIN,
            ConvertedDeal::Largest => *layout == Layout::LARGEST,
        }
    }
}

/// What must be met on some sheet that is written.
#[derive(Debug, Clone, Copy, PartialEq, Eq)]
pub enum ConversionFeature {
    /// From so many facts, in this unit.
    Facts(u64, u64),
    /// From such a sheet, in this unit.
    Of(ConvertedDeal, u64),
    /// From fewer than the most facts, and the lines are refused by 13, whose place moves.
    ThinMoved,
    /// The lines are refused by 14.
    LinesWithoutRoom,
    /// In this unit, from a risk weight of this word.
    Weight(u64, u64),
    /// With just the output that is needed.
    Exact,
    /// With output to spare.
    Spare,
}

impl ConversionFeature {
    /// All features with their names.
    pub(crate) const TABLE: [(ConversionFeature, &'static str); 26] = [
        (of_facts(4, unit::HUNDREDTHS), "conversion: 4 facts, to hundredths"),
        (of_facts(5, unit::HUNDREDTHS), "conversion: 5 facts, to hundredths"),
        (of_facts(6, unit::HUNDREDTHS), "conversion: 6 facts, to hundredths"),
        (of_facts(7, unit::HUNDREDTHS), "conversion: 7 facts, to hundredths"),
        (of_facts(7, unit::PERCENT), "conversion: 7 facts, to percent"),
        (up(ConvertedDeal::Stc), "conversion: STC deal, to hundredths"),
        (down(ConvertedDeal::Stc), "conversion: STC deal, to percent"),
        (
            up(ConvertedDeal::Resecuritisation),
            "conversion: re-securitisation, to hundredths",
        ),
        (
            down(ConvertedDeal::Resecuritisation),
            "conversion: re-securitisation, to percent",
        ),
        (up(ConvertedDeal::Dated), "conversion: reporting date, to hundredths"),
        (down(ConvertedDeal::Dated), "conversion: reporting date, to percent"),
        (up(ConvertedDeal::Section), "conversion: IRB section, to hundredths"),
        (down(ConvertedDeal::Section), "conversion: IRB section, to percent"),
        (up(ConvertedDeal::Thin), "conversion: 13 of the lines, to hundredths"),
        (down(ConvertedDeal::Thin), "conversion: 13 of the lines, to percent"),
        (up(ConvertedDeal::Largest), "conversion: largest sheet, to hundredths"),
        (down(ConvertedDeal::Largest), "conversion: largest sheet, to percent"),
        (ConversionFeature::ThinMoved, "conversion: 13 of the lines, moved"),
        (ConversionFeature::LinesWithoutRoom, "conversion: 14 of the lines"),
        (weight(unit::HUNDREDTHS, 0), "conversion: risk weight 0, to hundredths"),
        (
            weight(unit::HUNDREDTHS, RISK_WEIGHT_PERCENT),
            "conversion: risk weight 1,250, to hundredths",
        ),
        (weight(unit::PERCENT, 0), "conversion: risk weight 0, to percent"),
        (
            weight(unit::PERCENT, ONE_PERCENT),
            "conversion: risk weight 100, to percent",
        ),
        (
            weight(unit::PERCENT, RISK_WEIGHT),
            "conversion: risk weight 125,000, to percent",
        ),
        (ConversionFeature::Exact, "conversion: just the output needed"),
        (ConversionFeature::Spare, "conversion: output to spare"),
    ];

    /// Whether a conversion shows the feature.
    pub(crate) fn shown(self, converting: &Converting) -> bool {
        let written = converting.written();
        written.is_some_and(|(layout, to)| self.shown_by_written(converting, &layout, to))
    }

    /// Whether a sheet with these places that is written in this unit shows the feature.
    fn shown_by_written(self, converting: &Converting, layout: &Layout, to: u64) -> bool {
        let facts = layout.facts as u64;
        let needed = rewritten_words(converting.sheet);
        let mut rows = layout.pool(converting.sheet).iter();
        match self {
            ConversionFeature::Facts(of, unit) => (facts, to) == (of, unit),
            ConversionFeature::Of(deal, unit) => to == unit && deal.is_of(converting, layout),
            ConversionFeature::ThinMoved => facts < FACTS && converting.lines_refused == refusal::THIN,
            ConversionFeature::LinesWithoutRoom => converting.lines_refused == refusal::ROOM,
            ConversionFeature::Weight(unit, word) => {
                to == unit && rows.any(|row| row[RowWord::RiskWeight as usize] == word)
            }
            ConversionFeature::Exact => converting.room == needed,
            ConversionFeature::Spare => converting.room > needed,
        }
    }
}

/// The feature of a sheet of so many facts that is written in this unit.
const fn of_facts(facts: u64, to: u64) -> ConversionFeature {
    ConversionFeature::Facts(facts, to)
}

/// The feature of such a sheet that is written in hundredths.
const fn up(deal: ConvertedDeal) -> ConversionFeature {
    ConversionFeature::Of(deal, unit::HUNDREDTHS)
}

/// The feature of such a sheet that is written in percent.
const fn down(deal: ConvertedDeal) -> ConversionFeature {
    ConversionFeature::Of(deal, unit::PERCENT)
}

/// The feature of a risk weight of this word that is written in this unit.
const fn weight(to: u64, word: u64) -> ConversionFeature {
    ConversionFeature::Weight(to, word)
}

/// What must be met on some sheet that is not written.
#[derive(Debug, Clone, Copy, PartialEq, Eq)]
pub enum ConversionRefusal {
    /// By 14 for one word.
    OneLess,
    /// By 14 with as many words as the sheet has as given.
    AsGiven,
    /// By 14 with no output.
    Nothing,
    /// By 19 in the first row of several.
    FirstRow,
    /// By 19 in a row between the first and the last.
    MiddleRow,
    /// By 19 in the last row of several.
    LastRow,
    /// By 19, and a later risk weight is no whole percent either.
    Several,
    /// By 19 for this word.
    NotWhole(u64),
    /// By 19, where the output is too short too.
    NotWholeAndShort,
    /// By 19, where the lines are refused by 13.
    NotWholeAndThin,
    /// For a word before the first risk weight that is no whole percent.
    WordBefore,
    /// For a word after a risk weight that is no whole percent.
    WordAfter,
    /// For a missing word, where a risk weight is no whole percent.
    MissingAfter,
    /// By 3, where a risk weight is no whole percent.
    FollowAfter,
    /// For a word after the facts, of which there are so many.
    AfterFacts(u64),
    /// By 4 for the unit.
    NoUnit,
    /// By 6 for this word.
    BadWeight(u64),
}

impl ConversionRefusal {
    /// All features with their names.
    pub(crate) const TABLE: [(ConversionRefusal, &'static str); 24] = [
        (ConversionRefusal::OneLess, "conversion: refusal 14 by one word"),
        (
            ConversionRefusal::AsGiven,
            "conversion: refusal 14 with the words as given",
        ),
        (ConversionRefusal::Nothing, "conversion: refusal 14 with no output"),
        (ConversionRefusal::FirstRow, "conversion: refusal 19 in the first row"),
        (ConversionRefusal::MiddleRow, "conversion: refusal 19 in a row between"),
        (ConversionRefusal::LastRow, "conversion: refusal 19 in the last row"),
        (ConversionRefusal::Several, "conversion: refusal 19, several weights"),
        (ConversionRefusal::NotWhole(1), "conversion: refusal 19 for 1"),
        (
            ConversionRefusal::NotWhole(RISK_WEIGHT_PERCENT),
            "conversion: refusal 19 for 1,250",
        ),
        (
            ConversionRefusal::NotWhole(RISK_WEIGHT_PERCENT + 1),
            "conversion: refusal 19 for 1,251",
        ),
        (ConversionRefusal::NotWhole(12_550), "conversion: refusal 19 for 12,550"),
        (
            ConversionRefusal::NotWhole(RISK_WEIGHT - 1),
            "conversion: refusal 19 for 124,999",
        ),
        (
            ConversionRefusal::NotWholeAndShort,
            "conversion: refusal 19, output too short",
        ),
        (
            ConversionRefusal::NotWholeAndThin,
            "conversion: refusal 19, 13 of the lines",
        ),
        (
            ConversionRefusal::WordBefore,
            "conversion: bad word before a weight of 19",
        ),
        (
            ConversionRefusal::WordAfter,
            "conversion: bad word after a weight of 19",
        ),
        (
            ConversionRefusal::MissingAfter,
            "conversion: refusal 1 after a weight of 19",
        ),
        (
            ConversionRefusal::FollowAfter,
            "conversion: refusal 3 after a weight of 19",
        ),
        (ConversionRefusal::AfterFacts(4), "conversion: refused after 4 facts"),
        (ConversionRefusal::AfterFacts(5), "conversion: refused after 5 facts"),
        (ConversionRefusal::AfterFacts(6), "conversion: refused after 6 facts"),
        (ConversionRefusal::NoUnit, "conversion: refusal 4 for the unit"),
        (
            ConversionRefusal::BadWeight(RISK_WEIGHT_PERCENT + 1),
            "conversion: refusal 6 for 1,251",
        ),
        (
            ConversionRefusal::BadWeight(RISK_WEIGHT + 1),
            "conversion: refusal 6 for 125,001",
        ),
    ];

    /// Whether a conversion shows the feature.
    pub(crate) fn shown(self, converting: &Converting) -> bool {
        converting.refused.is_some_and(|refused| match refused.number {
            refusal::ROOM => self.shown_by_room(converting),
            refusal::NOT_WHOLE_PERCENT => self.shown_by_not_whole(converting, &refused),
            _ => self.shown_by_words(converting, &refused),
        })
    }

    /// Whether a sheet that is refused for its output shows the feature.
    fn shown_by_room(self, converting: &Converting) -> bool {
        let Converting { sheet, room, .. } = *converting;
        match self {
            ConversionRefusal::OneLess => room + 1 == rewritten_words(sheet),
            ConversionRefusal::AsGiven => room == sheet.len(),
            ConversionRefusal::Nothing => room == 0,
            _ => false,
        }
    }

    /// Whether a sheet that is refused for a risk weight that is no whole percent shows the feature.
    fn shown_by_not_whole(self, converting: &Converting, refused: &Refusal) -> bool {
        let layout = Layout::of_sheet(converting.sheet);
        let place = refused.place as usize;
        let [row, last] = [(place - layout.risk_weight(0)) / RowWord::COUNT, layout.rows - 1];
        match self {
            ConversionRefusal::FirstRow => row == 0 && last > 0,
            ConversionRefusal::MiddleRow => (1..last).contains(&row),
            ConversionRefusal::LastRow => row == last && last > 0,
            ConversionRefusal::Several => converting.part_percents.len() > 1,
            ConversionRefusal::NotWhole(word) => converting.sheet[place] == word,
            ConversionRefusal::NotWholeAndShort => converting.room < rewritten_words(converting.sheet),
            ConversionRefusal::NotWholeAndThin => converting.lines_refused == refusal::THIN,
            _ => false,
        }
    }

    /// Whether a sheet that is refused for its words shows the feature.
    fn shown_by_words(self, converting: &Converting, refused: &Refusal) -> bool {
        let Converting {
            sheet, part_percents, ..
        } = converting;
        let (number, place) = (refused.number, refused.place as usize);
        let word = ![refusal::MISSING, refusal::WORDS_FOLLOW].contains(&number);
        let first = part_percents.first();
        match self {
            ConversionRefusal::WordBefore => word && first.is_some_and(|&first| place < first),
            ConversionRefusal::WordAfter => word && first.is_some_and(|&first| place > first),
            ConversionRefusal::MissingAfter => number == refusal::MISSING && first.is_some(),
            ConversionRefusal::FollowAfter => number == refusal::WORDS_FOLLOW && first.is_some(),
            ConversionRefusal::AfterFacts(facts) => {
                place > Layout::FACTS_COUNT + facts as usize && sheet[Layout::FACTS_COUNT] == facts
            }
            ConversionRefusal::NoUnit => number == refusal::FACT && place == Layout::fact(Fact::Unit),
            ConversionRefusal::BadWeight(word) => number == refusal::RISK_WEIGHT && sheet[place] == word,
            _ => false,
        }
    }
}

#[cfg(test)]
mod tests {
    use super::*;

    /// No feature stands twice in its table.
    #[test]
    fn each_feature_stands_once() {
        let features = ConversionFeature::TABLE.map(|(feature, _)| feature);
        assert!((1..features.len()).all(|n| !features[..n].contains(&features[n])));
        let refusals = ConversionRefusal::TABLE.map(|(feature, _)| feature);
        assert!((1..refusals.len()).all(|n| !refusals[..n].contains(&refusals[n])));
    }

    /// Facts of a deal without due diligence, in this unit.
    const fn stated(unit: u64) -> [u64; 7] {
        [0, 0, 0, 0, 0, 0, unit]
    }

    /// A sheet with these facts, rows of one unit with these risk weights, and one tranche.
    fn sheet(facts: &[u64], weights: &[u64]) -> Vec<u64> {
        let mut words = [&[facts.len() as u64], facts, &[weights.len() as u64]].concat();
        words.extend(weights.iter().flat_map(|&weight| [1, 1, weight, 3 * facts[1]]));
        let dated = facts.get(Fact::ReportingDate as usize).is_some_and(|&date| date != 0);
        words.extend([1, 1, 1, if dated { 20_300_101 } else { 36 }, 0, 0, 0, 0]);
        words
    }

    /// What a conversion to so many words shows, written and refused, with so much room for the lines.
    fn both_with(sheet: &[u64], room: usize, lines: u64) -> (Vec<ConversionFeature>, Vec<ConversionRefusal>) {
        let asking = Asking::new(sheet, room);
        let converting = Converting::new(sheet, &independent::weigh(sheet, lines), &asking);
        let features = ConversionFeature::TABLE.map(|(feature, _)| feature).into_iter();
        let refusals = ConversionRefusal::TABLE.map(|(feature, _)| feature).into_iter();
        (
            features.filter(|feature| feature.shown(&converting)).collect(),
            refusals.filter(|feature| feature.shown(&converting)).collect(),
        )
    }

    /// What a conversion to so many words shows that is written, with so much room for the lines.
    fn shown_with(sheet: &[u64], room: usize, lines: u64) -> Vec<ConversionFeature> {
        let (shown, refused) = both_with(sheet, room, lines);
        assert_eq!(refused, []);
        shown
    }

    /// What a conversion to just the words that are needed shows that is written, but for that.
    fn shown(sheet: &[u64]) -> Vec<ConversionFeature> {
        let mut shown = shown_with(sheet, rewritten_words(sheet), u64::MAX);
        shown.retain(|feature| *feature != ConversionFeature::Exact);
        shown
    }

    /// What a conversion to so many words shows that is refused.
    fn refused_with(sheet: &[u64], room: usize) -> Vec<ConversionRefusal> {
        let (shown, refused) = both_with(sheet, room, u64::MAX);
        assert_eq!(shown, []);
        refused
    }

    /// What a conversion to just the words that are needed shows that is refused.
    fn refused(sheet: &[u64]) -> Vec<ConversionRefusal> {
        refused_with(sheet, rewritten_words(sheet))
    }

    /// Sheets count by their facts and by the unit in which they are written.
    #[test]
    fn written_sheets_are_counted() {
        for stated in 4..=7 {
            let facts = vec![0; stated as usize];
            assert_eq!(shown(&sheet(&facts, &[35])), [of_facts(stated, unit::HUNDREDTHS)]);
        }
        assert_eq!(shown(&sheet(&stated(1), &[3_500])), [of_facts(7, unit::PERCENT)]);
    }

    /// Sheets count by what they state, in each direction.
    #[test]
    fn deals_are_counted() {
        for (code, weight, to, of) in [
            (0, 35, unit::HUNDREDTHS, up as fn(ConvertedDeal) -> ConversionFeature),
            (1, 3_500, unit::PERCENT, down),
        ] {
            let shown = |facts: [u64; 6], section: &[u64]| {
                let facts = [&facts[..], &[code]].concat();
                let mut shown = shown(&[&sheet(&facts, &[weight])[..], section].concat());
                assert_eq!(shown.remove(0), of_facts(7, to));
                shown
            };
            assert_eq!(shown([0, 0, 0, 0, 1, 0], &[]), [of(ConvertedDeal::Stc)]);
            assert_eq!(shown([0, 1, 0, 0, 0, 0], &[]), [of(ConvertedDeal::Resecuritisation)]);
            assert_eq!(shown([0, 0, 0, 0, 0, 20_240_101], &[]), [of(ConvertedDeal::Dated)]);
            let section = |average| [1, 0, 0, 1, 0, 1_000_000, average];
            assert_eq!(shown([1, 0, 0, 0, 0, 0], &section(1)), [of(ConvertedDeal::Section)]);
            assert_eq!(shown([1, 0, 0, 0, 0, 0], &section(0)), []);
        }
    }

    /// The largest sheet counts, and none with a row less.
    #[test]
    fn largest_sheets_are_counted() {
        for (code, to, of) in [
            (0, unit::HUNDREDTHS, up as fn(ConvertedDeal) -> ConversionFeature),
            (1, unit::PERCENT, down),
        ] {
            let with_rows = |rows| {
                let mut words = sheet(&[1, 0, 0, 0, 0, 0, code], &vec![300; rows]);
                let tranches = words.len() - 8;
                words[tranches] = 32;
                words.extend([1, 1, 36, 0, 0, 0, 0].repeat(31));
                words.extend([1, 0, 0, 1, 0, 1_000_000, 0]);
                shown(&words)
            };
            assert_eq!(with_rows(1_000), [of_facts(7, to), of(ConvertedDeal::Largest)]);
            assert_eq!(with_rows(999), [of_facts(7, to)]);
        }
    }

    /// A sheet with these facts, over loans of 10^10 with this risk weight, whose second tranche is too thin for SEC-SA.
    fn thin(facts: &[u64], weight: u64) -> Vec<u64> {
        let pool = [1, 10_000_000_000, 10_000_000_000, weight, 0];
        let tranches = [2, 1_000_001, 1, 72, 0, 0, 0, 0, 1, 2, 72, 0, 0, 0, 0];
        [&[facts.len() as u64], facts, &pool, &tranches].concat()
    }

    /// Sheets whose lines are refused by 13 or by 14 are written, and count.
    #[test]
    fn lines_refused_are_counted() {
        let diligent = |unit| [0, 0, 1, 0, 0, 0, unit];
        let to_hundredths = [of_facts(7, unit::HUNDREDTHS), up(ConvertedDeal::Thin)];
        assert_eq!(shown(&thin(&diligent(0), 1)), to_hundredths);
        let moved = [
            of_facts(4, unit::HUNDREDTHS),
            up(ConvertedDeal::Thin),
            ConversionFeature::ThinMoved,
        ];
        assert_eq!(shown(&thin(&[0, 0, 1, 0], 1)), moved);
        let to_percent = [
            of_facts(7, unit::PERCENT),
            down(ConvertedDeal::Thin),
            weight(unit::PERCENT, 100),
        ];
        assert_eq!(shown(&thin(&diligent(1), 100)), to_percent);
        let four = sheet(&[0; 4], &[35]);
        let without_room = [
            of_facts(4, unit::HUNDREDTHS),
            ConversionFeature::LinesWithoutRoom,
            ConversionFeature::Exact,
        ];
        assert_eq!(shown_with(&four, four.len() + 3, 6), without_room);
    }

    /// Risk weights count by their words, in any row, and by the unit in which they are written.
    #[test]
    fn weights_are_counted() {
        let weights = |unit: u64, weights: &[u64]| {
            let mut shown = shown(&sheet(&stated(unit), weights));
            shown.remove(0);
            shown
        };
        let [none, most] = [0, 1_250].map(|word| weight(unit::HUNDREDTHS, word));
        assert_eq!(weights(0, &[1_250, 0]), [none, most]);
        assert_eq!(weights(0, &[1, 100]), []);
        let to_percent = [0, 100, 125_000].map(|word| weight(unit::PERCENT, word));
        assert_eq!(weights(1, &[200, 125_000, 100, 0]), to_percent);
    }

    /// Outputs count about the words that are needed, of 18 with four facts 21, and 14 with the words as given.
    #[test]
    fn outputs_are_counted() {
        let four = sheet(&[0; 4], &[35]);
        let with = |room| shown_with(&four, room, u64::MAX);
        let first = of_facts(4, unit::HUNDREDTHS);
        assert_eq!(with(21), [first, ConversionFeature::Exact]);
        assert_eq!([22, 4_241].map(with), [[first, ConversionFeature::Spare]; 2]);
        let without = |room| refused_with(&four, room);
        assert_eq!(without(20), [ConversionRefusal::OneLess]);
        assert_eq!(without(18), [ConversionRefusal::AsGiven]);
        assert_eq!(without(0), [ConversionRefusal::Nothing]);
        assert_eq!([1, 17, 19].map(without), [[]; 3]);
        let six = sheet(&[0; 6], &[35]);
        let both = [ConversionRefusal::OneLess, ConversionRefusal::AsGiven];
        assert_eq!(refused_with(&six, six.len()), both);
    }

    /// A risk weight that is no whole percent counts by its row, by its word and by what would be refused besides.
    #[test]
    fn not_whole_percents_are_counted() {
        let of = |weights: &[u64]| refused(&sheet(&stated(1), weights));
        assert_eq!(of(&[150]), []);
        assert_eq!(of(&[150, 100]), [ConversionRefusal::FirstRow]);
        assert_eq!(of(&[100, 150, 100]), [ConversionRefusal::MiddleRow]);
        assert_eq!(of(&[100, 150]), [ConversionRefusal::LastRow]);
        assert_eq!(
            of(&[100, 150, 150]),
            [ConversionRefusal::MiddleRow, ConversionRefusal::Several]
        );
        for word in [1, 1_250, 1_251, 12_550, 124_999] {
            assert_eq!(of(&[word]), [ConversionRefusal::NotWhole(word)]);
        }
        let one = sheet(&stated(1), &[150]);
        let short = [ConversionRefusal::NotWholeAndShort];
        assert_eq!([0, one.len() - 1].map(|room| refused_with(&one, room)), [short; 2]);
        assert_eq!(
            refused(&thin(&[0, 0, 1, 0, 0, 0, 1], 150)),
            [ConversionRefusal::NotWholeAndThin]
        );
    }

    /// Refusals of the words count where a risk weight is no whole percent before or after them; and nothing does where
    /// none is, where the unit is percent, and where the rows are not reached.
    #[test]
    fn earlier_refusals_are_counted() {
        let good = sheet(&stated(1), &[100, 150]);
        let with = |place: usize, word| {
            let mut words = good.clone();
            words[place] = word;
            words
        };
        // The rows begin at 9 and 13, the second risk weight stands at 15, the tranches at 17.
        assert_eq!(refused(&with(9, 0)), [ConversionRefusal::WordBefore]);
        assert_eq!(refused(&with(12, 3)), [ConversionRefusal::WordBefore]);
        assert_eq!(refused(&with(16, 3)), [ConversionRefusal::WordAfter]);
        assert_eq!(refused(&with(19, 2)), [ConversionRefusal::WordAfter]);
        assert_eq!(refused(&good[..16]), [ConversionRefusal::MissingAfter]);
        assert_eq!(refused(&good[..24]), [ConversionRefusal::MissingAfter]);
        assert_eq!(refused(&[&good[..], &[0]].concat()), [ConversionRefusal::FollowAfter]);
        for other in [
            with(1, 3),
            with(8, 0),
            with(8, 1_001),
            good[..8].to_vec(),
            good[..12].to_vec(),
        ] {
            assert_eq!(refused(&other), [], "{other:?}");
        }
        let whole = sheet(&stated(1), &[100, 200]);
        let percent = sheet(&stated(0), &[100, 150]);
        for words in [whole, percent] {
            assert_eq!(refused(&[&words[..], &[0]].concat()), []);
            assert_eq!(refused(&words[..20]), []);
        }
    }

    /// Refused sheets count by their facts where the place comes after them, and by the words of the unit and of risk
    /// weights.
    #[test]
    fn refused_words_are_counted() {
        for stated in [4, 5, 6] {
            let mut words = sheet(&vec![0; stated], &[35]);
            words[1 + stated] = 0;
            assert_eq!(refused(&words), [ConversionRefusal::AfterFacts(stated as u64)]);
            words[stated] = 9;
            assert_eq!(refused(&words), []);
        }
        assert_eq!(refused(&sheet(&stated(2), &[35])), [ConversionRefusal::NoUnit]);
        assert_eq!(
            refused(&sheet(&stated(0), &[1_251])),
            [ConversionRefusal::BadWeight(1_251)]
        );
        assert_eq!(
            refused(&sheet(&stated(1), &[125_001])),
            [ConversionRefusal::BadWeight(125_001)]
        );
        assert_eq!([refused(&[]), refused(&[7])], [[], []]);
    }
}
