//! What a run must meet on some opened pool by an amendment that is accepted (S-10): what it moves, in which deals, and
//! after which other amendments.

use crate::amended::Stage;
use crate::answer::{refusal, LINE_WORDS};
use crate::case::Case;
use crate::seen::DealKind;
use crate::sheet::{unit, Fact, Layout, RowWord, BLOCK_ROWS, POOL_AMOUNT, TRANCHES};
use independent::approach::irb_of;
use independent::sheet::PoolKind;
use independent::{Deal, Refusal};

/// An amendment of an opened pool, with the pool before and after it.
pub(crate) struct Step<'a> {
    /// Its number, from 1.
    number: usize,
    /// Its words.
    pub(crate) amendment: &'a [u64],
    /// The words of the amendment before it.
    before_words: Option<&'a Vec<u64>>,
    /// The pool after the opening and after each amendment.
    stages: &'a [Stage],
    /// The places of the sheet.
    pub(crate) layout: Layout,
    /// The kind of the deal.
    pub(crate) kind: DealKind,
    /// The unit of the risk weights.
    pub(crate) unit: u64,
}

impl<'a> Step<'a> {
    /// The amendment of this number, from 1, of a pool that was opened.
    pub(crate) fn new(case: &'a Case, stages: &'a [Stage], number: usize) -> Step<'a> {
        let layout = Layout::of_sheet(&case.sheet);
        Step {
            number,
            amendment: &case.amendments[number - 1],
            before_words: case.amendments[..number - 1].last(),
            stages,
            layout,
            kind: DealKind::of_sheet(&case.sheet),
            unit: layout.fact_word(&case.sheet, Fact::Unit),
        }
    }

    /// The pool as it was opened.
    pub(crate) fn opened(&self) -> &'a Stage {
        &self.stages[0]
    }

    /// The pool before the amendment.
    pub(crate) fn before(&self) -> &'a Stage {
        &self.stages[self.number - 1]
    }

    /// The pool after the amendment.
    fn after(&self) -> &'a Stage {
        &self.stages[self.number]
    }

    /// The refusal of the amendment.
    pub(crate) fn refused(&self) -> Option<Refusal> {
        self.after().refused
    }

    /// Number of the row, the row before and the row after; none where the amendment is refused.
    pub(crate) fn rows(&self) -> Option<(u64, &'a [u64; RowWord::COUNT], &'a [u64; RowWord::COUNT])> {
        if self.refused().is_some() {
            return None;
        }
        let number = self.amendment[0];
        let row = |stage: &'a Stage| &self.layout.pool(stage.pool.words())[number as usize - 1];
        Some((number, row(self.before()), row(self.after())))
    }

    /// The number of the row of the amendment before it, where there is one and it was accepted.
    fn row_before(&self) -> Option<u64> {
        let before = self.before_words.filter(|_| self.before().refused.is_none());
        before.map(|words| words[0])
    }

    /// Whether the word at this place of the amendment is there and is bad.
    pub(crate) fn is_bad(&self, place: usize) -> bool {
        let Some(&word) = self.amendment.get(place) else {
            return false;
        };
        let in_ordinary = self.kind != DealKind::Resecuritisation;
        !match place {
            0 => (1..=self.layout.rows as u64).contains(&word),
            1 | 2 => (1..=POOL_AMOUNT).contains(&word),
            3 => word <= unit::risk_weight(self.unit),
            4 => word <= 3 && (word < 3) == in_ordinary,
            _ => true,
        }
    }

    /// Whether the lines of a pool are refused by 13.
    pub(crate) fn is_thin(&self, stage: &Stage) -> bool {
        refused_by(stage) == refusal::THIN
    }
}

/// The number by which the lines of a pool are refused; 0 where they are not.
fn refused_by(stage: &Stage) -> u64 {
    stage.answer().as_ref().map_or_else(|refused| refused.number, |_| 0)
}

/// How the unknown exposure stands to 5% of all.
fn unknown_share(stage: &Stage) -> std::cmp::Ordering {
    let unknown = stage.sums.all.exposure - stage.sums.known.exposure;
    (20 * unknown).cmp(&stage.sums.all.exposure)
}

/// What must be met on some pool by an amendment that is accepted.
#[derive(Debug, Clone, Copy, PartialEq, Eq)]
pub enum AmendedFeature {
    /// The unknown exposure passes 5% upward.
    UnknownAbove,
    /// It passes 5% downward.
    UnknownWithin,
    /// It comes to be 5% of all.
    UnknownAtLimit,
    /// The lines come to be refused by 13.
    ThinMet,
    /// They are refused by 13 no longer.
    ThinLeft,
    /// They are refused by 13 still, and the charge moves.
    ThinKept,
    /// The charge moves in an SA pool.
    ChargeOfSa,
    /// It moves under SEC-IRBA, in a mixed pool.
    ChargeOfMixed,
    /// It moves in a mixed pool below the share.
    ChargeBelowShare,
    /// It moves in a re-securitisation.
    ChargeOfResecuritisation,
    /// The sums move in an IRB pool under SEC-IRBA, and the charge does not.
    ChargeOfIrbKept,
    /// The lines move, and the charge does not.
    LinesWithoutCharge,
    /// The row is another, and no line moves.
    LinesKept,
    /// The approach of a line moves.
    ApproachMoved,
    /// The points of a line move.
    PointsMoved,
    /// The row is what it was.
    RowKept,
    /// The sheet is as it was opened again, and was not before.
    AsOpened,
    /// The row of the accepted amendment before it.
    RowAgain,
    /// After an amendment that was refused.
    AfterRefused,
    /// The twentieth amendment or a later one.
    Late,
    /// In a deal with a reporting date.
    Dated,
    /// In a deal without due diligence.
    WithoutDiligence,
    /// In a sheet with so many facts.
    Facts(u64),
    /// In a pool of so many rows.
    Rows(u64),
    /// In a sheet with the most tranches.
    TranchesMost,
}

impl AmendedFeature {
    /// All features with their names.
    pub(crate) const TABLE: [(AmendedFeature, &'static str); 29] = [
        (AmendedFeature::UnknownAbove, "amended: unknown above 5%"),
        (AmendedFeature::UnknownWithin, "amended: unknown within 5% again"),
        (AmendedFeature::UnknownAtLimit, "amended: unknown at 5%"),
        (AmendedFeature::ThinMet, "amended: 13 of the lines met"),
        (AmendedFeature::ThinLeft, "amended: 13 of the lines left"),
        (AmendedFeature::ThinKept, "amended: 13 of the lines kept"),
        (AmendedFeature::ChargeOfSa, "amended: charge of an SA pool"),
        (AmendedFeature::ChargeOfMixed, "amended: charge under SEC-IRBA"),
        (AmendedFeature::ChargeBelowShare, "amended: charge below the share"),
        (
            AmendedFeature::ChargeOfResecuritisation,
            "amended: charge of a re-securitisation",
        ),
        (AmendedFeature::ChargeOfIrbKept, "amended: charge of an IRB pool kept"),
        (AmendedFeature::LinesWithoutCharge, "amended: lines without the charge"),
        (AmendedFeature::LinesKept, "amended: lines kept"),
        (AmendedFeature::ApproachMoved, "amended: approach of a line"),
        (AmendedFeature::PointsMoved, "amended: points of a line"),
        (AmendedFeature::RowKept, "amended: row as it was"),
        (AmendedFeature::AsOpened, "amended: sheet as opened again"),
        (AmendedFeature::RowAgain, "amended: same row twice running"),
        (AmendedFeature::AfterRefused, "amended: after a refusal"),
        (AmendedFeature::Late, "amended: for the twentieth time or later"),
        (AmendedFeature::Dated, "amended: reporting date"),
        (AmendedFeature::WithoutDiligence, "amended: no due diligence"),
        (AmendedFeature::Facts(4), "amended: 4 facts"),
        (AmendedFeature::Facts(5), "amended: 5 facts"),
        (AmendedFeature::Facts(6), "amended: 6 facts"),
        (AmendedFeature::Facts(7), "amended: 7 facts"),
        (AmendedFeature::Rows(BLOCK_ROWS), "amended: pool of 50 rows"),
        (AmendedFeature::Rows(BLOCK_ROWS + 1), "amended: pool of 51 rows"),
        (AmendedFeature::TranchesMost, "amended: 32 tranches"),
    ];

    /// Whether a step shows the feature.
    pub(crate) fn shown(self, step: &Step) -> bool {
        let Some((_, old, new)) = step.rows() else {
            return false;
        };
        match self {
            AmendedFeature::UnknownAbove
            | AmendedFeature::UnknownWithin
            | AmendedFeature::UnknownAtLimit
            | AmendedFeature::ThinMet
            | AmendedFeature::ThinLeft
            | AmendedFeature::ThinKept => self.shown_by_limits(step),
            AmendedFeature::ChargeOfSa
            | AmendedFeature::ChargeOfMixed
            | AmendedFeature::ChargeBelowShare
            | AmendedFeature::ChargeOfResecuritisation
            | AmendedFeature::ChargeOfIrbKept => self.shown_by_charge(step),
            AmendedFeature::LinesKept => old != new && self.shown_by_lines(step),
            AmendedFeature::LinesWithoutCharge | AmendedFeature::ApproachMoved | AmendedFeature::PointsMoved => {
                self.shown_by_lines(step)
            }
            AmendedFeature::RowKept => old == new,
            AmendedFeature::AsOpened
            | AmendedFeature::RowAgain
            | AmendedFeature::AfterRefused
            | AmendedFeature::Late => self.shown_by_run(step),
            _ => self.shown_by_sheet(step),
        }
    }

    /// Whether the unknown exposure and 13 show the feature.
    fn shown_by_limits(self, step: &Step) -> bool {
        let [before, after] = [step.before(), step.after()];
        let [above_before, above_after] = [before, after].map(|stage| unknown_share(stage).is_gt());
        let [thin_before, thin_after] = [before, after].map(|stage| step.is_thin(stage));
        match self {
            AmendedFeature::UnknownAbove => !above_before && above_after,
            AmendedFeature::UnknownWithin => above_before && !above_after,
            AmendedFeature::UnknownAtLimit => unknown_share(before).is_ne() && unknown_share(after).is_eq(),
            AmendedFeature::ThinMet => refused_by(before) == 0 && thin_after,
            AmendedFeature::ThinLeft => thin_before && refused_by(after) == 0,
            AmendedFeature::ThinKept => thin_before && thin_after && before.charge != after.charge,
            _ => false,
        }
    }

    /// Whether the charge shows the feature.
    fn shown_by_charge(self, step: &Step) -> bool {
        let [before, after] = [step.before(), step.after()];
        let sheet = after.pool.sheet();
        let (kind, under_irba) = (sheet.facts.pool_kind, irb_of(sheet).is_some());
        let ordinary = !sheet.facts.resecuritisation && sheet.facts.due_diligence_held;
        let moves = before.charge != after.charge;
        match self {
            AmendedFeature::ChargeOfSa => moves && ordinary && kind == PoolKind::Sa,
            AmendedFeature::ChargeOfMixed => moves && under_irba,
            AmendedFeature::ChargeBelowShare => moves && ordinary && kind == PoolKind::Mixed && !under_irba,
            AmendedFeature::ChargeOfResecuritisation => moves && sheet.facts.resecuritisation,
            AmendedFeature::ChargeOfIrbKept => {
                !moves && under_irba && kind == PoolKind::Irb && before.sums != after.sums
            }
            _ => false,
        }
    }

    /// Whether the lines show the feature, where they are weighed before and after.
    fn shown_by_lines(self, step: &Step) -> bool {
        let (Ok(before), Ok(after)) = (step.before().answer(), step.after().answer()) else {
            return false;
        };
        let differ = |word: fn(&independent::Line) -> [u64; 2]| lines(before, word) != lines(after, word);
        match self {
            AmendedFeature::LinesWithoutCharge => before.charge == after.charge && before.lines != after.lines,
            AmendedFeature::LinesKept => before.lines == after.lines,
            AmendedFeature::ApproachMoved => differ(|line| [line.approach; 2]),
            AmendedFeature::PointsMoved => differ(|line| [line.attachment, line.detachment]),
            _ => false,
        }
    }

    /// Whether the amendments before it show the feature.
    fn shown_by_run(self, step: &Step) -> bool {
        let [opened, before, after] = [step.opened(), step.before(), step.after()].map(|stage| stage.pool.words());
        match self {
            AmendedFeature::AsOpened => before != opened && after == opened,
            AmendedFeature::RowAgain => step.row_before() == Some(step.amendment[0]),
            AmendedFeature::AfterRefused => step.before().refused.is_some(),
            AmendedFeature::Late => step.number >= 20,
            _ => false,
        }
    }

    /// Whether the sheet shows the feature.
    fn shown_by_sheet(self, step: &Step) -> bool {
        let facts = &step.after().pool.sheet().facts;
        let layout = &step.layout;
        match self {
            AmendedFeature::Dated => facts.reporting_date.is_some(),
            AmendedFeature::WithoutDiligence => !facts.due_diligence_held,
            AmendedFeature::Facts(count) => layout.facts as u64 == count,
            AmendedFeature::Rows(count) => layout.rows as u64 == count,
            AmendedFeature::TranchesMost => layout.tranches as u64 == TRANCHES,
            _ => false,
        }
    }
}

/// What must be met on some opened pool by the room that is lent for its lines.
#[derive(Debug, Clone, Copy, PartialEq, Eq)]
pub enum OpenedRoom {
    /// Just what the lines need.
    Exact,
    /// More than they need.
    Spare,
    /// One word less.
    OneLess,
    /// One word less for each of several tranches.
    OneLessEach,
    /// No word.
    Nothing,
    /// Too little, where a tranche meets 13.
    ShortAndThin,
    /// Enough, where a tranche meets 13.
    Thin,
}

impl OpenedRoom {
    /// All features with their names.
    pub(crate) const TABLE: [(OpenedRoom, &'static str); 7] = [
        (OpenedRoom::Exact, "opened pool: exact room"),
        (OpenedRoom::Spare, "opened pool: room to spare"),
        (OpenedRoom::OneLess, "opened pool: refusal 14 by one word"),
        (OpenedRoom::OneLessEach, "opened pool: refusal 14 by one for each"),
        (OpenedRoom::Nothing, "opened pool: refusal 14 with no room"),
        (OpenedRoom::ShortAndThin, "opened pool: refusal 14, not 13"),
        (OpenedRoom::Thin, "opened pool: refusal 13"),
    ];

    /// Whether an opened pool that was lent so many result words shows the feature.
    pub(crate) fn shown(self, stage: &Stage, room: usize) -> bool {
        let tranches = stage.pool.sheet().tranches.len();
        let needed = LINE_WORDS * tranches;
        match self {
            OpenedRoom::Exact => room == needed,
            OpenedRoom::Spare => room > needed,
            OpenedRoom::OneLess => room + 1 == needed,
            OpenedRoom::OneLessEach => room + tranches == needed && tranches > 1,
            OpenedRoom::Nothing => room == 0,
            OpenedRoom::ShortAndThin => room < needed && refused_by(stage) == refusal::THIN,
            OpenedRoom::Thin => room >= needed && refused_by(stage) == refusal::THIN,
        }
    }
}

/// Two words of each line.
fn lines(deal: &Deal, word: fn(&independent::Line) -> [u64; 2]) -> Vec<[u64; 2]> {
    deal.lines.iter().map(word).collect()
}

#[cfg(test)]
mod tests {
    use super::*;
    use crate::amended::stages;
    use crate::amendment_feature::AmendmentFeature;
    use crate::amendment_refusal::{AmendmentOrder, AmendmentRefusal};
    use crate::observed::ROOMS;
    use crate::sheet::{status, ROWS};

    /// A sheet of these facts with these rows, and one tranche of 36 months or of this date.
    fn sheet(facts: &[u64], rows: &[[u64; 4]]) -> Vec<u64> {
        let dated = facts.get(Fact::ReportingDate as usize).is_some_and(|&date| date != 0);
        let maturity = if dated { 20_300_101 } else { 36 };
        let head = [&[facts.len() as u64], facts, &[rows.len() as u64], rows.as_flattened()].concat();
        [&head[..], &[1, 800, 1, maturity, 0, 0, 0, 0]].concat()
    }

    /// The sheet with these amendments, with room for the lines of one tranche.
    fn case(sheet: Vec<u64>, amendments: &[&[u64]]) -> Case {
        let mut case = Case::blank();
        case.sheet = sheet;
        case.amendments = amendments.iter().map(|words| words.to_vec()).collect();
        case.amended_rooms = [LINE_WORDS, 0];
        case
    }

    /// The entries of a table that the last amendment of a list shows.
    fn shown<F: Copy>(case: &Case, table: &[(F, &str)], shows: fn(F, &Step) -> bool) -> Vec<F> {
        let stages = stages(case);
        let step = Step::new(case, &stages, case.amendments.len());
        let features = table.iter().map(|(feature, _)| *feature);
        features.filter(|feature| shows(*feature, &step)).collect()
    }

    /// What the last amendment shows by what it moves, but for the count of facts.
    fn moved(case: &Case) -> Vec<AmendedFeature> {
        let mut shown = shown(case, &AmendedFeature::TABLE, AmendedFeature::shown);
        shown.retain(|feature| !matches!(feature, AmendedFeature::Facts(_)));
        shown
    }

    /// What the last amendment shows by its row.
    fn row(case: &Case) -> Vec<AmendmentFeature> {
        shown(case, &AmendmentFeature::TABLE, AmendmentFeature::shown)
    }

    /// What the last amendment shows by its refusal, and by the order of its faults.
    fn refused(case: &Case) -> (Vec<AmendmentRefusal>, Vec<AmendmentOrder>) {
        (
            shown(case, &AmendmentRefusal::TABLE, AmendmentRefusal::shown),
            shown(case, &AmendmentOrder::TABLE, AmendmentOrder::shown),
        )
    }

    /// Facts of an ordinary deal.
    const ORDINARY: &[u64] = &[0, 0, 1, 1];
    /// Facts of an ordinary deal in hundredths.
    const HUNDREDTHS: &[u64] = &[0, 0, 1, 1, 0, 0, 1];
    /// Two loans of 100%.
    const LOANS: [[u64; 4]; 2] = [[950, 950, 100, 0], [50, 50, 100, 0]];

    /// No feature stands twice in its table.
    #[test]
    fn each_feature_stands_once() {
        fn once<F: PartialEq>(table: &[(F, &str)]) -> bool {
            let mut places = 1..table.len();
            places.all(|n| table[..n].iter().all(|(feature, _)| *feature != table[n].0))
        }
        assert!(once(&AmendedFeature::TABLE) && once(&OpenedRoom::TABLE) && once(&AmendmentFeature::TABLE));
        assert!(once(&AmendmentRefusal::TABLE) && once(&AmendmentOrder::TABLE));
    }

    /// A loan that is not known comes to 5% of all exposure, passes it, and comes back.
    #[test]
    fn unknown_exposure_is_seen() {
        let list: [&[u64]; 4] = [
            &[2, 50, 50, 100, 2],
            &[2, 51, 50, 100, 2],
            &[2, 50, 50, 100, 1],
            &[2, 50, 50, 100, 0],
        ];
        let sheet = sheet(ORDINARY, &LOANS);
        let after = |steps: usize| moved(&case(sheet.clone(), &list[..steps]));
        let charge = AmendedFeature::ChargeOfSa;
        assert_eq!(after(1), [AmendedFeature::UnknownAtLimit, charge]);
        let [approach, again] = [AmendedFeature::ApproachMoved, AmendedFeature::RowAgain];
        assert_eq!(after(2), [AmendedFeature::UnknownAbove, charge, approach, again]);
        assert_eq!(after(3), [AmendedFeature::UnknownWithin, charge, approach, again]);
        assert_eq!(after(4), [charge, AmendedFeature::AsOpened, again]);
    }

    /// A tranche of no thickness is met, kept and left as the charge moves.
    #[test]
    fn thin_tranches_are_seen() {
        let pool = [[POOL_AMOUNT, POOL_AMOUNT, 1_250, 0]];
        let head = [&[4, 0, 0, 1, 1, 1][..], pool.as_flattened()].concat();
        let tranche = |amount, class| [amount, class, 36, 0, 0, 0, 0];
        let tranches = [tranche(1_000_000_000, 1), tranche(1, 2), tranche(1, 3)];
        let sheet = [&head[..], &[3], tranches.as_flattened()].concat();
        let list = [20, 30, 1_250].map(|weight| [1, POOL_AMOUNT, POOL_AMOUNT, weight, 0]);
        let after = |steps: usize| {
            let list: Vec<&[u64]> = list[..steps].iter().map(|words| &words[..]).collect();
            let mut case = case(sheet.clone(), &list);
            case.amended_rooms = [3 * LINE_WORDS; ROOMS];
            moved(&case)
        };
        assert!(after(1).contains(&AmendedFeature::ThinMet));
        assert!(after(2).contains(&AmendedFeature::ThinKept));
        assert!(after(3).contains(&AmendedFeature::ThinLeft));
    }

    /// The charge moves by deal: a mixed pool at the share and below it, a re-securitisation; that of an IRB pool stays.
    #[test]
    fn charges_are_seen() {
        let with_share = |kind, share| {
            let section = [1, 60_000, 450_000, 100, 0, share, 8_500];
            let sheet = [&sheet(&[kind, 0, 1, 1], &LOANS)[..], &section].concat();
            moved(&case(sheet, &[&[2, 50, 50, 300, 0]]))
        };
        assert!(with_share(2, 950_000).contains(&AmendedFeature::ChargeOfMixed));
        assert!(with_share(2, 949_999).contains(&AmendedFeature::ChargeBelowShare));
        assert!(with_share(1, 1_000_000).contains(&AmendedFeature::ChargeOfIrbKept));
        let of_tranches = sheet(&[0, 1, 1, 1], &[[100, 100, 100, 3]]);
        let shown = moved(&case(of_tranches, &[&[1, 100, 100, 50, 3]]));
        assert!(shown.contains(&AmendedFeature::ChargeOfResecuritisation));
    }

    /// Lines move by the nominal amount alone, or stay; and lists, facts, rows and dates are seen.
    #[test]
    fn lines_and_lists_are_seen() {
        let after = |list: &[&[u64]]| moved(&case(sheet(ORDINARY, &LOANS), list));
        let points = [AmendedFeature::LinesWithoutCharge, AmendedFeature::PointsMoved];
        assert_eq!(after(&[&[2, 50, 90, 100, 0]]), points);
        let kept = [AmendedFeature::LinesKept, AmendedFeature::RowKept];
        assert_eq!(after(&[&[2, 50, 50, 100, 0]]), kept[1..]);
        assert_eq!(after(&[&[2, 60, 50, 100, 0]]), kept[..1]);
        let late = [
            AmendedFeature::LinesKept,
            AmendedFeature::AfterRefused,
            AmendedFeature::Late,
        ];
        let mut list = vec![&[0][..]; 19];
        list.push(&[1, 940, 950, 100, 0]);
        assert_eq!(after(&list), late);
        let dated = sheet(&[0, 0, 0, 1, 0, 20_240_131], &[LOANS[0]; 51]);
        let shown = moved(&case(dated, &[&[51, 950, 950, 100, 0]]));
        let of_sheet = [
            AmendedFeature::RowKept,
            AmendedFeature::Dated,
            AmendedFeature::WithoutDiligence,
            AmendedFeature::Rows(51),
        ];
        assert_eq!(shown, of_sheet);
    }

    /// The row of an amendment: its words, its number and the row that it takes the place of.
    #[test]
    fn rows_are_seen() {
        let of = |amendment: &[u64]| row(&case(sheet(ORDINARY, &LOANS), &[amendment]));
        let ordinary = |code| AmendmentFeature::Status(DealKind::Ordinary, code);
        assert_eq!(
            of(&[1, 1, POOL_AMOUNT, 1_250, status::DELINQUENT]),
            [
                AmendmentFeature::Amount(RowWord::Exposure, 1),
                AmendmentFeature::Amount(RowWord::Nominal, POOL_AMOUNT),
                AmendmentFeature::Weight(unit::PERCENT, 1_250),
                ordinary(status::DELINQUENT),
                AmendmentFeature::StatusChange(status::PAYING, status::DELINQUENT),
                AmendmentFeature::FirstRow,
            ]
        );
        assert_eq!(
            of(&[2, 5, 5, 5, 0]),
            [ordinary(status::PAYING), AmendmentFeature::LastRow]
        );
        let parts = case(sheet(HUNDREDTHS, &[[1, 1, 0, 2]]), &[&[1, 2, 1, 3_750, 2]]);
        assert_eq!(
            row(&parts),
            [
                AmendmentFeature::Amount(RowWord::Nominal, 1),
                AmendmentFeature::PartPercent,
                ordinary(status::NOT_KNOWN),
                AmendmentFeature::UnknownExposure,
                AmendmentFeature::OnlyRow,
            ]
        );
        let full = case(
            sheet(ORDINARY, &vec![[2, 2, 2, 1]; ROWS as usize]),
            &[&[1_000, 2, 3, 2, 1]],
        );
        assert_eq!(
            row(&full),
            [
                ordinary(status::DELINQUENT),
                AmendmentFeature::LateNominal,
                AmendmentFeature::LastRow,
                AmendmentFeature::LastOfMost,
            ]
        );
    }

    /// The word for which an amendment is refused, by unit and kind of deal.
    #[test]
    fn refusals_are_seen() {
        let of = |facts: &[u64], amendment: &[u64]| {
            let rows = [[950, 950, 100, 3 * facts[1]], [50, 50, 100, 3 * facts[1]]];
            let (refusals, orders) = refused(&case(sheet(facts, &rows), &[amendment]));
            assert_eq!(orders, []);
            refusals
        };
        assert_eq!(of(ORDINARY, &[0, 1, 1, 0, 0]), [AmendmentRefusal::NumberZero]);
        assert_eq!(of(ORDINARY, &[3, 1, 1, 0, 0]), [AmendmentRefusal::NumberAfterLast]);
        assert_eq!(
            of(ORDINARY, &[1 << 32 | 2, 1, 1, 0, 0]),
            [AmendmentRefusal::NumberAbove32Bits]
        );
        let amount = |word, amount| [AmendmentRefusal::Amount(word, amount)];
        assert_eq!(of(ORDINARY, &[1, 0, 1, 0, 0]), amount(RowWord::Exposure, 0));
        assert_eq!(
            of(ORDINARY, &[1, 1, POOL_AMOUNT + 1, 0, 0]),
            amount(RowWord::Nominal, POOL_AMOUNT + 1)
        );
        let weight = |unit, word| [AmendmentRefusal::Weight(unit, word)];
        assert_eq!(of(ORDINARY, &[1, 1, 1, 1_251, 0]), weight(unit::PERCENT, 1_251));
        assert_eq!(of(HUNDREDTHS, &[1, 1, 1, 1_251, 3]), status_of(DealKind::Ordinary, 3));
        assert_eq!(
            of(HUNDREDTHS, &[1, 1, 1, 125_001, 0]),
            weight(unit::HUNDREDTHS, 125_001)
        );
        assert_eq!(of(&[0, 0, 1, 1, 1], &[1, 1, 1, 0, 4]), status_of(DealKind::Stc, 4));
        for code in [0, 1, 2, 4, 5] {
            let shown = of(&[0, 1, 1, 1], &[1, 1, 1, 0, code]);
            assert_eq!(shown, status_of(DealKind::Resecuritisation, code));
        }
    }

    /// The feature of a status that is refused.
    fn status_of(kind: DealKind, code: u64) -> [AmendmentRefusal; 1] {
        [AmendmentRefusal::Status(kind, code)]
    }

    /// Which of several faults decides.
    #[test]
    fn orders_are_seen() {
        let of = |amendment: &[u64]| refused(&case(sheet(ORDINARY, &LOANS), &[amendment])).1;
        for length in 0..5 {
            assert_eq!(of(&[1, 1, 1, 0, 0][..length]), [AmendmentOrder::Missing(length)]);
        }
        assert_eq!(of(&[1, 1, 1, 0, 0, 0]), [AmendmentOrder::OneFollows]);
        assert_eq!(of(&[1, 1, 1, 0, 0, 0, 0]), [AmendmentOrder::MoreFollow]);
        assert_eq!(of(&[1, 0]), [AmendmentOrder::BadBeforeMissing(1)]);
        assert_eq!(of(&[1, 1, 0, 0, 0, 0]), [AmendmentOrder::BadBeforeFollowing(2)]);
        assert_eq!(of(&[1, 1, 1, 1_251, 3]), [AmendmentOrder::BadBeforeBad(3)]);
        assert_eq!(
            of(&[0, 0]),
            [AmendmentOrder::BadBeforeMissing(0), AmendmentOrder::BadBeforeBad(0)]
        );
    }

    /// A refusal after a change, and after another refusal.
    #[test]
    fn refusals_in_a_list_are_seen() {
        let of = |list: &[&[u64]]| refused(&case(sheet(ORDINARY, &LOANS), list)).0;
        let change: &[u64] = &[1, 1, 1, 0, 0];
        let missing: &[u64] = &[1];
        assert_eq!(of(&[missing]), []);
        assert_eq!(of(&[change, missing]), [AmendmentRefusal::AfterAmended]);
        let both = [AmendmentRefusal::AfterAmended, AmendmentRefusal::AfterRefused];
        assert_eq!(of(&[change, missing, missing]), both);
        assert_eq!(of(&[missing, missing]), both[1..]);
    }

    /// The room for the lines of one tranche, and of two.
    #[test]
    fn rooms_are_seen() {
        let one = stages(&case(sheet(ORDINARY, &LOANS), &[]));
        let of = |room| {
            let features = OpenedRoom::TABLE.map(|(feature, _)| feature).into_iter();
            features
                .filter(|feature| feature.shown(&one[0], room))
                .collect::<Vec<_>>()
        };
        assert_eq!(of(LINE_WORDS), [OpenedRoom::Exact]);
        assert_eq!(of(LINE_WORDS + 1), [OpenedRoom::Spare]);
        assert_eq!(of(LINE_WORDS - 1), [OpenedRoom::OneLess]);
        assert_eq!(of(0), [OpenedRoom::Nothing]);
    }
}
