//! What a run went through, counted, and what of it must occur for the run to count as one.

use crate::amendment_tally::AmendmentTally;
use crate::answer::{refusal, Approach, LineWord, LINE_WORDS};
use crate::block_feature::{AskedBlock, BlockFeature, BlockRowFeature};
use crate::case::Case;
use crate::conversion::Asking;
use crate::conversion_feature::{ConversionFeature, ConversionRefusal, Converting};
use crate::date_feature::{DateFeature, DatedLineFeature};
use crate::inferred_feature::{InferredFeature, InferredRefusal, UntakenFeature};
use crate::irb_feature::{
    is_under_irba, parameter_names, parameter_place, IrbFeature, IrbLineFeature, IrbRefusal, PARAMETERS,
};
use crate::kind::{File, Kind, Output, Relation, Room};
use crate::law_feature::{LawFeature, Rerated};
use crate::least_feature::LeastFeature;
use crate::lent::Lent;
use crate::line_feature::{Feature, StcFeature};
use crate::rating_feature::RatingFeature;
use crate::seen::{DealKind, Seen};
use crate::sheet::{status, Layout, RowWord, LONG_TERM, SHORT_TERM};
use crate::sheet_feature::{FileFeature, RoomFeature, SheetFeature};
use crate::sought::{Sought, Tranches};
use crate::unit_feature::{UnitFeature, UnitRefusal};
use independent::{Deal, Refusal};
use std::fmt;

/// How many long-term grades there are.
const LONG_TERM_GRADES: u64 = LONG_TERM.1 - LONG_TERM.0 + 1;
/// How many grades there are.
const GRADES: usize = (LONG_TERM_GRADES + SHORT_TERM.1 - SHORT_TERM.0 + 1) as usize;

/// The columns by which grades are counted: the rating tables, each for class 1 and for the classes below, at one year,
/// between and at five years. At one year and at five years one figure of a long-term row is read for class 1, and below
/// it one beside the senior figure, so that each figure of both tables is read; the floor or the senior figure may still
/// be what counts.
const COLUMNS: [&str; 12] = [
    "ordinary, senior, 1 year",
    "ordinary, senior, between",
    "ordinary, senior, 5 years",
    "ordinary, non-senior, 1 year",
    "ordinary, non-senior, between",
    "ordinary, non-senior, 5 years",
    "STC, senior, 1 year",
    "STC, senior, between",
    "STC, senior, 5 years",
    "STC, non-senior, 1 year",
    "STC, non-senior, between",
    "STC, non-senior, 5 years",
];

/// How far apart the rules alone let weight and least weight be.
const FARTHEST_APART: usize = 3;

/// The place of a grade among all grades, the long-term ones first.
fn grade_place(code: u64) -> usize {
    let place = match code <= LONG_TERM.1 {
        true => code - LONG_TERM.0,
        false => LONG_TERM_GRADES + code - SHORT_TERM.0,
    };
    place as usize
}

/// The column of a line under SEC-ERBA, by the mark of its deal, its seniority and its months.
fn column(stc: bool, senior: bool, months: u64) -> usize {
    let maturity = match months {
        ..=12 => 0,
        13..=71 => 1,
        72.. => 2,
    };
    6 * usize::from(stc) + 3 * usize::from(!senior) + maturity
}

/// Adds counts to others, place by place.
pub fn add(counts: &mut [u64], others: &[u64]) {
    counts.iter_mut().zip(others).for_each(|(one, two)| *one += two);
}

/// The names of the counts that must occur, in the order of [`Tally::counts`].
fn names() -> Vec<String> {
    let mut names = Vec::new();
    names.extend(Kind::TABLE.map(|(_, name, _)| format!("kind: {name}")));
    names.extend(Room::TABLE.map(|(_, name, _)| format!("room: {name}")));
    names.extend(Output::TABLE.map(|(_, name, _)| format!("output: {name}")));
    names.extend(File::TABLE.map(|(_, name, _)| format!("file: {name}")));
    names.extend(Relation::TABLE.map(|(_, name, _)| format!("second sheet: {name}")));
    names.extend(LawFeature::TABLE.map(|(_, name)| name.to_string()));
    names.push("accepted".to_string());
    names.extend(refusal::MET.iter().map(|number| format!("refusal {number}")));
    names.extend(SheetFeature::TABLE.map(|(_, name)| name.to_string()));
    names.extend(RoomFeature::TABLE.map(|(_, name)| name.to_string()));
    names.extend(DateFeature::TABLE.map(|(_, name)| name.to_string()));
    names.extend(IrbRefusal::TABLE.map(|(_, name)| name.to_string()));
    names.extend(InferredRefusal::TABLE.map(|(_, name)| name.to_string()));
    names.extend(UnitRefusal::TABLE.map(|(_, name)| name.to_string()));
    names.extend(IrbFeature::TABLE.map(|(_, name)| name.to_string()));
    names.extend(UnitFeature::TABLE.map(|(_, name)| name.to_string()));
    names.extend(Approach::TABLE.iter().map(|(_, name)| format!("lines: {name}")));
    let statuses = status::TABLE.iter();
    names.extend(statuses.map(|(code, name)| format!("accepted with status {code}, {name}")));
    names.extend(Feature::TABLE.map(|(_, name)| name.to_string()));
    names.extend(StcFeature::TABLE.map(|(_, name)| name.to_string()));
    names.extend(RatingFeature::TABLE.map(|(_, name)| name.to_string()));
    names.extend(DatedLineFeature::TABLE.map(|(_, name)| name.to_string()));
    names.extend(IrbLineFeature::TABLE.map(|(_, name)| name.to_string()));
    names.extend(LeastFeature::TABLE.map(|(_, name)| name.to_string()));
    names.extend(InferredFeature::TABLE.map(|(_, name)| name.to_string()));
    names.extend(UntakenFeature::TABLE.map(|(_, name)| name.to_string()));
    names.extend(parameter_names());
    names.extend(COLUMNS.map(|name| format!("lines: rarest grade, {name}")));
    names.extend(FileFeature::TABLE.map(|(_, name)| name.to_string()));
    names.extend(BlockRowFeature::TABLE.map(|(_, name)| name.to_string()));
    names.extend(BlockFeature::TABLE.map(|(_, name)| name.to_string()));
    names.extend(ConversionFeature::TABLE.map(|(_, name)| name.to_string()));
    names.extend(ConversionRefusal::TABLE.map(|(_, name)| name.to_string()));
    names.extend(AmendmentTally::names());
    names
}

/// The counts of a run.
#[derive(Debug, Clone, Default, PartialEq, Eq)]
pub struct Tally {
    /// Sheets of each kind.
    pub kinds: [u64; Kind::TABLE.len()],
    /// Sheets with each sort of room.
    pub rooms: [u64; Room::TABLE.len()],
    /// Sheets with each sort of output that is drawn.
    pub outputs: [u64; Output::TABLE.len()],
    /// Sheets with each sort of file.
    pub files: [u64; File::TABLE.len()],
    /// Sheets with each sort of second sheet, where it was compared.
    pub relations: [u64; Relation::TABLE.len()],
    /// Lines of second sheets with other ratings that show each feature.
    pub law_features: [u64; LawFeature::TABLE.len()],
    /// Accepted sheets.
    pub accepted: u64,
    /// Refusals, in the order of their list: of a bad length, files; of a risk weight that is no whole percent, conversions;
    /// else sheets.
    pub refusals: [u64; refusal::MET.len()],
    /// Sheets that show each feature.
    pub sheet_features: [u64; SheetFeature::TABLE.len()],
    /// Sheets whose room for results shows each feature.
    pub room_features: [u64; RoomFeature::TABLE.len()],
    /// Refused sheets whose dates show each feature.
    pub date_features: [u64; DateFeature::TABLE.len()],
    /// Refused sheets whose pool kind or IRB section shows each feature.
    pub irb_refusals: [u64; IrbRefusal::TABLE.len()],
    /// Sheets refused for a tranche without thickness whose ratings show each feature.
    pub inferred_refusals: [u64; InferredRefusal::TABLE.len()],
    /// Refused sheets whose unit or risk weight shows each feature.
    pub unit_refusals: [u64; UnitRefusal::TABLE.len()],
    /// Accepted sheets whose pool kind and IRB section show each feature.
    pub irb_features: [u64; IrbFeature::TABLE.len()],
    /// Accepted sheets whose unit and risk weights show each feature.
    pub unit_features: [u64; UnitFeature::TABLE.len()],
    /// Lines by approach.
    pub approaches: [u64; Approach::TABLE.len()],
    /// Accepted sheets with a row of each status.
    pub statuses: [u64; status::TABLE.len()],
    /// Lines that show each feature; sheets, for the cap that decided and for the unknown exposure.
    pub features: [u64; Feature::TABLE.len()],
    /// Lines of STC deals that show each feature; sheets, for the cap that decided.
    pub stc_features: [u64; StcFeature::TABLE.len()],
    /// Lines whose ratings show each feature.
    pub rating_features: [u64; RatingFeature::TABLE.len()],
    /// Lines whose dates show each feature.
    pub dated_line_features: [u64; DatedLineFeature::TABLE.len()],
    /// Lines that show each feature by the IRB section.
    pub irb_line_features: [u64; IrbLineFeature::TABLE.len()],
    /// Lines whose weight and least weight show each feature.
    pub least_features: [u64; LeastFeature::TABLE.len()],
    /// Lines with the ratings of another tranche that show each feature.
    pub inferred_features: [u64; InferredFeature::TABLE.len()],
    /// Lines beside rated tranches, without the ratings of another, that show each feature.
    pub untaken_features: [u64; UntakenFeature::TABLE.len()],
    /// Lines under SEC-IRBA whose weight the exponentials decide, by row of coefficients, deal and least parameter.
    pub parameters: [u64; PARAMETERS],
    /// Lines whose weight one grade gives, by column and grade.
    pub grades: [[u64; GRADES]; COLUMNS.len()],
    /// Files that show each feature.
    pub file_features: [u64; FileFeature::TABLE.len()],
    /// Blocks whose rows show each feature.
    pub block_row_features: [u64; BlockRowFeature::TABLE.len()],
    /// Blocks that show each feature.
    pub block_features: [u64; BlockFeature::TABLE.len()],
    /// Conversions that are written and show each feature.
    pub conversion_features: [u64; ConversionFeature::TABLE.len()],
    /// Conversions that are refused and show each feature.
    pub conversion_refusals: [u64; ConversionRefusal::TABLE.len()],
    /// What is of opened pools.
    pub amended: AmendmentTally,
    /// Lines with two admitted weights where the higher one is taken.
    pub higher_taken: u64,
    /// Lines with two admitted least weights where the lower one is taken.
    pub lower_taken: u64,
    /// Lines under the formula with weight and least weight one, two and three apart, the most that is admitted. How far
    /// apart they are is the library's choice among the admitted numbers: none of the three need occur.
    pub apart: [u64; FARTHEST_APART],
}

impl Tally {
    /// Notes a sheet whose answers were found equal.
    pub fn note(&mut self, case: &Case, answer: &Result<Deal, Refusal>, lent: &Lent) {
        self.kinds[case.kind as usize] += 1;
        self.rooms[case.room_kind as usize] += 1;
        self.files[case.file_kind as usize] += 1;
        for (count, (feature, _)) in self.sheet_features.iter_mut().zip(SheetFeature::TABLE) {
            *count += u64::from(feature.shown(&case.sheet, answer));
        }
        for (count, (feature, _)) in self.room_features.iter_mut().zip(RoomFeature::TABLE) {
            *count += u64::from(feature.shown(&case.sheet, case.room, answer));
        }
        match answer {
            Ok(deal) => {
                self.accepted += 1;
                self.note_pool(&case.sheet, deal);
                self.note_section(&case.sheet, deal);
                self.note_unit(&case.sheet, deal);
                self.note_lines(&case.sheet, deal, lent);
            }
            Err(refused) => {
                self.refusals[refusal::place(refused.number)] += 1;
                self.note_refused(&case.sheet, refused);
            }
        }
    }

    /// Notes what the dates, the pool kind, the IRB section, the ratings, the unit and the risk weights of a refused sheet
    /// show.
    fn note_refused(&mut self, sheet: &[u64], refused: &Refusal) {
        for (count, (feature, _)) in self.date_features.iter_mut().zip(DateFeature::TABLE) {
            *count += u64::from(feature.shown(sheet, refused));
        }
        for (count, (feature, _)) in self.irb_refusals.iter_mut().zip(IrbRefusal::TABLE) {
            *count += u64::from(feature.shown(sheet, refused));
        }
        for (count, (feature, _)) in self.inferred_refusals.iter_mut().zip(InferredRefusal::TABLE) {
            *count += u64::from(feature.shown(sheet, refused));
        }
        for (count, (feature, _)) in self.unit_refusals.iter_mut().zip(UnitRefusal::TABLE) {
            *count += u64::from(feature.shown(sheet, refused));
        }
    }

    /// Notes what the pool kind and the IRB section of an accepted sheet show.
    fn note_section(&mut self, sheet: &[u64], deal: &Deal) {
        for (count, (feature, _)) in self.irb_features.iter_mut().zip(IrbFeature::TABLE) {
            *count += u64::from(feature.shown(sheet, deal));
        }
    }

    /// Notes what the unit and the risk weights of an accepted sheet show.
    fn note_unit(&mut self, sheet: &[u64], deal: &Deal) {
        for (count, (feature, _)) in self.unit_features.iter_mut().zip(UnitFeature::TABLE) {
            *count += u64::from(feature.shown(sheet, deal));
        }
    }

    /// Notes the pool of an accepted sheet: which statuses it has, and whether the unknown exposure is 5% of all
    /// ("Points and pool charge") in a deal that is not under SEC-IRBA, where statuses play no part.
    fn note_pool(&mut self, sheet: &[u64], deal: &Deal) {
        let [mut exposures, mut present] = [[0; status::TABLE.len()]; 2];
        for row in Layout::of_sheet(sheet).pool(sheet) {
            let code = row[RowWord::Status as usize] as usize;
            exposures[code] += row[RowWord::Exposure as usize];
            present[code] = 1;
        }
        add(&mut self.statuses, &present);
        let at_limit = 20 * exposures[status::NOT_KNOWN as usize] == exposures.iter().sum::<u64>();
        self.features[Feature::UnknownAtLimit as usize] += u64::from(at_limit && !is_under_irba(deal));
    }

    /// Notes the lines of an accepted sheet, with the words that were written.
    fn note_lines(&mut self, sheet: &[u64], deal: &Deal, lent: &Lent) {
        let tranches = Tranches::of(sheet);
        for (tranche, words) in lent.lines(deal.lines.len() as u64).iter().enumerate() {
            let seen = Seen::new(sheet, deal, tranche);
            self.approaches[seen.line.approach as usize] += 1;
            self.note_seen(&seen);
            self.note_ends(&seen, words);
            self.note_sought(tranches.sought(tranche), &seen, deal);
        }
    }

    /// Notes what a line shows by the ratings that its tranche takes, or does not take.
    fn note_sought(&mut self, sought: Sought, seen: &Seen, deal: &Deal) {
        for (count, (feature, _)) in self.inferred_features.iter_mut().zip(InferredFeature::TABLE) {
            *count += u64::from(feature.shown(sought, seen, deal));
        }
        for (count, (feature, _)) in self.untaken_features.iter_mut().zip(UntakenFeature::TABLE) {
            *count += u64::from(feature.shown(sought, seen));
        }
    }

    /// Notes what a line shows by its weight and its least weight, which of two admitted ones were written, and how far
    /// apart those are.
    fn note_ends(&mut self, seen: &Seen, words: &[u64; LINE_WORDS]) {
        let [weight, least_weight] = [LineWord::Weight, LineWord::LeastWeight].map(|word| words[word as usize]);
        for (count, (feature, _)) in self.least_features.iter_mut().zip(LeastFeature::TABLE) {
            *count += u64::from(feature.shown(seen, weight - least_weight));
        }
        self.higher_taken += u64::from(weight > seen.weight());
        self.lower_taken += u64::from(seen.two_least_weights() && least_weight == seen.least_weight());
        let under_formula = seen.is(Approach::SecSa) || seen.is(Approach::SecIrba);
        for (count, apart) in self.apart.iter_mut().zip(1..) {
            *count += u64::from(under_formula && weight - least_weight == apart);
        }
    }

    /// Notes what a line shows.
    fn note_seen(&mut self, seen: &Seen) {
        for (count, (feature, _)) in self.features.iter_mut().zip(Feature::TABLE) {
            *count += u64::from(feature.shown(seen));
        }
        for (count, (feature, _)) in self.stc_features.iter_mut().zip(StcFeature::TABLE) {
            *count += u64::from(feature.shown(seen));
        }
        for (count, (feature, _)) in self.rating_features.iter_mut().zip(RatingFeature::TABLE) {
            *count += u64::from(feature.shown(seen));
        }
        for (count, (feature, _)) in self.dated_line_features.iter_mut().zip(DatedLineFeature::TABLE) {
            *count += u64::from(feature.shown(seen));
        }
        for (count, (feature, _)) in self.irb_line_features.iter_mut().zip(IrbLineFeature::TABLE) {
            *count += u64::from(feature.shown(seen));
        }
        if let Some(place) = parameter_place(seen) {
            self.parameters[place] += 1;
        }
        if let Some((code, months)) = seen.grade() {
            let column = column(seen.kind == DealKind::Stc, seen.senior, months);
            self.grades[column][grade_place(code)] += 1;
        }
    }

    /// Notes a file whose answers were found equal. Of its refusals, that of its length alone is counted by its number.
    pub fn note_file(&mut self, file: &[u8], answer: &Result<Deal, Refusal>) {
        if let Err(Refusal {
            number: refusal::FILE_LENGTH,
            ..
        }) = answer
        {
            self.refusals[refusal::place(refusal::FILE_LENGTH)] += 1;
        }
        for (count, (feature, _)) in self.file_features.iter_mut().zip(FileFeature::TABLE) {
            *count += u64::from(feature.shown(file, answer));
        }
    }

    /// Notes the blocks of these numbers of a sheet whose lines have this answer. Their sums were found equal.
    pub fn note_blocks(&mut self, sheet: &[u64], answer: &Result<Deal, Refusal>, numbers: &[u64]) {
        for &number in numbers {
            let asked = AskedBlock::new(sheet, answer, number);
            for (count, (feature, _)) in self.block_row_features.iter_mut().zip(BlockRowFeature::TABLE) {
                *count += u64::from(feature.shown(&asked));
            }
            for (count, (feature, _)) in self.block_features.iter_mut().zip(BlockFeature::TABLE) {
                *count += u64::from(feature.shown(&asked));
            }
        }
    }

    /// Notes the conversions of a sheet whose lines have this answer. What was written was found equal, and so were the
    /// answers in both units. Of their refusals, that of a risk weight that is no whole percent alone is counted by its
    /// number.
    pub fn note_conversions(&mut self, case: &Case, answer: &Result<Deal, Refusal>, askings: &[Asking]) {
        self.outputs[case.output_kind as usize] += 1;
        for asking in askings {
            let not_whole = asking.due().number == refusal::NOT_WHOLE_PERCENT;
            self.refusals[refusal::place(refusal::NOT_WHOLE_PERCENT)] += u64::from(not_whole);
            let converting = Converting::new(&case.sheet, answer, asking);
            for (count, (feature, _)) in self.conversion_features.iter_mut().zip(ConversionFeature::TABLE) {
                *count += u64::from(feature.shown(&converting));
            }
            for (count, (feature, _)) in self.conversion_refusals.iter_mut().zip(ConversionRefusal::TABLE) {
                *count += u64::from(feature.shown(&converting));
            }
        }
    }

    /// Notes that a second sheet was compared.
    pub fn note_second(&mut self, relation: Relation) {
        self.relations[relation as usize] += 1;
    }

    /// Notes what the lines of two sheets show that differ in ratings.
    pub fn note_law(&mut self, rerated: &Rerated) {
        for number in 0..rerated.lines() {
            for (count, (feature, _)) in self.law_features.iter_mut().zip(LawFeature::TABLE) {
                *count += u64::from(feature.shown(rerated, number));
            }
        }
    }

    /// Notes that the cap decided some line of a sheet with this answer. SEC-IRBA is counted apart.
    pub fn note_cap(&mut self, sheet: &[u64], deal: &Deal) {
        for (count, (feature, _)) in self.unit_features.iter_mut().zip(UnitFeature::TABLE) {
            *count += u64::from(feature.shown_by_cap(sheet, deal));
        }
        if is_under_irba(deal) {
            self.irb_features[IrbFeature::CapDecided as usize] += 1;
            return;
        }
        self.features[Feature::CapDecided as usize] += 1;
        let stc = DealKind::of_sheet(sheet) == DealKind::Stc;
        self.stc_features[StcFeature::CapDecided as usize] += u64::from(stc);
    }

    /// Adds another tally's counts.
    pub fn add(&mut self, other: &Tally) {
        add(&mut self.kinds, &other.kinds);
        add(&mut self.rooms, &other.rooms);
        add(&mut self.outputs, &other.outputs);
        add(&mut self.files, &other.files);
        add(&mut self.relations, &other.relations);
        add(&mut self.law_features, &other.law_features);
        self.accepted += other.accepted;
        add(&mut self.refusals, &other.refusals);
        add(&mut self.sheet_features, &other.sheet_features);
        add(&mut self.room_features, &other.room_features);
        add(&mut self.date_features, &other.date_features);
        add(&mut self.irb_refusals, &other.irb_refusals);
        add(&mut self.inferred_refusals, &other.inferred_refusals);
        add(&mut self.unit_refusals, &other.unit_refusals);
        add(&mut self.irb_features, &other.irb_features);
        add(&mut self.unit_features, &other.unit_features);
        add(&mut self.approaches, &other.approaches);
        add(&mut self.statuses, &other.statuses);
        add(&mut self.features, &other.features);
        add(&mut self.stc_features, &other.stc_features);
        add(&mut self.rating_features, &other.rating_features);
        add(&mut self.dated_line_features, &other.dated_line_features);
        add(&mut self.irb_line_features, &other.irb_line_features);
        add(&mut self.least_features, &other.least_features);
        add(&mut self.inferred_features, &other.inferred_features);
        add(&mut self.untaken_features, &other.untaken_features);
        add(&mut self.parameters, &other.parameters);
        add(self.grades.as_flattened_mut(), other.grades.as_flattened());
        add(&mut self.file_features, &other.file_features);
        add(&mut self.block_row_features, &other.block_row_features);
        add(&mut self.block_features, &other.block_features);
        add(&mut self.conversion_features, &other.conversion_features);
        add(&mut self.conversion_refusals, &other.conversion_refusals);
        self.amended.add(&other.amended);
        self.higher_taken += other.higher_taken;
        self.lower_taken += other.lower_taken;
        add(&mut self.apart, &other.apart);
    }

    /// The counts of what must occur, in the order of their names.
    fn counts(&self) -> Vec<u64> {
        let rarest_grades = self.grades.map(|counts| counts.into_iter().min().unwrap_or(0));
        let groups: &[&[u64]] = &[
            &self.kinds,
            &self.rooms,
            &self.outputs,
            &self.files,
            &self.relations,
            &self.law_features,
            &[self.accepted],
            &self.refusals,
            &self.sheet_features,
            &self.room_features,
            &self.date_features,
            &self.irb_refusals,
            &self.inferred_refusals,
            &self.unit_refusals,
            &self.irb_features,
            &self.unit_features,
            &self.approaches,
            &self.statuses,
            &self.features,
            &self.stc_features,
            &self.rating_features,
            &self.dated_line_features,
            &self.irb_line_features,
            &self.least_features,
            &self.inferred_features,
            &self.untaken_features,
            &self.parameters,
            &rarest_grades,
            &self.file_features,
            &self.block_row_features,
            &self.block_features,
            &self.conversion_features,
            &self.conversion_refusals,
            &self.amended.counts(),
        ];
        groups.concat()
    }

    /// All counts with their names, each with whether it must occur.
    fn named(&self) -> Vec<(String, u64, bool)> {
        let must = names().into_iter().zip(self.counts());
        let mut named: Vec<_> = must.map(|(name, count)| (name, count, true)).collect();
        let [one, two, three] = self.apart;
        let printed = [
            ("lines: the higher of two weights taken", self.higher_taken),
            ("lines: the lower of two least weights taken", self.lower_taken),
            ("lines: formula's ends one apart", one),
            ("lines: formula's ends two apart", two),
            ("lines: formula's ends three apart", three),
        ];
        named.extend(printed.map(|(name, count)| (name.to_string(), count, false)));
        named
    }

    /// The names of what must occur and did not.
    pub fn missing(&self) -> Vec<String> {
        let missing = self.named().into_iter().filter(|(_, count, must)| *must && *count == 0);
        missing.map(|(name, _, _)| name).collect()
    }
}

impl fmt::Display for Tally {
    /// Prints each count with its name, a line each.
    fn fmt(&self, to: &mut fmt::Formatter<'_>) -> fmt::Result {
        for (name, count, _) in self.named() {
            writeln!(to, "{name:<50} {count:>12}")?;
        }
        Ok(())
    }
}

#[cfg(test)]
mod tests {
    use super::*;
    use crate::conversion::askings;
    use crate::least_feature::Ends;
    use crate::sheet::{pool_kind, Fact, Irb, Row, Tranche, FILE_BYTES, WHOLE, WORD_BYTES};

    /// Each grade has a place of its own, in the order of the codes.
    #[test]
    fn grades_have_their_places() {
        let codes = (LONG_TERM.0..=LONG_TERM.1).chain(SHORT_TERM.0..=SHORT_TERM.1);
        let places: Vec<usize> = codes.map(grade_place).collect();
        assert_eq!(places, (0..GRADES).collect::<Vec<_>>());
    }

    /// Each table, seniority and maturity has a column of its own, in the order of the names: one year reaches to 12
    /// months, five years begin at 72.
    #[test]
    fn lines_have_their_columns() {
        let lines = [(false, true), (false, false), (true, true), (true, false)];
        let at = |(stc, senior)| [1, 12, 13, 71, 72, 1_200].map(|months| column(stc, senior, months));
        let expected: Vec<usize> = (0..COLUMNS.len()).flat_map(|column| [column; 2]).collect();
        assert_eq!(lines.map(at).as_flattened(), expected);
    }

    /// A file counts by its answer and by its length; a refused length counts as 15 and by its length alone.
    #[test]
    fn files_are_counted() {
        let counts = |length, number| {
            let answer = match number {
                0 => Ok(Deal {
                    charge: 0,
                    lines: Vec::new(),
                }),
                _ => Err(Refusal { number, place: 0 }),
            };
            let mut tally = Tally::default();
            tally.note_file(&vec![0; length], &answer);
            (
                tally.file_features,
                tally.refusals[refusal::place(refusal::FILE_LENGTH)],
            )
        };
        assert_eq!(counts(144, 0), ([1, 0, 0, 0, 0, 0, 0], 0));
        assert_eq!(counts(0, 1), ([0, 1, 0, 0, 0, 0, 0], 0));
        assert_eq!(counts(FILE_BYTES, 0), ([1, 0, 0, 0, 1, 1, 0], 0));
        assert_eq!(counts(FILE_BYTES, refusal::THIN), ([0, 1, 0, 0, 1, 0, 0], 0));
        assert_eq!(counts(144, refusal::ROOM), ([0, 0, 1, 0, 0, 0, 0], 0));
        let (shorter, longer) = (FILE_BYTES - 1, FILE_BYTES + WORD_BYTES);
        assert_eq!(counts(shorter, refusal::FILE_LENGTH), ([0, 0, 0, 1, 0, 0, 0], 1));
        assert_eq!(counts(longer, refusal::FILE_LENGTH), ([0, 0, 0, 0, 0, 0, 1], 1));
    }

    /// Each count that must occur has a name.
    #[test]
    fn counts_follow_their_names() {
        assert_eq!(names().len(), Tally::default().counts().len());
    }

    /// The counts of statuses and of an unknown exposure of 5% after one sheet with due diligence, whose pool is of this
    /// kind and has rows of these exposures and statuses.
    fn pool_counts(kind: u64, rows: &[(u64, u64)]) -> ([u64; status::TABLE.len()], u64) {
        let mut deal = crate::sheet::Deal::default();
        deal.facts[Fact::PoolKind] = kind;
        deal.facts[Fact::Resecuritisation] = u64::from(rows[0].1 == status::TRANCHE);
        deal.facts[Fact::DueDiligence] = 1;
        deal.rows.extend(rows.iter().map(|&(exposure, status)| Row {
            exposure,
            nominal: 1,
            risk_weight: 100,
            status,
        }));
        deal.tranches.push(Tranche::LEAST);
        deal.irb = Irb {
            loans: 1,
            share: WHOLE,
            ..Irb::default()
        };
        let mut sheet = Vec::new();
        deal.write(&mut sheet);
        let answer = independent::weigh(&sheet, LINE_WORDS as u64).expect("an accepted sheet");
        let mut tally = Tally::default();
        tally.note_pool(&sheet, &answer);
        (tally.statuses, tally.features[Feature::UnknownAtLimit as usize])
    }

    /// A status counts once for a sheet; the unknown exposure counts at 5% and neither above nor below it, and not
    /// under SEC-IRBA.
    #[test]
    fn pools_are_counted() {
        let at_limit = [(90, 0), (3, 2), (5, 1), (2, 2)];
        assert_eq!(pool_counts(pool_kind::SA, &at_limit), ([1, 1, 1, 0], 1));
        assert_eq!(pool_counts(pool_kind::IRB, &at_limit), ([1, 1, 1, 0], 0));
        assert_eq!(pool_counts(pool_kind::SA, &[(95, 0), (6, 2)]), ([1, 0, 1, 0], 0));
        assert_eq!(pool_counts(pool_kind::SA, &[(96, 1), (5, 2)]), ([0, 1, 1, 0], 0));
        assert_eq!(pool_counts(pool_kind::SA, &[(100, 3), (1, 3)]), ([0, 0, 0, 1], 0));
    }

    /// An empty run misses every count but the five that are only printed, and each count that occurs is no longer
    /// missed.
    #[test]
    fn missing_names_each_count_that_is_zero() {
        let mut tally = Tally::default();
        let all = tally.named().len() - 5;
        assert_eq!(tally.missing().len(), all);
        tally.refusals[refusal::place(refusal::THIN)] = 1;
        tally.grades[0] = [1; GRADES];
        tally.grades[1][1..].fill(1);
        tally.features[Feature::CapDecided as usize] = 1;
        tally.stc_features[StcFeature::CapDecided as usize] = 1;
        tally.irb_features[IrbFeature::CapDecided as usize] = 1;
        tally.least_features[LeastFeature::Ends(Approach::Fallback, Ends::Any).place()] = 1;
        tally.room_features[RoomFeature::OneLessEach as usize] = 1;
        tally.block_row_features[0] = 1;
        tally.block_features[BlockFeature::TABLE.len() - 1] = 1;
        tally.outputs[Output::AsGiven as usize] = 1;
        tally.unit_refusals[0] = 1;
        tally.unit_features[UnitFeature::TABLE.len() - 1] = 1;
        tally.conversion_features[0] = 1;
        tally.conversion_refusals[ConversionRefusal::TABLE.len() - 1] = 1;
        let missing = tally.missing();
        let noted = [
            "refusal 13",
            "lines: rarest grade, ordinary, senior, 1 year",
            "sheets: cap decided",
            "STC sheets: cap decided",
            "SEC-IRBA: cap decided",
            "fallback ends: 125,000",
            "refusal 14 with one less for each tranche",
            "blocks: pool of 1 row",
            "blocks: refused by 3, past",
            "output: for the sheet as given",
            "refusal 4 for a seventh fact of 2",
            "hundredths: SEC-IRBA, cap decided",
            "conversion: 4 facts, to hundredths",
            "conversion: refusal 6 for 125,001",
        ];
        assert_eq!(missing.len(), all - noted.len());
        assert!(noted.iter().all(|name| !missing.contains(&name.to_string())));
    }

    /// Under the formula a line counts by how far apart its written ends are; by the table it does not.
    #[test]
    fn ends_are_counted() {
        let counts = |rating, apart| {
            let pool = [1, 1_000_000, 1_000_000, 125, 0];
            let sheet = [&[4, 0, 0, 1, 0], &pool[..], &[1, 800_000, 1, 13, 0, rating, 0, 0]].concat();
            let deal = independent::weigh(&sheet, LINE_WORDS as u64).expect("an accepted sheet");
            let seen = Seen::new(&sheet, &deal, 0);
            let mut words = [0; LINE_WORDS];
            words[LineWord::Weight as usize] = seen.weight();
            words[LineWord::LeastWeight as usize] = seen.weight() - apart;
            let mut tally = Tally::default();
            tally.note_ends(&seen, &words);
            tally.apart
        };
        let formula = [0, 1, 2, 3].map(|apart| counts(0, apart));
        assert_eq!(formula, [[0, 0, 0], [1, 0, 0], [0, 1, 0], [0, 0, 1]]);
        assert_eq!([0, 1].map(|apart| counts(1, apart)), [[0; 3]; 2]);
    }

    /// A sheet counts by its sort of output, and its conversions by 19 each.
    #[test]
    fn conversions_are_counted() {
        let sheet = |weight| {
            let facts = [7, 0, 0, 0, 0, 0, 0, 1];
            [&facts[..], &[1, 1, 1, weight, 0], &[1, 1, 1, 1, 0, 0, 0, 0]].concat()
        };
        let counts = |weight| {
            let mut case = Case::blank();
            case.sheet = sheet(weight);
            case.output_kind = Output::Nothing;
            let answer = independent::weigh(&case.sheet, LINE_WORDS as u64);
            let mut tally = Tally::default();
            tally.note_conversions(&case, &answer, &askings(&case));
            let refused = tally.refusals[refusal::place(refusal::NOT_WHOLE_PERCENT)];
            (tally.outputs, refused, tally.conversion_refusals[2])
        };
        let outputs = [0, 0, 0, 0, 0, 1];
        assert_eq!([150, 100].map(counts), [(outputs, 2, 0), (outputs, 0, 1)]);
    }

    /// A cap that decided counts by the deal: for an STC deal also as one, under SEC-IRBA apart from all others.
    #[test]
    fn caps_are_counted() {
        let counts = |pool_kind, stc, section: &[u64]| {
            let facts = [5, pool_kind, 0, 1, 1, stc];
            let sheet = [&facts[..], &[1, 1, 1, 1, 0], &[1, 1, 1, 1, 0, 0, 0, 0], section].concat();
            let deal = independent::weigh(&sheet, LINE_WORDS as u64).expect("an accepted sheet");
            let mut tally = Tally::default();
            tally.note_cap(&sheet, &deal);
            [
                tally.features[Feature::CapDecided as usize],
                tally.stc_features[StcFeature::CapDecided as usize],
                tally.irb_features[IrbFeature::CapDecided as usize],
            ]
        };
        let section = |share| [1, 0, 0, 1, 0, share, 0];
        assert_eq!([0, 1].map(|stc| counts(0, stc, &[])), [[1, 0, 0], [1, 1, 0]]);
        assert_eq!([0, 1].map(|stc| counts(1, stc, &section(WHOLE))), [[0, 0, 1]; 2]);
        assert_eq!(counts(2, 1, &section(949_999)), [1, 1, 0]);
    }
}
