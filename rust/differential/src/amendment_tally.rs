//! What a run went through in opening and amending pools (S-10), counted. All of it must occur.

use crate::amended::{commute, Stage};
use crate::amended_feature::{AmendedFeature, OpenedRoom, Step};
use crate::amendment_feature::AmendmentFeature;
use crate::amendment_refusal::{AmendmentOrder, AmendmentRefusal};
use crate::answer::Approach;
use crate::case::Case;
use crate::kind::{Amendment, Amendments};
use crate::opening::Opening;
use crate::opening_feature::OpeningFeature;
use crate::tally::add;
use independent::{Deal, Refusal};

/// The counts of a run that are of opened pools.
#[derive(Debug, Clone, Default, PartialEq, Eq)]
pub struct AmendmentTally {
    /// Sheets with each length of a list of amendments.
    pub lists: [u64; Amendments::TABLE.len()],
    /// Amendments of each kind, of pools that are opened.
    pub kinds: [u64; Amendment::TABLE.len()],
    /// Sheets whose opening shows each feature.
    pub opening_features: [u64; OpeningFeature::TABLE.len()],
    /// Amendments refused for a word that show each feature.
    pub refusals: [u64; AmendmentRefusal::TABLE.len()],
    /// Amendments refused that show each order of faults.
    pub orders: [u64; AmendmentOrder::TABLE.len()],
    /// Accepted amendments whose row shows each feature.
    pub features: [u64; AmendmentFeature::TABLE.len()],
    /// Accepted amendments whose pool shows each feature.
    pub amended_features: [u64; AmendedFeature::TABLE.len()],
    /// Weighings of opened pools whose room shows each feature.
    pub rooms: [u64; OpenedRoom::TABLE.len()],
    /// Lines of amended pools by approach.
    pub approaches: [u64; Approach::TABLE.len()],
    /// Lists on sheets that are not opened.
    pub unopened: u64,
    /// Pairs of amendments that were made in the other order too.
    pub swapped: u64,
}

impl AmendmentTally {
    /// Notes the opening of a sheet whose lines have this answer. It was found equal.
    pub fn note_opening(&mut self, case: &Case, lines: &Result<Deal, Refusal>, opening: &Opening) {
        self.lists[case.list as usize] += 1;
        for (count, (feature, _)) in self.opening_features.iter_mut().zip(OpeningFeature::TABLE) {
            *count += u64::from(feature.shown(lines, opening, case.change.sum));
        }
    }

    /// Notes a list of amendments. All stages of the pool were found equal.
    pub fn note_stages(&mut self, case: &Case, stages: &[Stage]) {
        self.unopened += u64::from(stages.is_empty());
        self.swapped += u64::from(commute(case, stages));
        for stage in stages {
            self.note_rooms(case, stage);
        }
        for number in 1..stages.len() {
            self.kinds[case.amendment_kinds[number - 1] as usize] += 1;
            self.note_step(&Step::new(case, stages, number));
            if stages[number].refused.is_none() {
                self.note_lines(&stages[number]);
            }
        }
    }

    /// Notes the weighings of an opened pool.
    fn note_rooms(&mut self, case: &Case, stage: &Stage) {
        for room in case.amended_rooms {
            for (count, (feature, _)) in self.rooms.iter_mut().zip(OpenedRoom::TABLE) {
                *count += u64::from(feature.shown(stage, room));
            }
        }
    }

    /// Notes the lines of a pool that an amendment changed.
    fn note_lines(&mut self, stage: &Stage) {
        for line in stage.answer().iter().flat_map(|deal| &deal.lines) {
            self.approaches[line.approach as usize] += 1;
        }
    }

    /// Notes one amendment of an opened pool.
    fn note_step(&mut self, step: &Step) {
        for (count, (feature, _)) in self.refusals.iter_mut().zip(AmendmentRefusal::TABLE) {
            *count += u64::from(feature.shown(step));
        }
        for (count, (feature, _)) in self.orders.iter_mut().zip(AmendmentOrder::TABLE) {
            *count += u64::from(feature.shown(step));
        }
        for (count, (feature, _)) in self.features.iter_mut().zip(AmendmentFeature::TABLE) {
            *count += u64::from(feature.shown(step));
        }
        for (count, (feature, _)) in self.amended_features.iter_mut().zip(AmendedFeature::TABLE) {
            *count += u64::from(feature.shown(step));
        }
    }

    /// Adds another tally's counts.
    pub fn add(&mut self, other: &AmendmentTally) {
        add(&mut self.lists, &other.lists);
        add(&mut self.kinds, &other.kinds);
        add(&mut self.opening_features, &other.opening_features);
        add(&mut self.refusals, &other.refusals);
        add(&mut self.orders, &other.orders);
        add(&mut self.features, &other.features);
        add(&mut self.amended_features, &other.amended_features);
        add(&mut self.rooms, &other.rooms);
        add(&mut self.approaches, &other.approaches);
        self.unopened += other.unopened;
        self.swapped += other.swapped;
    }

    /// The names of the counts, in their order.
    pub fn names() -> Vec<String> {
        let mut names = Vec::new();
        names.extend(Amendments::TABLE.map(|(_, name, _)| format!("amendments: {name}")));
        names.extend(Amendment::TABLE.map(|(_, name, _)| format!("kind of amendment: {name}")));
        names.extend(OpeningFeature::TABLE.map(|(_, name)| name.to_string()));
        names.extend(AmendmentRefusal::TABLE.map(|(_, name)| name.to_string()));
        names.extend(AmendmentOrder::TABLE.map(|(_, name)| name.to_string()));
        names.extend(AmendmentFeature::TABLE.map(|(_, name)| name.to_string()));
        names.extend(AmendedFeature::TABLE.map(|(_, name)| name.to_string()));
        names.extend(OpenedRoom::TABLE.map(|(_, name)| name.to_string()));
        names.extend(Approach::TABLE.iter().map(|(_, name)| format!("amended lines: {name}")));
        names.push("amendments: of a sheet that is not opened".to_string());
        names.push("amendments: two in the other order".to_string());
        names
    }

    /// The counts, in the order of their names.
    pub fn counts(&self) -> Vec<u64> {
        let groups: &[&[u64]] = &[
            &self.lists,
            &self.kinds,
            &self.opening_features,
            &self.refusals,
            &self.orders,
            &self.features,
            &self.amended_features,
            &self.rooms,
            &self.approaches,
            &[self.unopened, self.swapped],
        ];
        groups.concat()
    }
}
