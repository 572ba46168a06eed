//! One sheet of a run with all that is done with it: its room for results, its file, a second sheet made from it, numbers
//! of blocks, the output for the sheet in the other unit, and amendments of its pool.

use crate::amendment;
use crate::answer::SUM_WORDS;
use crate::blocks;
use crate::damage;
use crate::dates;
use crate::inferred;
use crate::irb;
use crate::kind::{Amendment, Amendments, File, Kind, Output, Relation, Room};
use crate::limits;
use crate::observed::ROOMS;
use crate::opening::{sums_of, Change};
use crate::pool;
use crate::random::Random;
use crate::sheet::{
    file_form, pool_kind, takes_facts, unit, write_with_facts, Deal, Fact, Facts, Layout, FACTS, FILE_BYTES, WORD_BYTES,
};
use crate::tranches;

/// One sheet of a run. It is made from seed and index alone; making another one reuses its lists.
#[derive(Debug)]
pub struct Case {
    /// What the sheet is made to show.
    pub kind: Kind,
    /// The sheet's words.
    pub sheet: Vec<u64>,
    /// What sort of room is lent for the results.
    pub room_kind: Room,
    /// How many result words are lent.
    pub room: usize,
    /// What sort of file is made of the sheet.
    pub file_kind: File,
    /// The file's bytes.
    pub file: Vec<u8>,
    /// How the second sheet follows from the first.
    pub relation: Relation,
    /// The second sheet's words.
    pub second: Vec<u64>,
    /// Numbers of blocks to be read besides those that every sheet is asked for.
    pub blocks: [u64; blocks::DRAWN],
    /// What sort of output is lent for the sheet in the other unit, besides just what that needs.
    pub output_kind: Output,
    /// How many output words are lent then.
    pub output: usize,
    /// The sums of the pool that the sheet was written with, before any damage.
    pub sums: [u64; SUM_WORDS],
    /// A word of the sums and one of the sheet that are changed, each alone.
    pub change: Change,
    /// How many amendments of the pool are made.
    pub list: Amendments,
    /// What each of them is made to show.
    pub amendment_kinds: Vec<Amendment>,
    /// Their words.
    pub amendments: Vec<Vec<u64>>,
    /// How many result words are lent with the opened pool: enough, then too few.
    pub amended_rooms: [usize; ROOMS],
    /// The deal that the sheet was written from.
    deal: Deal,
}

impl Case {
    /// The sheet of this index in the run of this seed.
    pub fn new(seed: u64, index: u64) -> Case {
        let mut case = Case::blank();
        case.make(seed, index);
        case
    }

    /// Empty lists, for sheets to be made over them.
    pub fn blank() -> Case {
        Case {
            kind: Kind::Ordinary,
            sheet: Vec::new(),
            room_kind: Room::Ample,
            room: 0,
            file_kind: File::Unused,
            file: Vec::new(),
            relation: Relation::Unused,
            second: Vec::new(),
            blocks: [0; blocks::DRAWN],
            output_kind: Output::Larger,
            output: 0,
            sums: [0; SUM_WORDS],
            change: Change::default(),
            list: Amendments::Unused,
            amendment_kinds: Vec::new(),
            amendments: Vec::new(),
            amended_rooms: [0; ROOMS],
            deal: Deal::default(),
        }
    }

    /// Makes the sheet of this index in the run of this seed, over the one that was there.
    pub fn make(&mut self, seed: u64, index: u64) {
        let mut random = Random::of_sheet(seed, index);
        self.kind = Kind::draw(&mut random);
        let sound = self.kind.sound(&mut random);
        fill_deal(sound, &mut random, &mut self.deal);
        dates::state(self.kind, sound, &mut random, &mut self.deal);
        self.deal.write(&mut self.sheet);
        self.room_kind = Room::draw(&mut random);
        self.room = self.room_kind.words(self.deal.tranches.len(), &mut random);
        let terms = amendment::Terms::of(&self.deal);
        self.sums = sums_of(&self.deal);
        if !self.kind.is_sound() {
            damage::apply(self.kind, &mut random, self.deal.layout(), &mut self.sheet);
        }
        self.make_second(&mut random);
        self.make_file(&mut random);
        self.blocks = blocks::draw(&mut random);
        self.output_kind = Output::draw(&mut random);
        self.output = self.output_kind.words(&self.sheet, &mut random);
        self.make_amendments(&mut random, &terms);
    }

    /// Makes the amendments of the pool, by the terms of the deal that the sheet was written from, and what goes with
    /// them.
    fn make_amendments(&mut self, random: &mut Random, terms: &amendment::Terms) {
        self.change = Change::draw(random, terms.layout, &self.sheet);
        self.list = Amendments::draw(random);
        self.amendment_kinds.clear();
        self.amendments.clear();
        for _ in 0..self.list.count(random) {
            let kind = Amendment::draw(random);
            let words = amendment::draw(kind, random, terms, &self.sheet, self.amendments.last());
            self.amendment_kinds.push(kind);
            self.amendments.push(words);
        }
        let enough = random.pick(&[Room::Ample, Room::Exact]);
        let too_few = random.pick(&[Room::OneLess, Room::OneLessEach, Room::Short, Room::Nothing]);
        self.amended_rooms = [enough, too_few].map(|room| room.words(terms.layout.tranches, random));
    }

    /// Makes the second sheet. Facts are added to damaged sheets too, and months take the place of dates in them; the
    /// other second sheets are made of sound ones.
    fn make_second(&mut self, random: &mut Random) {
        let drawn = Relation::draw(random);
        let layout = self.deal.layout();
        let possible = match drawn {
            Relation::FactsAdded => takes_facts(&self.sheet),
            Relation::MonthsForDates => dates::are_good(&self.sheet, &layout),
            Relation::SaPool => self.kind.is_sound() && self.deal.has_section() && !self.deal.is_under_irba(),
            Relation::OtherUnderIrba => self.kind.is_sound() && self.deal.is_under_irba(),
            Relation::SeniorRatings => self.kind.is_sound() && inferred::last_class(&self.deal.tranches) > 1,
            _ => self.kind.is_sound(),
        };
        self.relation = if possible { drawn } else { Relation::Unused };
        match self.relation {
            Relation::Unused => return,
            Relation::FactsAdded => return add_facts(random, &self.sheet, &mut self.second),
            Relation::MonthsForDates => return dates::write_months(&self.sheet, &layout, &mut self.second),
            Relation::RowOrder => random.shuffle(&mut self.deal.rows),
            Relation::RatingOrder => {
                let tranches = self.deal.tranches.iter_mut();
                tranches.for_each(|tranche| random.shuffle(&mut tranche.ratings));
            }
            Relation::OtherRatings => inferred::rate_others(random, &mut self.deal.tranches),
            Relation::SeniorRatings => inferred::rate_seniors(random, &mut self.deal.tranches),
            Relation::WithoutCap => self.deal.facts[Fact::Composition] = 0,
            Relation::SaPool => self.deal.facts[Fact::PoolKind] = pool_kind::SA,
            Relation::OtherUnderIrba => irb::change_unread(random, &mut self.deal),
        }
        self.deal.write(&mut self.second);
    }

    /// Makes the file, and spoils its length where its sort says so. Of the largest sheet there always is one.
    fn make_file(&mut self, random: &mut Random) {
        self.file_kind = match self.sheet.len() == Layout::LARGEST.words() {
            true => random.pick(&[File::Whole, File::Whole, File::Stretched]),
            false => File::draw(random),
        };
        self.file.clear();
        if self.file_kind == File::Unused {
            return;
        }
        self.file.extend(file_form(&self.sheet));
        let length = match self.file_kind {
            File::Ragged => (self.file.len() + random.below(2 * WORD_BYTES as u64) as usize).saturating_sub(WORD_BYTES),
            File::Stretched => stretched_length(random),
            File::Empty => 0,
            File::Unused | File::Whole => self.file.len(),
        };
        self.file.resize(length, random.below(256) as u8);
    }
}

/// Writes the sheet with one or more facts added, of 0, over what the list holds.
fn add_facts(random: &mut Random, sheet: &[u64], words: &mut Vec<u64>) {
    let facts = random.between(sheet[Layout::FACTS_COUNT] + 1, FACTS);
    write_with_facts(sheet, facts, words);
}

/// A length about that of the longest file: half of the time in whole words, from one word less to one more; now and
/// then far longer.
fn stretched_length(random: &mut Random) -> usize {
    match random.below(8) {
        0 => 4 * FILE_BYTES + random.below(WORD_BYTES as u64 + 1) as usize,
        1..=4 => FILE_BYTES - WORD_BYTES + WORD_BYTES * random.below(3) as usize,
        _ => FILE_BYTES - 2 * WORD_BYTES + random.below(4 * WORD_BYTES as u64 + 1) as usize,
    }
}

/// Fills a deal of a sound kind: facts up to the mark, pool, IRB section and tranches, with maturities in months.
fn fill_deal(kind: Kind, random: &mut Random, deal: &mut Deal) {
    if kind == Kind::Limits {
        return limits::fill(random, deal);
    }
    deal.facts = facts(kind, random);
    pool::fill(kind, random, deal);
    irb::fill(kind, random, deal);
    tranches::fill(kind, random, deal);
    irb::aim(random, deal);
}

/// Draws the facts of a deal of a sound kind. A mark of 0 is stated half of the time, and now and then a unit of whole
/// percent.
fn facts(kind: Kind, random: &mut Random) -> Facts {
    let resecuritisation = match kind {
        Kind::Resecuritisation => true,
        Kind::Ordinary | Kind::Stc | Kind::HalfThick | Kind::NearRatings => false,
        Kind::UnknownShare | Kind::AllUnknown | Kind::AllDelinquent => false,
        _ => random.once_in(5),
    };
    let stc = match kind {
        Kind::Ordinary => false,
        Kind::Stc => true,
        _ => !resecuritisation && random.once_in(3),
    };
    let mut facts = Facts::default();
    facts[Fact::PoolKind] = irb::draw_pool_kind(kind, random);
    facts[Fact::Resecuritisation] = u64::from(resecuritisation);
    facts[Fact::DueDiligence] = u64::from(!random.once_in(12));
    facts[Fact::Composition] = random.below(2);
    if stc || random.once_in(2) {
        facts[Fact::Stc] = u64::from(stc);
    }
    match (kind, random.below(8)) {
        (Kind::Hundredths, _) | (_, 0 | 1) => facts[Fact::Unit] = unit::HUNDREDTHS,
        (_, 2) => facts[Fact::Unit] = unit::PERCENT,
        _ => {}
    }
    facts
}
