//! The deal sheet, by "The deal sheet" of document 01, the fifth fact of S-1, the dates of S-3, the IRB section of S-5,
//! the blocks of S-7 and the unit of risk weights of S-9: what it holds, and the places of its words.

use std::ops::{Index, IndexMut};

/// The highest pool amount, exposure or nominal.
pub const POOL_AMOUNT: u64 = 10_000_000_000;
/// One percent, in hundredths of a percent.
pub const ONE_PERCENT: u64 = 100;
/// The highest risk weight of a pool row, in hundredths of a percent.
pub const RISK_WEIGHT: u64 = 1_250 * ONE_PERCENT;
/// The highest risk weight of a pool row, in whole percent.
pub const RISK_WEIGHT_PERCENT: u64 = RISK_WEIGHT / ONE_PERCENT;
/// Risk weights in hundredths of a percent about their limit, about that of whole percent and about whole percents.
pub const WEIGHT_EDGES: [u64; 9] = [
    0,
    1,
    ONE_PERCENT,
    RISK_WEIGHT_PERCENT,
    RISK_WEIGHT_PERCENT + 1,
    3_750,
    12_550,
    RISK_WEIGHT - 1,
    RISK_WEIGHT,
];
/// The most pool rows.
pub const ROWS: u64 = 1_000;
/// The rows of a block; the last block of a pool may have fewer.
pub const BLOCK_ROWS: u64 = 50;
/// The most blocks of a pool.
pub const BLOCKS: u64 = blocks_of(ROWS);
/// Counts of rows about the ends of the first two blocks and of the last but one, the fewest and the most.
pub const BLOCK_EDGES: [u64; 10] = [
    1,
    BLOCK_ROWS - 1,
    BLOCK_ROWS,
    BLOCK_ROWS + 1,
    2 * BLOCK_ROWS - 1,
    2 * BLOCK_ROWS,
    2 * BLOCK_ROWS + 1,
    ROWS - BLOCK_ROWS,
    ROWS - BLOCK_ROWS + 1,
    ROWS,
];
/// The highest tranche amount.
pub const TRANCHE_AMOUNT: u64 = 10_000_000_000_000;
/// The highest final legal maturity, in months.
pub const MONTHS: u64 = 1_200;
/// The words of the first and the last day that a date can name.
pub const DAYS: (u64, u64) = (20_000_101, 21_991_231);
/// The most tranches.
pub const TRANCHES: u64 = 32;
/// The most facts.
pub const FACTS: u64 = Fact::COUNT as u64;
/// The fewest facts. Those after them count as 0 where a sheet does not state them.
pub const FEWEST_FACTS: u64 = Fact::Composition.number();
/// The first and the last rating code of the long-term grades.
pub const LONG_TERM: (u64, u64) = (1, 18);
/// The first and the last rating code of the short-term grades.
pub const SHORT_TERM: (u64, u64) = (21, 24);
/// The whole of a share: points and charges are counted in millionths.
pub const WHOLE: u64 = 1_000_000;
/// The count of the IRB section.
pub const IRB_COUNT: u64 = 1;
/// The highest effective number of loans.
pub const LOANS: u64 = 1_000_000;
/// The effective number of loans from which a wholesale pool has the coefficients of many.
pub const MANY_LOANS: u64 = 25;
/// The least share of exposure with an IRB charge under SEC-IRBA.
pub const IRB_SHARE: u64 = 950_000;
/// The highest IRB average weight.
pub const IRB_AVERAGE: u64 = 125_000;
/// The bytes of a word in a file.
pub const WORD_BYTES: usize = 8;
/// The longest file that is read, in bytes: the most facts, rows and tranches, and the IRB section.
pub const FILE_BYTES: usize = WORD_BYTES * Layout::LARGEST.words();

/// Makes the enum of the words of a section's row, by their places in it, with the values at which the rule of each
/// changes.
macro_rules! row_words {
    ($(#[$doc:meta])* $name:ident { $($(#[$word_doc:meta])* $word:ident: $edges:expr,)+ }) => {
        $(#[$doc])*
        #[derive(Debug, Clone, Copy, PartialEq, Eq)]
        pub enum $name {
            $($(#[$word_doc])* $word),+
        }

        impl $name {
            /// The values at which the rule of each word changes, by the words' places.
            pub const EDGES: &'static [&'static [u64]] = &[$($edges),+];
            /// How many words there are.
            pub const COUNT: usize = Self::EDGES.len();
        }
    };
}

/// The values at which the rule of a fact changes.
const FACT_EDGES: &[u64] = &[0, 1, 2, 3];
/// Numbers that are no unit of risk weights.
pub const NO_UNITS: [u64; 3] = [2, ONE_PERCENT, u64::MAX];
/// The values at which the rule of the unit changes, and others that are no unit.
const UNIT_EDGES: &[u64] = &[0, 1, NO_UNITS[0], NO_UNITS[1], NO_UNITS[2]];
/// The values at which the rule of a date changes: 0, the ends of the years, and days that a month or a year has not.
const DATE_EDGES: &[u64] = &[
    0,
    1,
    19_991_231,
    DAYS.0 - 1,
    DAYS.0,
    20_000_229,
    20_000_230,
    20_240_430,
    20_240_431,
    20_241_231,
    20_241_301,
    21_000_228,
    21_000_229,
    DAYS.1,
    DAYS.1 + 1,
    22_000_101,
];

row_words! {
    /// The facts of a deal.
    Fact {
        /// 0 SA, 1 IRB, 2 mixed.
        PoolKind: FACT_EDGES,
        /// 1 for a re-securitisation.
        Resecuritisation: FACT_EDGES,
        /// 1 where due diligence is held.
        DueDiligence: FACT_EDGES,
        /// 1 where the pool's composition is known.
        Composition: FACT_EDGES,
        /// 1 for an STC deal.
        Stc: FACT_EDGES,
        /// The reporting date; 0 for none.
        ReportingDate: DATE_EDGES,
        /// The unit of risk weights: 0 whole percent, 1 hundredths of a percent.
        Unit: UNIT_EDGES,
    }
}

impl Fact {
    /// The number of the fact, from 1: how many facts a sheet states whose last one it is.
    pub const fn number(self) -> u64 {
        self as u64 + 1
    }
}

row_words! {
    /// The words of a pool row.
    RowWord {
        /// Exposure amount.
        Exposure: &[0, 1, POOL_AMOUNT, POOL_AMOUNT + 1],
        /// Nominal amount.
        Nominal: &[0, 1, POOL_AMOUNT, POOL_AMOUNT + 1],
        /// Risk weight, in the unit that the facts state.
        RiskWeight: &[0, 1, RISK_WEIGHT_PERCENT, RISK_WEIGHT_PERCENT + 1, RISK_WEIGHT, RISK_WEIGHT + 1],
        /// Status code.
        Status: &[0, 1, 2, 3, 4],
    }
}

/// The values at which the rule of a tranche amount changes.
const TRANCHE_AMOUNT_EDGES: &[u64] = &[0, 1, TRANCHE_AMOUNT, TRANCHE_AMOUNT + 1];
/// The values at which the rule of a rating changes.
const RATING_EDGES: &[u64] = &[
    0,
    LONG_TERM.0,
    LONG_TERM.1,
    LONG_TERM.1 + 1,
    SHORT_TERM.0 - 1,
    SHORT_TERM.0,
    SHORT_TERM.1,
    SHORT_TERM.1 + 1,
];

row_words! {
    /// The words of a tranche.
    TrancheWord {
        /// Amount.
        Amount: TRANCHE_AMOUNT_EDGES,
        /// Class, 1 for the senior one.
        Class: &[0, 1, 2, TRANCHES + 1],
        /// Final legal maturity: months, or a date where the deal has a reporting date.
        Maturity: &[0, 1, MONTHS, MONTHS + 1, DAYS.0, DAYS.1, DAYS.1 + 1],
        /// Amount held.
        Held: TRANCHE_AMOUNT_EDGES,
        /// The first rating.
        FirstRating: RATING_EDGES,
        /// The second rating.
        SecondRating: RATING_EDGES,
        /// The third rating.
        ThirdRating: RATING_EDGES,
    }
}

/// The values at which the rule of a share in millionths changes.
const WHOLE_EDGES: &[u64] = &[0, 1, WHOLE, WHOLE + 1];

row_words! {
    /// The words of the IRB section.
    IrbWord {
        /// IRB charge.
        Charge: WHOLE_EDGES,
        /// Average loss given default.
        Loss: WHOLE_EDGES,
        /// Effective number of loans.
        Loans: &[0, 1, MANY_LOANS - 1, MANY_LOANS, LOANS, LOANS + 1],
        /// 1 for a retail pool.
        Retail: FACT_EDGES,
        /// Share of exposure with an IRB charge.
        Share: &[0, IRB_SHARE - 1, IRB_SHARE, WHOLE - 1, WHOLE, WHOLE + 1],
        /// IRB average weight.
        Average: &[0, 1, IRB_AVERAGE, IRB_AVERAGE + 1],
    }
}

/// The rating words of a tranche.
pub const RATINGS: usize = TrancheWord::ThirdRating as usize - TrancheWord::FirstRating as usize + 1;

/// The status codes of a pool row.
pub mod status {
    /// Pays.
    pub const PAYING: u64 = 0;
    /// Delinquent.
    pub const DELINQUENT: u64 = 1;
    /// Not known.
    pub const NOT_KNOWN: u64 = 2;
    /// A securitisation tranche: every row of a re-securitisation.
    pub const TRANCHE: u64 = 3;

    /// All codes with their names, in their order from 0.
    pub const TABLE: &[(u64, &str)] = &[
        (PAYING, "paying"),
        (DELINQUENT, "delinquent"),
        (NOT_KNOWN, "not known"),
        (TRANCHE, "a tranche"),
    ];
}

/// The codes of the pool kinds.
pub mod pool_kind {
    /// An SA pool, which has no IRB section.
    pub const SA: u64 = 0;
    /// An IRB pool.
    pub const IRB: u64 = 1;
    /// A mixed pool.
    pub const MIXED: u64 = 2;
}

/// The codes of the units of risk weights.
pub mod unit {
    use super::{ONE_PERCENT, RISK_WEIGHT};

    /// Whole percent; also where no unit is stated.
    pub const PERCENT: u64 = 0;
    /// Hundredths of a percent.
    pub const HUNDREDTHS: u64 = 1;

    /// The other unit.
    pub const fn other(unit: u64) -> u64 {
        match unit {
            PERCENT => HUNDREDTHS,
            _ => PERCENT,
        }
    }

    /// The hundredths of a percent that are one of a unit.
    pub const fn hundredths(unit: u64) -> u64 {
        match unit {
            PERCENT => ONE_PERCENT,
            _ => 1,
        }
    }

    /// The highest risk weight in a unit.
    pub const fn risk_weight(unit: u64) -> u64 {
        RISK_WEIGHT / hundredths(unit)
    }
}

/// The facts of a deal, as words, and how many of them the sheet states.
#[derive(Debug, Clone, Copy)]
pub struct Facts {
    words: [u64; Fact::COUNT],
    stated: usize,
}

impl Default for Facts {
    /// The pool kind SA and every answer no, in the fewest words.
    fn default() -> Facts {
        Facts {
            words: [0; Fact::COUNT],
            stated: FEWEST_FACTS as usize,
        }
    }
}

impl Index<Fact> for Facts {
    type Output = u64;

    /// The word of a fact; 0 where it is not stated.
    fn index(&self, fact: Fact) -> &u64 {
        &self.words[fact as usize]
    }
}

impl IndexMut<Fact> for Facts {
    /// The word of a fact, to be set. The sheet states it then, with all facts before it.
    fn index_mut(&mut self, fact: Fact) -> &mut u64 {
        self.stated = self.stated.max(fact as usize + 1);
        &mut self.words[fact as usize]
    }
}

impl Facts {
    /// Adds the section of the facts: the count of those stated, then their words.
    pub fn write(&self, words: &mut Vec<u64>) {
        words.push(self.stated as u64);
        words.extend(&self.words[..self.stated]);
    }
}

/// A row of the pool.
#[derive(Debug, Clone, Copy)]
pub struct Row {
    /// Exposure amount.
    pub exposure: u64,
    /// Nominal amount.
    pub nominal: u64,
    /// Risk weight, in the unit that the facts state.
    pub risk_weight: u64,
    /// Status code.
    pub status: u64,
}

impl Row {
    /// The row's words, in their order.
    fn words(&self) -> [u64; RowWord::COUNT] {
        [self.exposure, self.nominal, self.risk_weight, self.status]
    }
}

/// A row of the tranches.
#[derive(Debug, Clone, Copy)]
pub struct Tranche {
    /// Amount.
    pub amount: u64,
    /// Class, 1 for the senior one.
    pub class: u64,
    /// Final legal maturity: months, or a date where the deal has a reporting date.
    pub maturity: u64,
    /// Amount held.
    pub held: u64,
    /// The rating words.
    pub ratings: [u64; RATINGS],
}

impl Tranche {
    /// The least tranche: one unit in the senior class, unrated, none of it held.
    pub const LEAST: Tranche = Tranche {
        amount: 1,
        class: 1,
        maturity: 1,
        held: 0,
        ratings: [0; RATINGS],
    };

    /// The tranche's words, in their order.
    fn words(&self) -> [u64; TrancheWord::COUNT] {
        let [first, second, third] = self.ratings;
        [self.amount, self.class, self.maturity, self.held, first, second, third]
    }
}

/// The IRB section.
#[derive(Debug, Clone, Copy, Default)]
pub struct Irb {
    /// IRB charge.
    pub charge: u64,
    /// Average loss given default.
    pub loss: u64,
    /// Effective number of loans.
    pub loans: u64,
    /// 1 for a retail pool.
    pub retail: u64,
    /// Share of exposure with an IRB charge.
    pub share: u64,
    /// IRB average weight.
    pub average: u64,
}

impl Irb {
    /// The section's words, in their order.
    fn words(&self) -> [u64; IrbWord::COUNT] {
        [
            self.charge,
            self.loss,
            self.loans,
            self.retail,
            self.share,
            self.average,
        ]
    }
}

/// A deal from which a sheet is written.
#[derive(Debug, Default)]
pub struct Deal {
    /// The facts.
    pub facts: Facts,
    /// The pool's rows.
    pub rows: Vec<Row>,
    /// The tranches, senior first.
    pub tranches: Vec<Tranche>,
    /// The IRB section, which is written unless the pool is an SA pool.
    pub irb: Irb,
}

impl Deal {
    /// The sum of nominal amounts, "N" of document 01.
    pub fn nominal(&self) -> u64 {
        self.rows.iter().map(|row| row.nominal).sum()
    }

    /// Whether the deal is a re-securitisation.
    pub fn is_resecuritisation(&self) -> bool {
        self.facts[Fact::Resecuritisation] == 1
    }

    /// The unit of the risk weights.
    pub fn unit(&self) -> u64 {
        self.facts[Fact::Unit]
    }

    /// Whether the sheet has an IRB section.
    pub fn has_section(&self) -> bool {
        self.facts[Fact::PoolKind] != pool_kind::SA
    }

    /// Whether SEC-IRBA holds for the deal: an ordinary one with due diligence, and with a share of at least 95%, as an
    /// IRB pool always has.
    pub fn is_under_irba(&self) -> bool {
        let ordinary = self.facts[Fact::DueDiligence] == 1 && !self.is_resecuritisation();
        ordinary && self.has_section() && self.irb.share >= IRB_SHARE
    }

    /// The places of the sheet's words.
    pub fn layout(&self) -> Layout {
        Layout {
            facts: self.facts.stated,
            rows: self.rows.len(),
            tranches: self.tranches.len(),
            irb: self.has_section(),
        }
    }

    /// Writes the sheet's words over what the list holds.
    pub fn write(&self, words: &mut Vec<u64>) {
        words.clear();
        self.facts.write(words);
        words.push(self.rows.len() as u64);
        words.extend(self.rows.iter().flat_map(Row::words));
        words.push(self.tranches.len() as u64);
        words.extend(self.tranches.iter().flat_map(Tranche::words));
        if self.has_section() {
            words.push(IRB_COUNT);
            words.extend(self.irb.words());
        }
    }
}

/// The places of the words of a sheet with so many facts, rows and tranches, and with an IRB section or without it.
#[derive(Debug, Clone, Copy, PartialEq, Eq)]
pub struct Layout {
    /// How many facts.
    pub facts: usize,
    /// How many pool rows.
    pub rows: usize,
    /// How many tranches.
    pub tranches: usize,
    /// Whether there is an IRB section.
    pub irb: bool,
}

impl Layout {
    /// The places of the largest sheet.
    pub const LARGEST: Layout = Layout {
        facts: Fact::COUNT,
        rows: ROWS as usize,
        tranches: TRANCHES as usize,
        irb: true,
    };

    /// The place of the count of facts.
    pub const FACTS_COUNT: usize = 0;

    /// The places of a sheet that has its counts right, as every accepted sheet has.
    pub fn of_sheet(sheet: &[u64]) -> Layout {
        Layout::before(sheet, sheet.len()).expect("a sheet with its counts")
    }

    /// The places of a sheet that has its counts right before this place, as every sheet has that is refused there;
    /// none where not all counts that the places follow from stand before it.
    pub fn before(sheet: &[u64], place: usize) -> Option<Layout> {
        let count = |at: usize| (at < place).then(|| sheet[at] as usize);
        let mut layout = Layout {
            facts: count(Layout::FACTS_COUNT)?,
            rows: 0,
            tranches: 0,
            irb: false,
        };
        layout.rows = count(layout.pool_count())?;
        layout.tranches = count(layout.tranche_count())?;
        layout.irb = sheet[Layout::fact(Fact::PoolKind)] != pool_kind::SA;
        Some(layout)
    }

    /// The place of a fact.
    pub const fn fact(fact: Fact) -> usize {
        Layout::FACTS_COUNT + 1 + fact as usize
    }

    /// The place of the count of pool rows.
    pub const fn pool_count(&self) -> usize {
        Layout::FACTS_COUNT + 1 + self.facts
    }

    /// The place of a row's first word; rows are counted from 0.
    pub const fn row(&self, row: usize) -> usize {
        self.pool_count() + 1 + RowWord::COUNT * row
    }

    /// The place of the count of tranches.
    pub const fn tranche_count(&self) -> usize {
        self.row(self.rows)
    }

    /// The place of a tranche's first word; tranches are counted from 0.
    pub const fn tranche(&self, tranche: usize) -> usize {
        self.tranche_count() + 1 + TrancheWord::COUNT * tranche
    }

    /// The place of a word of a tranche.
    pub const fn tranche_word(&self, tranche: usize, word: TrancheWord) -> usize {
        self.tranche(tranche) + word as usize
    }

    /// The place of the count of the IRB section; where there is none, the place after the last word.
    pub const fn irb_count(&self) -> usize {
        self.tranche(self.tranches)
    }

    /// The place of a word of the IRB section, where there is one.
    pub const fn irb_word(&self, word: IrbWord) -> usize {
        self.irb_count() + 1 + word as usize
    }

    /// The places of the sections' counts, in their order.
    pub fn counts(&self) -> Vec<usize> {
        let mut counts = vec![Layout::FACTS_COUNT, self.pool_count(), self.tranche_count()];
        counts.extend(self.irb.then(|| self.irb_count()));
        counts
    }

    /// How many words the sheet has.
    pub const fn words(&self) -> usize {
        match self.irb {
            true => self.irb_count() + 1 + IrbWord::COUNT,
            false => self.irb_count(),
        }
    }

    /// Whether a sheet has these places: the counts and the pool kind that they follow from, and as many words.
    pub fn fits(&self, sheet: &[u64]) -> bool {
        if sheet.len() != self.words() {
            return false;
        }
        let places = [Layout::FACTS_COUNT, self.pool_count(), self.tranche_count()];
        let counts = [self.facts, self.rows, self.tranches].map(|count| count as u64);
        let irb = sheet[Layout::fact(Fact::PoolKind)] != pool_kind::SA;
        places.map(|place| sheet[place]) == counts && irb == self.irb
    }

    /// The words of the IRB section of a sheet with these places; none where there is no section.
    pub fn irb_words<'a>(&self, sheet: &'a [u64]) -> Option<&'a [u64; IrbWord::COUNT]> {
        self.irb
            .then(|| sheet[self.irb_count() + 1..].first_chunk().expect("six words"))
    }

    /// The word of a fact of a sheet with these places; 0 where it is not stated.
    pub fn fact_word(&self, sheet: &[u64], fact: Fact) -> u64 {
        match (fact as usize) < self.facts {
            true => sheet[Layout::fact(fact)],
            false => 0,
        }
    }

    /// The words of a tranche of a sheet with these places; tranches are counted from 0.
    pub fn tranche_words<'a>(&self, sheet: &'a [u64], tranche: usize) -> &'a [u64; TrancheWord::COUNT] {
        sheet[self.tranche(tranche)..].first_chunk().expect("a tranche's words")
    }

    /// The place of a row's risk weight; rows are counted from 0.
    pub const fn risk_weight(&self, row: usize) -> usize {
        self.row(row) + RowWord::RiskWeight as usize
    }

    /// The rows of a sheet with these places.
    pub fn pool<'a>(&self, sheet: &'a [u64]) -> &'a [[u64; RowWord::COUNT]] {
        sheet[self.row(0)..self.tranche_count()].as_chunks().0
    }
}

/// Whether a sheet can state more facts: it states fewer than the most and has all of those.
pub fn takes_facts(sheet: &[u64]) -> bool {
    let stated = sheet.first().copied().unwrap_or(0);
    (FEWEST_FACTS..FACTS).contains(&stated) && sheet.len() > stated as usize
}

/// Writes a sheet with so many facts stated, not fewer than it states, over what the list holds. Those that are added are
/// 0. The sheet has all facts that it states.
pub fn write_with_facts(sheet: &[u64], facts: u64, words: &mut Vec<u64>) {
    let stated = sheet[Layout::FACTS_COUNT];
    let (own, sections) = sheet.split_at(Layout::FACTS_COUNT + 1 + stated as usize);
    words.clear();
    words.extend(own);
    words[Layout::FACTS_COUNT] = facts;
    words.extend((stated..facts).map(|_| 0));
    words.extend(sections);
}

/// How many words a sheet has that is rewritten in the other unit, where all facts are stated. One that states no good
/// number of facts, and is not rewritten, counts as it is.
pub fn rewritten_words(sheet: &[u64]) -> usize {
    let stated = sheet.first().filter(|stated| (FEWEST_FACTS..=FACTS).contains(stated));
    sheet.len() + stated.map_or(0, |stated| FACTS - stated) as usize
}

/// How many blocks so many rows have.
pub const fn blocks_of(rows: u64) -> u64 {
    rows.div_ceil(BLOCK_ROWS)
}

/// The file form of a sheet: eight bytes for each word, lowest byte first.
pub fn file_form(sheet: &[u64]) -> Vec<u8> {
    sheet.iter().flat_map(|word| word.to_le_bytes()).collect()
}

#[cfg(test)]
mod tests {
    use super::*;

    /// The largest deal fills the longest file, and its layout is read back from its words.
    #[test]
    fn largest_deal_fills_the_longest_file() {
        let row = Row {
            exposure: 1,
            nominal: 1,
            risk_weight: 0,
            status: status::PAYING,
        };
        let mut deal = Deal {
            facts: Facts::default(),
            rows: vec![row; ROWS as usize],
            tranches: vec![Tranche::LEAST; TRANCHES as usize],
            irb: Irb::default(),
        };
        let mut words = Vec::new();
        deal.write(&mut words);
        assert_eq!((Layout::of_sheet(&words), words.len()), (deal.layout(), 4_231));
        deal.facts[Fact::Unit] = unit::PERCENT;
        deal.facts[Fact::PoolKind] = pool_kind::MIXED;
        deal.write(&mut words);
        assert_eq!(deal.layout().words(), words.len());
        assert_eq!(Layout::of_sheet(&words), deal.layout());
        assert_eq!(deal.layout(), Layout::LARGEST);
        assert_eq!((file_form(&words).len(), FILE_BYTES), (33_928, 33_928));
    }

    /// The fewest facts are stated until a later one is set, be it to 0; a fact that is not stated reads as 0.
    #[test]
    fn later_facts_are_stated_when_set() {
        let mut facts = Facts::default();
        let section = |facts: &Facts| {
            let mut words = Vec::new();
            facts.write(&mut words);
            words
        };
        facts[Fact::Composition] = 1;
        assert_eq!((section(&facts), facts[Fact::Stc]), (vec![4, 0, 0, 0, 1], 0));
        facts[Fact::Stc] = 0;
        assert_eq!(section(&facts), [5, 0, 0, 0, 1, 0]);
        facts[Fact::ReportingDate] = 0;
        assert_eq!(section(&facts), [6, 0, 0, 0, 1, 0, 0]);
        facts[Fact::Unit] = unit::HUNDREDTHS;
        assert_eq!(section(&facts), [7, 0, 0, 0, 1, 0, 0, 1]);
        let later = [Fact::Composition, Fact::Stc, Fact::ReportingDate, Fact::Unit];
        let expected = [
            (4, [4, 0, 0, 0]),
            (5, [4, 5, 0, 0]),
            (6, [4, 5, 6, 0]),
            (7, [4, 5, 6, 7]),
        ];
        for (stated, expected) in expected {
            let (layout, words) = places_with(stated);
            assert_eq!(later.map(|fact| layout.fact_word(&words, fact)), expected);
        }
    }

    /// Facts are numbered from 1; the fewest and the most are counts of them.
    #[test]
    fn facts_are_numbered() {
        assert_eq!(
            [Fact::PoolKind, Fact::Stc, Fact::ReportingDate].map(Fact::number),
            [1, 5, 6]
        );
        assert_eq!((FEWEST_FACTS, FACTS, Fact::Unit.number()), (4, 7, 7));
    }

    /// Each unit has its limit of 1250%, and is the other's other.
    #[test]
    fn units_have_their_limits() {
        let units = [unit::PERCENT, unit::HUNDREDTHS];
        assert_eq!(units.map(unit::other), [unit::HUNDREDTHS, unit::PERCENT]);
        assert_eq!(units.map(unit::hundredths), [100, 1]);
        assert_eq!(units.map(unit::risk_weight), [1_250, 125_000]);
    }

    /// A sheet can state more facts where it states four to six and has them.
    #[test]
    fn sheets_that_take_facts() {
        for stated in 0..10 {
            let sheet = [stated; 7];
            assert_eq!(takes_facts(&sheet), [4, 5, 6].contains(&stated), "{stated}");
        }
        assert!(takes_facts(&[4; 5]) && !takes_facts(&[4; 4]) && !takes_facts(&[6; 6]) && !takes_facts(&[]));
    }

    /// A rewritten sheet has a word more for each fact that is not stated.
    #[test]
    fn words_of_rewritten_sheets() {
        let words = [3, 4, 5, 6, 7, 8, u64::MAX].map(|stated| rewritten_words(&[stated; 20]));
        assert_eq!(words, [20, 23, 22, 21, 20, 20, 20]);
        assert_eq!(rewritten_words(&[]), 0);
    }

    /// Facts of 0 are added after those that are stated, and none where all are; the list is written over.
    #[test]
    fn facts_are_added() {
        let with = |sheet: &[u64], facts| {
            let mut words = vec![9; 3];
            write_with_facts(sheet, facts, &mut words);
            words
        };
        let four = [4, 2, 1, 1, 1, 8, 9];
        assert_eq!(with(&four, 4), four);
        assert_eq!(with(&four, 5), [5, 2, 1, 1, 1, 0, 8, 9]);
        assert_eq!(with(&four, 7), [7, 2, 1, 1, 1, 0, 0, 0, 8, 9]);
        assert_eq!(with(&[6, 2, 0, 1, 1, 1, 5], 7), [7, 2, 0, 1, 1, 1, 5, 0]);
    }

    /// A sheet fits its own places: not with a word more or less, not with another count of those that places follow
    /// from, and not with a pool kind that has no IRB section.
    #[test]
    fn sheets_fit_their_places() {
        let (layout, words) = places_with(7);
        assert!(layout.fits(&words));
        assert!(!layout.fits(&words[1..]) && !layout.fits(&[&words[..], &[0]].concat()) && !layout.fits(&[]));
        let with = |place: usize, word| {
            let mut other = words.clone();
            other[place] = word;
            other
        };
        for &place in &layout.counts()[..3] {
            assert!(!layout.fits(&with(place, words[place] + 1)));
        }
        let kind = Layout::fact(Fact::PoolKind);
        assert!(layout.fits(&with(kind, pool_kind::MIXED)) && !layout.fits(&with(kind, pool_kind::SA)));
    }

    /// Before a place the counts that stand there are read, and without all three of them nothing is.
    #[test]
    fn places_before_a_place() {
        let (layout, words) = places_with(5);
        let counts = layout.counts();
        assert_eq!((counts.len(), counts[3]), (4, layout.irb_count()));
        for place in [0, 1, counts[1], counts[2]] {
            assert_eq!(Layout::before(&words, place), None, "{place}");
        }
        for place in [counts[2] + 1, counts[3], words.len()] {
            assert_eq!(Layout::before(&words, place), Some(layout), "{place}");
        }
    }

    /// A deal is under SEC-IRBA from a share of 95% on, with due diligence and as no re-securitisation.
    #[test]
    fn deals_under_irba() {
        let under = |kind, resecuritisation, due_diligence, share| {
            let mut deal = Deal::default();
            deal.facts[Fact::PoolKind] = kind;
            deal.facts[Fact::Resecuritisation] = resecuritisation;
            deal.facts[Fact::DueDiligence] = due_diligence;
            deal.irb.share = share;
            deal.is_under_irba()
        };
        assert!(under(pool_kind::MIXED, 0, 1, 950_000) && under(pool_kind::IRB, 0, 1, WHOLE));
        assert!(!under(pool_kind::MIXED, 0, 1, 949_999) && !under(pool_kind::SA, 0, 1, WHOLE));
        assert!(!under(pool_kind::IRB, 1, 1, WHOLE) && !under(pool_kind::IRB, 0, 0, WHOLE));
    }

    /// All facts, in their order.
    const ALL_FACTS: [Fact; Fact::COUNT] = [
        Fact::PoolKind,
        Fact::Resecuritisation,
        Fact::DueDiligence,
        Fact::Composition,
        Fact::Stc,
        Fact::ReportingDate,
        Fact::Unit,
    ];

    /// Facts, a row's words, a tranche's words and the IRB section stand in the papers' order.
    #[test]
    fn words_stand_in_their_order() {
        let mut deal = Deal::default();
        (10..).zip(ALL_FACTS).for_each(|(word, fact)| deal.facts[fact] = word);
        deal.rows.push(Row {
            exposure: 20,
            nominal: 21,
            risk_weight: 22,
            status: 23,
        });
        deal.tranches.push(Tranche {
            amount: 30,
            class: 31,
            maturity: 32,
            held: 33,
            ratings: [34, 35, 36],
        });
        deal.irb = Irb {
            charge: 40,
            loss: 41,
            loans: 42,
            retail: 43,
            share: 44,
            average: 45,
        };
        let mut words = Vec::new();
        deal.write(&mut words);
        assert_eq!(words[..13], [7, 10, 11, 12, 13, 14, 15, 16, 1, 20, 21, 22, 23]);
        assert_eq!(words[13..21], [1, 30, 31, 32, 33, 34, 35, 36]);
        assert_eq!(words[21..], [1, 40, 41, 42, 43, 44, 45]);
        let facts = ALL_FACTS.map(|fact| words[Layout::fact(fact)]);
        assert_eq!(facts, [10, 11, 12, 13, 14, 15, 16]);
        assert_eq!(deal.layout().irb_words(&words), Some(&[40, 41, 42, 43, 44, 45]));
        deal.facts[Fact::PoolKind] = pool_kind::SA;
        deal.write(&mut words);
        assert_eq!((words.len(), deal.layout().irb_words(&words)), (21, None));
    }

    /// A sheet with so many facts, two rows, two tranches and an IRB section; every word but the counts is its place,
    /// so that the pool kind is 1.
    fn places_with(facts: usize) -> (Layout, Vec<u64>) {
        let layout = Layout {
            facts,
            rows: 2,
            tranches: 2,
            irb: true,
        };
        let mut words: Vec<u64> = (0..layout.words() as u64).collect();
        let counts = [layout.facts, layout.rows, layout.tranches, IRB_COUNT as usize];
        for (place, count) in layout.counts().into_iter().zip(counts) {
            words[place] = count as u64;
        }
        (layout, words)
    }

    /// The sections follow one another, whatever count of facts the sheet states, and the names of words are those of
    /// their places.
    #[test]
    fn sections_follow_the_count_of_facts() {
        let row_words = [
            RowWord::Exposure,
            RowWord::Nominal,
            RowWord::RiskWeight,
            RowWord::Status,
        ];
        let tranche_words = [
            TrancheWord::Amount,
            TrancheWord::Class,
            TrancheWord::Maturity,
            TrancheWord::Held,
            TrancheWord::FirstRating,
            TrancheWord::SecondRating,
            TrancheWord::ThirdRating,
        ];
        let irb_words = [
            IrbWord::Charge,
            IrbWord::Loss,
            IrbWord::Loans,
            IrbWord::Retail,
            IrbWord::Share,
            IrbWord::Average,
        ];
        for facts in 1..9 {
            let (layout, words) = places_with(facts);
            assert_eq!(Layout::of_sheet(&words), layout);
            let after_facts = |places: usize| (facts + places) as u64;
            let row = row_words.map(|word| layout.pool(&words)[1][word as usize]);
            assert_eq!(row, [6, 7, 8, 9].map(after_facts));
            assert_eq!(words[layout.risk_weight(1)], after_facts(8));
            let tranche = tranche_words.map(|word| words[layout.tranche_word(1, word)]);
            assert_eq!(tranche, [18, 19, 20, 21, 22, 23, 24].map(after_facts));
            let irb = irb_words.map(|word| words[layout.irb_word(word)]);
            assert_eq!(irb, [26, 27, 28, 29, 30, 31].map(after_facts));
            assert_eq!(layout.irb_words(&words), Some(&irb));
        }
    }

    /// Statuses are counted by their codes, so the table must follow them.
    #[test]
    fn table_follows_the_codes() {
        assert!((0..).zip(status::TABLE).all(|(code, entry)| entry.0 == code));
    }
}
