//! Sheets drawn by a seeded generator: each is built, and the library refuses none of them but by 13; the least weights
//! of its lines lie near the weights (document 02, S-6); the sums of its blocks are those of their rows (S-7); ratings
//! that a tranche takes of another one can be written on it (S-8); in the other unit it gets the same answer (S-9);
//! amended it is that of a fresh load (S-10).

use crate::block_sums::hold_blocks;
use crate::checked_deal::file_of;
use crate::conversion::hold_conversion;
use crate::opened_pool::{hold_amended, hold_opened};
use crate::places::{
    affirmed, affirmed_on, affirms, fact, first_row, first_tranche, irb_count, risk_weights, rows, tranche_count,
    COMPOSITION, DUE_DILIGENCE, POOL_KIND, REPORTING_DATE, RESECURITISATION, STC, UNIT,
};
use crate::texts::text_of;
use std::error::Error;
use tranche_weights::{
    report, weigh_file, Approach, AverageWeight, Date, Facts, IrbFigures, Loans, Millionths, Months, PoolAmount,
    PoolKind, Rating, Reason, RiskWeight, Row, Sheet, SheetBuilder, SheetError, Status, Tranche, TrancheAmount,
    AMENDMENT_WORDS, MOST_ROWS, MOST_TRANCHES, ROW_WORDS, TRANCHE_WORDS,
};

/// The statuses of an ordinary pool, by status word.
const STATUSES: [Status; 3] = [Status::Paying, Status::Delinquent, Status::NotKnown];

/// The kinds of deals, each by the fact that makes it so: ordinary, STC, re-securitisation.
const KINDS: [&[usize]; 3] = [&[], &[STC], &[RESECURITISATION]];

/// The units, each by the fact that makes it so: whole percent, hundredths of a percent.
const UNITS: [&[usize]; 2] = [&[], &[UNIT]];

/// The number of pool kinds, whose words are those below it.
const POOL_KINDS: u64 = 3;

/// An xorshift generator of 64 bits. The seed is not 0.
struct Generator(u64);

impl Generator {
    /// The next number.
    fn next(&mut self) -> u64 {
        self.0 ^= self.0 << 13;
        self.0 ^= self.0 >> 7;
        self.0 ^= self.0 << 17;
        self.0
    }

    /// A number from 0 up to and without the bound.
    fn below(&mut self, bound: u64) -> u64 {
        self.next() % bound
    }

    /// A number within limits: either limit one time in eight, else one of any length.
    fn within(&mut self, lowest: u64, highest: u64) -> u64 {
        match self.below(8) {
            0 => lowest,
            1 => highest,
            _ => {
                let bits = self.below(u64::from(highest.ilog2()) + 1);
                (lowest + self.below(2 << bits)).min(highest)
            }
        }
    }

    /// The words of a sheet that documents 01 and 02 admit and that states no fact it can leave out. Half of the sheets
    /// have a reporting date, and half of them are in hundredths of a percent, with a weight that is no whole percent.
    fn words(&mut self) -> Vec<u64> {
        let places = [KINDS[self.below(3) as usize], UNITS[self.below(2) as usize]].concat();
        let reporting_date = (self.below(2) == 0).then(|| self.reporting_date());
        let mut words = reporting_date.map_or_else(|| affirmed(&places), |date| affirmed_on(date, &places));
        words[POOL_KIND] = self.below(POOL_KINDS);
        words[DUE_DILIGENCE] = u64::from(self.below(8) > 0);
        words[COMPOSITION] = self.below(2);
        self.rows(&mut words);
        self.tranches(&mut words, reporting_date);
        self.irb(&mut words);
        words
    }

    /// A date of these years. The first and the last month and day are drawn more often.
    fn date(&mut self, first_year: u64, last_year: u64) -> Date {
        loop {
            let year = first_year + self.below(last_year - first_year + 1);
            if let Ok(date) = Date::new(year, self.within(1, 12), self.within(1, 31)) {
                return date;
            }
        }
    }

    /// A reporting date. The last day of all has no maturity after it, so the last year is left out.
    fn reporting_date(&mut self) -> Date {
        self.date(Date::FIRST_YEAR, Date::LAST_YEAR - 1)
    }

    /// The maturity word of a tranche: months within their limits, or a date that is so many months on.
    fn maturity(&mut self, reporting_date: Option<Date>) -> u64 {
        let Some(reporting_date) = reporting_date else {
            return self.within(Months::LOWEST, Months::HIGHEST);
        };
        let first_year = reporting_date.year();
        let last_year = Date::LAST_YEAR.min(first_year + self.within(1, Months::HIGHEST / 12));
        loop {
            let date = self.date(first_year, last_year);
            if reporting_date.months_to(date).is_ok() {
                return date.word();
            }
        }
    }

    /// Adds the pool's section. A third of the ordinary pools have paying rows alone, so that the charge is low; a
    /// third have delinquent ones too; a third have all three statuses.
    fn rows(&mut self, words: &mut Vec<u64>) {
        let facts = words.clone();
        let count = self.within(1, MOST_ROWS as u64);
        let statuses = 1 + self.below(3);
        words.push(count);
        let first_row = words.len();
        for _ in 0..count {
            words.extend(self.row(&facts, statuses));
        }
        if affirms(&facts, UNIT) {
            let row = self.below(count) as usize;
            words[first_row + ROW_WORDS * row + 2] = 100 * self.below(RiskWeight::HIGHEST_PERCENT) + 1 + self.below(99);
        }
    }

    /// A row of a pool with these facts, of one of the first statuses, so many, where it is not that of a re-securitisation.
    fn row(&mut self, facts: &[u64], statuses: u64) -> [u64; ROW_WORDS] {
        let status = if affirms(facts, RESECURITISATION) {
            3
        } else {
            self.below(statuses)
        };
        [
            self.within(1, PoolAmount::HIGHEST),
            self.within(1, PoolAmount::HIGHEST),
            self.risk_weight(affirms(facts, UNIT)),
            status,
        ]
    }

    /// An amendment of the sheet, of any row, most often the first or the last.
    fn amendment(&mut self, words: &[u64]) -> [u64; AMENDMENT_WORDS] {
        let number = self.within(1, rows(words).count() as u64);
        let [exposure, nominal, risk_weight, status] = self.row(words, 3);
        [number, exposure, nominal, risk_weight, status]
    }

    /// The risk weight of a row; in hundredths, too, a whole percent every other time.
    fn risk_weight(&mut self, in_hundredths: bool) -> u64 {
        let percent = self.within(0, RiskWeight::HIGHEST_PERCENT);
        match (in_hundredths, self.below(2)) {
            (false, _) => percent,
            (true, 0) => 100 * percent,
            (true, _) => self.within(0, RiskWeight::HIGHEST_HUNDREDTHS),
        }
    }

    /// Adds the tranches' section. Half of the deals have tranches of any size, half such that cut the pool up. Half of
    /// them have no rated tranche, so that none can take ratings.
    fn tranches(&mut self, words: &mut Vec<u64>, reporting_date: Option<Date>) {
        let nominal: u64 = words[first_row(words)..].chunks(ROW_WORDS).map(|row| row[1]).sum();
        let count = self.within(1, MOST_TRANCHES as u64);
        let highest = if self.below(2) == 0 {
            TrancheAmount::HIGHEST
        } else {
            (2 * nominal / count).max(1)
        };
        let rated = self.below(2) > 0;
        let mut class = 1;
        words.push(count);
        for _ in 0..count {
            let amount = self.within(1, highest);
            let held = self.below(amount + 1);
            words.extend([amount, class, self.maturity(reporting_date), held]);
            words.extend([(); 3].map(|()| if rated { self.rating() } else { 0 }));
            class += self.below(2);
        }
    }

    /// Adds the IRB section, where the pool kind has one. At least half of the mixed pools have a share from 95% on.
    fn irb(&mut self, words: &mut Vec<u64>) {
        let share = match (words[POOL_KIND], self.below(2)) {
            (0, _) => return,
            (2, 0) => self.within(Millionths::LOWEST, Millionths::HIGHEST),
            (2, _) => Millionths::HIGHEST - self.below(50_001),
            _ => Millionths::HIGHEST,
        };
        words.extend([
            1,
            self.within(Millionths::LOWEST, Millionths::HIGHEST),
            self.within(Millionths::LOWEST, Millionths::HIGHEST),
            self.within(Loans::LOWEST, Loans::HIGHEST),
            self.below(2),
            share,
            self.within(AverageWeight::LOWEST, AverageWeight::HIGHEST),
        ]);
    }

    /// A rating code: none two times in three, so that whole tranches are unrated.
    fn rating(&mut self) -> u64 {
        match self.below(66) {
            long @ 0..=17 => long + 1,
            short @ 18..=21 => short + 3,
            _ => 0,
        }
    }
}

/// The rating that a word states, if any.
fn rating_of(word: u64) -> Result<Option<Rating>, SheetError> {
    match word {
        0 => Ok(None),
        code => Rating::try_from(code).map(Some),
    }
}

/// The row that its words state, in hundredths of a percent or in whole percent, without its status.
fn row_of(words: &[u64], in_hundredths: bool) -> Result<Row, SheetError> {
    let (exposure, nominal) = (PoolAmount::new(words[0])?, PoolAmount::new(words[1])?);
    let risk_weight = if in_hundredths {
        RiskWeight::from_hundredths(words[2])?
    } else {
        RiskWeight::new(words[2])?
    };
    Ok(Row::new(exposure, nominal, risk_weight))
}

/// The reporting date that a sheet states, if any.
fn reporting_date_of(words: &[u64]) -> Result<Option<Date>, SheetError> {
    match fact(words, REPORTING_DATE) {
        0 => Ok(None),
        word => Date::try_from(word).map(Some),
    }
}

/// The pool kind that a sheet states, with the figures of its IRB section.
fn pool_kind_of(words: &[u64]) -> Result<PoolKind, SheetError> {
    let [_, charge, loss, loans, retail, share, average] = words[irb_count(words)..] else {
        return Ok(PoolKind::Sa);
    };
    let figures = IrbFigures {
        charge: Millionths::new(charge)?,
        loss: Millionths::new(loss)?,
        loans: Loans::new(loans)?,
        retail: retail == 1,
        average: AverageWeight::new(average)?,
    };
    if words[POOL_KIND] == 1 {
        Ok(PoolKind::Irb(figures))
    } else {
        let share = Millionths::new(share)?;
        Ok(PoolKind::Mixed { share, figures })
    }
}

/// Builds the sheet that the words state, by the builder of its kind.
fn built(words: &[u64]) -> Result<Sheet, SheetError> {
    let reporting_date = reporting_date_of(words)?;
    let facts = Facts::new()
        .with_pool_kind(pool_kind_of(words)?)
        .with_due_diligence_held(affirms(words, DUE_DILIGENCE))
        .with_pool_composition_known(affirms(words, COMPOSITION))
        .with_reporting_date(reporting_date);
    let (rows, in_hundredths) = (rows(words), affirms(words, UNIT));
    let tranches = &words[first_tranche(words)..irb_count(words)];
    if affirms(words, RESECURITISATION) {
        let mut builder = SheetBuilder::resecuritisation(facts);
        for row in rows {
            builder.row(row_of(row, in_hundredths)?)?;
        }
        with_tranches(builder, tranches, reporting_date.is_some())
    } else {
        let mut builder = if affirms(words, STC) {
            SheetBuilder::stc(facts)
        } else {
            SheetBuilder::ordinary(facts)
        };
        for row in rows {
            builder.row(row_of(row, in_hundredths)?, STATUSES[row[3] as usize])?;
        }
        with_tranches(builder, tranches, reporting_date.is_some())
    }
}

/// The tranche that its words state, without its ratings; its maturity is a date or in months.
fn unrated_of(words: &[u64], dated: bool) -> Result<Tranche, SheetError> {
    let (amount, held) = (TrancheAmount::new(words[0])?, words[3]);
    if dated {
        Tranche::maturing_on(amount, Date::try_from(words[2])?, held)
    } else {
        Tranche::new(amount, Months::new(words[2])?, held)
    }
}

/// Places the tranches that the words state, with maturities as dates or in months, and builds the sheet.
fn with_tranches<Kind>(mut builder: SheetBuilder<Kind>, words: &[u64], dated: bool) -> Result<Sheet, SheetError> {
    let mut class = 0;
    for row in words.chunks(TRANCHE_WORDS) {
        let tranche = unrated_of(row, dated)?;
        let tranche = tranche.with_ratings([rating_of(row[4])?, rating_of(row[5])?, rating_of(row[6])?]);
        if row[1] == class {
            builder.same_class(tranche)?;
        } else {
            builder.next_class(tranche)?;
        }
        class = row[1];
    }
    builder.build()
}

/// The sorts of sheets: each kind of deal with maturities in months, then each with maturities as dates; and so for each
/// pool kind, and all of that for each unit.
const SORTS: usize = 2 * KINDS.len() * POOL_KINDS as usize * UNITS.len();

/// The sort of a sheet, its kind as `KINDS` lists them.
fn sort_of(words: &[u64]) -> usize {
    let kind = usize::from(affirms(words, STC)) + 2 * usize::from(affirms(words, RESECURITISATION));
    let dated = usize::from(fact(words, REPORTING_DATE) != 0);
    let unit = fact(words, UNIT);
    kind + KINDS.len() * (dated + 2 * (words[POOL_KIND] + POOL_KINDS * unit) as usize)
}

/// Any admitted sheet that states no fact it can leave out can be built, to the word. It is weighed with a line per
/// tranche or refused by 13 at the amount of a tranche. Its file gets the same answer, and its report states that
/// answer.
#[test]
fn a_built_sheet_is_refused_by_13_alone() -> Result<(), SheetError> {
    let mut generator = Generator(0x7261_6e63_6865_7301);
    let (mut weighed, mut refused) = ([0; SORTS], [0; SORTS]);
    for _ in 0..14_400 {
        let words = generator.words();
        let sheet = built(&words)?;
        assert_eq!(sheet.words(), words);
        let sort = sort_of(&words);
        let outcome = sheet.weigh();
        match &outcome {
            Ok(deal) => {
                assert_eq!(deal.lines.len() as u64, words[tranche_count(&words)]);
                weighed[sort] += 1;
            }
            Err(refusal) => {
                assert_eq!(
                    (refusal.reason(), refusal.number()),
                    (Reason::ThinTranche, 13),
                    "{words:?}"
                );
                let past = refusal.place() as usize - first_tranche(&words);
                assert_eq!(past % TRANCHE_WORDS, 0, "{words:?}");
                refused[sort] += 1;
            }
        }
        assert_eq!(report(&file_of(&words)), text_of(&outcome), "{words:?}");
        assert_eq!(weigh_file(&sheet.to_file_bytes()), outcome, "{words:?}");
    }
    assert!(
        weighed.iter().chain(&refused).all(|count| *count >= 20),
        "weighed {weighed:?}, refused {refused:?}"
    );
    Ok(())
}

/// How far below the weight a least weight of this library lies at most, by the approach: both are the fallback's; a
/// table's figure is rounded up and down; the formula's two numbers are worked out together, at most 2 apart (the rules
/// alone admit 3).
fn farthest(approach: Approach) -> u64 {
    match approach {
        Approach::Fallback => 0,
        Approach::SecErba => 1,
        _ => 2,
    }
}

/// No least weight is above its weight, and none is farther below it than this library's two numbers are apart at most.
/// Each approach but the fallback has lines where the two differ and lines where they do not.
#[test]
fn a_least_weight_is_near_its_weight() -> Result<(), SheetError> {
    let mut generator = Generator(0x6c65_6173_7473_0001);
    // Lines by the word of their approach: those whose weights are equal, then those whose weights differ.
    let mut seen = [[0; 2]; 4];
    for _ in 0..1800 {
        let words = generator.words();
        let lines = built(&words)?.weigh().map_or_else(|_| Vec::new(), |deal| deal.lines);
        for line in lines {
            let within = line.weight.saturating_sub(farthest(line.approach))..=line.weight;
            assert!(within.contains(&line.least_weight), "{line:?}, {words:?}");
            seen[line.approach.word() as usize][usize::from(line.least_weight != line.weight)] += 1;
        }
    }
    let counts = seen.as_flattened();
    assert_eq!(counts.iter().filter(|count| **count >= 20).count(), 7, "{seen:?}");
    Ok(())
}

/// Every built sheet has the sums of its blocks, also where a tranche is too thin to be weighed.
#[test]
fn a_built_sheet_has_its_block_sums() -> Result<(), SheetError> {
    let mut generator = Generator(0x626c_6f63_6b73_0001);
    let [mut weighed, mut refused] = [0; 2];
    for _ in 0..900 {
        let words = generator.words();
        let sheet = built(&words)?;
        hold_blocks(&words, |block| sheet.block_sums(block));
        let count = if sheet.weigh().is_ok() {
            &mut weighed
        } else {
            &mut refused
        };
        *count += 1;
    }
    assert!(weighed >= 100 && refused >= 20, "{weighed} {refused}");
    Ok(())
}

/// The months of a tranche's maturity.
fn months_of(tranche: &[u64], reporting_date: Option<Date>) -> Result<u64, SheetError> {
    match reporting_date {
        Some(date) => Ok(date.months_to(Date::try_from(tranche[2])?)?.get()),
        None => Ok(tranche[2]),
    }
}

/// The sheet with the ratings written on each unrated tranche that it can take: those of the first rated tranche that is
/// of its class or a junior one, and no shorter. Classes never fall from row to row, so that one is of the most senior
/// class. And the number of the tranches on which ratings were written.
fn with_ratings_written(words: &[u64]) -> Result<(Vec<u64>, usize), SheetError> {
    let reporting_date = reporting_date_of(words)?;
    let (mut written, mut count) = (words.to_vec(), 0);
    let section = first_tranche(words)..irb_count(words);
    let rows = || words[section.clone()].chunks(TRANCHE_WORDS);
    for (number, row) in rows().enumerate().filter(|(_, row)| row[4..] == [0; 3]) {
        let months = months_of(row, reporting_date)?;
        for other in rows().filter(|other| other[4..] != [0; 3] && other[1] >= row[1]) {
            if months_of(other, reporting_date)? >= months {
                let first = section.start + TRANCHE_WORDS * number + 4;
                written[first..first + 3].copy_from_slice(&other[4..]);
                count += 1;
                break;
            }
        }
    }
    Ok((written, count))
}

/// Every sheet has the answer of the sheet with the ratings written that its tranches can take; also where nothing is
/// taken: in a re-securitisation, under SEC-IRBA and without due diligence they play no part, written or not.
#[test]
fn ratings_that_are_taken_can_be_written() -> Result<(), SheetError> {
    let mut generator = Generator(0x7461_6b65_6e00_0001);
    let mut seen = [0; SORTS];
    for _ in 0..7_200 {
        let words = generator.words();
        let (written, count) = with_ratings_written(&words)?;
        let [taken, given] = [&words, &written].map(|words| weigh_file(&file_of(words)));
        assert_eq!(taken, given, "{words:?}");
        seen[sort_of(&words)] += usize::from(count > 0 && taken.is_ok());
    }
    assert!(seen.iter().all(|count| *count >= 20), "{seen:?}");
    Ok(())
}

/// Every built sheet in whole percent is converted, and so is the one that is made of it. One in hundredths is refused by
/// 19 at its first weight that is no whole percent; with those made whole it is converted.
#[test]
fn a_built_sheet_is_converted() -> Result<(), SheetError> {
    let mut generator = Generator(0x636f_6e76_6572_7401);
    let mut seen = [0; SORTS];
    for _ in 0..1800 {
        let mut words = generator.words();
        let sheet = built(&words)?;
        if affirms(&words, UNIT) {
            let broken: Vec<usize> = risk_weights(&words).filter(|place| words[*place] % 100 != 0).collect();
            let refusal = sheet.in_other_unit().unwrap_err();
            let place = refusal.place() as usize;
            assert_eq!(
                (refusal.reason(), Some(&place)),
                (Reason::NotWholePercent, broken.first())
            );
            broken.iter().for_each(|place| words[*place] -= words[*place] % 100);
        }
        hold_conversion(&words);
        seen[sort_of(&words)] += 1;
    }
    assert!(seen.iter().all(|count| *count >= 20), "{seen:?}");
    Ok(())
}

/// Every built sheet is opened, and after each of a run of amendments it is that of a fresh load.
#[test]
fn an_amended_sheet_is_that_of_a_fresh_load() -> Result<(), Box<dyn Error>> {
    let mut generator = Generator(0x616d_656e_6465_6401);
    let mut seen = [0; SORTS];
    for _ in 0..900 {
        let words = generator.words();
        let mut pool = built(&words)?.open()?;
        hold_opened(&pool);
        for _ in 0..6 {
            let amendment = generator.amendment(&words);
            hold_amended(&mut pool, amendment);
        }
        seen[sort_of(&words)] += 1;
    }
    assert!(seen.iter().all(|count| *count >= 10), "{seen:?}");
    Ok(())
}
