//! What a run must meet on some block of rows whose sums are read (S-7).

use crate::answer::refusal;
use crate::sheet::{blocks_of, status, Layout, RowWord, BLOCKS, BLOCK_ROWS};
use independent::{Deal, Refusal};

/// The words of a row.
type Row = [u64; RowWord::COUNT];

/// A block whose sums were read.
pub(crate) struct AskedBlock<'a> {
    /// The block's number.
    number: u64,
    /// The rows of the pool; none where the sheet is refused.
    pool: &'a [Row],
    /// The rows of the block; none past the last block and where the sheet is refused.
    rows: &'a [Row],
    /// Where the sheet is refused; nowhere where the block is summed.
    refused: Option<RefusedAt>,
    /// The number by which the lines of the sheet are refused; 0 where they are not.
    lines_refused: u64,
}

impl<'a> AskedBlock<'a> {
    /// The block of this number of a sheet whose lines have this answer.
    pub(crate) fn new(sheet: &'a [u64], answer: &Result<Deal, Refusal>, number: u64) -> AskedBlock<'a> {
        let refused = answer.as_ref().err().and_then(|refusal| RefusedAt::of(sheet, refusal));
        let pool = match refused {
            Some(_) => &[],
            None => Layout::of_sheet(sheet).pool(sheet),
        };
        AskedBlock {
            number,
            pool,
            rows: pool
                .chunks(BLOCK_ROWS as usize)
                .nth(number as usize)
                .unwrap_or_default(),
            refused,
            lines_refused: answer.as_ref().map_or_else(|refusal| refusal.number, |_| 0),
        }
    }

    /// The number of the first block that has no rows; none where the sheet is refused.
    fn past(&self) -> Option<u64> {
        self.refused.is_none().then(|| blocks_of(self.pool.len() as u64))
    }

    /// The row at which a block past the last one would begin, where the product of its number with the rows of a block
    /// were cut to 64 bits; none where the pool has no such row.
    fn wrapped(&self) -> Option<u64> {
        let row = self.number.wrapping_mul(BLOCK_ROWS);
        let inside = self.rows.is_empty() && row < self.pool.len() as u64;
        inside.then_some(row)
    }

    /// Whether a block past the last one would be one of the pool's, where its number were cut to 32 bits.
    fn cut(&self) -> bool {
        let number = self.number & u64::from(u32::MAX);
        self.rows.is_empty() && number < blocks_of(self.pool.len() as u64)
    }

    /// Whether the block is full and another one follows it.
    fn followed(&self) -> bool {
        let rows = self.rows.len() as u64;
        rows == BLOCK_ROWS && (self.number + 1) * BLOCK_ROWS < self.pool.len() as u64
    }
}

/// Where a sheet is refused.
#[derive(Debug, Clone, Copy, PartialEq, Eq)]
pub enum RefusedAt {
    /// At a word of the facts or the pool or at the count of the tranches, or for one of these missing.
    UpToPool,
    /// At a later word, or for a later one missing.
    AfterPool,
    /// At a word that follows the last section.
    Follow,
}

impl RefusedAt {
    /// Where a sheet is refused whose lines are; nowhere where its words are good. Words after the pool are judged
    /// where all counts up to that of the tranches are good.
    fn of(sheet: &[u64], refusal: &Refusal) -> Option<RefusedAt> {
        match refusal.number {
            refusal::THIN | refusal::ROOM => None,
            refusal::WORDS_FOLLOW => Some(RefusedAt::Follow),
            _ => match Layout::before(sheet, refusal.place as usize) {
                Some(_) => Some(RefusedAt::AfterPool),
                None => Some(RefusedAt::UpToPool),
            },
        }
    }
}

/// What must be met by the rows of some block.
#[derive(Debug, Clone, Copy, PartialEq, Eq)]
pub enum BlockRowFeature {
    /// The first block of a pool of so many rows, all of whose blocks are read.
    Rows(u64),
    /// The first row of a block after the first has this status.
    First(u64),
    /// The last row of a full block that another one follows has this status.
    LastOfFull(u64),
    /// The last row of a block after the first that is not full has this status.
    LastOfPartial(u64),
    /// No row of the block has a known status, and some row of another one has.
    NoneKnown,
}

impl BlockRowFeature {
    /// All features with their names.
    pub(crate) const TABLE: [(BlockRowFeature, &'static str); 23] = [
        (BlockRowFeature::Rows(1), "blocks: pool of 1 row"),
        (BlockRowFeature::Rows(49), "blocks: pool of 49 rows"),
        (BlockRowFeature::Rows(50), "blocks: pool of 50 rows"),
        (BlockRowFeature::Rows(51), "blocks: pool of 51 rows"),
        (BlockRowFeature::Rows(99), "blocks: pool of 99 rows"),
        (BlockRowFeature::Rows(100), "blocks: pool of 100 rows"),
        (BlockRowFeature::Rows(101), "blocks: pool of 101 rows"),
        (BlockRowFeature::Rows(950), "blocks: pool of 950 rows"),
        (BlockRowFeature::Rows(951), "blocks: pool of 951 rows"),
        (BlockRowFeature::Rows(1_000), "blocks: pool of 1,000 rows"),
        (BlockRowFeature::First(status::PAYING), "blocks: first row paying"),
        (
            BlockRowFeature::First(status::DELINQUENT),
            "blocks: first row delinquent",
        ),
        (BlockRowFeature::First(status::NOT_KNOWN), "blocks: first row not known"),
        (BlockRowFeature::First(status::TRANCHE), "blocks: first row a tranche"),
        (
            BlockRowFeature::LastOfFull(status::PAYING),
            "blocks: fiftieth row paying, more follow",
        ),
        (
            BlockRowFeature::LastOfFull(status::DELINQUENT),
            "blocks: fiftieth row delinquent, more follow",
        ),
        (
            BlockRowFeature::LastOfFull(status::NOT_KNOWN),
            "blocks: fiftieth row not known, more follow",
        ),
        (
            BlockRowFeature::LastOfFull(status::TRANCHE),
            "blocks: fiftieth row a tranche, more follow",
        ),
        (
            BlockRowFeature::LastOfPartial(status::PAYING),
            "blocks: not full, last row paying",
        ),
        (
            BlockRowFeature::LastOfPartial(status::DELINQUENT),
            "blocks: not full, last row delinquent",
        ),
        (
            BlockRowFeature::LastOfPartial(status::NOT_KNOWN),
            "blocks: not full, last row not known",
        ),
        (
            BlockRowFeature::LastOfPartial(status::TRANCHE),
            "blocks: not full, last row a tranche",
        ),
        (BlockRowFeature::NoneKnown, "blocks: no known row, but in another block"),
    ];

    /// Whether a block shows the feature.
    pub(crate) fn shown(self, asked: &AskedBlock) -> bool {
        let &AskedBlock { number, pool, rows, .. } = asked;
        let (later, full) = (number > 0, rows.len() as u64 == BLOCK_ROWS);
        let has = |row: Option<&Row>, status| row.is_some_and(|row| row[RowWord::Status as usize] == status);
        let known = |rows: &[Row]| rows.iter().any(|row| !has(Some(row), status::NOT_KNOWN));
        match self {
            BlockRowFeature::Rows(count) => number == 0 && pool.len() as u64 == count,
            BlockRowFeature::First(status) => later && has(rows.first(), status),
            BlockRowFeature::LastOfFull(status) => asked.followed() && has(rows.last(), status),
            BlockRowFeature::LastOfPartial(status) => later && !full && has(rows.last(), status),
            BlockRowFeature::NoneKnown => !rows.is_empty() && !known(rows) && known(pool),
        }
    }
}

/// What must be met by the number of some block, or by what its sheet gets.
#[derive(Debug, Clone, Copy, PartialEq, Eq)]
pub enum BlockFeature {
    /// The block just past the last one.
    JustPast,
    /// A block past the last one, whose number times the rows of a block, cut to 64 bits, is that of the first row.
    WrapsToFirst,
    /// The same with a later row of the pool.
    WrapsInside,
    /// A block past the last one, whose number cut to 32 bits is that of a block of the pool, and which does not wrap.
    CutInside,
    /// The highest number.
    Highest,
    /// A block that has rows, of a sheet whose lines are refused by this number.
    LinesRefused(u64),
    /// A refused sheet.
    Refused {
        /// Where.
        at: RefusedAt,
        /// Whether the block is past the last of every pool, and not the first.
        past: bool,
    },
}

impl BlockFeature {
    /// All features with their names.
    pub(crate) const TABLE: [(BlockFeature, &'static str); 13] = [
        (BlockFeature::JustPast, "blocks: just past the last"),
        (BlockFeature::WrapsToFirst, "blocks: product wraps to the first row"),
        (BlockFeature::WrapsInside, "blocks: product wraps to a later row"),
        (BlockFeature::CutInside, "blocks: number small in 32 bits alone"),
        (BlockFeature::Highest, "blocks: the highest number"),
        (
            BlockFeature::LinesRefused(refusal::THIN),
            "blocks: summed with refusal 13 of the lines",
        ),
        (
            BlockFeature::LinesRefused(refusal::ROOM),
            "blocks: summed with refusal 14 of the lines",
        ),
        (refused(RefusedAt::UpToPool, false), "blocks: refused up to the pool"),
        (
            refused(RefusedAt::UpToPool, true),
            "blocks: refused up to the pool, past",
        ),
        (refused(RefusedAt::AfterPool, false), "blocks: refused after the pool"),
        (
            refused(RefusedAt::AfterPool, true),
            "blocks: refused after the pool, past",
        ),
        (refused(RefusedAt::Follow, false), "blocks: refused by 3"),
        (refused(RefusedAt::Follow, true), "blocks: refused by 3, past"),
    ];

    /// Whether a block shows the feature.
    pub(crate) fn shown(self, asked: &AskedBlock) -> bool {
        let number = asked.number;
        match self {
            BlockFeature::JustPast => asked.past() == Some(number),
            BlockFeature::WrapsToFirst => asked.wrapped() == Some(0),
            BlockFeature::WrapsInside => asked.wrapped().is_some_and(|row| row > 0),
            BlockFeature::CutInside => asked.cut() && asked.wrapped().is_none(),
            BlockFeature::Highest => asked.refused.is_none() && number == u64::MAX,
            BlockFeature::LinesRefused(refused) => !asked.rows.is_empty() && asked.lines_refused == refused,
            BlockFeature::Refused { at, past: true } => number >= BLOCKS && asked.refused == Some(at),
            BlockFeature::Refused { at, past: false } => number == 0 && asked.refused == Some(at),
        }
    }
}

/// The feature of a sheet that is refused there, with such a block.
const fn refused(at: RefusedAt, past: bool) -> BlockFeature {
    BlockFeature::Refused { at, past }
}

#[cfg(test)]
mod tests {
    use super::*;
    use crate::answer::MOST_RESULTS;
    use crate::blocks::{WRAPS_INSIDE, WRAPS_TO_FIRST};
    use crate::sheet::BLOCK_EDGES;

    /// Pools must be met of the counts that the generator makes, every status at each end of a block, and a block without
    /// a known row.
    #[test]
    fn counts_and_statuses_are_listed() {
        let ends = [
            BlockRowFeature::First,
            BlockRowFeature::LastOfFull,
            BlockRowFeature::LastOfPartial,
        ];
        let at_end = |end: fn(u64) -> BlockRowFeature| status::TABLE.iter().map(move |&(status, _)| end(status));
        let counts = BLOCK_EDGES.into_iter().map(BlockRowFeature::Rows);
        let listed = BlockRowFeature::TABLE.iter().map(|entry| entry.0);
        let all = counts.chain(ends.into_iter().flat_map(at_end));
        assert!(listed.eq(all.chain([BlockRowFeature::NoneKnown])));
    }

    /// A sheet without due diligence, whose rows have these statuses.
    fn sheet(statuses: &[u64]) -> Vec<u64> {
        let resecuritisation = u64::from(statuses[0] == status::TRANCHE);
        let mut words = vec![4, 0, resecuritisation, 0, 0, statuses.len() as u64];
        words.extend(statuses.iter().flat_map(|&status| [1, 1, 1, status]));
        words.extend([1, 1, 1, 1, 0, 0, 0, 0]);
        words
    }

    /// What the rows of a block show.
    fn shown_by_rows(statuses: &[u64], number: u64) -> Vec<BlockRowFeature> {
        let words = sheet(statuses);
        let answer = independent::weigh(&words, MOST_RESULTS as u64);
        let asked = AskedBlock::new(&words, &answer, number);
        let features = BlockRowFeature::TABLE.map(|(feature, _)| feature);
        features.into_iter().filter(|feature| feature.shown(&asked)).collect()
    }

    /// Blocks count by the status of their first row, but for that of the pool, and of their last, but for the last row
    /// of a pool of full blocks; pools by their rows.
    #[test]
    fn rows_are_counted() {
        let mut statuses = [status::PAYING; 101];
        [statuses[49], statuses[50], statuses[99]] = [1, 2, 1];
        let fiftieth = BlockRowFeature::LastOfFull(status::DELINQUENT);
        let first = BlockRowFeature::First(status::NOT_KNOWN);
        assert_eq!(shown_by_rows(&statuses, 0), [BlockRowFeature::Rows(101), fiftieth]);
        assert_eq!(shown_by_rows(&statuses, 1), [first, fiftieth]);
        let both = |status| [BlockRowFeature::First(status), BlockRowFeature::LastOfPartial(status)];
        assert_eq!(shown_by_rows(&statuses, 2), both(status::PAYING));
        assert_eq!(shown_by_rows(&statuses, 3), []);
        let tranches = [status::TRANCHE; 52];
        assert_eq!(shown_by_rows(&tranches, 0), [BlockRowFeature::LastOfFull(3)]);
        assert_eq!(shown_by_rows(&tranches, 1), both(status::TRANCHE));
        assert_eq!(
            shown_by_rows(&statuses[..100], 0),
            [BlockRowFeature::Rows(100), fiftieth]
        );
        assert_eq!(shown_by_rows(&statuses[..100], 1), [first]);
        assert_eq!(shown_by_rows(&statuses[..50], 0), [BlockRowFeature::Rows(50)]);
        assert_eq!(shown_by_rows(&[0; 48], 0), []);
        assert_eq!(shown_by_rows(&[9; 50], 0), []);
    }

    /// A block without a row of known status counts where another one has such a row, full or not, the first or a later
    /// one.
    #[test]
    fn blocks_without_a_known_row_are_counted() {
        let none_known = |statuses: &[u64], number| {
            let shown = shown_by_rows(statuses, number);
            shown.contains(&BlockRowFeature::NoneKnown)
        };
        let mut statuses = [status::NOT_KNOWN; 101];
        assert!((0..3).all(|number| !none_known(&statuses, number)));
        statuses[75] = status::DELINQUENT;
        assert_eq!(
            [0, 1, 2, 3].map(|number| none_known(&statuses, number)),
            [true, false, true, false]
        );
        statuses[49] = status::PAYING;
        assert!(!none_known(&statuses, 0) && none_known(&statuses, 2));
        assert!((0..2).all(|number| !none_known(&[status::TRANCHE; 51], number)));
    }

    /// What a block of a sheet shows, with so much room for its lines.
    fn shown_with(sheet: &[u64], room: usize, number: u64) -> Vec<BlockFeature> {
        let answer = independent::weigh(sheet, room as u64);
        let asked = AskedBlock::new(sheet, &answer, number);
        let features = BlockFeature::TABLE.map(|(feature, _)| feature);
        features.into_iter().filter(|feature| feature.shown(&asked)).collect()
    }

    /// What a block of a sheet shows, with room enough.
    fn shown(sheet: &[u64], number: u64) -> Vec<BlockFeature> {
        shown_with(sheet, MOST_RESULTS, number)
    }

    /// Past the last block: the one just past it, numbers that wrap to a row of the pool or are cut to a block of it, and
    /// the highest.
    #[test]
    fn numbers_past_the_last_are_counted() {
        let [short, long, full] = [34, 35, 50].map(|rows| sheet(&vec![0; rows]));
        assert_eq!([0, 2, 20].map(|number| shown(&long, number)), [const { vec![] }; 3]);
        assert_eq!(
            [&long, &full].map(|sheet| shown(sheet, 1)),
            [[BlockFeature::JustPast]; 2]
        );
        assert_eq!(shown(&long, WRAPS_TO_FIRST), [BlockFeature::WrapsToFirst]);
        assert_eq!(shown(&long, WRAPS_INSIDE), [BlockFeature::WrapsInside]);
        assert_eq!(shown(&short, WRAPS_INSIDE), []);
        let cut = [1 << 32, (1 << 32) + 1].map(|number| shown(&long, number));
        assert_eq!(cut, [vec![BlockFeature::CutInside], vec![]]);
        assert_eq!(shown(&sheet(&[0; 51]), (1 << 32) + 1), [BlockFeature::CutInside]);
        assert_eq!(shown(&long, u64::MAX), [BlockFeature::Highest]);
    }

    /// A sheet whose lines are refused by 14 or by 13 is summed; in a block without rows that does not count.
    #[test]
    fn lines_refused_are_counted() {
        assert_eq!(
            shown_with(&sheet(&[0]), 6, 0),
            [BlockFeature::LinesRefused(refusal::ROOM)]
        );
        assert_eq!(shown_with(&sheet(&[0]), 6, 1), [BlockFeature::JustPast]);
        let pool = [1, 10_000_000_000, 10_000_000_000, 100, 0];
        let thin = [2, 4_999_995_000, 1, 60, 0, 0, 0, 0, 1, 2, 60, 0, 0, 0, 0];
        let thin = [&[4, 0, 0, 1, 0], &pool[..], &thin].concat();
        assert_eq!(shown(&thin, 0), [BlockFeature::LinesRefused(refusal::THIN)]);
    }

    /// A refused sheet counts by where it is refused, with the first block and with one past all; not with others.
    #[test]
    fn refused_sheets_are_counted() {
        let good = sheet(&[0]);
        let with = |place: usize, word| {
            let mut words = good.clone();
            words[place] = word;
            words
        };
        for (words, at) in [
            (with(1, 3), RefusedAt::UpToPool),
            (with(9, 3), RefusedAt::UpToPool),
            (with(10, 0), RefusedAt::UpToPool),
            (good[..10].to_vec(), RefusedAt::UpToPool),
            (vec![], RefusedAt::UpToPool),
            (with(11, 0), RefusedAt::AfterPool),
            (good[..11].to_vec(), RefusedAt::AfterPool),
            ([&good[..], &[0]].concat(), RefusedAt::Follow),
        ] {
            assert_eq!(shown(&words, 0), [refused(at, false)], "{words:?}");
            assert!([1, 19].into_iter().all(|number| shown(&words, number).is_empty()));
            for number in [20, WRAPS_TO_FIRST, u64::MAX] {
                assert_eq!(shown(&words, number), [refused(at, true)], "{words:?}");
            }
        }
    }
}
