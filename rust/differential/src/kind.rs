//! The kinds of sheets, the kinds of room for results and for the rewritten sheet, the kinds of files and the kinds of
//! amendments that a run is made of, each with its name and its share.

use crate::answer::LINE_WORDS;
use crate::random::Random;
use crate::sheet::{rewritten_words, Layout};

/// An entry of a table of kinds: the kind, its name in the printed counts, and its share of the draws.
type Entry<K> = (K, &'static str, u64);

/// Draws a kind by the shares of its table.
fn draw<K: Copy>(table: &[Entry<K>], random: &mut Random) -> K {
    let all = table.iter().map(|entry| entry.2).sum();
    let mut left = random.below(all);
    for &(kind, _, share) in table {
        if left < share {
            return kind;
        }
        left -= share;
    }
    unreachable!("the draw is below the sum of the shares")
}

/// What a sheet is made to show.
#[derive(Debug, Clone, Copy, PartialEq, Eq)]
pub enum Kind {
    /// An ordinary securitisation of any sort, without the STC mark.
    Ordinary,
    /// An STC deal of any sort.
    Stc,
    /// A re-securitisation of any sort.
    Resecuritisation,
    /// Points at the pool charge or a few millionths beside it.
    AroundCharge,
    /// Tranches of 0, 1 or 2 millionths.
    Thin,
    /// Tranches that together pass the pool.
    Overshoot,
    /// Unknown rows just below, at and just above 5% of the exposure.
    UnknownShare,
    /// All rows of status not known.
    AllUnknown,
    /// All rows delinquent.
    AllDelinquent,
    /// All risk weights zero and none late: the pool charge is 0.
    ZeroCharge,
    /// A pool charge of a few millionths, so that the formula's exponents are large.
    SmallCharge,
    /// Ratings on every tranche.
    Rated,
    /// Good ratings on tranches about half as thick as the pool, whose weights lie near the senior figures.
    HalfThick,
    /// Ratings of one weight on a tranche whose exact figures by them differ.
    NearRatings,
    /// Ratings on some tranches, and maturities about as long as those of the others, so that many of these take them.
    Inferred,
    /// Up to 1,000 rows, often as many as about the end of a block.
    LargePool,
    /// An IRB pool, with its section.
    IrbPool,
    /// A mixed pool, with its section; the share is often near 95%.
    MixedPool,
    /// Risk weights in hundredths of a percent.
    Hundredths,
    /// Every word at its lowest or highest allowed value.
    Limits,
    /// Cut at a random place.
    Truncated,
    /// Words added after the last section.
    WordsAdded,
    /// One word set to an edge value.
    EdgeWord,
    /// Two words swapped.
    Swapped,
    /// Several damages at once.
    SeveralDamages,
    /// Random words.
    RandomWords,
    /// Another pool kind than the sheet was written with.
    PoolKind,
    /// An STC mark on a re-securitisation.
    StcMark,
    /// A reporting date, and it or a maturity is a bad date.
    BadDate,
    /// An IRB section with a wrong count, a word outside its limits, too few words or too many.
    BadSection,
    /// Another unit of risk weights than the sheet was written in, or a number that is none.
    OtherUnit,
    /// A risk weight above the limit of its unit.
    BadWeight,
}

impl Kind {
    /// All kinds, in the order of the enum.
    pub const TABLE: [Entry<Kind>; 32] = [
        (Kind::Ordinary, "ordinary", 24),
        (Kind::Stc, "STC", 24),
        (Kind::Resecuritisation, "re-securitisation", 10),
        (Kind::AroundCharge, "points around the charge", 12),
        (Kind::Thin, "thin tranches", 10),
        (Kind::Overshoot, "tranches pass the pool", 5),
        (Kind::UnknownShare, "unknown share near 5%", 8),
        (Kind::AllUnknown, "all rows unknown", 2),
        (Kind::AllDelinquent, "all rows delinquent", 2),
        (Kind::ZeroCharge, "charge 0", 3),
        (Kind::SmallCharge, "small charge", 6),
        (Kind::Rated, "rated", 18),
        (Kind::HalfThick, "rated and half thick", 6),
        (Kind::NearRatings, "near ratings", 6),
        (Kind::Inferred, "ratings to be inferred", 30),
        (Kind::LargePool, "large pool", 3),
        (Kind::IrbPool, "IRB pool", 16),
        (Kind::MixedPool, "mixed pool", 18),
        (Kind::Hundredths, "weights in hundredths", 16),
        (Kind::Limits, "at the limits", 3),
        (Kind::Truncated, "truncated", 4),
        (Kind::WordsAdded, "words added", 3),
        (Kind::EdgeWord, "one edge word", 16),
        (Kind::Swapped, "two words swapped", 4),
        (Kind::SeveralDamages, "several damages", 5),
        (Kind::RandomWords, "random words", 4),
        (Kind::PoolKind, "another pool kind", 4),
        (Kind::StcMark, "STC mark on a re-securitisation", 2),
        (Kind::BadDate, "a bad date", 8),
        (Kind::BadSection, "a bad IRB section", 12),
        (Kind::OtherUnit, "another unit", 6),
        (Kind::BadWeight, "a bad risk weight", 5),
    ];

    /// How many entries of the table, from its start, are kinds of sound sheets: those up to the one at the limits.
    const SOUND: usize = Kind::Limits as usize + 1;

    /// Draws a kind.
    pub fn draw(random: &mut Random) -> Kind {
        draw(&Kind::TABLE, random)
    }

    /// The kind of sound sheet that a sheet of this kind is made from: itself, or one to be damaged afterwards. A bad
    /// IRB section is made from a good one.
    pub fn sound(self, random: &mut Random) -> Kind {
        match self {
            sound if sound.is_sound() => sound,
            Kind::BadSection => random.pick(&[Kind::IrbPool, Kind::MixedPool]),
            _ => draw(&Kind::TABLE[..Kind::SOUND], random),
        }
    }

    /// Whether sheets of this kind keep every limit of the deal sheet.
    pub fn is_sound(self) -> bool {
        (self as usize) < Kind::SOUND
    }

    /// The name in the printed counts.
    pub fn name(self) -> &'static str {
        Kind::TABLE[self as usize].1
    }
}

/// How many result words are lent.
#[derive(Debug, Clone, Copy, PartialEq, Eq)]
pub enum Room {
    /// More than the sheet's tranches need.
    Ample,
    /// Just what they need.
    Exact,
    /// One word less.
    OneLess,
    /// One word less for each tranche.
    OneLessEach,
    /// Any number that is too small.
    Short,
    /// No word.
    Nothing,
}

impl Room {
    /// All kinds of room, in the order of the enum.
    pub const TABLE: [Entry<Room>; 6] = [
        (Room::Ample, "room to spare", 30),
        (Room::Exact, "exact room", 6),
        (Room::OneLess, "one word short", 1),
        (Room::OneLessEach, "one word short for each tranche", 1),
        (Room::Short, "some words short", 1),
        (Room::Nothing, "no room", 1),
    ];

    /// Draws a kind of room.
    pub fn draw(random: &mut Random) -> Room {
        draw(&Room::TABLE, random)
    }

    /// The number of words to lend for the lines of so many tranches, at least one.
    pub fn words(self, tranches: usize, random: &mut Random) -> usize {
        let needed = LINE_WORDS * tranches;
        match self {
            Room::Ample => needed + random.between(1, 24) as usize,
            Room::Exact => needed,
            Room::OneLess => needed - 1,
            Room::OneLessEach => needed - tranches,
            Room::Short => random.below(needed as u64) as usize,
            Room::Nothing => 0,
        }
    }
}

/// How many output words are lent for the sheet in the other unit, besides just those that it needs.
#[derive(Debug, Clone, Copy, PartialEq, Eq)]
pub enum Output {
    /// Some more than it needs.
    Larger,
    /// Those of the largest sheet, or some more.
    Ample,
    /// One word less than it needs.
    OneLess,
    /// As many as the sheet has as given.
    AsGiven,
    /// Any number that is too small.
    Short,
    /// No word.
    Nothing,
}

impl Output {
    /// All kinds of output, in the order of the enum.
    pub const TABLE: [Entry<Output>; 6] = [
        (Output::Larger, "to spare", 4),
        (Output::Ample, "for the largest sheet", 1),
        (Output::OneLess, "one word short", 3),
        (Output::AsGiven, "for the sheet as given", 2),
        (Output::Short, "some words short", 1),
        (Output::Nothing, "none", 1),
    ];

    /// Draws a kind of output.
    pub fn draw(random: &mut Random) -> Output {
        draw(&Output::TABLE, random)
    }

    /// The number of words to lend for a sheet in the other unit. A sheet that is not rewritten counts as if it were.
    pub fn words(self, sheet: &[u64], random: &mut Random) -> usize {
        let needed = rewritten_words(sheet);
        match self {
            Output::Larger => needed + random.between(1, 24) as usize,
            Output::Ample => needed.max(Layout::LARGEST.words()) + random.below(24) as usize,
            Output::OneLess => needed.saturating_sub(1),
            Output::AsGiven => sheet.len(),
            Output::Short => random.below(needed.max(1) as u64) as usize,
            Output::Nothing => 0,
        }
    }
}

/// What file a sheet is also handed in as.
#[derive(Debug, Clone, Copy, PartialEq, Eq)]
pub enum File {
    /// No file is made.
    Unused,
    /// The sheet's words.
    Whole,
    /// Some bytes more or less than whole words.
    Ragged,
    /// Made about as long as the longest file, or far longer.
    Stretched,
    /// No byte.
    Empty,
}

impl File {
    /// All kinds of files, in the order of the enum.
    pub const TABLE: [Entry<File>; 5] = [
        (File::Unused, "no file", 96),
        (File::Whole, "whole file", 24),
        (File::Ragged, "ragged file", 4),
        (File::Stretched, "stretched file", 2),
        (File::Empty, "empty file", 1),
    ];

    /// Draws a kind of file.
    pub fn draw(random: &mut Random) -> File {
        draw(&File::TABLE, random)
    }
}

/// A second sheet, made from the first, whose answer is known from the first's.
#[derive(Debug, Clone, Copy, PartialEq, Eq)]
pub enum Relation {
    /// No second sheet.
    Unused,
    /// The rows in another order: the same answer.
    RowOrder,
    /// The ratings of each tranche in another order: the same answer.
    RatingOrder,
    /// Other ratings on one tranche, or on all but one: the lines of the others are the same, where these are rated or no
    /// rating is inferred in the deal.
    OtherRatings,
    /// Other ratings on all tranches of the classes senior to some class: the lines of that class and of those below it
    /// are the same.
    SeniorRatings,
    /// Composition not known: shows by the independent answer whether the cap decided.
    WithoutCap,
    /// More facts are stated, of 0, which is what they count as where they are not stated: the same answer, at the
    /// places of the second sheet.
    FactsAdded,
    /// No reporting date, and months in place of dates: the same answer.
    MonthsForDates,
    /// An SA pool without the IRB section, in place of a deal that has one and is not under SEC-IRBA: the same answer.
    SaPool,
    /// Other statuses and ratings everywhere in a deal under SEC-IRBA: the same answer.
    OtherUnderIrba,
}

impl Relation {
    /// All relations, in the order of the enum.
    pub const TABLE: [Entry<Relation>; 10] = [
        (Relation::Unused, "no second sheet", 5),
        (Relation::RowOrder, "rows in another order", 1),
        (Relation::RatingOrder, "ratings in another order", 1),
        (Relation::OtherRatings, "other tranches' ratings", 2),
        (Relation::SeniorRatings, "ratings of senior classes", 2),
        (Relation::WithoutCap, "without the cap", 1),
        (Relation::FactsAdded, "facts of 0 added", 3),
        (Relation::MonthsForDates, "months in place of dates", 2),
        (Relation::SaPool, "an SA pool without the section", 2),
        (Relation::OtherUnderIrba, "statuses and ratings, SEC-IRBA", 2),
    ];

    /// Draws a relation.
    pub fn draw(random: &mut Random) -> Relation {
        draw(&Relation::TABLE, random)
    }
}

/// How many amendments of a sheet's pool are made.
#[derive(Debug, Clone, Copy, PartialEq, Eq)]
pub enum Amendments {
    /// None: the pool is only opened.
    Unused,
    /// One.
    One,
    /// Two to four.
    Few,
    /// Up to 40.
    Many,
}

impl Amendments {
    /// All lengths of a list, in the order of the enum.
    pub const TABLE: [Entry<Amendments>; 4] = [
        (Amendments::Unused, "none", 170),
        (Amendments::One, "one", 20),
        (Amendments::Few, "two to four", 40),
        (Amendments::Many, "many", 1),
    ];

    /// Draws the length of a list.
    pub fn draw(random: &mut Random) -> Amendments {
        draw(&Amendments::TABLE, random)
    }

    /// How many amendments to make.
    pub fn count(self, random: &mut Random) -> u64 {
        match self {
            Amendments::Unused => 0,
            Amendments::One => 1,
            Amendments::Few => random.between(2, 4),
            Amendments::Many => random.between(5, 40),
        }
    }
}

/// What an amendment is made to show.
#[derive(Debug, Clone, Copy, PartialEq, Eq)]
pub enum Amendment {
    /// Any good row.
    Any,
    /// Every word of the row at its lowest or highest allowed value.
    AtLimits,
    /// The row as the sheet has it with one amount by one more or less, or with another status.
    Near,
    /// Any good row of the number of the amendment before.
    SameRow,
    /// The row as the sheet has it, of the number of the amendment before.
    AsGiven,
    /// One bad word.
    BadWord,
    /// Two bad words.
    SeveralBadWords,
    /// Too few words.
    Short,
    /// Too many words.
    Long,
    /// A bad word, and too few.
    BadAndShort,
    /// A bad word, and too many.
    BadAndLong,
    /// Random words.
    RandomWords,
}

impl Amendment {
    /// All kinds of amendments, in the order of the enum.
    pub const TABLE: [Entry<Amendment>; 12] = [
        (Amendment::Any, "any row", 12),
        (Amendment::AtLimits, "a row at the limits", 6),
        (Amendment::Near, "a row with one word changed", 12),
        (Amendment::SameRow, "the same row once more", 4),
        (Amendment::AsGiven, "the row as given", 4),
        (Amendment::BadWord, "a bad word", 8),
        (Amendment::SeveralBadWords, "several bad words", 3),
        (Amendment::Short, "too few words", 3),
        (Amendment::Long, "too many words", 2),
        (Amendment::BadAndShort, "a bad word and too few", 3),
        (Amendment::BadAndLong, "a bad word and too many", 3),
        (Amendment::RandomWords, "random words", 1),
    ];

    /// Draws a kind of amendment.
    pub fn draw(random: &mut Random) -> Amendment {
        draw(&Amendment::TABLE, random)
    }
}

#[cfg(test)]
mod tests {
    use super::*;
    use std::collections::BTreeSet;

    /// Counts are kept by the enum's order, so each table must follow it.
    #[test]
    fn tables_follow_the_enums() {
        assert!((0..).zip(Kind::TABLE).all(|(place, entry)| entry.0 as usize == place));
        assert!((0..).zip(Room::TABLE).all(|(place, entry)| entry.0 as usize == place));
        assert!((0..).zip(Output::TABLE).all(|(place, entry)| entry.0 as usize == place));
        assert!((0..).zip(File::TABLE).all(|(place, entry)| entry.0 as usize == place));
        assert!((0..)
            .zip(Relation::TABLE)
            .all(|(place, entry)| entry.0 as usize == place));
        assert!((0..)
            .zip(Amendments::TABLE)
            .all(|(place, entry)| entry.0 as usize == place));
        assert!((0..)
            .zip(Amendment::TABLE)
            .all(|(place, entry)| entry.0 as usize == place));
    }

    /// The last sound kind is the one at the limits.
    #[test]
    fn sound_kinds_end_with_the_limits() {
        assert!(Kind::Limits.is_sound());
        assert!(!Kind::Truncated.is_sound());
    }

    /// A sound sheet is made as its own kind says, a damaged one as that of a sound kind, and one with a bad IRB
    /// section as that of a pool with a section.
    #[test]
    fn sheets_are_made_from_sound_ones() {
        let mut random = Random::of_sheet(4, 0);
        for (kind, name, _) in Kind::TABLE {
            for _ in 0..50 {
                let sound = kind.sound(&mut random);
                assert!(sound.is_sound() && (!kind.is_sound() || sound == kind), "{name}");
                let of_section = [Kind::IrbPool, Kind::MixedPool].contains(&sound);
                assert!(of_section || kind != Kind::BadSection);
            }
        }
    }

    /// The room for the lines of three tranches: 21 words, and less by one, by one for each, or by any number.
    #[test]
    fn rooms_follow_the_words_of_a_line() {
        let mut random = Random::of_sheet(6, 0);
        let mut words = |room: Room| (0..2_000).map(|_| room.words(3, &mut random)).collect::<BTreeSet<_>>();
        let fixed = [Room::Exact, Room::OneLess, Room::OneLessEach, Room::Nothing];
        assert_eq!(
            fixed.map(&mut words),
            [21, 20, 18, 0].map(|word| BTreeSet::from([word]))
        );
        assert_eq!(words(Room::Short), (0..21).collect());
        assert_eq!(words(Room::Ample), (22..=45).collect());
    }

    /// The output for a sheet of six words with four facts, which is rewritten in nine: more, one less, as many as it has,
    /// or any number less. For no sheet none is needed.
    #[test]
    fn outputs_follow_the_rewritten_sheet() {
        let mut random = Random::of_sheet(7, 0);
        let mut words = |output: Output, sheet: &[u64]| {
            let drawn = (0..2_000).map(|_| output.words(sheet, &mut random));
            drawn.collect::<BTreeSet<_>>()
        };
        let six = [4; 6];
        let fixed = [Output::OneLess, Output::AsGiven, Output::Nothing];
        assert_eq!(
            fixed.map(|output| words(output, &six)),
            [8, 6, 0].map(|word| BTreeSet::from([word]))
        );
        assert_eq!(words(Output::Short, &six), (0..9).collect());
        assert_eq!(words(Output::Larger, &six), (10..=33).collect());
        assert_eq!(words(Output::Ample, &six), (4_241..4_265).collect());
        assert!([Output::OneLess, Output::Short]
            .into_iter()
            .all(|output| words(output, &[]) == BTreeSet::from([0])));
    }

    /// Every kind is drawn, about as often as its share says.
    #[test]
    fn draws_follow_the_shares() {
        let mut random = Random::of_sheet(3, 0);
        let mut counts = [0u64; Room::TABLE.len()];
        (0..40_000).for_each(|_| counts[Room::draw(&mut random) as usize] += 1);
        for (count, (_, name, share)) in counts.iter().zip(Room::TABLE) {
            assert!((share * 800..share * 1_200).contains(count), "{name}: {count}");
        }
    }
}
