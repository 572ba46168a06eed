//! Damage to sheets, so that every refusal and every order of faults occurs.

use crate::dates;
use crate::irb;
use crate::kind::Kind;
use crate::random::Random;
use crate::sheet::{
    pool_kind, status, takes_facts, unit, write_with_facts, Fact, Facts, IrbWord, Layout, RowWord, TrancheWord, DAYS,
    FACTS, FEWEST_FACTS, IRB_COUNT, IRB_SHARE, LONG_TERM, MANY_LOANS, MONTHS, NO_UNITS, ONE_PERCENT, POOL_AMOUNT,
    RISK_WEIGHT, RISK_WEIGHT_PERCENT, ROWS, SHORT_TERM, TRANCHES, TRANCHE_AMOUNT, WHOLE,
};
use independent::date::Date;

/// Values at which some field's rule changes, and the ends of 32, 63 and 64 bits.
const EDGES: &[u64] = &[
    0,
    1,
    status::NOT_KNOWN,
    status::TRANCHE,
    FEWEST_FACTS,
    FACTS - 1,
    FACTS,
    FACTS + 1,
    LONG_TERM.1,
    LONG_TERM.1 + 1,
    SHORT_TERM.0 - 1,
    SHORT_TERM.0,
    SHORT_TERM.1,
    SHORT_TERM.1 + 1,
    TRANCHES - 1,
    TRANCHES,
    TRANCHES + 1,
    ONE_PERCENT,
    ROWS - 1,
    ROWS,
    ROWS + 1,
    MONTHS - 1,
    MONTHS,
    MONTHS + 1,
    RISK_WEIGHT_PERCENT - 1,
    RISK_WEIGHT_PERCENT,
    RISK_WEIGHT_PERCENT + 1,
    MANY_LOANS,
    RISK_WEIGHT - 1,
    RISK_WEIGHT,
    RISK_WEIGHT + 1,
    IRB_SHARE - 1,
    IRB_SHARE,
    WHOLE - 1,
    WHOLE,
    WHOLE + 1,
    POOL_AMOUNT - 1,
    POOL_AMOUNT,
    POOL_AMOUNT + 1,
    TRANCHE_AMOUNT - 1,
    TRANCHE_AMOUNT,
    TRANCHE_AMOUNT + 1,
    DAYS.0 - 1,
    DAYS.0,
    DAYS.1,
    DAYS.1 + 1,
    (1 << 32) - 1,
    1 << 32,
    (1 << 32) + 1,
    (1 << 63) - 1,
    1 << 63,
    (1 << 63) + 1,
    u64::MAX - 1,
    u64::MAX,
];

/// Damages a sheet as its kind says. `layout` holds the places of the sheet before any damage.
pub fn apply(kind: Kind, random: &mut Random, layout: Layout, words: &mut Vec<u64>) {
    match kind {
        Kind::Truncated => truncate(random, layout, words),
        Kind::WordsAdded => add_words(random, words),
        Kind::EdgeWord => set_edge(random, layout, words),
        Kind::Swapped => swap(random, layout, words),
        Kind::PoolKind => set_pool_kind(random, words),
        Kind::StcMark => mark_resecuritisation(random, words),
        Kind::BadDate => set_bad_date(random, layout, words),
        Kind::BadSection => spoil_section(random, layout, words),
        Kind::OtherUnit => set_unit(random, words),
        Kind::BadWeight => set_bad_weight(random, layout, words),
        Kind::SeveralDamages => {
            for _ in 0..random.between(2, 4) {
                apply(one_damage(random), random, layout, words);
            }
        }
        Kind::RandomWords => random_words(random, words),
        sound => unreachable!("{sound:?} sheets are not damaged"),
    }
}

/// One of several damages; those that leave the places as they are come more often.
fn one_damage(random: &mut Random) -> Kind {
    let rare = random.pick(&[
        Kind::Truncated,
        Kind::WordsAdded,
        Kind::PoolKind,
        Kind::StcMark,
        Kind::BadDate,
        Kind::BadSection,
        Kind::OtherUnit,
        Kind::BadWeight,
    ]);
    random.pick(&[Kind::EdgeWord, Kind::EdgeWord, Kind::EdgeWord, Kind::Swapped, rare])
}

/// Sets a word, where the sheet reaches so far.
fn set(words: &mut [u64], place: usize, word: u64) {
    if let Some(old) = words.get_mut(place) {
        *old = word;
    }
}

/// Sets another pool kind, or the first number that is none.
fn set_pool_kind(random: &mut Random, words: &mut [u64]) {
    let place = Layout::fact(Fact::PoolKind);
    let old = words.get(place).copied().unwrap_or(0);
    set(
        words,
        place,
        old.wrapping_add(random.between(1, 3)) % (pool_kind::MIXED + 2),
    );
}

/// Spoils the IRB section: sets its count, or mostly one of its words, outside the limits, cuts it, or adds words to
/// it.
fn spoil_section(random: &mut Random, layout: Layout, words: &mut Vec<u64>) {
    let count = layout.irb_count();
    let kind = words.get(Layout::fact(Fact::PoolKind)).copied().unwrap_or(0);
    match random.below(8) {
        0 => set(words, count, random.pick(&[0, IRB_COUNT + 1, u64::MAX])),
        1 => words.truncate(count + random.below(1 + IrbWord::COUNT as u64) as usize),
        2 => add_words(random, words),
        _ => {
            let (word, bad) = irb::bad_word(random, kind);
            set(words, layout.irb_word(word), bad);
        }
    }
}

/// Makes the deal a re-securitisation with an STC mark; now and then with a mark that is no code. A sheet that does not
/// state the mark gets it, and its later words move by a place.
fn mark_resecuritisation(random: &mut Random, words: &mut Vec<u64>) {
    let place = Layout::fact(Fact::Stc);
    if words.first() == Some(&FEWEST_FACTS) && words.len() >= place {
        words[Layout::FACTS_COUNT] = Fact::Stc.number();
        words.insert(place, 0);
    }
    set(words, Layout::fact(Fact::Resecuritisation), 1);
    set(words, place, random.pick(&[1, 1, 1, 2, u64::MAX]));
}

/// Sets a maturity of a sheet with a reporting date to a bad one; now and then, and in a sheet without that date, the
/// word at the date's place to one that names no day.
fn set_bad_date(random: &mut Random, layout: Layout, words: &mut [u64]) {
    let place = Layout::fact(Fact::ReportingDate);
    let tranche = random.below(layout.tranches as u64) as usize;
    let from = words.get(place).and_then(|&word| Date::of_word(word));
    match from.filter(|_| !random.once_in(4)) {
        Some(from) => {
            let maturity = dates::bad_maturity(random, from);
            set(words, layout.tranche_word(tranche, TrancheWord::Maturity), maturity);
        }
        None => set(words, place, dates::no_day(random)),
    }
}

/// Sets the other unit of risk weights, which stay as they are, or a number that is none. A sheet that does not state the
/// unit gets it, with the facts before it, and its later words move.
fn set_unit(random: &mut Random, words: &mut Vec<u64>) {
    if takes_facts(words) {
        write_with_facts(&words.clone(), FACTS, words);
    }
    let place = Layout::fact(Fact::Unit);
    let old = words.get(place).copied().unwrap_or(unit::PERCENT);
    let no_unit = random.pick(&NO_UNITS);
    set(words, place, random.pick(&[unit::other(old), no_unit]));
}

/// Sets a risk weight above the limit of its unit: just above it, that of hundredths or one more, or any.
fn set_bad_weight(random: &mut Random, layout: Layout, words: &mut [u64]) {
    let stated = words
        .get(Layout::fact(Fact::Unit))
        .filter(|_| layout.facts as u64 == FACTS);
    let least = unit::risk_weight(stated.copied().unwrap_or(unit::PERCENT)) + 1;
    let above = random.between(least, u64::MAX);
    let row = random.below(layout.rows as u64) as usize;
    let bad = random.pick(&[least, least, RISK_WEIGHT.max(least), above]);
    set(words, layout.risk_weight(row), bad);
}

/// Cuts the sheet anywhere, or where a section begins or ends, or before the last fact.
fn truncate(random: &mut Random, layout: Layout, words: &mut Vec<u64>) {
    let mut special: Vec<usize> = layout.counts().iter().flat_map(|count| [*count, count + 1]).collect();
    special.extend([layout.pool_count() - 1, layout.words() - 1]);
    let length = match random.once_in(3) {
        true => random.pick(&special),
        false => random.below(words.len().max(1) as u64) as usize,
    };
    words.truncate(length);
}

/// Adds a few words; now and then so many that the sheet is longer than any sound one.
fn add_words(random: &mut Random, words: &mut Vec<u64>) {
    let count = match random.once_in(40) {
        true => Layout::LARGEST.words() + random.below(3) as usize - 1,
        false => random.between(1, 8) as usize,
    };
    words.extend((0..count).map(|_| random.pick(EDGES)));
}

/// Draws the place of a word: each sort of field comes often, however many rows there are.
pub fn place(random: &mut Random, layout: Layout, words: &[u64]) -> usize {
    let row = layout.row(random.below(layout.rows as u64) as usize);
    let tranche = layout.tranche(random.below(layout.tranches as u64) as usize);
    match random.below(14) {
        12 | 13 if layout.irb => layout.irb_count() + random.below(1 + IrbWord::COUNT as u64) as usize,
        0 => Layout::FACTS_COUNT,
        1 => Layout::FACTS_COUNT + 1 + random.below(layout.facts as u64) as usize,
        2 => layout.pool_count(),
        3 => layout.tranche_count(),
        4..=6 => row + random.below(RowWord::COUNT as u64) as usize,
        7..=10 => tranche + random.below(TrancheWord::COUNT as u64) as usize,
        _ => random.below(words.len().max(1) as u64) as usize,
    }
}

/// The values at which the rule of the field at this place changes ("The deal sheet").
fn own_edges(layout: Layout, place: usize) -> &'static [u64] {
    let of_row = |edges: &[&'static [u64]], first: usize| edges[(place - first) % edges.len()];
    let [facts, pool, tranches, irb] = [
        Layout::FACTS_COUNT,
        layout.pool_count(),
        layout.tranche_count(),
        layout.irb_count(),
    ];
    match place {
        _ if place == facts => &[0, FEWEST_FACTS - 1, FEWEST_FACTS, FACTS - 1, FACTS, FACTS + 1],
        _ if place < pool => of_row(Fact::EDGES, facts + 1),
        _ if place == pool => &[0, 1, ROWS, ROWS + 1],
        _ if place < tranches => of_row(RowWord::EDGES, pool + 1),
        _ if place == tranches => &[0, 1, TRANCHES, TRANCHES + 1],
        _ if place < irb => of_row(TrancheWord::EDGES, tranches + 1),
        _ if place == irb => &[0, IRB_COUNT, IRB_COUNT + 1],
        _ => of_row(IrbWord::EDGES, irb + 1),
    }
}

/// Sets one word to an edge value of its own field or of any, or to one more or less than it was; now and then an
/// amount held to one more than its tranche's amount.
fn set_edge(random: &mut Random, layout: Layout, words: &mut [u64]) {
    let place = place(random, layout, words);
    let Some(&old) = words.get(place) else { return };
    match random.below(8) {
        0 => set(words, place, old.wrapping_add(1)),
        1 => set(words, place, old.wrapping_sub(1)),
        2 => {
            let tranche = random.below(layout.tranches as u64) as usize;
            let amount = words.get(layout.tranche_word(tranche, TrancheWord::Amount));
            let more = amount.copied().unwrap_or(0).wrapping_add(1);
            set(words, layout.tranche_word(tranche, TrancheWord::Held), more);
        }
        3..=5 => set(words, place, random.pick(own_edges(layout, place))),
        _ => set(words, place, random.pick(EDGES)),
    }
}

/// Swaps two words, where the sheet reaches so far.
fn swap(random: &mut Random, layout: Layout, words: &mut [u64]) {
    let one = place(random, layout, words);
    let other = place(random, layout, words);
    if one.max(other) < words.len() {
        words.swap(one, other);
    }
}

/// Random words in place of the sheet: of any size, small ones, or edge values; mostly after facts that are right, so
/// that later words are judged.
fn random_words(random: &mut Random, words: &mut Vec<u64>) {
    words.clear();
    if !random.once_in(4) {
        let rows = random.between(1, 3);
        let mut facts = Facts::default();
        facts[Fact::PoolKind] = random.pick(&[pool_kind::SA, pool_kind::SA, pool_kind::IRB, pool_kind::MIXED]);
        for fact in [Fact::Resecuritisation, Fact::DueDiligence, Fact::Composition] {
            facts[fact] = random.below(2);
        }
        if random.once_in(2) {
            facts[Fact::Stc] = random.below(2 - facts[Fact::Resecuritisation]);
        }
        if random.once_in(4) {
            facts[Fact::ReportingDate] = random.pick(&[0, DAYS.0, DAYS.1]);
        }
        if random.once_in(4) {
            facts[Fact::Unit] = random.pick(&[unit::PERCENT, unit::HUNDREDTHS]);
        }
        facts.write(words);
        words.push(rows);
    }
    let length = random.below(40);
    let sort = random.below(3);
    let mut draw = || match sort {
        0 => random.word(),
        1 => random.below(4),
        _ => random.pick(EDGES),
    };
    words.extend((0..length).map(|_| draw()));
}

#[cfg(test)]
mod tests {
    use super::*;

    /// An edge of a word's own is one of its rule: that of its name, in any row, and that of each count.
    #[test]
    fn edges_are_those_of_the_word() {
        let layout = Layout {
            facts: Fact::COUNT,
            rows: 2,
            tranches: 2,
            irb: true,
        };
        let counts: Vec<_> = layout.counts().iter().map(|&place| own_edges(layout, place)).collect();
        assert_eq!(counts[0], [0, 3, 4, 6, 7, 8]);
        assert_eq!([counts[1][2], counts[2][2], counts[3][2]], [ROWS, TRANCHES, 2]);
        let share = own_edges(layout, layout.irb_word(IrbWord::Share));
        assert_eq!(share[1..3], [IRB_SHARE - 1, IRB_SHARE]);
        for fact in [Fact::Stc, Fact::ReportingDate, Fact::Unit] {
            assert_eq!(own_edges(layout, Layout::fact(fact)), Fact::EDGES[fact as usize]);
        }
        for row in 0..2 {
            let weight = own_edges(layout, layout.risk_weight(row));
            assert_eq!(weight, [0, 1, 1_250, 1_251, 125_000, 125_001]);
            let maturity = own_edges(layout, layout.tranche_word(row, TrancheWord::Maturity));
            assert_eq!(maturity[..4], [0, 1, MONTHS, MONTHS + 1]);
        }
    }

    /// Damage keeps to the words there are, whatever was cut before: no sheet makes it panic, and an empty one stays
    /// possible.
    #[test]
    fn several_damages_on_a_short_sheet() {
        let layout = Layout {
            facts: Fact::COUNT,
            rows: 1,
            tranches: 1,
            irb: true,
        };
        let mut empty = false;
        for index in 0..5_000 {
            let mut random = Random::of_sheet(1, index);
            let mut words = vec![1; layout.words()];
            apply(Kind::SeveralDamages, &mut random, layout, &mut words);
            empty |= words.is_empty();
        }
        assert!(empty);
    }
}
