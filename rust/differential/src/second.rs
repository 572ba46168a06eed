//! The second sheet: its answer is known from the first sheet's.

use crate::answer::LINE_WORDS;
use crate::case::Case;
use crate::difference::{Difference, Part};
use crate::law_feature::Rerated;
use crate::lent::Lent;
use crate::library::{Library, Reply};
use crate::sheet::Layout;

/// A reply with the lines that were written.
type Weighed = (Reply, Vec<[u64; LINE_WORDS]>);

/// Weighs a sheet with room for its lines.
fn weigh(library: &Library, sheet: &[u64], room: usize, lent: &mut Lent) -> Weighed {
    let reply = lent.lend(room, |results| (library.weigh)(sheet, results));
    (reply, lent.lines_of(&reply).to_vec())
}

/// The order of the pool's rows does not matter, since sums alone enter charge and points, and neither does the order
/// of a tranche's ratings, since their weights are compared (S-2). Nor does the form of the maturities, since months
/// alone are read (S-3). A deal with an IRB section that is not under SEC-IRBA goes on as one of an SA pool; under
/// SEC-IRBA statuses and ratings play no part (S-5). The second sheet has the same answer and the same lines.
pub fn compare_same(part: Part, library: &Library, case: &Case, lent: &mut Lent) -> Result<(), Difference> {
    let first = weigh(library, &case.sheet, case.room, lent);
    let second = weigh(library, &case.second, case.room, lent);
    if first == second {
        return Ok(());
    }
    Err(Difference::new(part, first, (second, &case.second)))
}

/// A line depends on no rating of a class senior to its tranche's ("a rating may now change lines of its own or a senior
/// class, and no junior one", S-8). Where its tranche is rated, or no rating is inferred in the deal, it depends on no
/// other tranche's ratings at all ("Agreed between us"). Both sheets must be accepted. Gives the two sheets with the lines
/// that differ, or nothing where one was refused.
pub fn compare_other_ratings(library: &Library, case: &Case, lent: &mut Lent) -> Result<Option<Rerated>, Difference> {
    let (first, first_lines) = weigh(library, &case.sheet, case.room, lent);
    let (second, second_lines) = weigh(library, &case.second, case.room, lent);
    if (first.number, second.number) != (0, 0) {
        return Ok(None);
    }
    let differ = |expected, said| Err(Difference::new(Part::OtherRatings, expected, (said, &case.second)));
    if first != second {
        return differ((None, first), (None, second));
    }
    let mut rerated = Rerated::new(&case.sheet, &case.second);
    for (number, (line, other)) in first_lines.into_iter().zip(second_lines).enumerate() {
        if line != other && rerated.keeps(number) {
            return differ((Some((number, line)), first), (Some((number, other)), second));
        }
        rerated.note(line != other);
    }
    Ok(Some(rerated))
}

/// A fact that is not stated counts as 0 (S-1, S-3 and S-9): with more facts, of 0, the answer and the lines are the
/// same, and a place after the facts that were stated is higher by the words added. The unit of risk weights does not
/// matter either (S-9). The second sheet is one with as many facts or more.
pub fn compare_moved(
    part: Part,
    library: &Library,
    case: &Case,
    second: &[u64],
    lent: &mut Lent,
) -> Result<(), Difference> {
    let mut first = weigh(library, &case.sheet, case.room, lent);
    let other = weigh(library, second, case.room, lent);
    let [stated, filled] = [&case.sheet, second].map(|sheet| sheet[Layout::FACTS_COUNT]);
    if first.0.place > Layout::FACTS_COUNT as u64 + stated {
        first.0.place += filled - stated;
    }
    if first == other {
        return Ok(());
    }
    Err(Difference::new(part, first, (other, second)))
}

/// Whether the cap decided a line of an accepted sheet: with the composition not known, which takes the cap away, the
/// independent weight is higher.
pub fn cap_decided(deal: &independent::Deal, case: &Case) -> bool {
    let Ok(without) = independent::weigh(&case.second, case.room as u64) else {
        return false;
    };
    let mut lines = deal.lines.iter().zip(&without.lines);
    lines.any(|(line, free)| {
        let highest = line.amounts.iter().map(|amounts| amounts.weight).max();
        let lowest = free.amounts.iter().map(|amounts| amounts.weight).min();
        highest < lowest
    })
}

#[cfg(test)]
mod tests {
    use super::*;
    use crate::answer::LineWord;
    use crate::kind::Relation;
    use crate::library::Weigh;
    use crate::sheet::{Fact, RowWord, TrancheWord, FACTS, FEWEST_FACTS, RATINGS};

    /// The proved library, with the pool's first exposure added to the charge: right sums, but the order of rows
    /// matters.
    fn order_matters(sheet: &[u64], results: &mut [u64]) -> Reply {
        let mut reply = (Library::PROVED.weigh)(sheet, results);
        if reply.number == 0 {
            reply.charge += Layout::of_sheet(sheet).pool(sheet)[0][RowWord::Exposure as usize];
        }
        reply
    }

    /// The proved library, with the first rating word of the first tranche added to the charge.
    fn rating_order_matters(sheet: &[u64], results: &mut [u64]) -> Reply {
        let mut reply = (Library::PROVED.weigh)(sheet, results);
        if reply.number == 0 {
            reply.charge += sheet[Layout::of_sheet(sheet).tranche_word(0, TrancheWord::FirstRating)];
        }
        reply
    }

    /// Adds a number to one word of each line that a reply says was written.
    fn add_to_lines(reply: &Reply, results: &mut [u64], word: LineWord, number: u64) {
        let (lines, _) = results.as_chunks_mut::<LINE_WORDS>();
        let written = lines.iter_mut().take(reply.count as usize);
        written.for_each(|line| line[word as usize] += number);
    }

    /// The proved library, with all tranches' ratings added to a word of each line.
    fn ratings_matter(word: LineWord, sheet: &[u64], results: &mut [u64]) -> Reply {
        let reply = (Library::PROVED.weigh)(sheet, results);
        let layout = Layout::of_sheet(sheet);
        let ratings = |tranche| layout.tranche_word(tranche, TrancheWord::FirstRating)..layout.tranche(tranche + 1);
        let sum: u64 = (0..layout.tranches)
            .map(|tranche| sheet[ratings(tranche)].iter().sum::<u64>())
            .sum();
        add_to_lines(&reply, results, word, sum);
        reply
    }

    /// The proved library, with a number added to each least weight: how many words the sheet has, and the first
    /// exposure, first rating and first maturity. In each relation one of these may differ between the two sheets.
    fn least_weights_change(sheet: &[u64], results: &mut [u64]) -> Reply {
        let reply = (Library::PROVED.weigh)(sheet, results);
        if reply.number == 0 {
            let layout = Layout::of_sheet(sheet);
            let words = [TrancheWord::FirstRating, TrancheWord::Maturity].map(|word| layout.tranche_word(0, word));
            let of_tranche = words.map(|place| sheet[place]).iter().sum::<u64>();
            let exposure = layout.pool(sheet)[0][RowWord::Exposure as usize];
            let number = layout.words() as u64 + exposure + of_tranche;
            add_to_lines(&reply, results, LineWord::LeastWeight, number);
        }
        reply
    }

    /// The proved library, with places counted as in a sheet of the fewest facts.
    fn places_as_before(sheet: &[u64], results: &mut [u64]) -> Reply {
        let mut reply = (Library::PROVED.weigh)(sheet, results);
        let stated = sheet.first().copied().filter(|&facts| facts <= FACTS).unwrap_or(0);
        if reply.place > stated {
            reply.place -= stated.saturating_sub(FEWEST_FACTS);
        }
        reply
    }

    /// The proved library, with a charge of 1 more where this fact is stated.
    fn stated_fact_matters(fact: Fact, sheet: &[u64], results: &mut [u64]) -> Reply {
        let mut reply = (Library::PROVED.weigh)(sheet, results);
        reply.charge += u64::from(reply.number == 0 && sheet[Layout::FACTS_COUNT] >= fact.number());
        reply
    }

    /// The proved library, with a charge of 1 more where there is a reporting date.
    fn dates_matter(sheet: &[u64], results: &mut [u64]) -> Reply {
        let mut reply = (Library::PROVED.weigh)(sheet, results);
        if reply.number == 0 {
            let date = Layout::of_sheet(sheet).fact_word(sheet, Fact::ReportingDate);
            reply.charge += u64::from(date != 0);
        }
        reply
    }

    /// The proved library, with a charge of 1 more where there is an IRB section.
    fn section_matters(sheet: &[u64], results: &mut [u64]) -> Reply {
        let mut reply = (Library::PROVED.weigh)(sheet, results);
        reply.charge += u64::from(reply.number == 0 && Layout::of_sheet(sheet).irb);
        reply
    }

    /// The proved library, with the statuses of all rows added to the charge.
    fn statuses_matter(sheet: &[u64], results: &mut [u64]) -> Reply {
        let mut reply = (Library::PROVED.weigh)(sheet, results);
        if reply.number == 0 {
            let rows = Layout::of_sheet(sheet).pool(sheet).iter();
            reply.charge += rows.map(|row| row[RowWord::Status as usize]).sum::<u64>();
        }
        reply
    }

    /// The proved library, with a place of 1 more on a refusal of a sheet with a reporting date.
    fn dates_move_places(sheet: &[u64], results: &mut [u64]) -> Reply {
        let mut reply = (Library::PROVED.weigh)(sheet, results);
        let date = sheet.get(Layout::fact(Fact::ReportingDate));
        reply.place += u64::from(reply.number != 0 && date.is_some_and(|&date| date != 0));
        reply
    }

    /// How many of the first sheets with this relation a comparison finds different.
    fn differences(relation: Relation, compare: impl Fn(&Case) -> Result<(), Difference>) -> usize {
        let cases = (0..2_000)
            .map(|index| Case::new(4, index))
            .filter(|case| case.relation == relation);
        cases.filter(|case| compare(case).is_err()).count()
    }

    /// A library for which the order of rows or of ratings matters, or the form of the maturities, in the answer or in
    /// a refusal's place, is found out; so is one for which an IRB section matters that is not read, and one for which
    /// statuses or ratings matter under SEC-IRBA; and one for which any of these matters to the least weights. The
    /// proved one is not.
    #[test]
    fn orders_and_forms_are_compared() {
        let compare = |relation, part, weigh| {
            let library = Library {
                weigh,
                ..Library::PROVED
            };
            differences(relation, |case| {
                compare_same(part, &library, case, &mut Lent::default())
            })
        };
        let rows = (Relation::RowOrder, Part::RowOrder);
        let ratings = (Relation::RatingOrder, Part::RatingOrder);
        let dates = (Relation::MonthsForDates, Part::MonthsForDates);
        assert!(compare(rows.0, rows.1, order_matters) > 10);
        assert!(compare(ratings.0, ratings.1, rating_order_matters) > 10);
        assert!(compare(dates.0, dates.1, dates_matter) > 10);
        assert!(compare(dates.0, dates.1, dates_move_places) > 10);
        let sa_pool = (Relation::SaPool, Part::SaPool);
        let irba = (Relation::OtherUnderIrba, Part::OtherUnderIrba);
        assert!(compare(sa_pool.0, sa_pool.1, section_matters) > 10);
        assert!(compare(irba.0, irba.1, statuses_matter) > 10);
        assert!(compare(irba.0, irba.1, rating_order_matters) > 10);
        for (relation, part) in [rows, ratings, dates, sa_pool, irba] {
            assert!(compare(relation, part, least_weights_change) > 10);
            assert_eq!(compare(relation, part, Library::PROVED.weigh), 0);
        }
    }

    /// How often a library that weighs so is found out by the second sheets of a relation between ratings.
    fn found_by_ratings(relation: Relation, weigh: Weigh) -> usize {
        let library = Library {
            weigh,
            ..Library::PROVED
        };
        let other = |case: &Case| compare_other_ratings(&library, case, &mut Lent::default()).map(|_| ());
        differences(relation, other)
    }

    /// A library for which the ratings matter of a tranche that must not, to the points or to the least weights, is found
    /// out with either second sheet; so is one for which they matter to the charge. The proved one is not.
    #[test]
    fn other_ratings_are_compared() {
        for relation in [Relation::OtherRatings, Relation::SeniorRatings] {
            let wrong: [Weigh; 3] = [
                |sheet, results| ratings_matter(LineWord::Attachment, sheet, results),
                |sheet, results| ratings_matter(LineWord::LeastWeight, sheet, results),
                rating_order_matters,
            ];
            for weigh in wrong {
                assert!(found_by_ratings(relation, weigh) > 10);
            }
            assert_eq!(found_by_ratings(relation, Library::PROVED.weigh), 0);
        }
    }

    /// The proved library with the ratings of each tranche also on the next one, where that has none. Ratings then change
    /// lines of junior classes.
    fn junior_lines_follow(sheet: &[u64], results: &mut [u64]) -> Reply {
        let mut words = sheet.to_vec();
        let layout = Layout::of_sheet(sheet);
        for tranche in 1..layout.tranches {
            let [before, this] =
                [tranche - 1, tranche].map(|tranche| layout.tranche_word(tranche, TrancheWord::FirstRating));
            if words[this..layout.tranche(tranche + 1)] == [0; RATINGS] {
                words.copy_within(before..before + RATINGS, this);
            }
        }
        (Library::PROVED.weigh)(&words, results)
    }

    /// The proved library with the number of rated tranches added to the least weight of each of these.
    fn rated_lines_follow(sheet: &[u64], results: &mut [u64]) -> Reply {
        let reply = (Library::PROVED.weigh)(sheet, results);
        let layout = Layout::of_sheet(sheet);
        let rated = |tranche| layout.tranche_words(sheet, tranche)[TrancheWord::FirstRating as usize..] != [0; RATINGS];
        let numbers: Vec<usize> = (0..layout.tranches).filter(|&tranche| rated(tranche)).collect();
        let (lines, _) = results.as_chunks_mut::<LINE_WORDS>();
        for &number in numbers.iter().filter(|_| reply.number == 0) {
            lines[number][LineWord::LeastWeight as usize] += numbers.len() as u64;
        }
        reply
    }

    /// A library in which ratings change lines of junior classes is found out by other ratings of senior ones, and one in
    /// which they change lines of rated tranches by other ratings of any.
    #[test]
    fn both_halves_of_the_law_are_compared() {
        assert!(found_by_ratings(Relation::SeniorRatings, junior_lines_follow) > 10);
        assert!(found_by_ratings(Relation::OtherRatings, rated_lines_follow) > 10);
    }

    /// A library for which a fact of 0 matters, in the answer, in a line's least weight or in a refusal's place, is found
    /// out; the proved one is not.
    #[test]
    fn added_facts_are_compared() {
        let compare = |weigh| {
            let library = Library {
                weigh,
                ..Library::PROVED
            };
            differences(Relation::FactsAdded, |case| {
                compare_moved(Part::FactsAdded, &library, case, &case.second, &mut Lent::default())
            })
        };
        assert!(compare(places_as_before) > 10);
        assert!(compare(least_weights_change) > 10);
        assert!(compare(|sheet, results| stated_fact_matters(Fact::Stc, sheet, results)) > 10);
        assert!(compare(|sheet, results| stated_fact_matters(Fact::ReportingDate, sheet, results)) > 10);
        assert!(compare(|sheet, results| stated_fact_matters(Fact::Unit, sheet, results)) > 10);
        assert_eq!(compare(Library::PROVED.weigh), 0);
    }
}
