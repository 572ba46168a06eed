//! The comparison of a sheet's answer and its result words with the independent ones.

use crate::answer::{LineWord, LINE_WORDS};
use crate::difference::{same, Difference, Part};
use crate::lent::Lent;
use crate::library::Reply;
use independent::{Deal, Line, Refusal};

/// The four numbers that are due: an accepted sheet's number and place are 0; a refused one's count and charge are 0
/// ("Refusals").
pub fn due(answer: &Result<Deal, Refusal>) -> Reply {
    match answer {
        Ok(deal) => Reply::accepting(deal.lines.len() as u64, deal.charge),
        Err(refusal) => Reply::refusing(refusal.number, refusal.place),
    }
}

/// Compares a reply and the lent results with what the independent implementation answers. On a refusal no result word
/// was written ("Refusals": results untouched).
pub fn compare(expected: &Result<Deal, Refusal>, said: &Reply, lent: &Lent) -> Result<(), Difference> {
    compare_numbers(&due(expected), said)?;
    match expected {
        Ok(deal) => compare_lines(deal, lent),
        Err(_) => untouched(Part::ResultsOnRefusal, lent, 0),
    }
}

/// The four numbers are the same. Where one side weighs and the other refuses, that is the difference.
fn compare_numbers(due: &Reply, said: &Reply) -> Result<(), Difference> {
    if (due.number == 0) != (said.number == 0) {
        return Err(Difference::new(Part::Outcome, due, said));
    }
    same(Part::Number, due.number, said.number)?;
    same(Part::Place, due.place, said.place)?;
    same(Part::Count, due.count, said.count)?;
    same(Part::Charge, due.charge, said.charge)
}

/// Both weigh: the room holds all lines, every line is the same, and no later word was written ("The deal sheet": later
/// words are untouched).
fn compare_lines(deal: &Deal, lent: &Lent) -> Result<(), Difference> {
    let count = deal.lines.len();
    let lines = lent.lines(count as u64);
    same(Part::Count, count, lines.len())?;
    for (number, (line, words)) in (1..).zip(deal.lines.iter().zip(lines)) {
        compare_line(number, line, words)?;
    }
    untouched(Part::AfterLines, lent, LINE_WORDS * count)
}

/// The words of a line: approach and points are the same; weight, risk-weighted amount and capital together are one
/// of the admitted triples; the least weight is one of the admitted ones.
fn compare_line(number: u64, line: &Line, words: &[u64; LINE_WORDS]) -> Result<(), Difference> {
    let said = |word: LineWord| words[word as usize];
    let same = |word: LineWord, due: u64| same(Part::Line(word), (number, due), (number, said(word)));
    same(LineWord::Approach, line.approach)?;
    same(LineWord::Attachment, line.attachment)?;
    same(LineWord::Detachment, line.detachment)?;
    let mut admitted = line.amounts.iter();
    let Some(amounts) = admitted.find(|amounts| amounts.weight == said(LineWord::Weight)) else {
        let part = Part::Line(LineWord::Weight);
        return Err(Difference::new(part, (number, &line.amounts), (number, words)));
    };
    same(LineWord::RiskWeighted, amounts.risk_weighted)?;
    same(LineWord::Capital, amounts.capital)?;
    if !line.least_weights.contains(&said(LineWord::LeastWeight)) {
        let part = Part::Line(LineWord::LeastWeight);
        return Err(Difference::new(part, (number, &line.least_weights), (number, words)));
    }
    Ok(())
}

/// No lent word at or after this place was written.
pub fn untouched(part: Part, lent: &Lent, start: usize) -> Result<(), Difference> {
    match lent.touched(start) {
        Some(word) => Err(Difference::new(part, "the words as they were", word)),
        None => Ok(()),
    }
}
