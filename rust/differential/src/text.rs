//! The comparison of the report's text with one composed from the independent answer ("Checked deals" of document 01).

use crate::answer::{LineWord, MOST_RESULTS};
use crate::difference::{same, Difference, Part};
use independent::{Amounts, Deal, Line, Refusal};
use std::fmt::Write;

/// Compares a file's report with the independent answer to the file. Where a line admits two weights or two least
/// weights, the report may show either; its total must be the sum of the lines that it shows.
pub fn compare(report: fn(&[u8]) -> String, file: &[u8]) -> Result<(), Difference> {
    let answer = independent::weigh_file(file, MOST_RESULTS as u64);
    let said = report(file);
    same(Part::Text, compose(&answer, &said), said)
}

/// The text that document 01 gives to an answer. Where two triples or two least weights are admitted, that which `said`
/// shows is taken.
fn compose(answer: &Result<Deal, Refusal>, said: &str) -> String {
    match answer {
        Ok(deal) => compose_deal(deal, said),
        Err(refusal) => format!("refused {} at {}\n", refusal.number, refusal.place),
    }
}

/// The text of an accepted deal: charge and count, a line for each tranche, the totals.
fn compose_deal(deal: &Deal, said: &str) -> String {
    let mut text = format!("charge {} tranches {}\n", deal.charge, deal.lines.len());
    let mut shown = said.lines().skip(1);
    let mut total = (0, 0);
    for (number, line) in (1..).zip(&deal.lines) {
        let shown = shown.next().unwrap_or_default();
        let amounts = admitted(line, shown);
        total = (total.0 + amounts.risk_weighted, total.1 + amounts.capital);
        text.push_str(&compose_line(number, line, amounts, admitted_least(line, shown)));
    }
    let totals = writeln!(text, "total {} {}", total.0, total.1);
    totals.expect("a string takes any text");
    text
}

/// The text of one tranche: its number from 1 and its words.
fn compose_line(number: u64, line: &Line, amounts: &Amounts, least_weight: u64) -> String {
    let Line {
        approach,
        attachment,
        detachment,
        ..
    } = line;
    let Amounts {
        weight,
        risk_weighted,
        capital,
    } = amounts;
    format!("{number} {approach} {attachment} {detachment} {weight} {risk_weighted} {capital} {least_weight}\n")
}

/// A word of a shown line, whose words follow its number.
fn shown_word(shown: &str, word: LineWord) -> Option<u64> {
    shown.split(' ').skip(1).nth(word as usize)?.parse().ok()
}

/// The admitted triple whose weight the shown line has, or else the first one.
fn admitted<'a>(line: &'a Line, shown: &str) -> &'a Amounts {
    let weight = shown_word(shown, LineWord::Weight);
    let found = line.amounts.iter().find(|amounts| Some(amounts.weight) == weight);
    found.unwrap_or(&line.amounts[0])
}

/// The admitted least weight that the shown line has, or else the first one.
fn admitted_least(line: &Line, shown: &str) -> u64 {
    let least_weight = shown_word(shown, LineWord::LeastWeight);
    let found = least_weight.filter(|least_weight| line.least_weights.contains(least_weight));
    found.unwrap_or(line.least_weights[0])
}

#[cfg(test)]
mod tests {
    use super::*;

    /// A deal with two admitted weights and two admitted least weights on its second line.
    fn deal() -> Deal {
        let triple = |weight, risk_weighted, capital| Amounts {
            weight,
            risk_weighted,
            capital,
        };
        let line = |attachment, detachment, amounts, least_weights| Line {
            approach: 2,
            attachment,
            detachment,
            amounts,
            least_weights,
        };
        let lower = line(
            0,
            200_000,
            vec![triple(79_016, 790_160, 63_213), triple(79_017, 790_170, 63_214)],
            vec![79_014, 79_015],
        );
        let upper = line(200_000, 1_000_000, vec![triple(1_500, 150, 12)], vec![1_500]);
        Deal {
            charge: 100_000,
            lines: vec![upper, lower],
        }
    }

    /// Either admitted triple gives the text that shows it, with its own total, beside either admitted least weight; a
    /// mixed triple does not, and neither does another least weight or none.
    #[test]
    fn either_admitted_weight_passes() {
        let text = |amounts, least_weight, total| {
            let head = "charge 100000 tranches 2\n1 2 200000 1000000 1500 150 12 1500";
            format!("{head}\n2 2 0 200000 {amounts}{least_weight}\ntotal {total}\n")
        };
        let first = |least_weight| text("79016 790160 63213", least_weight, "790310 63225");
        let second = |least_weight| text("79017 790170 63214", least_weight, "790320 63226");
        for least_weight in [" 79014", " 79015"] {
            let mixed = text("79017 790160 63213", least_weight, "790310 63225");
            assert_eq!(compose(&Ok(deal()), &first(least_weight)), first(least_weight));
            assert_eq!(compose(&Ok(deal()), &second(least_weight)), second(least_weight));
            assert_eq!(compose(&Ok(deal()), &mixed), second(least_weight));
        }
        for other in [" 79013", " 79016", ""] {
            assert_eq!(compose(&Ok(deal()), &second(other)), second(" 79014"));
        }
        assert_eq!(compose(&Ok(deal()), ""), first(" 79014"));
    }

    /// A refusal's text.
    #[test]
    fn refusal_is_one_line() {
        let answer = Err(Refusal { number: 15, place: 0 });
        assert_eq!(compose(&answer, ""), "refused 15 at 0\n");
    }
}
