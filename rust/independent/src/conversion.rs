//! The converter of S-9: a sheet rewritten from either unit of the risk weight word to the other.

use crate::answer::Refusal;
use crate::sheet::{facts_stated, row_place, Sheet, WeightUnit, FACTS_MOST, ROW_WORDS};

/// Going down to percent, a risk weight that is not a multiple of 100.
const NOT_WHOLE_PERCENT: u64 = 19;

/// Where a pool row has its risk weight.
const ROW_RISK_WEIGHT: usize = 2;

/// The words of a sheet in the other unit, with all facts stated; `sheet` is what `words` are read as. Refusal 19
/// stands at its place in the sheet as given. All words but count of facts, unit and risk weights are as they were.
pub fn in_other_unit(words: &[u64], sheet: &Sheet) -> Result<Vec<u64>, Refusal> {
    let unit = other(sheet.facts.weight_unit);
    let mut rewritten = words.to_vec();
    for (place, row) in risk_weight_places(words).zip(&sheet.pool) {
        rewritten[place] = word_in(unit, row.risk_weight).ok_or(Refusal {
            number: NOT_WHOLE_PERCENT,
            place: place as u64,
        })?;
    }
    fill_facts(&mut rewritten);
    rewritten[FACTS_MOST] = unit as u64;
    Ok(rewritten)
}

/// The other unit.
fn other(unit: WeightUnit) -> WeightUnit {
    match unit {
        WeightUnit::Percent => WeightUnit::Hundredths,
        WeightUnit::Hundredths => WeightUnit::Percent,
    }
}

/// The word in a unit of a risk weight in hundredths of a percent; none where it is not a multiple of that unit. In
/// hundredths every weight has one.
fn word_in(unit: WeightUnit, risk_weight: u64) -> Option<u64> {
    let whole = risk_weight.is_multiple_of(unit.hundredths());
    whole.then(|| risk_weight / unit.hundredths())
}

/// The places of the risk weights, from the first row on.
fn risk_weight_places(words: &[u64]) -> impl Iterator<Item = usize> {
    (row_place(words, 0) + ROW_RISK_WEIGHT..).step_by(ROW_WORDS)
}

/// "Shorter fact lists are filled with zeros": one for each fact that is not stated, after those that are.
fn fill_facts(words: &mut Vec<u64>) {
    let stated = facts_stated(words);
    let zeros = vec![0; FACTS_MOST - stated];
    words.splice(1 + stated..1 + stated, zeros);
    words[0] = FACTS_MOST as u64;
}

#[cfg(test)]
mod tests {
    use super::*;

    /// Each unit is the other's other.
    #[test]
    fn units_flip() {
        assert_eq!(other(WeightUnit::Percent), WeightUnit::Hundredths);
        assert_eq!(other(WeightUnit::Hundredths), WeightUnit::Percent);
    }

    /// In percent only a multiple of 100 has a word, 0 too; in hundredths every weight is its own.
    #[test]
    fn words_in_a_unit() {
        let percent = [0, 1, 50, 99, 100, 101, 3_750, 12_500, 12_550, 124_999, 125_000]
            .map(|weight| word_in(WeightUnit::Percent, weight));
        let [zero, hundred, twelve, most] = [0, 1, 125, 1_250].map(Some);
        assert_eq!(
            percent,
            [zero, None, None, None, hundred, None, None, twelve, None, None, most]
        );
        for weight in [0, 1, 99, 100, 3_750, 125_000] {
            assert_eq!(word_in(WeightUnit::Hundredths, weight), Some(weight));
        }
    }

    /// Facts are filled up to seven, after those that are stated. The words after them keep their order.
    #[test]
    fn facts_are_filled() {
        let filled = |words: &[u64]| {
            let mut words = words.to_vec();
            fill_facts(&mut words);
            words
        };
        assert_eq!(filled(&[4, 2, 1, 1, 1, 8, 9]), [7, 2, 1, 1, 1, 0, 0, 0, 8, 9]);
        assert_eq!(filled(&[5, 2, 0, 1, 1, 1, 8, 9]), [7, 2, 0, 1, 1, 1, 0, 0, 8, 9]);
        assert_eq!(filled(&[6, 2, 0, 1, 1, 1, 5, 8, 9]), [7, 2, 0, 1, 1, 1, 5, 0, 8, 9]);
        let seven = [7, 2, 0, 1, 1, 1, 5, 1, 8, 9];
        assert_eq!(filled(&seven), seven);
    }
}
