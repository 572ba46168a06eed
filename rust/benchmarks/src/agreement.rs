//! Answers are compared before anything is timed.

use crate::deals::{replace_row, Amendment, ROOM};
use independent::{Deal, Line, Refusal};
use tranche_weights::{OpenedPool, LINE_WORDS, MOST_BLOCKS, SHEET_WORDS};

/// Count and charge, or else number and place of the refusal.
type Outcome = Result<(u64, u64), (u64, u64)>;

/// Holds the proved and the plain answer to what the papers admit, as the exact version lists it. A proved answer
/// outside that is an error; a plain one is a remark.
pub fn check(name: &str, sheet: &[u64]) -> Result<Option<String>, String> {
    let admitted = independent::weigh(sheet, ROOM as u64);
    let mut results = [0; ROOM];
    let proved = tranche_weights::weigh_words(sheet, &mut results);
    let proved = proved
        .map(|deal| (deal.count, deal.charge))
        .map_err(|refusal| (refusal.number(), refusal.place()));
    if let Some(difference) = difference(&admitted, proved, &results) {
        return Err(format!(
            "the proved version differs on the sheet \"{name}\": {difference}"
        ));
    }
    let mut results = [0; ROOM];
    let plain = plain::weigh(sheet, &mut results);
    let remark = difference(&admitted, plain, &results);
    Ok(remark.map(|difference| format!("The plain version differs on the sheet \"{name}\": {difference}.")))
}

/// Holds the proved sums of each block of a sheet to the exact ones, also past the last block. Neither refuses it.
pub fn check_blocks(name: &str, sheet: &[u64]) -> Result<(), String> {
    for block in 0..=MOST_BLOCKS as u64 {
        let proved = tranche_weights::block_sums(sheet, block);
        let exact = independent::block_sums(sheet, block);
        if !matches!((&proved, &exact), (Ok(proved), Ok(exact)) if same_sums(proved, exact)) {
            return Err(format!(
                "the proved sums differ on the sheet \"{name}\", block {block}: {proved:?} where {exact:?} is due"
            ));
        }
    }
    Ok(())
}

/// Holds the proved conversion of a sheet to the exact one. Neither refuses it.
pub fn check_conversion(name: &str, sheet: &[u64]) -> Result<(), String> {
    let mut output = [0; SHEET_WORDS];
    let proved = tranche_weights::convert_words(sheet, &mut output);
    let exact = independent::convert(sheet, SHEET_WORDS as u64);
    match (proved, &exact) {
        (Ok(count), Ok(exact)) if output[..count] == exact[..] => Ok(()),
        _ => Err(format!(
            "the proved conversion differs on the sheet \"{name}\": {proved:?} where {exact:?} is due"
        )),
    }
}

/// Holds a deal that is opened and amended, step by step, to the sheet with the row replaced. In the proved version the words,
/// the charge and the answer are those of the sheet, and that answer is admitted; else it is an error. What differs first in
/// the plain version is a remark. Neither deal nor amendment is refused.
pub fn check_amendments(name: &str, sheet: &[u64], amendments: &[Amendment]) -> Result<Option<String>, String> {
    let mut sheet = sheet.to_vec();
    let mut proved = OpenedPool::open(&sheet[..]).map_err(|refusal| format!("the deal \"{name}\": {refusal}"))?;
    let mut plain = plain_opened(&sheet)?;
    let mut remark = None;
    for amendment in amendments {
        replace_row(&mut sheet, amendment);
        check(name, &sheet)?;
        proved
            .amend_words(amendment)
            .map_err(|refusal| format!("the deal \"{name}\": {refusal}"))?;
        let mut results = [[0; ROOM]; 2];
        let amended = proved.weigh_into(&mut results[0]);
        let loaded = tranche_weights::weigh_words(&sheet, &mut results[1]);
        let same_charge = loaded.is_ok_and(|weighed| weighed.charge == proved.charge());
        if proved.words() != sheet || amended != loaded || results[0] != results[1] || !same_charge {
            return Err(format!(
                "the amended deal \"{name}\" differs from the fresh load of its sheet: {amended:?} where {loaded:?} is due"
            ));
        }
        let difference = plain_difference(&mut plain, amendment, &sheet);
        remark = remark.or(difference);
    }
    Ok(remark.map(|difference| format!("The plain version differs on the amended deal \"{name}\": {difference}.")))
}

/// The opened pool of the plain version.
pub fn plain_opened(sheet: &[u64]) -> Result<plain::OpenedPool, String> {
    plain::OpenedPool::open(sheet.to_vec())
        .map_err(|(number, place)| format!("the plain version refuses a deal: {number} at {place}"))
}

/// What in the plain version's amended deal is not that of the sheet with the row replaced, if anything.
fn plain_difference(pool: &mut plain::OpenedPool, amendment: &Amendment, sheet: &[u64]) -> Option<String> {
    let amended = pool.amend(amendment);
    let mut results = [0; ROOM];
    let weighed = pool.weigh(&mut results);
    let same_charge = weighed.is_ok_and(|(_, charge)| charge == pool.charge());
    if amended.is_err() || pool.words() != sheet || !same_charge {
        return Some(format!("{amended:?}, {weighed:?}, charge {}", pool.charge()));
    }
    difference(&independent::weigh(sheet, ROOM as u64), weighed, &results)
}

/// Whether each of the seven sums is the same.
fn same_sums(proved: &tranche_weights::BlockSums, exact: &independent::BlockSums) -> bool {
    let over = [(proved.all, exact.all), (proved.known, exact.known)];
    let same_totals = over.iter().all(|(proved, exact)| {
        (proved.exposure, proved.nominal, proved.weighted_exposure)
            == (exact.exposure, exact.nominal, exact.weighted_exposure)
    });
    same_totals && proved.late_nominal == exact.late_nominal
}

/// What in an answer is not admitted, if anything.
fn difference(admitted: &Result<Deal, Refusal>, outcome: Outcome, results: &[u64]) -> Option<String> {
    let expected = match admitted {
        Ok(deal) => Ok((deal.lines.len() as u64, deal.charge)),
        Err(refusal) => Err((refusal.number, refusal.place)),
    };
    if outcome != expected {
        return Some(format!("{outcome:?} where {expected:?} is due"));
    }
    let lines = admitted.as_ref().map_or(&[][..], |deal| &deal.lines);
    let wrong = lines
        .iter()
        .zip(results.as_chunks().0)
        .filter(|(line, words)| !admits(line, words))
        .count();
    (wrong > 0).then(|| format!("{wrong} of {} lines", lines.len()))
}

/// Whether the words are an admitted form of the line: any admitted weight with its amounts, and any admitted least
/// weight.
fn admits(line: &Line, words: &[u64; LINE_WORDS]) -> bool {
    let &[approach, attachment, detachment, weight, risk_weighted, capital, least_weight] = words;
    (line.approach, line.attachment, line.detachment) == (approach, attachment, detachment)
        && line
            .amounts
            .iter()
            .any(|one| (one.weight, one.risk_weighted, one.capital) == (weight, risk_weighted, capital))
        && line.least_weights.contains(&least_weight)
}

#[cfg(test)]
mod tests {
    use super::*;
    use crate::deals;

    /// The admitted forms of a line: each weight with its amounts, beside each least weight.
    fn forms(line: &Line) -> Vec<[u64; LINE_WORDS]> {
        let beside = |&least_weight: &u64| {
            line.amounts.iter().map(move |one| {
                [
                    line.approach,
                    line.attachment,
                    line.detachment,
                    one.weight,
                    one.risk_weighted,
                    one.capital,
                    least_weight,
                ]
            })
        };
        line.least_weights.iter().flat_map(beside).collect()
    }

    /// The proved and the plain answer to each sheet of the table are admitted, and so are the proved sums of its blocks and
    /// its proved conversion where these are not refused.
    #[test]
    fn compared_sheets_agree() {
        for (name, sheet) in deals::compared() {
            assert_eq!(check(name, &sheet), Ok(None), "{name}");
            if independent::block_sums(&sheet, 0).is_ok() {
                assert_eq!(check_blocks(name, &sheet), Ok(()), "{name}");
            }
            if independent::convert(&sheet, u64::MAX).is_ok() {
                assert_eq!(check_conversion(name, &sheet), Ok(()), "{name}");
            }
        }
    }

    /// The formula leaves open two weights and two least weights of the small deal's last line, and all pairs agree.
    #[test]
    fn every_admitted_form_agrees() {
        let admitted = independent::weigh(&deals::small(), ROOM as u64);
        let deal = admitted.as_ref().expect("the small deal is accepted");
        let [senior, middle, junior] = [0, 1, 2].map(|number| forms(&deal.lines[number]));
        assert_eq!([senior.len(), middle.len(), junior.len()], [1, 1, 4]);
        for form in junior {
            let results = [senior[0], middle[0], form].concat();
            assert_eq!(difference(&admitted, Ok((3, deal.charge)), &results), None);
        }
    }

    /// An admitted answer with any one word changed is not admitted.
    #[test]
    fn every_changed_word_is_a_difference() {
        let admitted = independent::weigh(&deals::small(), ROOM as u64);
        let deal = admitted.as_ref().expect("the small deal is accepted");
        let results: Vec<u64> = deal.lines.iter().flat_map(|line| forms(line)[0]).collect();
        let outcome = Ok((3, deal.charge));
        for place in 0..results.len() {
            let mut changed = results.clone();
            changed[place] += 5;
            assert_eq!(
                difference(&admitted, outcome, &changed),
                Some("1 of 3 lines".to_string())
            );
        }
        assert!(difference(&admitted, Ok((3, deal.charge + 1)), &results).is_some());
        assert!(difference(&admitted, Ok((2, deal.charge)), &results).is_some());
        assert!(difference(&admitted, Err((1, 2)), &results).is_some());
    }

    /// Number and place both count.
    #[test]
    fn another_refusal_is_a_difference() {
        let admitted = Err(Refusal { number: 11, place: 7 });
        assert_eq!(difference(&admitted, Err((11, 7)), &[]), None);
        assert!(difference(&admitted, Err((11, 8)), &[]).is_some());
        assert!(difference(&admitted, Err((10, 7)), &[]).is_some());
    }

    /// The plain version's amended deal is held to the sheet with the row replaced: another row, another sheet, and an
    /// amendment that it refuses are differences.
    #[test]
    fn another_amended_deal_is_a_difference() {
        let (sheet, amendments) = (deals::with_rows(2), deals::amendments(2));
        let amended = |amendment| {
            let mut sheet = sheet.clone();
            replace_row(&mut sheet, amendment);
            sheet
        };
        let pool = || plain_opened(&sheet).expect("the deal is opened");
        let [first, second, ..] = &amendments[..] else {
            panic!("there are several amendments")
        };
        assert_eq!(plain_difference(&mut pool(), first, &amended(first)), None);
        for other in [&sheet, &amended(second), &deals::small()] {
            assert!(plain_difference(&mut pool(), first, other).is_some());
        }
        assert!(plain_difference(&mut pool(), &[3, 1, 1, 0, 0], &sheet).is_some());
    }

    /// Sums with any one of them changed are not the same.
    #[test]
    fn every_changed_sum_is_a_difference() {
        let exact = independent::block_sums(&deals::large(), 0).expect("the large deal is accepted");
        let proved = tranche_weights::block_sums(&deals::large(), 0).expect("the large deal is accepted");
        assert!(same_sums(&proved, &exact));
        let changes: [fn(&mut independent::BlockSums); 7] = [
            |sums| sums.all.exposure += 1,
            |sums| sums.all.nominal += 1,
            |sums| sums.all.weighted_exposure += 1,
            |sums| sums.known.exposure += 1,
            |sums| sums.known.nominal += 1,
            |sums| sums.known.weighted_exposure += 1,
            |sums| sums.late_nominal += 1,
        ];
        for change in changes {
            let mut changed = exact;
            change(&mut changed);
            assert!(!same_sums(&proved, &changed));
        }
    }
}
