//! What a run must meet on some sheet whose pool is opened or refused, and told an opened pool or not (S-10).

use crate::answer::{refusal, SumWord};
use crate::opening::{Changed, Opening};
use independent::{Deal, Refusal};

/// What must be met on some sheet.
#[derive(Debug, Clone, Copy, PartialEq, Eq)]
pub enum OpeningFeature {
    /// Not opened, by this number.
    Refused(u64),
    /// Opened, and the lines are refused by this number.
    LinesRefused(u64),
    /// Told no opened pool with another sum.
    OtherSum(SumWord),
    /// Told no opened pool for a bad word, with the sums of its rows.
    BadSheet,
    /// Another sheet told an opened pool with the same sums.
    ChangedOpened,
    /// Another sheet told none for its sums.
    ChangedSums,
    /// Another sheet told none for a bad word.
    ChangedRefused,
}

impl OpeningFeature {
    /// All features with their names.
    pub(crate) const TABLE: [(OpeningFeature, &'static str); 27] = [
        (OpeningFeature::Refused(refusal::MISSING), "opening: refusal 1"),
        (OpeningFeature::Refused(refusal::COUNT), "opening: refusal 2"),
        (OpeningFeature::Refused(refusal::WORDS_FOLLOW), "opening: refusal 3"),
        (OpeningFeature::Refused(refusal::FACT), "opening: refusal 4"),
        (OpeningFeature::Refused(refusal::POOL_AMOUNT), "opening: refusal 5"),
        (OpeningFeature::Refused(refusal::RISK_WEIGHT), "opening: refusal 6"),
        (OpeningFeature::Refused(refusal::STATUS), "opening: refusal 7"),
        (OpeningFeature::Refused(refusal::TRANCHE_AMOUNT), "opening: refusal 8"),
        (OpeningFeature::Refused(refusal::CLASS), "opening: refusal 9"),
        (OpeningFeature::Refused(refusal::MATURITY), "opening: refusal 10"),
        (OpeningFeature::Refused(refusal::RATING), "opening: refusal 11"),
        (
            OpeningFeature::Refused(refusal::STC_RESECURITISATION),
            "opening: refusal 16",
        ),
        (OpeningFeature::Refused(refusal::DATE), "opening: refusal 17"),
        (OpeningFeature::Refused(refusal::IRB_FIGURE), "opening: refusal 18"),
        (OpeningFeature::LinesRefused(refusal::THIN), "opening: 13 of the lines"),
        (OpeningFeature::LinesRefused(refusal::ROOM), "opening: 14 of the lines"),
        (
            OpeningFeature::OtherSum(SumWord::Exposure),
            "opened pool: other exposure",
        ),
        (OpeningFeature::OtherSum(SumWord::Nominal), "opened pool: other nominal"),
        (
            OpeningFeature::OtherSum(SumWord::WeightedExposure),
            "opened pool: other weighted exposure",
        ),
        (
            OpeningFeature::OtherSum(SumWord::KnownExposure),
            "opened pool: other known exposure",
        ),
        (
            OpeningFeature::OtherSum(SumWord::KnownNominal),
            "opened pool: other known nominal",
        ),
        (
            OpeningFeature::OtherSum(SumWord::KnownWeightedExposure),
            "opened pool: other known weighted",
        ),
        (
            OpeningFeature::OtherSum(SumWord::LateNominal),
            "opened pool: other late nominal",
        ),
        (OpeningFeature::BadSheet, "opened pool: bad sheet, its sums"),
        (OpeningFeature::ChangedOpened, "opened pool: other sheet, its sums"),
        (OpeningFeature::ChangedSums, "opened pool: other sheet, other sums"),
        (OpeningFeature::ChangedRefused, "opened pool: other sheet, bad word"),
    ];

    /// Whether a sheet whose lines have this answer shows the feature, where the sum of this place was changed.
    pub(crate) fn shown(self, lines: &Result<Deal, Refusal>, opening: &Opening, sum: usize) -> bool {
        let opened = opening.refused.is_none();
        match self {
            OpeningFeature::Refused(number) => opening.refused.is_some_and(|refused| refused.number == number),
            OpeningFeature::LinesRefused(number) => {
                opened && lines.as_ref().is_err_and(|refused| refused.number == number)
            }
            OpeningFeature::OtherSum(word) => opened && sum == word as usize,
            OpeningFeature::BadSheet => !opened,
            OpeningFeature::ChangedOpened => opened && opening.changed == Changed::Opened,
            OpeningFeature::ChangedSums => opened && opening.changed == Changed::OtherSums,
            OpeningFeature::ChangedRefused => opened && opening.changed == Changed::Refused,
        }
    }
}

#[cfg(test)]
mod tests {
    use super::*;
    use crate::answer::SUM_WORDS;

    /// What is shown where the lines have this answer, the sheet is refused by this number, or opened by 0, and the changed
    /// sheet is this.
    fn shown(lines: u64, number: u64, changed: Changed, sum: usize) -> Vec<OpeningFeature> {
        let refused = |number| Refusal { number, place: 0 };
        let lines = match lines {
            0 => Ok(Deal {
                charge: 0,
                lines: Vec::new(),
            }),
            number => Err(refused(number)),
        };
        let opening = Opening {
            refused: Some(refused(number)).filter(|refused| refused.number != 0),
            changed,
        };
        let features = OpeningFeature::TABLE.map(|(feature, _)| feature).into_iter();
        features
            .filter(|feature| feature.shown(&lines, &opening, sum))
            .collect()
    }

    /// No feature stands twice in its table.
    #[test]
    fn each_feature_stands_once() {
        let features = OpeningFeature::TABLE.map(|(feature, _)| feature);
        assert!((1..features.len()).all(|n| !features[..n].contains(&features[n])));
    }

    /// Each number before 14 is a feature of its own, and none other is shown with it but that the sheet is no opened pool.
    #[test]
    fn refusals_are_seen() {
        let of_lines = [
            refusal::THIN,
            refusal::ROOM,
            refusal::FILE_LENGTH,
            refusal::NOT_WHOLE_PERCENT,
        ];
        for &number in refusal::MET.iter().filter(|number| !of_lines.contains(number)) {
            let refused = [OpeningFeature::Refused(number), OpeningFeature::BadSheet];
            assert_eq!(shown(number, number, Changed::OtherSums, 0), refused);
        }
    }

    /// An opened pool shows the sum that was changed, what the changed sheet is, and the refusal of its lines.
    #[test]
    fn opened_pools_are_seen() {
        for ((word, _), sum) in SumWord::TABLE.into_iter().zip(0..SUM_WORDS) {
            let opened = [OpeningFeature::OtherSum(word), OpeningFeature::ChangedOpened];
            assert_eq!(shown(0, 0, Changed::Opened, sum), opened);
        }
        for number in [refusal::THIN, refusal::ROOM] {
            let refused = [
                OpeningFeature::LinesRefused(number),
                OpeningFeature::OtherSum(SumWord::Exposure),
                OpeningFeature::ChangedRefused,
            ];
            assert_eq!(shown(number, 0, Changed::Refused, 0), refused);
        }
        assert_eq!(shown(0, 0, Changed::OtherSums, 0)[1..], [OpeningFeature::ChangedSums]);
    }
}
