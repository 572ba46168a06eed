//! The random sheets are what their kinds say. Points and charges are taken from the independent implementation.

use differential::answer::{refusal, Approach, LINE_WORDS, MOST_RESULTS};
use differential::sheet::{
    pool_kind, rewritten_words, status, unit, Fact, IrbWord, Layout, RowWord, TrancheWord, BLOCKS, BLOCK_EDGES, DAYS,
    FACTS, FEWEST_FACTS, IRB_AVERAGE, IRB_SHARE, LOANS, MANY_LOANS, MONTHS, NO_UNITS, ONE_PERCENT, POOL_AMOUNT,
    RISK_WEIGHT, ROWS, TRANCHES, TRANCHE_AMOUNT, WEIGHT_EDGES, WHOLE,
};
use differential::{is_under_irba, Amendment, Amendments, Case, Kind, Output, Relation, AMENDMENT_WORDS};
use independent::approach::Figures;
use independent::charge::{self, Points};
use independent::inferred::is_rated;
use independent::irba::Sum;
use independent::rating::{self, Table};
use independent::sheet::Tranche;
use independent::OpenedPool;
use std::cmp::Ordering;
use std::collections::BTreeSet;

/// The sheets of one kind among the first `count` ones of a seed.
fn sheets(kind: Kind, count: u64) -> impl Iterator<Item = Vec<u64>> {
    let cases = (0..count).map(|index| Case::new(11, index));
    cases.filter(move |case| case.kind == kind).map(|case| case.sheet)
}

/// The accepted deals of one kind among the first `count` ones of a seed, with room enough.
fn deals(kind: Kind, count: u64) -> impl Iterator<Item = independent::Deal> {
    sheets(kind, count).filter_map(|sheet| independent::weigh(&sheet, MOST_RESULTS as u64).ok())
}

/// A sound sheet is refused for too little room or a tranche without thickness, and for nothing else.
#[test]
fn sound_sheets_keep_the_limits() {
    let mut accepted = 0;
    for index in 0..10_000 {
        let case = Case::new(12, index);
        if case.kind.is_sound() {
            match independent::weigh(&case.sheet, case.room as u64) {
                Ok(_) => accepted += 1,
                Err(refused) => assert!(
                    [refusal::THIN, refusal::ROOM].contains(&refused.number),
                    "index {index}: {refused:?}"
                ),
            }
        }
    }
    assert!(accepted > 5_000);
}

/// Each kind has the marks that it should, and the others have all of them: a mark that is not stated, 0 and 1.
#[test]
fn marks_follow_the_kinds() {
    let facts = |kind| {
        let of_sheet = |sheet: Vec<u64>| {
            let layout = Layout::of_sheet(&sheet);
            let fact = |fact| layout.fact_word(&sheet, fact);
            (layout.facts as u64, fact(Fact::Resecuritisation), fact(Fact::Stc))
        };
        sheets(kind, 20_000).map(of_sheet).collect::<BTreeSet<_>>()
    };
    let counts = [4, 5, 6, 7];
    let ordinary = counts.map(|count| (count, 0, 0));
    let resecuritisation = counts.map(|count| (count, 1, 0));
    let stc = [5, 6, 7].map(|count| (count, 0, 1));
    assert_eq!(facts(Kind::Ordinary), BTreeSet::from(ordinary));
    assert_eq!(facts(Kind::Stc), BTreeSet::from(stc));
    assert_eq!(facts(Kind::Resecuritisation), BTreeSet::from(resecuritisation));
    let all = BTreeSet::from_iter([&ordinary[..], &resecuritisation, &stc].concat());
    for kind in [
        Kind::AroundCharge,
        Kind::Thin,
        Kind::SmallCharge,
        Kind::Rated,
        Kind::Limits,
    ] {
        assert_eq!(facts(kind), all, "{kind:?}");
    }
}

/// A mark on a re-securitisation is refused at the fifth fact, by 16 or as no code; some of these sheets are accepted
/// without it.
#[test]
fn marks_on_resecuritisations() {
    let fifth = Layout::fact(Fact::Stc);
    let (mut marked, mut no_code, mut else_good) = (0, 0, 0);
    for mut sheet in sheets(Kind::StcMark, 15_000) {
        let weigh = |sheet: &[u64]| independent::weigh(sheet, MOST_RESULTS as u64);
        let refused = weigh(&sheet).expect_err("a refused mark");
        assert_eq!(refused.place, fifth as u64);
        marked += u64::from(refused.number == refusal::STC_RESECURITISATION);
        no_code += u64::from(refused.number == refusal::FACT);
        sheet[fifth] = 0;
        else_good += u64::from(weigh(&sheet).is_ok());
    }
    assert!(
        marked > 50 && no_code > 25 && else_good > 10,
        "{marked} {no_code} {else_good}"
    );
}

/// Each sound kind has sheets that do not state a reporting date, but for that in hundredths, which states all facts; and
/// sheets that state 0 for it, and that state one.
#[test]
fn dates_come_in_all_kinds() {
    let mut met = BTreeSet::new();
    for case in (0..20_000).map(|index| Case::new(15, index)) {
        if case.kind.is_sound() {
            let layout = Layout::of_sheet(&case.sheet);
            let date = layout.fact_word(&case.sheet, Fact::ReportingDate);
            let stated = layout.facts as u64 >= Fact::ReportingDate.number();
            met.insert((case.kind as usize, stated, date != 0));
        }
    }
    let kinds = Kind::TABLE.iter().filter(|(kind, _, _)| kind.is_sound());
    let all = kinds.flat_map(|&(kind, _, _)| {
        let unstated = (kind != Kind::Hundredths).then_some((false, false));
        let forms = unstated.into_iter().chain([(true, false), (true, true)]);
        forms.map(move |(stated, date)| (kind as usize, stated, date))
    });
    assert_eq!(met, all.collect());
}

/// The months of the dates of sound sheets meet those at which a rule changes.
#[test]
fn dates_meet_the_months() {
    let mut met = BTreeSet::new();
    for sheet in sheets(Kind::Ordinary, 20_000) {
        let read = independent::sheet::read(&sheet).expect("a sound sheet");
        if read.facts.reporting_date.is_some() {
            met.extend(read.tranches.iter().map(|tranche| tranche.months));
        }
    }
    assert!([1, 11, 12, 13, 36, 71, 72, 73, MONTHS - 1, MONTHS]
        .iter()
        .all(|months| met.contains(months)));
}

/// A bad date is refused at its own place: by 17, or as a maturity also by 10.
#[test]
fn bad_dates_are_refused() {
    let reporting = Layout::fact(Fact::ReportingDate) as u64;
    let (mut reporting_dates, mut maturities, mut months) = (0, 0, 0);
    for sheet in sheets(Kind::BadDate, 10_000) {
        let refused = independent::weigh(&sheet, MOST_RESULTS as u64).expect_err("a bad date");
        let layout = Layout::of_sheet(&sheet);
        let of_tranche = |tranche| layout.tranche_word(tranche, TrancheWord::Maturity) as u64;
        match refused.number {
            refusal::DATE if refused.place == reporting => reporting_dates += 1,
            number => {
                assert!((0..layout.tranches).any(|tranche| of_tranche(tranche) == refused.place));
                maturities += u64::from(number == refusal::DATE);
                months += u64::from(number == refusal::MATURITY);
            }
        }
    }
    assert!(
        reporting_dates > 50 && maturities > 50 && months > 25,
        "{reporting_dates} {maturities} {months}"
    );
}

/// A second sheet with months in place of dates has the independent answer of the first, whether accepted or refused.
#[test]
fn months_have_the_answer_of_their_dates() {
    let (mut accepted, mut refused) = (0, 0);
    for case in (0..10_000).map(|index| Case::new(16, index)) {
        if case.relation == Relation::MonthsForDates {
            let [first, second] = [&case.sheet, &case.second].map(|sheet| independent::weigh(sheet, case.room as u64));
            assert_eq!(first, second);
            let date = Layout::fact(Fact::ReportingDate);
            assert!(case.sheet[date] != 0 && case.second[date] == 0);
            accepted += u64::from(first.is_ok());
            refused += u64::from(first.is_err_and(|refused| refused.number != refusal::ROOM));
        }
    }
    assert!(accepted > 100 && refused > 25, "{accepted} {refused}");
}

/// Each sound kind has all pool kinds but those of an IRB pool and a mixed one, which have their own. Kinds that are to
/// show something else mostly have an SA pool.
#[test]
fn pool_kinds_come_in_all_kinds() {
    let mut met = BTreeSet::new();
    let [mut of_sa, mut others] = [0, 0];
    for case in (0..20_000).map(|index| Case::new(18, index)) {
        if case.kind.is_sound() {
            let kind = case.sheet[Layout::fact(Fact::PoolKind)];
            assert_eq!(Layout::of_sheet(&case.sheet).irb, kind != pool_kind::SA);
            met.insert((case.kind as usize, kind));
            let count = if kind == pool_kind::SA { &mut of_sa } else { &mut others };
            *count += 1;
        }
    }
    let own = |kind| match kind {
        Kind::IrbPool => vec![pool_kind::IRB],
        Kind::MixedPool => vec![pool_kind::MIXED],
        _ => vec![pool_kind::SA, pool_kind::IRB, pool_kind::MIXED],
    };
    let kinds = Kind::TABLE.iter().filter(|(kind, _, _)| kind.is_sound());
    let all = kinds.flat_map(|&(kind, _, _)| own(kind).into_iter().map(move |of| (kind as usize, of)));
    assert_eq!(met, all.collect());
    assert!(of_sa > others, "{of_sa} {others}");
}

/// The deals of mixed pools are of every sort: ordinary, STC and re-securitised, each with and without due diligence,
/// with a date and without one, and on both sides of the least share and at it.
#[test]
fn sections_come_in_all_deals() {
    let (mut forms, mut shares) = (BTreeSet::new(), BTreeSet::new());
    for sheet in sheets(Kind::MixedPool, 20_000) {
        let layout = Layout::of_sheet(&sheet);
        let fact = |fact| layout.fact_word(&sheet, fact);
        let deal = [fact(Fact::Resecuritisation), fact(Fact::Stc)];
        forms.insert((deal, fact(Fact::DueDiligence), fact(Fact::ReportingDate) != 0));
        shares.insert((deal, sheet[layout.irb_word(IrbWord::Share)].cmp(&IRB_SHARE)));
    }
    let deals = [[0, 0], [0, 1], [1, 0]];
    let all = deals.map(|deal| [(0, false), (0, true), (1, false), (1, true)].map(|(held, dated)| (deal, held, dated)));
    assert_eq!(forms, all.into_iter().flatten().collect());
    let orders = [Ordering::Less, Ordering::Equal, Ordering::Greater];
    assert_eq!(
        shares,
        deals
            .into_iter()
            .flat_map(|deal| orders.map(|order| (deal, order)))
            .collect()
    );
}

/// The words of good sections meet their limits, the shares about 95% and the numbers of loans about 25.
#[test]
fn sections_meet_their_limits() {
    let mut met = BTreeSet::new();
    for kind in [Kind::IrbPool, Kind::MixedPool, Kind::Limits] {
        for sheet in sheets(kind, 20_000) {
            let words = Layout::of_sheet(&sheet).irb_words(&sheet).copied();
            met.extend(words.into_iter().flat_map(|words| (0..).zip(words)));
        }
    }
    let wanted = [
        (IrbWord::Charge, vec![0, 1, WHOLE - 1, WHOLE]),
        (IrbWord::Loss, vec![0, 1, WHOLE - 1, WHOLE]),
        (IrbWord::Loans, vec![1, 2, MANY_LOANS - 1, MANY_LOANS, LOANS - 1, LOANS]),
        (IrbWord::Retail, vec![0, 1]),
        (
            IrbWord::Share,
            vec![0, IRB_SHARE - 1, IRB_SHARE, IRB_SHARE + 1, WHOLE - 1, WHOLE],
        ),
        (IrbWord::Average, vec![0, 1, IRB_AVERAGE - 1, IRB_AVERAGE]),
    ];
    for (word, values) in wanted {
        let missed: Vec<u64> = values
            .into_iter()
            .filter(|&value| !met.contains(&(word as usize, value)))
            .collect();
        assert!(missed.is_empty(), "{word:?}: {missed:?}");
    }
}

/// Sums of the parameter come within a millionth of 0.3 and of 0.6 on both sides, below 0 and above 2, whether they are
/// halved or not.
#[test]
fn sums_meet_the_least_parameter() {
    let mut met = BTreeSet::new();
    for kind in [Kind::IrbPool, Kind::MixedPool] {
        for sheet in sheets(kind, 20_000) {
            let read = independent::sheet::read(&sheet).expect("a sound sheet");
            let figures = Figures::of(&read);
            for (irb, tranche) in figures
                .irb
                .iter()
                .flat_map(|irb| read.tranches.iter().map(move |of| (irb, of)))
            {
                let sum = Sum::of(irb, figures.charge, tranche);
                let whole = sum.numerator.div_euclid(sum.denominator);
                met.insert((read.facts.stc, whole.clamp(-1, 2 * WHOLE as i128)));
            }
        }
    }
    for stc in [false, true] {
        for sum in [-1, 299_999, 300_000, 599_999, 600_000, 2 * WHOLE as i128] {
            assert!(met.contains(&(stc, sum)), "{stc} {sum}");
        }
    }
}

/// A bad section is refused at its count by 2, at a word by 18, for a missing word by 1 or for words that follow by 3,
/// and for nothing else.
#[test]
fn bad_sections_are_refused() {
    let mut met = BTreeSet::new();
    for sheet in sheets(Kind::BadSection, 10_000) {
        let refused = independent::weigh(&sheet, MOST_RESULTS as u64).expect_err("a bad section");
        let layout = Layout::of_sheet(&sheet);
        let place = refused.place - layout.irb_count() as u64;
        met.insert((refused.number, place));
    }
    let words = 1..=IrbWord::COUNT as u64;
    let wanted = [(refusal::COUNT, 0), (refusal::MISSING, 0), (refusal::WORDS_FOLLOW, 7)];
    let wanted = wanted
        .into_iter()
        .chain(words.clone().map(|place| (refusal::IRB_FIGURE, place)));
    let wanted = wanted.chain(words.map(|place| (refusal::MISSING, place)));
    assert_eq!(met, wanted.collect());
}

/// Another pool kind is refused for a missing section, for one that follows, for the share or as no code; a mixed pool
/// in place of an IRB pool is not.
#[test]
fn other_pool_kinds_are_judged() {
    let mut met = BTreeSet::new();
    for sheet in sheets(Kind::PoolKind, 20_000) {
        let kind = sheet[Layout::fact(Fact::PoolKind)];
        let answer = independent::weigh(&sheet, MOST_RESULTS as u64);
        met.insert((kind, answer.map_or_else(|refused| refused.number, |_| 0)));
    }
    let wanted = [
        (pool_kind::SA, refusal::WORDS_FOLLOW),
        (pool_kind::IRB, refusal::MISSING),
        (pool_kind::IRB, refusal::IRB_FIGURE),
        (pool_kind::MIXED, refusal::MISSING),
        (pool_kind::MIXED, 0),
        (pool_kind::MIXED + 1, refusal::FACT),
    ];
    assert!(wanted.iter().all(|case| met.contains(case)), "{met:?}");
}

/// A second sheet of an SA pool, and one with other statuses and ratings under SEC-IRBA, has the independent answer of
/// the first; the first is of an IRB or mixed pool, under SEC-IRBA or not as the relation says.
#[test]
fn unread_words_do_not_matter() {
    let [mut as_sa_pool, mut under_irba] = [0, 0];
    for case in (0..10_000).map(|index| Case::new(19, index)) {
        let relations = [Relation::SaPool, Relation::OtherUnderIrba];
        if relations.contains(&case.relation) {
            let [first, second] = [&case.sheet, &case.second].map(|sheet| independent::weigh(sheet, case.room as u64));
            assert_eq!(first, second);
            assert_ne!(case.sheet[Layout::fact(Fact::PoolKind)], pool_kind::SA);
            if let Ok(deal) = first {
                assert_eq!(is_under_irba(&deal), case.relation == Relation::OtherUnderIrba);
                let count = if is_under_irba(&deal) {
                    &mut under_irba
                } else {
                    &mut as_sa_pool
                };
                *count += u64::from(case.sheet != case.second);
            }
        }
    }
    assert!(as_sa_pool > 50 && under_irba > 50, "{as_sa_pool} {under_irba}");
}

/// Facts are added up to each later count.
#[test]
fn facts_are_added_up_to_each_count() {
    let cases = (0..5_000).map(|index| Case::new(17, index));
    let added = cases.filter(|case| case.relation == Relation::FactsAdded);
    let counts = added.map(|case| [&case.sheet, &case.second].map(|sheet| sheet[Layout::FACTS_COUNT]));
    assert_eq!(
        counts.collect::<BTreeSet<_>>(),
        BTreeSet::from([[4, 5], [4, 6], [4, 7], [5, 6], [5, 7], [6, 7]])
    );
}

/// The risk weights of a sheet that has its counts right, with the unit that it states; 2 where it states none.
fn weights(sheet: &[u64]) -> (u64, Vec<u64>) {
    let layout = Layout::of_sheet(sheet);
    let unit = match layout.facts as u64 == FACTS {
        true => layout.fact_word(sheet, Fact::Unit),
        false => 2,
    };
    let rows = layout.pool(sheet).iter();
    (unit, rows.map(|row| row[RowWord::RiskWeight as usize]).collect())
}

/// Each sound kind has sheets that state no unit, that state percent and that state hundredths, but for that in
/// hundredths alone.
#[test]
fn units_come_in_all_kinds() {
    let mut met = BTreeSet::new();
    for case in (0..20_000).map(|index| Case::new(24, index)) {
        if case.kind.is_sound() {
            met.insert((case.kind as usize, weights(&case.sheet).0));
        }
    }
    let kinds = Kind::TABLE.iter().filter(|(kind, _, _)| kind.is_sound());
    let all = kinds.flat_map(|&(kind, _, _)| {
        let units = match kind {
            Kind::Hundredths => vec![unit::HUNDREDTHS],
            _ => vec![unit::PERCENT, unit::HUNDREDTHS, 2],
        };
        units.into_iter().map(move |unit| (kind as usize, unit))
    });
    assert_eq!(met, all.collect());
}

/// Sheets in hundredths have all risk weights about limits and whole percents. Some have whole percents alone, some none
/// of these, and some have both; of the last some have one risk weight that is none, and some several.
#[test]
fn weights_in_hundredths() {
    let (mut met, mut forms) = (BTreeSet::new(), BTreeSet::new());
    for sheet in sheets(Kind::Hundredths, 20_000) {
        let (_, weights) = weights(&sheet);
        let parts = weights.iter().filter(|&weight| weight % ONE_PERCENT != 0).count();
        if weights.len() > 2 {
            forms.insert((parts.min(2), parts == weights.len()));
        }
        met.extend(weights);
    }
    assert!(WEIGHT_EDGES.iter().all(|weight| met.contains(weight)));
    assert!(met.iter().all(|&weight| weight <= RISK_WEIGHT) && met.len() > 1_000);
    assert_eq!(forms, BTreeSet::from([(0, false), (1, false), (2, false), (2, true)]));
}

/// Another unit is refused where it is none, by 4 at the seventh fact; of hundredths in place of percent no risk weight is
/// refused, and of percent in place of hundredths some are, by 6.
#[test]
fn other_units_are_judged() {
    let mut met = BTreeSet::new();
    for sheet in sheets(Kind::OtherUnit, 20_000) {
        let (unit, _) = weights(&sheet);
        let refused = independent::sheet::read(&sheet).err();
        if let Some(refused) = refused.filter(|refused| refused.number == refusal::FACT) {
            assert_eq!(refused.place, Layout::fact(Fact::Unit) as u64);
        }
        met.insert((unit, refused.map_or(0, |refused| refused.number)));
    }
    let no_units = NO_UNITS.map(|unit| (unit, refusal::FACT));
    let units = [
        (unit::PERCENT, 0),
        (unit::PERCENT, refusal::RISK_WEIGHT),
        (unit::HUNDREDTHS, 0),
    ];
    assert_eq!(met, no_units.into_iter().chain(units).collect());
}

/// A bad risk weight is refused by 6 at its own place, just above the limit of its unit and far above, with fewer facts
/// than the most and with all.
#[test]
fn bad_weights_are_refused() {
    let mut met = BTreeSet::new();
    for sheet in sheets(Kind::BadWeight, 20_000) {
        let refused = independent::sheet::read(&sheet).expect_err("a bad risk weight");
        let (unit, weights) = weights(&sheet);
        let most = unit::risk_weight(unit % 2);
        let row = weights
            .iter()
            .position(|&weight| weight > most)
            .expect("a bad risk weight");
        let place = Layout::of_sheet(&sheet).risk_weight(row) as u64;
        assert_eq!((refused.number, refused.place), (refusal::RISK_WEIGHT, place));
        met.insert((unit, weights[row] - most == 1, weights[row] == RISK_WEIGHT));
    }
    let of_unit = |unit| [(unit, true, false), (unit, false, false)];
    let all = [unit::PERCENT, unit::HUNDREDTHS, 2].into_iter().flat_map(of_unit);
    let of_hundredths = [(unit::PERCENT, false, true), (2, false, true)];
    assert_eq!(met, all.chain(of_hundredths).collect());
}

/// Sheets are converted in both directions and refused by each number that a conversion has; outputs are drawn that are
/// longer than the converted sheet, as long as the sheet as given, one word short and shorter.
#[test]
fn conversions_come_with_all_outputs() {
    let mut met = BTreeSet::new();
    for case in (0..20_000).map(|index| Case::new(25, index)) {
        let needed = rewritten_words(&case.sheet);
        assert_eq!(
            case.output > needed,
            [Output::Larger, Output::Ample].contains(&case.output_kind)
        );
        let lacking = needed.saturating_sub(case.output).min(4);
        let answer = independent::convert(&case.sheet, case.output as u64);
        let facts = case.sheet.first().copied().unwrap_or(0);
        met.insert((facts, lacking, answer.map_or_else(|refused| refused.number, |_| 0)));
    }
    let written = (FEWEST_FACTS..=FACTS).map(|facts| (facts, 0, 0));
    let short = (FEWEST_FACTS..=FACTS).flat_map(|facts| [1, FACTS - facts, 4].map(|lacking| (facts, lacking as usize)));
    let short = short.filter(|&(_, lacking)| lacking > 0);
    let refused = [0, 1, 4].map(|lacking| (FACTS, lacking, refusal::NOT_WHOLE_PERCENT));
    let wanted = written
        .chain(short.map(|(facts, lacking)| (facts, lacking, refusal::ROOM)))
        .chain(refused);
    let missed: Vec<_> = wanted.filter(|case| !met.contains(case)).collect();
    assert!(missed.is_empty(), "{missed:?}");
}

/// Lists of amendments are as long as they should be, and those without one are the most.
#[test]
fn lists_follow_their_lengths() {
    let mut counts = [0; Amendments::TABLE.len()];
    for case in (0..20_000).map(|index| Case::new(31, index)) {
        let lengths = match case.list {
            Amendments::Unused => 0..=0,
            Amendments::One => 1..=1,
            Amendments::Few => 2..=4,
            Amendments::Many => 5..=40,
        };
        assert!(lengths.contains(&case.amendments.len()));
        assert_eq!(case.amendment_kinds.len(), case.amendments.len());
        counts[case.list as usize] += 1;
    }
    let [unused, others @ ..] = counts;
    assert!(
        others.iter().sum::<u64>() < unused && others.iter().all(|&count| count > 50),
        "{counts:?}"
    );
}

/// The number by which a kind of amendment is refused: 0 where it is taken; none where it may be any.
fn due_number(kind: Amendment, words: &[u64], place: u64) -> Option<u64> {
    let of_word = [refusal::COUNT, 5, 5, refusal::RISK_WEIGHT, 7];
    match kind {
        Amendment::Any | Amendment::AtLimits | Amendment::Near | Amendment::SameRow | Amendment::AsGiven => Some(0),
        Amendment::Short => Some(refusal::MISSING).filter(|_| place == words.len() as u64),
        Amendment::Long => Some(refusal::WORDS_FOLLOW).filter(|_| place == AMENDMENT_WORDS as u64),
        Amendment::BadWord | Amendment::SeveralBadWords | Amendment::BadAndShort | Amendment::BadAndLong => {
            of_word.get(place as usize).copied()
        }
        Amendment::RandomWords => None,
    }
}

/// The amendments of sound sheets are taken or refused as their kinds say, and have too few words or too many where these
/// say so.
#[test]
fn amendments_follow_their_kinds() {
    let mut met = BTreeSet::new();
    for case in (0..20_000).map(|index| Case::new(32, index)) {
        if !case.kind.is_sound() {
            continue;
        }
        let mut pool = OpenedPool::open(&case.sheet).expect("a sound sheet");
        for (&kind, words) in case.amendment_kinds.iter().zip(&case.amendments) {
            let refused = pool.amend(words).err();
            let [number, place] = refused.map_or([0; 2], |refused| [refused.number, refused.place]);
            assert_eq!(
                due_number(kind, words, place).unwrap_or(number),
                number,
                "{kind:?} {words:?}"
            );
            let length = words.len().cmp(&AMENDMENT_WORDS);
            match kind {
                Amendment::Short | Amendment::BadAndShort => assert_eq!(length, Ordering::Less),
                Amendment::Long | Amendment::BadAndLong => assert_eq!(length, Ordering::Greater),
                Amendment::RandomWords => assert!(words.len() < 8),
                _ => assert_eq!(length, Ordering::Equal),
            }
            met.insert((kind as usize, place));
        }
    }
    let places = |kind: Amendment, most: u64| (0..=most).map(move |place| (kind as usize, place));
    let wanted = places(Amendment::BadWord, 4)
        .chain(places(Amendment::Short, 4))
        .chain(places(Amendment::SeveralBadWords, 3))
        .chain(places(Amendment::BadAndShort, 3))
        .chain(places(Amendment::BadAndLong, 4));
    let missed: Vec<_> = wanted.filter(|case| !met.contains(case)).collect();
    assert!(missed.is_empty(), "{missed:?}");
}

/// The row as given is that of the sheet, and the same row once more is that of the amendment before. A near row has one
/// word changed at most. Words at the limits are at them.
#[test]
fn amended_rows_follow_their_kinds() {
    let mut met = [0; 4];
    for case in (0..20_000).map(|index| Case::new(33, index)) {
        if !case.kind.is_sound() {
            continue;
        }
        let layout = Layout::of_sheet(&case.sheet);
        let most = unit::risk_weight(layout.fact_word(&case.sheet, Fact::Unit));
        let mut before = None;
        for (&kind, words) in case.amendment_kinds.iter().zip(&case.amendments) {
            let of_row = before.filter(|number| (1..=layout.rows as u64).contains(number));
            let given = |number: u64| &layout.pool(&case.sheet)[number as usize - 1];
            match kind {
                Amendment::SameRow => {
                    met[0] += u64::from(of_row.is_some());
                    assert!(of_row.is_none_or(|number| number == words[0]));
                }
                Amendment::AsGiven => {
                    met[1] += 1;
                    assert!(of_row.is_none_or(|number| number == words[0]));
                    assert_eq!(words[1..], given(words[0])[..]);
                }
                Amendment::Near => {
                    let pairs = given(words[0]).iter().zip(&words[1..]);
                    let changed = pairs.filter(|(old, new)| old != new).count();
                    met[2] += changed as u64;
                    assert!(changed <= 1);
                }
                Amendment::AtLimits => {
                    met[3] += 1;
                    let amounts = words[1..3].iter();
                    assert!(amounts
                        .chain([&words[3]])
                        .all(|word| [0, 1, most, POOL_AMOUNT].contains(word)));
                }
                _ => {}
            }
            before = words.first().copied();
        }
    }
    assert!(met.iter().all(|&count| count > 200), "{met:?}");
}

/// Opened pools are lent room enough and too little.
#[test]
fn opened_pools_have_room_and_have_not() {
    for case in (0..5_000).map(|index| Case::new(34, index)) {
        if case.kind.is_sound() {
            let needed = LINE_WORDS * Layout::of_sheet(&case.sheet).tranches;
            let [enough, too_few] = case.amended_rooms;
            assert!(enough >= needed && too_few < needed);
        }
    }
}

/// Non-senior tranches of just one half of the pool and a millionth more or less occur, rated, with and without the
/// mark.
#[test]
fn half_thick_tranches_are_half_thick() {
    let mut met = BTreeSet::new();
    for sheet in sheets(Kind::HalfThick, 10_000) {
        let Ok(deal) = independent::weigh(&sheet, MOST_RESULTS as u64) else {
            continue;
        };
        let layout = Layout::of_sheet(&sheet);
        for (tranche, line) in deal.lines.iter().enumerate() {
            let class = sheet[layout.tranche_word(tranche, TrancheWord::Class)];
            let rated = line.approach == Approach::SecErba.word();
            let mark = layout.fact_word(&sheet, Fact::Stc);
            met.extend((rated && class == 2).then_some((mark, line.detachment - line.attachment)));
        }
    }
    let wanted = [0, 1].map(|mark| [499_999, 500_000, 500_001].map(|thickness| (mark, thickness)));
    assert!(wanted.as_flattened().iter().all(|case| met.contains(case)));
}

/// Near ratings weigh the same, alone, and the least weights by them differ: by both tables, without a third rating, with
/// a lower one and with a higher one.
#[test]
fn near_ratings_are_near() {
    let mut met = BTreeSet::new();
    for sheet in sheets(Kind::NearRatings, 20_000) {
        let read = independent::sheet::read(&sheet).expect("a sound sheet");
        let nominal = charge::nominal_sum(&read.pool);
        let table = Table::of(read.facts.stc);
        for tranche in read.tranches.iter().filter(|tranche| tranche.class == 2) {
            let Points { attachment, detachment } = charge::points(nominal, &read.tranches, tranche.class);
            let ends = |code| {
                let ratings = [code, 0, 0];
                let alone = Tranche { ratings, ..*tranche };
                [rating::weight, rating::least_weight].map(|end| end(table, &alone, detachment - attachment))
            };
            let mut all: Vec<[u64; 2]> = tranche
                .ratings
                .into_iter()
                .filter(|&code| code != 0)
                .map(ends)
                .collect();
            all.sort_unstable();
            let near = |pair: &[[u64; 2]]| pair[0][0] == pair[1][0] && pair[0][1] < pair[1][1];
            let places: Vec<bool> = all.windows(2).map(near).collect();
            met.insert((read.facts.stc, places));
        }
    }
    for stc in [false, true] {
        for places in [vec![true], vec![true, false], vec![false, true]] {
            assert!(met.contains(&(stc, places.clone())), "{stc} {places:?}");
        }
    }
}

/// Deals in which ratings are to be inferred are of every sort: ordinary, STC and re-securitised, under SEC-IRBA and not,
/// with due diligence and without it, with a date and without one. In each of them some unrated tranche stands beside a
/// rated one.
#[test]
fn inferred_ratings_come_in_all_deals() {
    let mut met = BTreeSet::new();
    for sheet in sheets(Kind::Inferred, 40_000) {
        let read = independent::sheet::read(&sheet).expect("a sound sheet");
        let [rated, unrated] = [true, false].map(|of| read.tranches.iter().any(|tranche| is_rated(tranche) == of));
        if rated && unrated {
            let facts = read.facts;
            let irba = Figures::of(&read).irb.is_some();
            let deal = [facts.resecuritisation, facts.stc, irba];
            met.insert((deal, facts.due_diligence_held, facts.reporting_date.is_some()));
        }
    }
    let deals = [[false; 3], [false, true, false], [true, false, false]].map(|deal| (deal, [true, false]));
    let irba = [[false, false, true], [false, true, true]].map(|deal| (deal, [true, true]));
    let deals = deals.iter().chain(&irba);
    let all = deals.flat_map(|(deal, held)| held.map(|held| [false, true].map(|dated| (*deal, held, dated))));
    assert_eq!(met, all.flatten().collect());
}

/// For each line of two accepted sheets that differ in ratings, where those of its own tranche are the same: whether each
/// half of the law asks that the line be the same (senior classes alone differ; the tranche is rated, or no rating is
/// inferred in the deal), and whether the independent lines are. Nothing where a sheet is refused.
fn lines_with_other_ratings(case: &Case) -> Vec<([bool; 2], bool)> {
    let sheets = [&case.sheet, &case.second];
    let [Ok(deal), Ok(other)] = sheets.map(|sheet| independent::weigh(sheet, case.room as u64)) else {
        return Vec::new();
    };
    let [read, changed] = sheets.map(|sheet| independent::sheet::read(sheet).expect("a sound sheet"));
    let exempt = read.facts.resecuritisation || !read.facts.due_diligence_held || is_under_irba(&deal);
    let both = || read.tranches.iter().zip(&changed.tranches);
    let seniors_alone = |class| both().all(|(one, other)| one.ratings == other.ratings || one.class < class);
    let lines = both().zip(deal.lines.iter().zip(&other.lines));
    let own_kept = lines.filter(|((one, other), _)| one.ratings == other.ratings);
    own_kept
        .map(|((one, _), (line, other))| {
            let law = [seniors_alone(one.class), exempt || is_rated(one)];
            (law, line == other)
        })
        .collect()
}

/// The independent lines keep the law of S-8: none depends on a rating of a senior class, and that of a rated tranche, or of
/// a deal in which nothing is inferred, on no other's. Others do change, and each case comes with each second sheet that
/// can have it.
#[test]
fn independent_lines_keep_the_law() {
    let mut met = BTreeSet::new();
    for case in (0..20_000).map(|index| Case::new(23, index)) {
        let relations = [Relation::OtherRatings, Relation::SeniorRatings];
        if let Some(relation) = relations.iter().position(|&relation| relation == case.relation) {
            for (law, same) in lines_with_other_ratings(&case) {
                assert!(same || law == [false; 2], "{:?} {:?}", case.sheet, case.second);
                met.insert((relation, law, same));
            }
        }
    }
    for relation in [0, 1] {
        let kept = [[true, false], [true, true]].map(|law| (relation, law, true));
        assert!(kept.iter().all(|case| met.contains(case)), "{met:?}");
        assert!(met.contains(&(relation, [false, true], true)));
    }
    assert!(
        [true, false].iter().all(|&same| met.contains(&(0, [false; 2], same))),
        "{met:?}"
    );
}

/// Rooms are lent that hold just the lines of several tranches, one word less and one less for each.
#[test]
fn rooms_are_about_the_lines() {
    let mut met = BTreeSet::new();
    for case in (0..5_000).map(|index| Case::new(20, index)) {
        if case.kind.is_sound() {
            let tranches = Layout::of_sheet(&case.sheet).tranches;
            let lacking = (LINE_WORDS * tranches).wrapping_sub(case.room);
            met.extend((lacking <= tranches).then_some((lacking, tranches)));
        }
    }
    for tranches in 2..5 {
        let lacking = [0, 1, tranches].map(|lacking| (lacking, tranches));
        assert!(lacking.iter().all(|room| met.contains(room)), "{tranches}");
    }
}

/// No least weight that a line admits is above a weight that it admits. Under the formula they are at most three apart
/// where neither floor nor cap acts, under SEC-ERBA at most one, and under the fallback they are equal; floor and cap
/// bring them no further apart.
#[test]
fn least_weights_are_not_above_weights() {
    let mut most = BTreeSet::new();
    for index in 0..20_000 {
        let case = Case::new(21, index);
        let Ok(deal) = independent::weigh(&case.sheet, case.room as u64) else {
            continue;
        };
        for line in &deal.lines {
            let weights: Vec<u64> = line.amounts.iter().map(|amounts| amounts.weight).collect();
            assert!(weights.is_sorted() && line.least_weights.is_sorted());
            let [lowest, highest] = [weights[0], weights[weights.len() - 1]];
            assert!(line.least_weights.iter().all(|&least_weight| least_weight <= lowest));
            most.insert((line.approach, highest - line.least_weights[0]));
        }
    }
    let of_formula = [Approach::SecSa, Approach::SecIrba].map(|approach| [0, 1, 2, 3].map(|apart| (approach, apart)));
    let of_table = [0, 1].map(|apart| (Approach::SecErba, apart));
    let all = of_formula.as_flattened().iter().chain(&of_table);
    let all = all
        .chain(&[(Approach::Fallback, 0)])
        .map(|&(approach, apart)| (approach.word(), apart));
    assert_eq!(most, all.collect());
}

/// The unknown exposure comes within a unit of 5% from below and from above, and meets it.
#[test]
fn unknown_share_meets_five_percent() {
    let (mut below, mut at, mut above) = (0, 0, 0);
    for sheet in sheets(Kind::UnknownShare, 10_000) {
        let rows = Layout::of_sheet(&sheet).pool(&sheet);
        let exposure = |row: &[u64; RowWord::COUNT]| row[RowWord::Exposure as usize];
        let unknown = rows
            .iter()
            .filter(|row| row[RowWord::Status as usize] == status::NOT_KNOWN);
        let (all, unknown): (u64, u64) = (rows.iter().map(exposure).sum(), unknown.map(exposure).sum());
        let near = (20 * unknown).abs_diff(all) <= 20;
        match (20 * unknown).cmp(&all) {
            Ordering::Less => below += u64::from(near),
            Ordering::Equal => at += 1,
            Ordering::Greater => above += u64::from(near),
        }
    }
    assert!(below > 50 && at > 50 && above > 50, "{below} {at} {above}");
}

/// Points lie at the charge and one millionth to each side of it, under SEC-IRBA too.
#[test]
fn points_meet_the_charge() {
    let mut apart = BTreeSet::new();
    for deal in deals(Kind::AroundCharge, 10_000) {
        let irba = is_under_irba(&deal);
        let points = deal
            .lines
            .iter()
            .flat_map(|line| [('A', line.attachment), ('D', line.detachment)]);
        apart.extend(points.map(|(name, point)| (irba, name, point.wrapping_sub(deal.charge) as i64)));
    }
    for irba in [false, true] {
        for name in ['A', 'D'] {
            let wanted = [-1, 0, 1].map(|distance| (irba, name, distance));
            assert!(wanted.iter().all(|point| apart.contains(point)), "{irba} {name}");
        }
    }
}

/// Accepted tranches of 0, 1 and 2 millionths occur, above the charge too where that is allowed, under each approach.
#[test]
fn thin_tranches_are_thin() {
    let mut thick = BTreeSet::new();
    for deal in deals(Kind::Thin, 10_000) {
        let above = |line: &independent::Line| line.detachment > deal.charge;
        thick.extend(
            deal.lines
                .iter()
                .map(|line| (line.approach, above(line), line.detachment - line.attachment)),
        );
    }
    let wanted = [
        (Approach::SecSa, false, 0),
        (Approach::SecSa, false, 1),
        (Approach::SecSa, true, 1),
        (Approach::SecSa, true, 2),
        (Approach::SecIrba, false, 0),
        (Approach::SecIrba, false, 1),
        (Approach::SecIrba, true, 1),
        (Approach::SecIrba, true, 2),
        (Approach::SecErba, true, 0),
        (Approach::SecErba, true, 1),
        (Approach::Fallback, true, 0),
    ];
    let met =
        |&(approach, above, millionths): &(Approach, bool, u64)| thick.contains(&(approach.word(), above, millionths));
    assert_eq!(wanted.into_iter().filter(|case| !met(case)).collect::<Vec<_>>(), []);
}

/// Tranches beyond the pool have both points at 0.
#[test]
fn overshooting_tranches_have_points_zero() {
    let beyond = |line: &independent::Line| (line.attachment, line.detachment) == (0, 0);
    assert!(
        deals(Kind::Overshoot, 2_000)
            .filter(|deal| deal.lines.iter().any(beyond))
            .count()
            > 10
    );
}

/// Charges of 0, of a few millionths and of one million occur where their kinds say so. Under SEC-IRBA, where statuses
/// play no part, the first two do.
#[test]
fn charges_follow_the_kinds() {
    let charges = |kind, irba| {
        let deals = deals(kind, 10_000).filter(|deal| is_under_irba(deal) == irba);
        let charges: Vec<u64> = deals.map(|deal| deal.charge).collect();
        assert!(charges.len() > 10, "{kind:?}: {} deals", charges.len());
        charges
    };
    let all = |kind, irba| BTreeSet::from_iter(charges(kind, irba));
    assert_eq!(all(Kind::AllUnknown, false), BTreeSet::from([1_000_000]));
    assert_eq!(all(Kind::AllDelinquent, false), BTreeSet::from([500_000]));
    for irba in [false, true] {
        assert_eq!(all(Kind::ZeroCharge, irba), BTreeSet::from([0]));
        let small = charges(Kind::SmallCharge, irba);
        assert!(small.iter().filter(|charge| (1..=3).contains(*charge)).count() > 10);
    }
}

/// Large pools have as many rows as about the end of a block, and numbers between them.
#[test]
fn large_pools_meet_the_blocks() {
    let counts: Vec<u64> = sheets(Kind::LargePool, 20_000)
        .map(|sheet| Layout::of_sheet(&sheet).rows as u64)
        .collect();
    assert!(BLOCK_EDGES.iter().all(|rows| counts.contains(rows)), "{counts:?}");
    let between = counts.iter().filter(|rows| !BLOCK_EDGES.contains(rows));
    assert!(between.count() > 50);
}

/// The numbers of blocks that are drawn are all that a pool can have, the next ones, and others of any size.
#[test]
fn numbers_of_blocks_are_drawn() {
    let drawn: Vec<[u64; 2]> = (0..1_000).map(|index| Case::new(22, index).blocks).collect();
    let near: BTreeSet<u64> = drawn.iter().map(|numbers| numbers[0]).collect();
    assert_eq!(near, (0..BLOCKS + 2).collect());
    assert!(drawn.iter().any(|numbers| numbers[1] > u64::MAX / 2));
}

/// The limits are met: counts, amounts, and the largest sums.
#[test]
fn limits_are_met() {
    let mut met = BTreeSet::new();
    for sheet in sheets(Kind::Limits, 20_000) {
        let layout = Layout::of_sheet(&sheet);
        let word = |tranche, word| sheet[layout.tranche_word(tranche, word)];
        let rows = layout.pool(&sheet);
        let nominal: u64 = rows.iter().map(|row| row[RowWord::Nominal as usize]).sum();
        let amounts: u64 = (0..layout.tranches)
            .map(|tranche| word(tranche, TrancheWord::Amount))
            .sum();
        met.extend([("rows", rows.len() as u64), ("tranches", layout.tranches as u64)]);
        met.extend([("nominal", nominal), ("amounts", amounts)]);
    }
    let counts = [("rows", 1), ("rows", ROWS), ("tranches", 1), ("tranches", TRANCHES)];
    let sums = [
        ("nominal", 1),
        ("nominal", ROWS * POOL_AMOUNT),
        ("amounts", 1),
        ("amounts", TRANCHES * TRANCHE_AMOUNT),
    ];
    assert_eq!(
        counts
            .iter()
            .chain(&sums)
            .filter(|case| !met.contains(case))
            .collect::<Vec<_>>(),
        Vec::<&(&str, u64)>::new()
    );
}

/// The limits of risk weights are met in each unit, and no others, and with them the largest weighted sum.
#[test]
fn limits_of_risk_weights_are_met() {
    let (mut met, mut largest) = (BTreeSet::new(), BTreeSet::new());
    for sheet in sheets(Kind::Limits, 20_000) {
        let (unit, weights) = weights(&sheet);
        met.extend(weights.into_iter().map(|weight| (unit, weight)));
        let read = independent::sheet::read(&sheet).expect("a sound sheet");
        let sums = charge::weighted_exposure_sum(&read.pool);
        largest.extend((sums == u128::from(ROWS * POOL_AMOUNT) * u128::from(RISK_WEIGHT)).then_some(unit));
    }
    let ends = [(unit::PERCENT, 1_250), (unit::HUNDREDTHS, 125_000), (2, 1_250)];
    let all = ends.into_iter().flat_map(|(unit, most)| [(unit, 0), (unit, most)]);
    assert_eq!(met, all.collect());
    assert_eq!(largest, BTreeSet::from([unit::PERCENT, unit::HUNDREDTHS, 2]));
}

/// The limits of maturities are met, and no others: of months, and of dates after the first and after the last reporting
/// date.
#[test]
fn limits_of_maturities_are_met() {
    let mut met = BTreeSet::new();
    for sheet in sheets(Kind::Limits, 20_000) {
        let layout = Layout::of_sheet(&sheet);
        let date = layout.fact_word(&sheet, Fact::ReportingDate);
        met.insert((date, sheet[layout.tranche_word(0, TrancheWord::Maturity)]));
    }
    let of_months = [(0, 1), (0, MONTHS)];
    let of_dates = [(DAYS.0, DAYS.0 + 1), (DAYS.0, 21_000_101), (DAYS.1 - 1, DAYS.1)];
    assert_eq!(met, of_months.into_iter().chain(of_dates).collect());
}

/// The same seed and index give the same sheet, whatever was made before.
#[test]
fn sheets_follow_seed_and_index() {
    let mut used = Case::new(13, 1_000);
    for index in 0..500 {
        used.make(13, index);
        assert_eq!(format!("{:?}", used.sheet), format!("{:?}", Case::new(13, index).sheet));
    }
    assert!((0..50).any(|index| Case::new(13, index).sheet != Case::new(14, index).sheet));
}
