//! Random pools.

use crate::kind::Kind;
use crate::random::Random;
use crate::sheet::{
    status, unit, Deal, Row, BLOCK_EDGES, ONE_PERCENT, POOL_AMOUNT, RISK_WEIGHT, RISK_WEIGHT_PERCENT, ROWS,
    WEIGHT_EDGES, WHOLE,
};

/// How the amounts of a pool are drawn.
#[derive(Clone, Copy)]
enum Amounts {
    /// All the same.
    Equal(u64),
    /// From 1 to the limit, small and large ones about equally often.
    Spread,
    /// A few digits, then zeros.
    Round,
    /// From 1 to 20, so that points and shares come in coarse steps.
    Tiny,
    /// From a million to the limit, so that every point of a millionth can be met.
    Large,
}

impl Amounts {
    /// Draws a way for a pool of this kind. Kinds that place points to a millionth mostly get large amounts.
    fn draw(kind: Kind, random: &mut Random) -> Amounts {
        let exact = matches!(
            kind,
            Kind::AroundCharge | Kind::Thin | Kind::SmallCharge | Kind::HalfThick | Kind::NearRatings | Kind::Inferred
        );
        if exact && !random.once_in(8) {
            return Amounts::Large;
        }
        let equal = Amounts::Equal(random.spread(POOL_AMOUNT));
        random.pick(&[
            equal,
            Amounts::Spread,
            Amounts::Spread,
            Amounts::Round,
            Amounts::Tiny,
            Amounts::Large,
        ])
    }

    /// Draws one amount.
    fn amount(self, random: &mut Random) -> u64 {
        match self {
            Amounts::Equal(amount) => amount,
            Amounts::Spread => random.spread(POOL_AMOUNT),
            Amounts::Round => random.between(1, 999) * 10u64.pow(random.below(8) as u32),
            Amounts::Tiny => random.between(1, 20),
            Amounts::Large => random.between(WHOLE, POOL_AMOUNT),
        }
    }
}

/// How the risk weights of a pool are drawn.
#[derive(Clone, Copy)]
enum Weights {
    /// All the same.
    Same(u64),
    /// Those that loans mostly have, in whole percent.
    Usual,
    /// Any whole percent.
    Whole,
    /// Mostly those that loans mostly have, else any.
    MostlyUsual,
    /// Those about a limit and about whole percents.
    Edges,
    /// Any.
    Any,
}

impl Weights {
    /// Draws a way for a pool of this kind, in whole percent where the unit says so, and else in half of the pools.
    fn draw(kind: Kind, unit: u64, random: &mut Random) -> Weights {
        if matches!(kind, Kind::ZeroCharge | Kind::SmallCharge) {
            return Weights::Same(0);
        }
        if unit == unit::PERCENT || random.once_in(2) {
            let same = Weights::Same(whole_weight(random));
            return random.pick(&[same, Weights::Usual, Weights::Usual, Weights::Usual, Weights::Whole]);
        }
        let same = Weights::Same(any_weight(random));
        random.pick(&[same, Weights::MostlyUsual, Weights::Edges, Weights::Edges, Weights::Any])
    }

    /// Draws one risk weight, in hundredths of a percent.
    fn weight(self, random: &mut Random) -> u64 {
        match self {
            Weights::Same(weight) => weight,
            Weights::Usual => ONE_PERCENT * random.pick(&[0, 1, 10, 20, 35, 50, 75, 100, 150, RISK_WEIGHT_PERCENT]),
            Weights::Whole => whole_weight(random),
            Weights::MostlyUsual if random.once_in(4) => any_weight(random),
            Weights::MostlyUsual => Weights::Usual.weight(random),
            Weights::Edges => random.pick(&WEIGHT_EDGES),
            Weights::Any => any_weight(random),
        }
    }
}

/// Draws any risk weight, in hundredths of a percent.
fn any_weight(random: &mut Random) -> u64 {
    random.below(RISK_WEIGHT + 1)
}

/// Draws any risk weight in whole percent, in hundredths of a percent.
fn whole_weight(random: &mut Random) -> u64 {
    ONE_PERCENT * random.below(RISK_WEIGHT_PERCENT + 1)
}

/// How the statuses of a pool are drawn.
#[derive(Clone, Copy)]
enum Statuses {
    /// All the same.
    All(u64),
    /// Mostly paying, some delinquent.
    SomeLate,
    /// Mostly paying, some delinquent or not known.
    SomeUnknown,
    /// Paying, delinquent and not known about equally often.
    Any,
}

impl Statuses {
    /// Draws a way for a pool of this kind. A re-securitisation holds tranches only.
    fn draw(kind: Kind, resecuritisation: bool, random: &mut Random) -> Statuses {
        if resecuritisation {
            return Statuses::All(status::TRANCHE);
        }
        let paying = Statuses::All(status::PAYING);
        match kind {
            Kind::AllUnknown => Statuses::All(status::NOT_KNOWN),
            Kind::AllDelinquent => Statuses::All(status::DELINQUENT),
            Kind::ZeroCharge | Kind::SmallCharge => paying,
            Kind::UnknownShare => random.pick(&[paying, Statuses::SomeLate]),
            _ => random.pick(&[
                paying,
                Statuses::SomeLate,
                Statuses::SomeLate,
                Statuses::SomeUnknown,
                Statuses::Any,
            ]),
        }
    }

    /// Draws one status.
    fn status(self, random: &mut Random) -> u64 {
        match self {
            Statuses::All(status) => status,
            Statuses::SomeLate if random.once_in(6) => status::DELINQUENT,
            Statuses::SomeLate => status::PAYING,
            Statuses::SomeUnknown => match random.below(30) {
                28 => status::DELINQUENT,
                29 => status::NOT_KNOWN,
                _ => status::PAYING,
            },
            Statuses::Any => random.pick(&[status::PAYING, status::DELINQUENT, status::NOT_KNOWN]),
        }
    }
}

/// Draws how many rows a pool of this kind has.
fn row_count(kind: Kind, random: &mut Random) -> u64 {
    match (kind, random.below(16)) {
        (Kind::LargePool, 0..=3) => ROWS,
        (Kind::LargePool, 4..=9) => random.pick(&BLOCK_EDGES),
        (Kind::LargePool, _) => random.between(31, ROWS),
        (_, 0) => random.between(1, 60),
        (_, 1..=5) => random.between(1, 30),
        _ => random.between(1, 8),
    }
}

/// Fills the deal's pool with rows of this kind. The deal's facts must be there already.
pub fn fill(kind: Kind, random: &mut Random, deal: &mut Deal) {
    let exposures = Amounts::draw(kind, random);
    let nominals = Amounts::draw(kind, random);
    let alike = !random.once_in(3);
    let unit = deal.unit();
    let weights = Weights::draw(kind, unit, random);
    let statuses = Statuses::draw(kind, deal.is_resecuritisation(), random);
    deal.rows.clear();
    for _ in 0..row_count(kind, random) {
        let exposure = exposures.amount(random);
        deal.rows.push(Row {
            exposure,
            nominal: if alike { exposure } else { nominals.amount(random) },
            risk_weight: weights.weight(random) / unit::hundredths(unit),
            status: statuses.status(random),
        });
    }
    match kind {
        Kind::UnknownShare => add_unknown(random, unit, &mut deal.rows),
        Kind::SmallCharge => leave_small_charge(random, &mut deal.rows),
        _ => {}
    }
}

/// Adds unknown rows to known ones so that their exposure is just below, at or just above 5% of all: known exposure is
/// made a multiple of 19, and a nineteenth of it is added, give or take a unit. Risk weights are in the unit given.
fn add_unknown(random: &mut Random, unit: u64, rows: &mut Vec<Row>) {
    let surplus = rows.iter().map(|row| row.exposure).sum::<u64>() % 19;
    let first = &mut rows[0].exposure;
    *first = if *first > surplus {
        *first - surplus
    } else {
        *first + 19 - surplus
    };
    let part = rows.iter().map(|row| row.exposure).sum::<u64>() / 19;
    let unknown = match random.below(8) {
        0 | 1 => part - 1,
        2..=4 => part,
        5 | 6 => part + 1,
        _ => part + random.below(part + 1),
    };
    let parts = unknown.div_ceil(POOL_AMOUNT).max(random.between(1, 3)).min(unknown);
    for place in 0..parts {
        let exposure = unknown / parts + u64::from(place < unknown % parts);
        let nominal = if random.once_in(3) {
            random.spread(POOL_AMOUNT)
        } else {
            exposure
        };
        let risk_weight = random.below(unit::risk_weight(unit) + 1);
        rows.push(Row {
            exposure,
            nominal,
            risk_weight,
            status: status::NOT_KNOWN,
        });
    }
    random.shuffle(rows);
}

/// Leaves one small row with a risk weight above zero, in a pool of zero weights, whatever their unit: the charge is a few
/// millionths, or a little more.
fn leave_small_charge(random: &mut Random, rows: &mut [Row]) {
    let place = random.below(rows.len() as u64) as usize;
    rows[place].risk_weight = random.between(1, 3);
    rows[place].exposure = random.spread(100 * WHOLE);
}
