//! What is seen of a pool that the library opens and amends (S-10).

use crate::answer::SUM_WORDS;
use crate::lent::Lent;
use crate::library::{AmendmentReply, Reply};
use tranche_weights::OpenedPool;

/// How often an opened pool is weighed at each look, each time with room of its own.
pub const ROOMS: usize = 2;

/// What is seen of an opened pool after its opening or after an amendment.
#[derive(Debug, Clone, PartialEq, Eq)]
pub struct Observed {
    /// The reply to the amendment; after the opening that of an accepted one.
    pub reply: AmendmentReply,
    /// The words of the sheet.
    pub words: Vec<u64>,
    /// The words of the sums.
    pub sums: [u64; SUM_WORDS],
    /// The charge.
    pub charge: u64,
    /// The reply to each weighing, with the results that were lent to it.
    pub weighed: [(Reply, Lent); ROOMS],
}

impl Observed {
    /// What is seen of a pool after this reply, with so much room for results.
    fn new(pool: &OpenedPool, reply: AmendmentReply, rooms: [usize; ROOMS]) -> Observed {
        Observed {
            reply,
            words: pool.words().to_vec(),
            sums: pool.sum_words(),
            charge: pool.charge(),
            weighed: rooms.map(|room| {
                let mut lent = Lent::default();
                (lent.lend(room, |results| pool.reply_into(results)), lent)
            }),
        }
    }
}

/// Opens the pool of a sheet by the proved library, amends it one by one and looks at it after each step; no look where
/// the sheet is not opened.
pub fn amend(sheet: &[u64], amendments: &[Vec<u64>], rooms: [usize; ROOMS]) -> Vec<Observed> {
    let Ok(mut pool) = OpenedPool::open(sheet) else {
        return Vec::new();
    };
    let mut observed = vec![Observed::new(&pool, AmendmentReply::amending(), rooms)];
    for amendment in amendments {
        let reply = pool.reply_to_amendment(amendment);
        observed.push(Observed::new(&pool, reply, rooms));
    }
    observed
}
