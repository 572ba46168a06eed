//! "Points and pool charge": where the tranches attach and detach.

use crate::limits::TRANCHE_WORDS;
use crate::sheet::{AMOUNT, CLASS};

/// Where a tranche attaches and detaches, in millionths of the pool.
#[derive(Clone, Copy, Default)]
pub struct Points {
    pub attachment: f64,
    pub detachment: f64,
}

/// Works out the points of each tranche, one class at a time from the senior class down. Each class detaches where the
/// class above it attaches.
pub fn place(tranches: &[[u64; TRANCHE_WORDS]], nominal: u64, mut points: &mut [Points]) {
    let mut below = nominal;
    let mut detachment = 1e6;
    for class in tranches.chunk_by(|one, next| one[CLASS] == next[CLASS]) {
        let amount = class.iter().map(|words| words[AMOUNT]).sum();
        below = below.saturating_sub(amount);
        let attachment = (below as f64 * 1e6 / nominal as f64).floor();
        let of_class;
        (of_class, points) = points.split_at_mut(class.len());
        of_class.fill(Points { attachment, detachment });
        detachment = attachment;
    }
}
