//! Tests of the crate against the static library that it links.

#![forbid(unsafe_code)]

mod block_sums;
mod build_script;
mod builder;
mod checked_deal;
mod conversion;
mod dates;
mod drawn;
mod inferred;
mod irb;
mod least_weight;
mod numbers;
mod opened_pool;
mod places;
mod ratings;
mod refusals;
mod results;
mod several_ratings;
mod stack;
mod stc;
mod texts;
mod units;
