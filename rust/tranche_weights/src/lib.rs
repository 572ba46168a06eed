//! Risk weights of securitisation tranches under the Basel framework (its chapters CRE40 to CRE44): a safe crate over
//! the static library `libtranche_weights.a`, whose code is proved. The repository's README says what of the standard
//! is covered, what is proved and what is assumed.
//!
//! A deal goes in as a sheet, a list of numbers, and one line per tranche comes out, or one refusal with its number and
//! place. There are two ways in:
//!
//! - [`SheetBuilder`] takes values within their limits, and no others; the [`Sheet`] that it builds is weighed to a
//!   [`Deal`]. Every deal that the library accepts can be built, with no more facts in its sheet than it needs.
//! - [`weigh_words`], [`weigh_file`], [`report`] and [`report_into`] take any words or any bytes; [`reply_to_words`]
//!   and [`reply_to_file`] give the four numbers of the C functions.
//!
//! Both also give the pool's sums by portfolio: [`Sheet::block_sums`] and [`block_sums`] read those of a block of
//! [`BLOCK_ROWS`] rows, and [`reply_to_block`] gives them as the C function does. And both rewrite a sheet in the other
//! unit of the risk weights, whole percent or hundredths of a percent: [`Sheet::in_other_unit`] and [`convert_words`],
//! with [`reply_to_conversion`].
//!
//! A deal whose loans change from day to day is kept open: [`Sheet::open`] and [`OpenedPool::open`] give an [`OpenedPool`],
//! whose rows are replaced one by one, and whose charge and lines are worked out without reading the other rows again.
//! [`reply_to_opening`] opens as the C function does, and [`is_opened`] tells whether words and sums are an opened pool.
//!
//! # A deal from end to end
//!
//! Amounts are in whole units of one currency, points and charge in millionths of the pool, weights in hundredths of a
//! percent.
//!
//! ```
//! use std::error::Error;
//! use tranche_weights::{
//!     Approach, Facts, LongTerm, Months, PoolAmount, RiskWeight, Row, SheetBuilder, Status, Tranche, TrancheAmount,
//! };
//!
//! fn main() -> Result<(), Box<dyn Error>> {
//!     let loans = |amount| -> Result<Row, Box<dyn Error>> {
//!         let amount = PoolAmount::new(amount)?;
//!         Ok(Row::new(amount, amount, RiskWeight::new(100)?))
//!     };
//!     let six_years = Months::new(72)?;
//!     let senior = Tranche::new(TrancheAmount::new(800)?, six_years, 800)?;
//!     let middle = Tranche::new(TrancheAmount::new(150)?, six_years, 100)?;
//!     let junior = Tranche::new(TrancheAmount::new(50)?, six_years, 50)?;
//!
//!     let facts = Facts::new().with_due_diligence_held(true).with_pool_composition_known(true);
//!     let mut builder = SheetBuilder::ordinary(facts);
//!     builder
//!         .row(loans(950)?, Status::Paying)?
//!         .row(loans(50)?, Status::Delinquent)?
//!         .next_class(senior.with_ratings([Some(LongTerm::Aaa.into()), None, None]))?
//!         .next_class(middle.with_ratings([Some(LongTerm::Bbb.into()), None, None]))?
//!         .next_class(junior)?;
//!     let deal = builder.build()?.weigh()?;
//!
//!     assert_eq!(deal.charge, 101_000);
//!     let [senior, middle, junior] = deal.lines[..] else { panic!("a line for each tranche") };
//!     assert_eq!((senior.approach, senior.weight, senior.capital), (Approach::SecErba, 2_000, 13));
//!     assert_eq!((middle.approach, middle.weight, middle.capital), (Approach::SecErba, 26_350, 22));
//!     assert_eq!((junior.approach, junior.weight, junior.capital), (Approach::SecSa, 125_000, 50));
//!     assert_eq!((middle.attachment, middle.detachment), (50_000, 200_000));
//!     assert_eq!((deal.total_risk_weighted_amount(), deal.total_capital()), (1_049, 85));
//!     Ok(())
//! }
//! ```
//!
//! In a deal with a reporting date the maturities are dates: [`Tranche::maturing_on`] has an example. [`PoolKind`] has
//! one of a mixed pool, weighed by SEC-IRBA, [`Tranche`] one of a tranche that takes the ratings of another,
//! [`RiskWeight`] one of a loan at 37.5%, and [`OpenedPool`] one of a pool that is amended.
//!
//! # The words of a sheet
//!
//! A word is an unsigned number of 64 bits; its place is its position in the sheet, counted from 0. In this order:
//!
//! - the number of facts, [`FEWEST_FACTS`] to [`MOST_FACTS`], then the facts: the pool kind (0, a pool under the
//!   standardised approach; 1, one under the IRB approach; 2, a mixed one), then re-securitisation, due diligence held,
//!   pool composition known, and the STC mark, that the deal is simple, transparent and comparable, which no
//!   re-securitisation is; each 0 for no and 1 for yes; then the reporting date (0 for none, else [`Date::word`]) and
//!   the unit of the risk weights (0 for whole percent, 1 for hundredths of a percent). A fact that is left out at the
//!   end counts as 0;
//! - the number of pool rows, 1 to [`MOST_ROWS`], then for each: exposure amount and nominal amount (1 to 10^10), risk
//!   weight (0 to 1250 in whole percent, 0 to 125,000 in hundredths; under the standardised approach, whatever the pool
//!   kind), status (0 paying, 1 delinquent, 2 not known; 3, a securitisation tranche, in a re-securitisation and only
//!   there);
//! - the number of tranches, 1 to [`MOST_TRANCHES`], then for each: amount (1 to 10^13), class, final legal maturity (1 to
//!   1200 months; in a deal with a reporting date, a date that is so many months after it by [`Date::months_to`]), amount
//!   held (0 to the amount), [`MOST_RATINGS`] rating codes (0 for none, else [`Rating::code`]), in any order;
//! - with pool kind 1 or 2 the IRB section: 1, its count, then IRB charge and average loss given default (0 to 10^6
//!   millionths), effective number of loans (1 to 10^6), retail (0 for no and 1 for yes), share of exposure with an IRB
//!   charge (10^6 millionths with pool kind 1, 0 to 10^6 with 2), IRB average weight (0 to 125,000, always hundredths
//!   of a percent, whatever the unit).
//!
//! The class is the rank: class 1 is the senior class, which bears losses last. Tranches stand from senior to junior:
//! the first has class 1, each next the class of the one before it, with which it ranks pari passu, or one more.
//!
//! An amendment is [`AMENDMENT_WORDS`] words: the number of a pool row, counted from 1, then the four words of the row
//! that is to stand in its place.
//!
//! # Linking
//!
//! The library is for x86-64 Linux only. `sh tests/archive.sh`, run in the repository's folder, makes
//! `crates/tranche_weights_c/out/libtranche_weights.a`, and the crate links it from there. The environment variable
//! `TRANCHE_WEIGHTS_LIB` names another folder; a relative one counts from the crate's folder. Without the archive,
//! checking and documenting work, with a warning; building does not.
//!
//! The crate calls version 10 of the library's interface. Every symbol of the archive carries its version, as in
//! `tranche_weights_weigh_v10`, so that an archive of another version fails to link.
//!
//! The library keeps no state, so threads can call it at the same time. Of the calling thread's stack 64 KB are enough.
//!
//! # Later versions
//!
//! Types that are marked non-exhaustive get cases and fields in later versions, and lines get words. A program that
//! makes facts and rows by `new` and `with_…`, has an arm for all other cases in each `match`, and counts the words
//! that it lends by [`LINE_WORDS`], [`RESULT_WORDS`] and [`SHEET_WORDS`], goes on with those too. A refusal's number, an
//! approach's word and the place of a word in the line and of a sum keep their meaning in all versions, and so do the
//! units of lines and sums from version 9 of the interface on. The name of a refusal that is no longer given goes with it;
//! a program that has it must leave it out.
//!
//! Weighted exposure ([`Totals::weighted_exposure`]) is in hundredths of a percent; up to version 8 of the interface it was
//! in percent. A program that was written for one of those and reads it must see to that.

#![deny(missing_docs)]
#![deny(unsafe_code)]

mod amendment;
mod amendment_error;
mod amendment_refusal;
mod calls;
mod date;
mod deal;
mod facts;
mod library;
mod limits;
mod numbers;
mod opened_pool;
mod pool;
mod pool_kind;
mod rating;
mod refusal;
mod reply;
mod risk_weight;
mod sheet;
mod sheet_error;
mod sums;
mod text_room_error;
mod tranche;

pub use amendment::Amendment;
pub use amendment_error::AmendmentError;
pub use amendment_refusal::{AmendmentReason, AmendmentRefusal};
pub use calls::{
    block_sums, convert_words, is_opened, reply_to_block, reply_to_conversion, reply_to_file, reply_to_opening,
    reply_to_words, report, report_into, weigh_file, weigh_words,
};
pub use date::Date;
pub use deal::{Approach, Deal, Line};
pub use facts::Facts;
pub use limits::{
    AMENDMENT_WORDS, BLOCK_ROWS, BYTES_PER_WORD, FEWEST_FACTS, FILE_BYTES, IRB_WORDS, LINE_WORDS, MOST_BLOCKS,
    MOST_FACTS, MOST_RATINGS, MOST_ROWS, MOST_TRANCHES, NUMBER_DIGITS, RESULT_WORDS, ROW_WORDS, SHEET_WORDS, SUM_WORDS,
    TEXT_ROOM, TRANCHE_WORDS,
};
pub use numbers::{AverageWeight, Loans, Millionths, Months, PoolAmount, TrancheAmount};
pub use opened_pool::OpenedPool;
pub use pool::{Row, Status};
pub use pool_kind::{IrbFigures, PoolKind};
pub use rating::{LongTerm, Rating, ShortTerm};
pub use refusal::{Reason, Refusal};
pub use reply::{AmendmentReply, BlockReply, ConversionReply, OpeningReply, Reply, Weighed};
pub use risk_weight::RiskWeight;
pub use sheet::{Ordinary, Resecuritisation, Sheet, SheetBuilder};
pub use sheet_error::SheetError;
pub use sums::{BlockSums, Totals};
pub use text_room_error::TextRoomError;
pub use tranche::Tranche;
