//! Holds the proved library of tranche weights against the independent implementation of document 01 ("the scope
//! paper") and of requests S-1 to S-3 and S-5 to S-10 of document 02 ("later requests"), on seeded random sheets.
//!
//! Every sheet is made from a seed and its index alone ([`Case`]), so that a run can be split over threads and any
//! sheet can be made again. [`Run::go`] compares all sheets and gives the counts of what it met ([`Tally`]) or the
//! first difference ([`Found`]). A run counts only where [`Tally::missing`] is empty.

#![forbid(unsafe_code)]
#![deny(missing_docs)]

mod amended;
mod amended_feature;
mod amendment;
mod amendment_feature;
mod amendment_refusal;
mod amendment_tally;
pub mod answer;
mod block_feature;
mod blocks;
mod case;
mod check;
mod conversion;
mod conversion_feature;
mod conversion_law;
mod damage;
mod date_feature;
mod dates;
mod difference;
mod inferred;
mod inferred_feature;
mod irb;
mod irb_feature;
mod kind;
mod law_feature;
mod least_feature;
mod lent;
mod library;
mod limits;
mod line_feature;
mod observed;
mod opening;
mod opening_feature;
mod pool;
mod random;
mod rating_feature;
mod run;
mod second;
mod seen;
pub mod sheet;
mod sheet_feature;
pub mod show;
mod sought;
mod tally;
mod text;
mod tranches;
mod unit_feature;
mod words;

pub use amended_feature::{AmendedFeature, OpenedRoom};
pub use amendment::AMENDMENT_WORDS;
pub use amendment_feature::AmendmentFeature;
pub use amendment_refusal::{AmendmentOrder, AmendmentRefusal};
pub use amendment_tally::AmendmentTally;
pub use block_feature::{BlockFeature, BlockRowFeature, RefusedAt};
pub use case::Case;
pub use check::check;
pub use conversion_feature::{ConversionFeature, ConversionRefusal, ConvertedDeal};
pub use date_feature::{DateFeature, DatedLineFeature};
pub use difference::{Asked, Difference, Part};
pub use inferred_feature::{InferredFeature, InferredRefusal, UntakenFeature};
pub use irb_feature::{is_under_irba, IrbFeature, IrbLineFeature, IrbRefusal};
pub use kind::{Amendment, Amendments, File, Kind, Output, Relation, Room};
pub use law_feature::LawFeature;
pub use least_feature::{Ends, LeastFeature, NearPair};
pub use lent::Lent;
pub use library::{
    Amend, AmendmentReply, BlockReply, ConversionReply, Convert, IsOpened, Library, Open, OpeningReply, Reply,
    SumBlock, Weigh, WeighFile,
};
pub use line_feature::{Feature, StcFeature};
pub use observed::{Observed, ROOMS};
pub use opening::{Change, Changed};
pub use opening_feature::OpeningFeature;
pub use rating_feature::RatingFeature;
pub use run::{Found, Run};
pub use sheet_feature::{FileFeature, RoomFeature, SheetFeature};
pub use tally::Tally;
pub use unit_feature::{DealForm, UnitFeature, UnitRefusal};
