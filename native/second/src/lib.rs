//! A second reader, check, planner, keeper of tables, maker of bills and writer of tidy copies of
//! planning sheets.
//!
//! It is written from the papers alone and is meant to be plainly right rather than fast: the
//! planner tries every plan in order and keeps the first of the cheapest, kept tables are filled by
//! trying every placing of every set, the splits weighed are counted by their definition, and so
//! are the blocks of a bill.
#![forbid(unsafe_code)]

pub mod barred;
pub mod bars;
pub mod bill;
pub mod billed;
pub mod bound;
pub mod build;
pub mod check;
pub mod copies;
pub mod feature;
pub mod form;
pub mod framed;
pub mod framing;
pub mod hex;
pub mod jointed;
pub mod keep;
pub mod limits;
pub mod measured;
pub mod path;
pub mod plan;
pub mod random;
pub mod read;
pub mod refusal;
pub mod rehung;
pub mod sheet;
pub mod span;
pub mod spanned;
pub mod splits;
pub mod tidy;
pub mod tied;
pub mod weigh;
pub mod written;

pub use bill::{Bill, Tariff, bill};
pub use bound::bound;
pub use build::{Layout, build};
pub use check::check;
pub use keep::{Tables, keep};
pub use plan::{Answer, plan};
pub use read::read;
pub use refusal::group;
pub use sheet::{Cabinet, Pair, Sheet, Stream};
pub use span::{Span, edit_span, keep_span, plan_span};
pub use tidy::tidy;
pub use weigh::weigh;
