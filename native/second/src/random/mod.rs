//! Random roads, roads rehung, damaged sheets, tariffs, edits, spans and cases, the same for the
//! same seed.

pub mod amounts;
pub mod bars;
pub mod breach;
pub mod case;
pub mod damage;
pub mod edits;
pub mod joints;
pub mod layout;
pub mod misplaced;
pub mod rehung;
pub mod road;
pub mod sharing;
pub mod source;
pub mod span;
pub mod tariff;
pub mod tied;

pub use case::{Case, Lent, Size, case};
pub use source::Random;
