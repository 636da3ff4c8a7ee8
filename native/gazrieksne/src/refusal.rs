//! A refusal: its number and who can have caused it.

use std::error::Error;
use std::fmt::{Display, Formatter};

/// Who can have caused a refusal.
#[derive(Clone, Copy, Debug, PartialEq, Eq)]
pub enum Group {
    SheetWriter,
    Lender,
    Road,
    PlanWriter,
}

/// A refusal. The count of splits weighed comes with 12 only.
#[derive(Clone, Copy, Debug, PartialEq, Eq)]
pub struct Refusal {
    pub number: u64,
    pub group: Group,
    pub count: u64,
}

impl Refusal {
    /// The refusal of a call, if its number is not 0.
    pub(crate) fn of(number: u64, group: u64, count: u64) -> Option<Refusal> {
        let group = match group {
            1 => Group::SheetWriter,
            2 => Group::Lender,
            3 => Group::Road,
            _ => Group::PlanWriter,
        };
        (number != 0).then_some(Refusal {
            number,
            group,
            count,
        })
    }
}

impl Display for Refusal {
    fn fmt(&self, f: &mut Formatter<'_>) -> std::fmt::Result {
        f.write_str(match self.number {
            1 => "the sheet has fewer than 16 bytes",
            2 => "services, cabinets or streams outside the limits",
            3 => "the length word is not the sheet's length",
            4 => "a block starts in the header or ends past the sheet",
            5 => "two blocks share a byte",
            6 => "a demand, capacity or price above 10,000",
            7 => "a wrong parent",
            8 => "a wrong end of a stream",
            9 => "a link field of the root is not 0",
            10 => "the output is too short for a plan",
            11 => "a table, or the span that is named, is too short",
            12 => "no valid plan exists",
            13 => "the plan hasn't one place a service",
            14 => "the plan or the edit names a cabinet that isn't there",
            15 => "a cabinet is overfull, or a service is on a joint, a cabinet of capacity 0",
            16 => "a link direction is overfull, framing counted",
            18 => "the block of barred pairs is not within the sheet, has too many pairs, or shares a byte",
            19 => "a barred pair names no service or no cabinet",
            20 => "a service is on a cabinet that it is barred from",
            21 => "the output is too short for the sheet to be written",
            22 => "a price or the tax rate is outside its limits, or there are too few places for the lines",
            23 => "the tables are not those of a sheet that differs only in this cabinet: run keep again",
            24 => "the span ends past a table: name one that lies in both, or lend longer tables",
            _ => "an unknown refusal",
        })
    }
}

impl Error for Refusal {}
