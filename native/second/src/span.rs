//! Calls on a span of both tables: which are refused, what the others answer, and what the span
//! holds afterwards.

use crate::keep::{Tables, tables};
use crate::plan::{Answer, solve};
use crate::random::Lent;
use crate::read::read;
use crate::sheet::Sheet;

/// The entries of both tables that a call works in: the number of the first, and how many there
/// are.
#[derive(Clone, Copy, Debug, Default, PartialEq, Eq)]
pub struct Span {
    pub first: usize,
    pub number: usize,
}

impl Span {
    /// All entries that both tables have.
    pub fn whole(lent: Lent) -> Span {
        Span {
            first: 0,
            number: lent.costs.min(lent.choices),
        }
    }

    /// The number of the entry behind the last, in more bits than any length has.
    pub fn end(self) -> u128 {
        self.first as u128 + self.number as u128
    }

    /// The span ends past the cost table or past the choice table.
    pub fn is_past(self, lent: Lent) -> bool {
        let past = |length: usize| self.end() > length as u128;
        past(lent.costs) || past(lent.choices)
    }
}

/// The refusal of what is lent for an accepted sheet, 10 before 24 before 11, or 0.
pub fn lent_span(sheet: &Sheet, lent: Lent, span: Span) -> u64 {
    if lent.output < sheet.services.len() {
        10
    } else if span.is_past(lent) {
        24
    } else if span.number < sheet.entries() {
        11
    } else {
        0
    }
}

/// The records of a sheet for which the road itself decides, or the first refusal: of the reader,
/// of what is lent, or of the number of the cabinet edited, if one is.
pub fn accepted(
    bytes: &[u8],
    cabinet: Option<usize>,
    lent: Lent,
    span: Span,
) -> Result<Sheet, u64> {
    let sheet = read(bytes)?;
    match lent_span(&sheet, lent, span) {
        0 if cabinet.is_some_and(|number| number >= sheet.cabinets.len()) => Err(14),
        0 => Ok(sheet),
        refusal => Err(refusal),
    }
}

/// The answer of a planning call on a span, and what the first entries of the span hold afterwards;
/// nothing where the call writes nothing.
///
/// # Panics
///
/// As the planner does for roads with too many plans; so do the other two calls.
pub fn plan_span(bytes: &[u8], lent: Lent, span: Span) -> (Answer, Tables) {
    answered(accepted(bytes, None, lent, span), cleared)
}

/// The same for a keeping call.
pub fn keep_span(bytes: &[u8], lent: Lent, span: Span) -> (Answer, Tables) {
    answered(accepted(bytes, None, lent, span), tables)
}

/// The same for an edit of a cabinet, by its rule.
pub fn edit_span(bytes: &[u8], cabinet: usize, lent: Lent, span: Span) -> (Answer, Tables) {
    answered(accepted(bytes, Some(cabinet), lent, span), tables)
}

/// What the road answers, with what is left in the span, or the refusal.
fn answered(accepted: Result<Sheet, u64>, left: impl Fn(&Sheet) -> Tables) -> (Answer, Tables) {
    match accepted {
        Ok(sheet) => (solve(&sheet), left(&sheet)),
        Err(refusal) => (Answer::refused(refusal, 0), Tables::default()),
    }
}

/// The tables that a planning call leaves: all entries that it works in are 0.
pub fn cleared(sheet: &Sheet) -> Tables {
    Tables {
        costs: vec![0; sheet.entries()],
        choices: vec![0; sheet.entries()],
    }
}
