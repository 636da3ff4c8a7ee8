//! What is told apart about a call on a span.

use crate::memory::Call;
use second::random::Lent;
use second::{Sheet, Span};

/// How a span lies in its tables, or which refusal is given before which.
#[derive(Clone, Copy, Debug, PartialEq, Eq, PartialOrd, Ord)]
pub enum Spot {
    /// Exactly as many entries as are needed.
    Exact,
    /// More than are needed.
    Longer,
    /// There are entries before it.
    Behind,
    /// There are 2^16 entries before it, or more.
    Far,
    /// It ends where the shorter table does, and starts behind the table's first entry.
    AtEnd,
    /// It is within both tables, of which the cost table is the shorter.
    CostsShorter,
    /// The same with a shorter choice table.
    ChoicesShorter,
    /// One entry, which suffices for a road of no service and one cabinet.
    OneEntry,
    /// All that both tables have, and compared with the call without a span.
    Whole,
    /// 11: one entry too few, in tables that are long enough.
    OneShort,
    /// 11: no entry at all, at the end of a table.
    EmptyAtEnd,
    /// 24: it ends one entry past the shorter table.
    OnePast,
    /// 24: it is within the choice table only.
    PastCosts,
    /// 24: it is within the cost table only.
    PastChoices,
    /// 24: the first entry is the largest number.
    FirstMost,
    /// 24: the number of entries is.
    NumberMost,
    /// 24: both are.
    BothMost,
    /// 24: the first entry is past the tables, and the sum is within them in 64 bits.
    FirstWraps,
    /// 24: the number of entries is above their lengths, and the sum is within them in 64 bits.
    NumberWraps,
    /// 10 where 24 applies too.
    OutputBefore24,
    /// 24 where 11 applies too.
    Before11,
    /// 24 where 14 applies too.
    Before14,
    /// 24 on a road that gives 12.
    Before12,
    /// A refusal of the reader where 24 applies too.
    SheetBefore24,
}

impl Spot {
    pub const ALL: [Spot; 24] = [
        Spot::Exact,
        Spot::Longer,
        Spot::Behind,
        Spot::Far,
        Spot::AtEnd,
        Spot::CostsShorter,
        Spot::ChoicesShorter,
        Spot::OneEntry,
        Spot::Whole,
        Spot::OneShort,
        Spot::EmptyAtEnd,
        Spot::OnePast,
        Spot::PastCosts,
        Spot::PastChoices,
        Spot::FirstMost,
        Spot::NumberMost,
        Spot::BothMost,
        Spot::FirstWraps,
        Spot::NumberWraps,
        Spot::OutputBefore24,
        Spot::Before11,
        Spot::Before14,
        Spot::Before12,
        Spot::SheetBefore24,
    ];

    /// It can come up with this call.
    pub fn is_of(self, call: Call) -> bool {
        self != Spot::Before14 || call == Call::Edit
    }
}

/// A call on a span as it was made, with its refusal.
pub struct Made<'a> {
    pub records: Option<&'a Sheet>,
    /// The number of the cabinet that is edited, if one is.
    pub cabinet: Option<usize>,
    /// The road has a plan.
    pub solvable: bool,
    pub lent: Lent,
    pub span: Span,
    pub refusal: u64,
}

impl Made<'_> {
    /// All that is told apart about it, but for whether it was compared with the call without a
    /// span.
    pub fn spots(&self) -> Vec<Spot> {
        match (self.refusal, self.records) {
            (0 | 12 | 23, Some(records)) => self.worked(records),
            (10, _) if self.span.is_past(self.lent) => vec![Spot::OutputBefore24],
            (11, Some(records)) => self.short(records),
            (24, Some(records)) => [self.past(), self.order(records)].concat(),
            (_, None) if self.span.is_past(self.lent) => vec![Spot::SheetBefore24],
            _ => vec![],
        }
    }

    /// Those that hold.
    fn of(found: &[(Spot, bool)]) -> Vec<Spot> {
        let holding = found.iter().filter(|(_, holds)| *holds);
        holding.map(|&(spot, _)| spot).collect()
    }

    /// The length of the shorter table.
    fn shorter(&self) -> usize {
        self.lent.costs.min(self.lent.choices)
    }

    /// Of a call that worked in its span.
    fn worked(&self, records: &Sheet) -> Vec<Spot> {
        let entries = records.entries();
        let Span { first, number } = self.span;
        let Lent { costs, choices, .. } = self.lent;
        Made::of(&[
            (Spot::Exact, number == entries),
            (Spot::Longer, number > entries),
            (Spot::Behind, first > 0),
            (Spot::Far, first >= 1 << 16),
            (Spot::AtEnd, first > 0 && first + number == self.shorter()),
            (Spot::CostsShorter, costs < choices),
            (Spot::ChoicesShorter, choices < costs),
            (Spot::OneEntry, number == 1),
        ])
    }

    /// Of a call with 11.
    fn short(&self, records: &Sheet) -> Vec<Spot> {
        let entries = records.entries();
        let Span { first, number } = self.span;
        let one_short = number + 1 == entries && self.shorter() >= entries;
        Made::of(&[
            (Spot::OneShort, one_short),
            (Spot::EmptyAtEnd, number == 0 && first == self.shorter()),
        ])
    }

    /// Of a call with 24: how far the span goes.
    fn past(&self) -> Vec<Spot> {
        let Span { first, number } = self.span;
        let Lent { costs, choices, .. } = self.lent;
        let shorter = self.shorter();
        let within = |length: usize| self.span.end() <= length as u128;
        let wraps = first.wrapping_add(number) <= shorter;
        let (most_first, most_number) = (first == usize::MAX, number == usize::MAX);
        Made::of(&[
            (Spot::OnePast, self.span.end() == shorter as u128 + 1),
            (Spot::PastCosts, within(choices)),
            (Spot::PastChoices, within(costs)),
            (Spot::FirstMost, most_first && !most_number),
            (Spot::NumberMost, most_number && !most_first),
            (Spot::BothMost, most_first && most_number),
            (Spot::FirstWraps, wraps && first > shorter),
            (Spot::NumberWraps, wraps && number > shorter),
        ])
    }

    /// Of a call with 24: what else applies.
    fn order(&self, records: &Sheet) -> Vec<Spot> {
        let unknown = |number: usize| number >= records.cabinets.len();
        Made::of(&[
            (Spot::Before11, self.span.number < records.entries()),
            (Spot::Before14, self.cabinet.is_some_and(unknown)),
            (Spot::Before12, !self.solvable),
        ])
    }
}
