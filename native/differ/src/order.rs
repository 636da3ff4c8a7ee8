//! One call of a list on two spans, for one of the roads.

use crate::editor::some_sheet;
use crate::memory::Asked;
use second::random::damage::damage;
use second::random::edits::some_cabinet;
use second::random::{Lent, Random};
use second::span::accepted;
use second::{Sheet, Span};

/// What is called, without its span, and what with: a sheet, so many places, and a span.
pub struct Order {
    pub asked: Asked,
    pub sheet: Vec<u8>,
    pub places: usize,
    pub span: Span,
}

impl Order {
    /// A call for a road as it is, in any layout of its sheet.
    pub fn new(
        asked: Asked,
        records: &Sheet,
        places: usize,
        span: Span,
        random: &mut Random,
    ) -> Order {
        Order {
            asked,
            sheet: some_sheet(random, records),
            places,
            span,
        }
    }

    /// Any call for the same road, with a sheet, places, a span or a cabinet's number that is
    /// likely to be refused, where the cost table has so many entries.
    pub fn harmed(self, records: &Sheet, costs: usize, random: &mut Random) -> Order {
        let mut order = self;
        let cabinet = some_cabinet(random, records);
        order.asked = random.pick(&[Asked::Plan, Asked::Keep, Asked::Edit(cabinet)]);
        let span = &mut order.span;
        match random.below(6) {
            0 => order.sheet = damage(random, records).1,
            1 => order.places = random.below(records.services.len()),
            2 => span.number = random.below(records.entries()),
            3 => span.first += costs,
            4 => span.number = random.pick(&[usize::MAX, span.first.wrapping_neg()]),
            _ => order.asked = Asked::Edit(records.cabinets.len() + random.below(3)),
        }
        order
    }

    /// What is lent with it, of memory of these lengths.
    pub fn lent(&self, all: Lent) -> Lent {
        Lent {
            output: self.places,
            ..all
        }
    }

    /// The refusal that comes before what the road itself decides, if there is one.
    pub fn refusal(&self, all: Lent) -> Option<u64> {
        let (_, cabinet) = self.asked.call();
        accepted(&self.sheet, cabinet, self.lent(all), self.span).err()
    }
}
