//! The calls that plan, with and without a span, and their faults about spans.

use crate::keep::{Lent, refused};
use crate::rows::Rows;
use crate::slip::Slip;
use crate::{Fault, Faulty};
use differ::Call;
use second::{Sheet, Span};
use std::ops::Range;

/// Which call is made, and the span that it names, if it names one.
#[derive(Clone, Copy)]
pub struct Site {
    pub call: Call,
    pub span: Option<Span>,
}

impl Faulty {
    /// Makes a call; the number is that of the cabinet edited.
    pub fn call(
        &self,
        bytes: &[u8],
        number: usize,
        mut lent: Lent,
        site: Site,
        answer: &mut [u64; 3],
    ) -> u64 {
        let slip = self.slip(site);
        let read = self.records(bytes).map(|_| second::read(bytes));
        let (refusal, values) = match (read, site.call) {
            // What only a faulty reader accepts need not be a road.
            (Ok(Err(_)), _) => (0, [0; 3]),
            (Err(_), _) if slip == Some(Slip::BeforeReader) && self.past(&lent, site) => {
                refused(24)
            }
            (_, Call::Plan) => self.plan_answer(bytes, &mut lent, site),
            (_, Call::Keep) => self.keep_answer(bytes, &mut lent, site),
            (_, Call::Edit) => self.edit_answer(bytes, number, &mut lent, site),
        };
        let kept = match site.call {
            Call::Plan => self.has(Fault::PlanAnswerKept),
            Call::Keep => self.has(Fault::KeepAnswerKept),
            Call::Edit => self.has(Fault::EditAnswerKept),
        };
        let unwritten = refusal != 0 && kept || refusal == 24 && slip == Some(Slip::AnswerKept);
        if !unwritten {
            *answer = values;
        }
        refusal
    }

    /// The slip of this call, if it is made with a span.
    pub fn slip(&self, site: Site) -> Option<Slip> {
        match self.0 {
            Some(Fault::Span(call, slip)) if call == site.call && site.span.is_some() => Some(slip),
            _ => None,
        }
    }

    /// The span as it is taken; without one all that both tables have.
    fn span(&self, lent: &Lent, site: Site) -> Span {
        let [_, costs, choices] = lent.lengths();
        let Some(Span { first, number }) = site.span else {
            let number = match self.0 {
                Some(Fault::PlanChoicesShort) => costs,
                Some(Fault::Span(call, slip)) if call == site.call => match slip {
                    Slip::WithoutLonger => costs.max(choices),
                    Slip::WithoutCosts => costs,
                    Slip::WithoutChoices => choices,
                    _ => costs.min(choices),
                },
                _ => costs.min(choices),
            };
            return Span { first: 0, number };
        };
        match self.slip(site) {
            Some(Slip::First32) => Span {
                first: first % (1 << 32),
                number,
            },
            Some(Slip::First16) => Span {
                first: first % (1 << 16),
                number,
            },
            Some(Slip::Number32) => Span {
                first,
                number: number % (1 << 32),
            },
            _ => Span { first, number },
        }
    }

    /// 24 applies.
    fn past(&self, lent: &Lent, site: Site) -> bool {
        let Span { first, number } = self.span(lent, site);
        let [_, costs, choices] = lent.lengths();
        let (shorter, longer) = (costs.min(choices), costs.max(choices));
        let end = first.checked_add(number);
        let beyond = |length: usize| end.is_none_or(|end| end > length);
        match self.slip(site) {
            Some(Slip::Wraps) => first.wrapping_add(number) > shorter,
            Some(Slip::Signed) => first.wrapping_add(number) as i64 > shorter as i64,
            Some(Slip::PastFree) => false,
            Some(Slip::PastCostsOnly) => beyond(costs),
            Some(Slip::PastChoicesOnly) => beyond(choices),
            Some(Slip::PastLonger) => beyond(longer),
            Some(Slip::PastFirst) => first > shorter,
            Some(Slip::PastNumber) => number > shorter,
            Some(Slip::PastAtEnd) => end.is_none_or(|end| end >= shorter),
            Some(Slip::PastByOne) => beyond(shorter + 1),
            Some(Slip::PastEmpty) => beyond(shorter) || first == shorter,
            _ if self.has(Fault::PlanChoicesShort) => beyond(costs),
            _ => beyond(shorter),
        }
    }

    /// 11 applies.
    fn span_short(&self, sheet: &Sheet, lent: &Lent, site: Site) -> bool {
        let Span { first, number } = self.span(lent, site);
        let [_, costs, choices] = lent.lengths();
        let shorter = costs.min(choices);
        let measured = match self.slip(site) {
            Some(Slip::ShortCosts) => costs,
            Some(Slip::ShortChoices) => choices,
            Some(Slip::ShortTables) => shorter,
            Some(Slip::ShortRest) => shorter.saturating_sub(first),
            Some(Slip::ShortByOne) => number.saturating_add(1),
            Some(Slip::ShortExact) => number.saturating_sub(1),
            _ => number,
        };
        measured < sheet.entries() + usize::from(self.has(Fault::PlanExactTable))
    }

    /// The refusal of what is lent and of the span, or 0.
    pub fn short(&self, sheet: &Sheet, lent: &Lent, site: Site) -> u64 {
        let places = sheet.services.len() + usize::from(self.has(Fault::PlanExactOutput));
        let order = match (self.slip(site), self.0) {
            (Some(Slip::Before10), _) => [24, 10, 11],
            (Some(Slip::After11), _) => [10, 11, 24],
            (_, Some(Fault::PlanTablesFirst)) => [11, 10, 24],
            _ => [10, 24, 11],
        };
        let applies = |refusal: &u64| match refusal {
            10 => lent.output.len() < places,
            24 => self.past(lent, site),
            _ => self.span_short(sheet, lent, site),
        };
        order.into_iter().find(applies).unwrap_or(0)
    }

    /// What a call answers that 10, 24 or 11 refuses.
    pub fn lent_refused(
        &self,
        refusal: u64,
        sheet: &Sheet,
        lent: &mut Lent,
        site: Site,
    ) -> (u64, [u64; 3]) {
        let number = self.span(lent, site).number as u64;
        match (refusal, self.slip(site)) {
            (24, Some(Slip::TouchedIn24)) | (11, Some(Slip::TouchedIn11)) => lent.touch(),
            (24, Some(Slip::OutputIn24)) => lent.output.fill(0),
            (24, Some(Slip::Is11)) => return refused(11),
            (24, Some(Slip::Group)) => return (24, [4, 0, 0]),
            (24, Some(Slip::WithCost)) => return (24, [2, 1, 0]),
            (24, Some(Slip::WithCount)) => return (24, [2, 0, number | 1]),
            (24, Some(Slip::After12)) => return self.road_first(24, sheet),
            _ => {}
        }
        refused(refusal)
    }

    /// The entries that a call works in, if both tables have as many as the road needs.
    pub fn part<'a>(&self, sheet: &Sheet, lent: &'a mut Lent, site: Site) -> Option<Lent<'a>> {
        let Span { first, number } = self.span(lent, site);
        let (entries, row) = (sheet.entries(), 1 << sheet.services.len());
        let number = number.max(entries);
        let [costs, choices] = match self.slip(site) {
            Some(Slip::FromStart) => [0, 0],
            Some(Slip::CostsFromStart) => [0, first],
            Some(Slip::ChoicesFromStart) => [first, 0],
            Some(Slip::From16) => [first % (1 << 16); 2],
            Some(Slip::WholeRows) => [first / row * row; 2],
            Some(Slip::FromEnd) => [first.wrapping_add(number - entries); 2],
            _ => [first, first],
        };
        let within = |start: usize, length: usize| {
            let end = start.saturating_add(number).min(length);
            (start <= length && end - start >= entries).then_some(start..end)
        };
        let costs = within(costs, lent.costs.len())?;
        let choices = within(choices, lent.choices.len())?;
        Some(Lent {
            output: lent.output,
            costs: &mut lent.costs[costs],
            choices: &mut lent.choices[choices],
        })
    }

    /// The rows that an edit finds in the entries that it works in.
    pub fn found(&self, sheet: &Sheet, lent: &mut Lent, site: Site) -> Option<Rows> {
        let part = self.part(sheet, lent, site)?;
        let rows = self.loaded(sheet, part.costs, part.choices);
        let from_start = || self.loaded(sheet, lent.costs, lent.choices);
        Some(match self.slip(site) {
            Some(Slip::ReadFromStart) => from_start(),
            Some(Slip::ReadChoicesFromStart) => Rows {
                costs: rows.costs,
                ..from_start()
            },
            _ => rows,
        })
    }

    /// Writes what a call that worked in its span should not.
    pub fn spill(&self, sheet: &Sheet, refusal: u64, lent: &mut Lent, site: Site) {
        let Some(span) = site.span else { return };
        let [first, rows, end] = [
            span.first,
            span.first.saturating_add(sheet.entries()),
            span.first.saturating_add(span.number),
        ];
        let one = |place: usize| place..place.saturating_add(1);
        let (costs, choices) = (&mut *lent.costs, &mut *lent.choices);
        match self.slip(site) {
            Some(Slip::CostBefore) if first > 0 => clear(costs, one(first - 1)),
            Some(Slip::ChoiceBefore) if first > 0 => clear(choices, one(first - 1)),
            Some(Slip::CostPast) if rows < end => clear(costs, one(rows)),
            Some(Slip::ChoicePast) if rows < end => clear(choices, one(rows)),
            Some(Slip::CostBehind) => clear(costs, one(end)),
            Some(Slip::ChoiceBehind) => clear(choices, one(end)),
            Some(Slip::SpanCleared) => {
                clear(costs, rows..end);
                clear(choices, rows..end);
            }
            Some(slip)
                if slip == Slip::TablesCleared || slip == Slip::TablesIn12 && refusal == 12 =>
            {
                for outside in [0..first, end..usize::MAX] {
                    clear(costs, outside.clone());
                    clear(choices, outside);
                }
            }
            _ => {}
        }
    }
}

/// Sets those of these entries to 0 that a table has.
fn clear<T: Default>(table: &mut [T], entries: Range<usize>) {
    let found = table.iter_mut().enumerate();
    let found = found.filter(|(i, _)| entries.contains(i));
    found.for_each(|(_, entry)| *entry = T::default());
}
