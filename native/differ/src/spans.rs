//! Compares calls on a span of the tables, and calls without one with those on all that both tables
//! have.

use crate::editor::some_sheet;
use crate::event::Event;
use crate::keeper::Right;
use crate::memory::{Asked, Memory};
use crate::spot::{Made, Spot};
use crate::{Subject, Tally};
use second::random::amounts::Scale;
use second::random::edits::{other_record, some_cabinet};
use second::random::road::of_numbers;
use second::random::span::span;
use second::random::{Lent, Random};
use second::span::accepted;
use second::{Answer, Sheet, Span, Tables, spanned};

/// Once in so many cases the smallest road gets a call on a span, too.
const SMALLEST: usize = 4;

/// A sheet, and if it is accepted, its records and what a keeping call answers and leaves.
pub struct Road<'a> {
    pub sheet: &'a [u8],
    pub kept: Option<(&'a Sheet, &'a Right)>,
}

impl<'a> Road<'a> {
    fn records(&self) -> Option<&'a Sheet> {
        self.kept.map(|(records, _)| records)
    }

    /// The places and the entries that it needs; some, where it is refused.
    fn needs(&self) -> (usize, usize) {
        let of = |records: &Sheet| (records.services.len(), records.entries());
        self.records().map_or((2, 12), of)
    }

    /// The number of a cabinet to edit, once in four times of none.
    fn some_number(&self, random: &mut Random) -> usize {
        match self.records() {
            Some(records) if random.once_in(4) => records.cabinets.len() + random.below(2),
            Some(records) => some_cabinet(random, records),
            None => random.below(3),
        }
    }
}

/// One of the three calls on some span of tables of some lengths.
fn one(
    subject: &dyn Subject,
    road: &Road,
    random: &mut Random,
    tally: &mut Tally,
) -> Result<(), String> {
    let (places, entries) = road.needs();
    let (lent, span) = span(random, places, entries);
    let number = road.some_number(random);
    let asked = random.pick(&[Asked::Plan, Asked::Keep, Asked::Edit(number)]);
    let attempt = Attempt { asked, lent, span };
    attempt.compare(subject, road, random, tally)
}

/// One call on a span for a sheet; if it is accepted, one for the same records in another layout;
/// and once in so many times one for the smallest road that there can be.
pub fn spans(
    subject: &dyn Subject,
    road: &Road,
    random: &mut Random,
    tally: &mut Tally,
) -> Result<(), String> {
    one(subject, road, random, tally)?;
    if let Some((records, right)) = road.kept {
        again(subject, records, right, random, tally)?;
    }
    if random.once_in(SMALLEST) {
        let smallest = of_numbers(random, 0, 1, Scale::Small);
        again(subject, &smallest, &Right::of(&smallest), random, tally)?;
    }
    Ok(())
}

/// One call for records in any layout.
fn again(
    subject: &dyn Subject,
    records: &Sheet,
    right: &Right,
    random: &mut Random,
    tally: &mut Tally,
) -> Result<(), String> {
    let sheet = some_sheet(random, records);
    let road = Road {
        sheet: &sheet,
        kept: Some((records, right)),
    };
    one(subject, &road, random, tally)
}

/// Makes all three calls on each span that is written down.
pub fn compare_spans(
    subject: &dyn Subject,
    random: &mut Random,
    tally: &mut Tally,
) -> Result<(), String> {
    for case in spanned::all() {
        let records = second::read(&case.sheet).ok();
        let right = records.as_ref().map(Right::of);
        let road = Road {
            sheet: &case.sheet,
            kept: records.as_ref().zip(right.as_ref()),
        };
        for asked in [Asked::Plan, Asked::Keep, Asked::Edit(case.cabinet)] {
            let attempt = Attempt {
                asked,
                lent: case.lent,
                span: case.span,
            };
            let compared = attempt.compare(subject, &road, random, tally);
            compared.map_err(|what| format!("{}: {what}", case.name))?;
        }
    }
    Ok(())
}

/// A call, what is lent to it, and the span.
struct Attempt {
    /// The call without the span.
    asked: Asked,
    lent: Lent,
    span: Span,
}

impl Attempt {
    /// Makes the call, and the same without the span if that is all that both tables have.
    fn compare(
        &self,
        subject: &dyn Subject,
        road: &Road,
        random: &mut Random,
        tally: &mut Tally,
    ) -> Result<(), String> {
        let Attempt { asked, lent, span } = self;
        let made = self.make(subject, road, random, tally);
        made.map_err(|what| format!("{asked:?} with {lent:?} in {span:?}: {what}"))
    }

    fn make(
        &self,
        subject: &dyn Subject,
        road: &Road,
        random: &mut Random,
        tally: &mut Tally,
    ) -> Result<(), String> {
        let mut memory = Memory::dirty(random, self.lent);
        let Some((answer, tables)) = self.right(road, &mut memory, random) else {
            return Ok(());
        };
        let whole = self.span == Span::whole(self.lent);
        let alike = whole.then(|| memory.clone());
        let mut make = |memory: &mut Memory, asked: Asked| {
            let given = memory.call(subject, asked, road.sheet, self.lent, random)?;
            memory.expect(&given, road.sheet, &answer, &tables)
        };
        let asked = self.asked.on(self.span);
        make(&mut memory, asked)?;
        if let Some(mut alike) = alike {
            make(&mut alike, self.asked).map_err(|what| format!("without the span: {what}"))?;
        }
        tally.answer(asked.name(), answer.refusal);
        self.note(road, answer.refusal, whole, tally);
        Ok(())
    }

    /// The right answer, and what the span's first entries hold then; nothing where it is left
    /// open. Before an edit the span gets what the edit needs, but once in four times stays dirty.
    fn right(
        &self,
        road: &Road,
        memory: &mut Memory,
        random: &mut Random,
    ) -> Option<(Answer, Tables)> {
        let (call, cabinet) = self.asked.call();
        if let Err(refusal) = accepted(road.sheet, cabinet, self.lent, self.span) {
            return Some((Answer::refused(refusal, 0), Tables::default()));
        }
        let (records, right) = road.kept?;
        let Some(cabinet) = cabinet else {
            return Some((right.answer.clone(), right.left(call)));
        };
        if random.once_in(4) {
            let mut tables = memory.tables(self.span.first, right.tables.costs.len());
            let edited = plain::edit(records, cabinet, &mut tables);
            return (!edited.open).then_some((edited.answer, tables));
        }
        let mut before = records.clone();
        before.cabinets[cabinet] = other_record(random, records, cabinet);
        memory.put(self.span.first, &plain::tables(&before));
        Some((right.answer.clone(), right.left(call)))
    }

    /// Tells the tally how the span lay.
    fn note(&self, road: &Road, refusal: u64, whole: bool, tally: &mut Tally) {
        let (call, cabinet) = self.asked.call();
        let made = Made {
            records: road.records(),
            cabinet,
            solvable: road
                .kept
                .is_some_and(|(_, right)| right.answer.refusal == 0),
            lent: self.lent,
            span: self.span,
            refusal,
        };
        for spot in made.spots() {
            tally.event(Event::Span(call, spot));
        }
        let worked = matches!(refusal, 0 | 12 | 23);
        if whole && worked && self.lent.costs != self.lent.choices {
            tally.event(Event::Span(call, Spot::Whole));
        }
    }
}
