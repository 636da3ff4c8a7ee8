//! Compares lists of calls on two spans of the same tables: each road must get and leave what its
//! own calls alone do, on tables of its own of just the span's length.

use crate::event::Event;
use crate::guarded::Guarded;
use crate::keeper::Right;
use crate::memory::{Asked, Call, Memory};
use crate::order::Order;
use crate::turn::Turn;
use crate::{Subject, Tally};
use second::hex::dump;
use second::random::edits::Edits;
use second::random::sharing::{Spans, other_road, side_by_side};
use second::random::{Lent, Random};
use second::{Answer, Sheet, Span, Tables};
use std::mem::swap;

/// A list of calls for this road and a smaller one of other numbers, by turns.
pub fn compare_sharing(
    subject: &dyn Subject,
    records: &Sheet,
    random: &mut Random,
    tally: &mut Tally,
) -> Result<(), String> {
    let other = other_road(random, records);
    let mut office = Office::new(subject, [records, &other], random, tally);
    for _ in 0..random.between(5, 9) {
        let which = random.below(2);
        match random.once_in(4) {
            true => office.refused(which, random, tally)?,
            false => office.work(which, random, tally)?,
        }
    }
    Ok(())
}

/// A road with its span, its output and its memory of its own.
struct Tenant {
    edits: Edits,
    /// What a keeping call does for the sheet as it is.
    right: Right,
    span: Span,
    output: Guarded<u16>,
    alone: Memory,
    /// The span is as a keeping call or an edit left it.
    kept: bool,
    /// What was called since its last call that was not refused.
    since: Vec<Turn>,
}

impl Tenant {
    fn new(records: &Sheet, span: Span, shared: &Memory, random: &mut Random) -> Tenant {
        let places = records.services.len() + random.below(3);
        let output = Guarded::dirty(random, places);
        let Tables { costs, choices } = shared.tables(span.first, span.number);
        let alone = Memory {
            output: output.clone(),
            costs: Guarded::holding(random, &costs),
            choices: Guarded::holding(random, &choices),
        };
        Tenant {
            edits: Edits::new(records),
            right: Right::of(records),
            span,
            output,
            alone,
            kept: false,
            since: vec![],
        }
    }

    /// A call for the road as it is, on its span.
    fn order(&self, asked: Asked, random: &mut Random) -> Order {
        let places = self.output.inside().len();
        Order::new(asked, self.edits.sheet(), places, self.span, random)
    }

    /// The output and the span hold what the output and the tables of its own hold.
    fn same(&self, shared: &Memory) -> Result<(), String> {
        let Span { first, number } = self.span;
        let own = self.alone.tables(0, number);
        match shared.tables(first, number) == own
            && self.output.inside() == self.alone.output.inside()
        {
            true => Ok(()),
            false => Err("the span or the output is not as with the road alone".to_string()),
        }
    }
}

/// Two roads in the same tables.
struct Office<'a> {
    subject: &'a dyn Subject,
    /// The tables; the output is that of the road that is called.
    shared: Memory,
    roads: [Tenant; 2],
}

impl Office<'_> {
    fn new<'a>(
        subject: &'a dyn Subject,
        records: [&Sheet; 2],
        random: &mut Random,
        tally: &mut Tally,
    ) -> Office<'a> {
        let drawn = side_by_side(random, records.map(Sheet::entries));
        tally.sharing_list();
        for turn in Turn::of(&drawn, records.map(Sheet::entries)) {
            tally.event(Event::Sharing(turn));
        }
        let Spans {
            spans,
            costs,
            choices,
        } = drawn;
        let lent = Lent {
            output: 0,
            costs,
            choices,
        };
        let shared = Memory::dirty(random, lent);
        let [one, two] = records;
        let roads = [
            Tenant::new(one, spans[0], &shared, random),
            Tenant::new(two, spans[1], &shared, random),
        ];
        Office {
            subject,
            shared,
            roads,
        }
    }

    /// A call that works in the road's span: an edit if the span is kept, most times.
    fn work(&mut self, which: usize, random: &mut Random, tally: &mut Tally) -> Result<(), String> {
        let road = &mut self.roads[which];
        let often = if road.kept { Call::Edit } else { Call::Keep };
        let asked = match random.pick(&[often, often, often, often, Call::Plan, Call::Keep]) {
            Call::Plan => Asked::Plan,
            Call::Keep => Asked::Keep,
            Call::Edit => {
                let plan = road.right.answer.plan.as_deref();
                let cabinet = road.edits.after(random, plan);
                road.right = Right::of(road.edits.sheet());
                Asked::Edit(cabinet)
            }
        };
        let order = road.order(asked, random);
        let tables = road.right.left(asked.call().0);
        let answer = road.right.answer.clone();
        self.call(which, &order, (&answer, &tables), random)?;
        self.worked(which, asked.call().0, tally);
        tally.answer(asked.on(order.span).name(), answer.refusal);
        Ok(())
    }

    /// Notes a call that worked in the road's span.
    fn worked(&mut self, which: usize, call: Call, tally: &mut Tally) {
        let (turn, kept) = match call {
            Call::Plan => (Turn::AfterPlan, false),
            Call::Keep => (Turn::AfterKeep, true),
            Call::Edit => (Turn::AfterEdit, true),
        };
        self.roads[1 - which].since.push(turn);
        let road = &mut self.roads[which];
        let since = std::mem::take(&mut road.since);
        if call == Call::Edit {
            let last = match road.right.answer.refusal {
                0 => Turn::Plan,
                _ => Turn::NoPlan,
            };
            let joint = road.edits.made_joint().then_some(Turn::MadeJoint);
            let cabinet = road.edits.made_cabinet().then_some(Turn::MadeCabinet);
            let turned = joint.into_iter().chain(cabinet);
            let turns = since.into_iter().chain([last]).chain(turned);
            turns.for_each(|turn| tally.event(Event::Sharing(turn)));
        }
        if road.kept && !kept {
            tally.event(Event::Sharing(Turn::Cleared));
        }
        road.kept = kept;
    }

    /// A call that is refused, for its sheet, what is lent, its span or the cabinet's number.
    fn refused(
        &mut self,
        which: usize,
        random: &mut Random,
        tally: &mut Tally,
    ) -> Result<(), String> {
        let lent = self.shared.lent();
        let road = &self.roads[which];
        let records = road.edits.sheet();
        let order = road.order(Asked::Plan, random);
        let order = order.harmed(records, lent.costs, random);
        let Some(refusal) = order.refusal(lent) else {
            return Ok(());
        };
        let right = Answer::refused(refusal, 0);
        self.call(which, &order, (&right, &Tables::default()), random)?;
        tally.answer(order.asked.on(order.span).name(), refusal);
        if refusal == 24 {
            tally.event(Event::Sharing(Turn::Past));
        }
        for road in &mut self.roads {
            road.since.push(Turn::AfterRefused);
        }
        Ok(())
    }

    /// One call on the shared tables, and the same with the road alone, unless it is one on a span
    /// past the tables.
    fn call(
        &mut self,
        which: usize,
        order: &Order,
        (answer, tables): (&Answer, &Tables),
        random: &mut Random,
    ) -> Result<(), String> {
        let Order { asked, span, .. } = *order;
        let sheet = &order.sheet;
        let road = &mut self.roads[which];
        let mut make = |memory: &mut Memory, asked: Asked, lent: Lent| {
            let given = memory.call(self.subject, asked, sheet, lent, random)?;
            memory.expect(&given, sheet, answer, tables)
        };
        let lent = order.lent(self.shared.lent());
        swap(&mut self.shared.output, &mut road.output);
        let shared = make(&mut self.shared, asked.on(span), lent);
        swap(&mut self.shared.output, &mut road.output);
        let told = |what: String| {
            let dump = dump(sheet);
            format!("{asked:?} in {span:?} of two: {what}\nsheet:\n{dump}")
        };
        shared.map_err(told)?;
        if !span.is_past(lent) {
            let own = Lent {
                costs: span.number,
                choices: span.number,
                ..lent
            };
            let alone = make(&mut road.alone, asked, own);
            alone.map_err(|what| told(format!("alone: {what}")))?;
        }
        road.same(&self.shared).map_err(told)
    }
}
