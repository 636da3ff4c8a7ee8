//! Memory lent to calls that plan, which stays from call to call.

use crate::guarded::{Guarded, same};
use crate::planner::written;
use crate::{Spanned, Subject};
use second::random::{Lent, Random};
use second::{Answer, Span, Tables};

/// The calls that plan.
#[derive(Clone, Copy, Debug, PartialEq, Eq, PartialOrd, Ord)]
pub enum Call {
    Plan,
    Keep,
    Edit,
}

impl Call {
    pub const ALL: [Call; 3] = [Call::Plan, Call::Keep, Call::Edit];
}

/// What is called.
#[derive(Clone, Copy, Debug)]
pub enum Asked {
    Plan,
    Keep,
    /// An edit of the cabinet of this number.
    Edit(usize),
    /// The same with a span of the tables.
    PlanSpan(Span),
    KeepSpan(Span),
    EditSpan(usize, Span),
}

impl Asked {
    /// This call with a span of the tables, or with this one in place of another.
    pub fn on(self, span: Span) -> Asked {
        match self {
            Asked::Plan | Asked::PlanSpan(_) => Asked::PlanSpan(span),
            Asked::Keep | Asked::KeepSpan(_) => Asked::KeepSpan(span),
            Asked::Edit(cabinet) | Asked::EditSpan(cabinet, _) => Asked::EditSpan(cabinet, span),
        }
    }

    /// The call, and the number of the cabinet that is edited.
    pub fn call(self) -> (Call, Option<usize>) {
        match self {
            Asked::Plan | Asked::PlanSpan(_) => (Call::Plan, None),
            Asked::Keep | Asked::KeepSpan(_) => (Call::Keep, None),
            Asked::Edit(cabinet) | Asked::EditSpan(cabinet, _) => (Call::Edit, Some(cabinet)),
        }
    }

    /// The name under which its answers are counted.
    pub fn name(self) -> &'static str {
        match self {
            Asked::Plan => "plan",
            Asked::Keep => "keep",
            Asked::Edit(_) => "edit",
            Asked::PlanSpan(_) => "plan in a span",
            Asked::KeepSpan(_) => "keep in a span",
            Asked::EditSpan(..) => "edit in a span",
        }
    }

    /// The entry that its rows start at.
    fn first(self) -> usize {
        match self {
            Asked::PlanSpan(span) | Asked::KeepSpan(span) | Asked::EditSpan(_, span) => span.first,
            _ => 0,
        }
    }
}

/// What a call gave: the refusal, and the places of its answer; and the entry that its rows start
/// at.
pub struct Given {
    pub refusal: u64,
    pub answer: Guarded<u64>,
    first: usize,
}

/// An output and both tables.
#[derive(Clone)]
pub struct Memory {
    pub output: Guarded<u16>,
    pub costs: Guarded<u64>,
    pub choices: Guarded<u16>,
}

impl Memory {
    /// Dirty memory of these lengths.
    pub fn dirty(random: &mut Random, lent: Lent) -> Memory {
        Memory {
            output: Guarded::dirty(random, lent.output),
            costs: Guarded::dirty(random, lent.costs),
            choices: Guarded::dirty(random, lent.choices),
        }
    }

    /// The same, but with these tables at the front.
    pub fn holding(random: &mut Random, lent: Lent, tables: &Tables) -> Memory {
        let mut memory = Memory::dirty(random, lent);
        memory.put(0, tables);
        memory
    }

    /// Puts these tables from an entry on, before the next call.
    pub fn put(&mut self, first: usize, tables: &Tables) {
        self.costs.inside_mut()[first..][..tables.costs.len()].copy_from_slice(&tables.costs);
        self.choices.inside_mut()[first..][..tables.choices.len()].copy_from_slice(&tables.choices);
        self.settle();
    }

    /// So many entries of both tables from an entry on.
    pub fn tables(&self, first: usize, entries: usize) -> Tables {
        Tables {
            costs: self.costs.inside()[first..][..entries].to_vec(),
            choices: self.choices.inside()[first..][..entries].to_vec(),
        }
    }

    /// What is there now is what was there before the next call.
    fn settle(&mut self) {
        self.output.settle();
        self.costs.settle();
        self.choices.settle();
    }

    /// How much there is.
    pub fn lent(&self) -> Lent {
        Lent {
            output: self.output.inside().len(),
            costs: self.costs.inside().len(),
            choices: self.choices.inside().len(),
        }
    }

    /// One call, to which so much of the memory is lent. The sheet stays as it is.
    pub fn call(
        &mut self,
        subject: &dyn Subject,
        asked: Asked,
        sheet: &[u8],
        lent: Lent,
        random: &mut Random,
    ) -> Result<Given, String> {
        let sheet = Guarded::holding(random, sheet);
        let mut answer = Guarded::dirty(random, 3);
        let refusal = self.make(subject, asked, sheet.inside(), lent, answer.array());
        sheet.expect_same("sheet")?;
        Ok(Given {
            refusal,
            answer,
            first: asked.first(),
        })
    }

    /// Makes the call itself.
    fn make(
        &mut self,
        subject: &dyn Subject,
        asked: Asked,
        bytes: &[u8],
        lent: Lent,
        values: &mut [u64; 3],
    ) -> u64 {
        let output = &mut self.output.inside_mut()[..lent.output];
        let costs = &mut self.costs.inside_mut()[..lent.costs];
        let choices = &mut self.choices.inside_mut()[..lent.choices];
        match asked {
            Asked::Plan => subject.plan(bytes, output, costs, choices, values),
            Asked::Keep => subject.keep(bytes, output, costs, choices, values),
            Asked::Edit(c) => subject.edit(bytes, c, output, costs, choices, values),
            Asked::PlanSpan(span) => {
                subject.plan_span(bytes, output, in_span(costs, choices, span), values)
            }
            Asked::KeepSpan(span) => {
                subject.keep_span(bytes, output, in_span(costs, choices, span), values)
            }
            Asked::EditSpan(c, span) => {
                subject.edit_span(bytes, c, output, in_span(costs, choices, span), values)
            }
        }
    }

    /// The call gave this answer, wrote its plan and these tables where its rows start, and nothing
    /// else.
    pub fn expect(
        &mut self,
        given: &Given,
        sheet: &[u8],
        right: &Answer,
        tables: &Tables,
    ) -> Result<(), String> {
        same("the call", given.refusal, right.refusal)?;
        let values = [right.group, right.cost, right.count];
        given.answer.expect("answer", &values)?;
        let plan = right.plan.as_deref().unwrap_or_default();
        self.output
            .expect(&written(sheet, &self.output, plan), plan)?;
        let Tables { costs, choices } = tables;
        self.costs.expect_from(given.first, "cost table", costs)?;
        self.choices
            .expect_from(given.first, "choice table", choices)?;
        self.settle();
        Ok(())
    }
}

/// Both tables with a span of them.
fn in_span<'a>(costs: &'a mut [u64], choices: &'a mut [u16], span: Span) -> Spanned<'a> {
    Spanned {
        costs,
        choices,
        span,
    }
}
