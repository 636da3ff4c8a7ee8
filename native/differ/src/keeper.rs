//! Compares the keeping call.

use crate::alike::Alike;
use crate::memory::{Asked, Call, Memory};
use crate::{Subject, Tally};
use second::keep::placings;
use second::plan::solve;
use second::random::{Lent, Random};
use second::{Answer, Sheet, Tables};

/// So many placings are tried for the tables at most; if there are more, they are filled by rows.
const FEW_PLACINGS: u64 = 2500;

/// A right answer, and what the first entries of the tables hold then.
pub struct Right {
    pub answer: Answer,
    pub tables: Tables,
}

impl Right {
    /// What a keeping call answers and leaves where enough is lent.
    pub fn of(records: &Sheet) -> Right {
        let tables = tables(records);
        let answer = match placings(records) <= FEW_PLACINGS {
            true => solve(records),
            false => plain::answer(records, &tables),
        };
        Right { answer, tables }
    }

    /// What the same entries hold after this call: a planning call clears them.
    pub fn left(&self, call: Call) -> Tables {
        match call {
            Call::Plan => Tables {
                costs: vec![0; self.tables.costs.len()],
                choices: vec![0; self.tables.choices.len()],
            },
            Call::Keep | Call::Edit => self.tables.clone(),
        }
    }
}

/// The right tables of a road: by their definition where there are few placings, else by rows.
fn tables(records: &Sheet) -> Tables {
    match placings(records) <= FEW_PLACINGS {
        true => second::keep::tables(records),
        false => plain::tables(records),
    }
}

/// The same answers as the planner's, the plan written, and both tables filled: for a sheet and for
/// its tidy copy.
pub fn keep(
    subject: &dyn Subject,
    alike: &Alike,
    lent: Lent,
    (right, tables): (&Answer, &Tables),
    random: &mut Random,
    tally: &mut Tally,
) -> Result<(), String> {
    let untouched = Tables::default();
    let tables = match right.refusal {
        0 | 12 => tables,
        _ => &untouched,
    };
    alike.each(|sheet| {
        let mut memory = Memory::dirty(random, lent);
        let given = memory.call(subject, Asked::Keep, sheet, lent, random);
        given
            .and_then(|given| memory.expect(&given, sheet, right, tables))
            .map_err(|what| format!("keep with {lent:?}: {what}"))?;
        tally.answer("keep", right.refusal);
        Ok(())
    })
}
