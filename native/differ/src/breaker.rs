//! Compares edits that break the rule: what they must not write, and what they make of the tables.

use crate::editor::{roomy, some_sheet};
use crate::event::Event;
use crate::guarded::{Dirt, Guarded};
use crate::memory::{Asked, Given, Memory};
use crate::{Joint, Subject, Tally};
use second::Sheet;
use second::check::{check_sheet, only_joints};
use second::hex::dump;
use second::path::ancestors;
use second::random::Random;
use second::random::breach::{Breach, Broken, broken, spoil};

/// An edit of a road that breaks the rule in some way.
pub fn breach(
    subject: &dyn Subject,
    records: &Sheet,
    random: &mut Random,
    tally: &mut Tally,
) -> Result<(), String> {
    let breach = random.pick(&Breach::ALL);
    let Broken {
        kept,
        cabinet,
        edited,
    } = broken(random, breach, records);
    let mut tables = plain::tables(&kept);
    spoil(random, breach, 1 << kept.services.len(), &mut tables);
    let mut lent = roomy(random, &edited);
    lent.costs = lent.costs.max(tables.costs.len());
    lent.choices = lent.choices.max(tables.choices.len());
    let memory = Memory::holding(random, lent, &tables);
    let sheet = some_sheet(random, &edited);
    let mut attempt = Attempt {
        cabinet,
        edited,
        memory,
    };
    let compared = attempt.compare(subject, &sheet, random, tally);
    let broken = compared.map_err(|what| {
        let dump = dump(&sheet);
        format!("edit of {cabinet} that breaks the rule, {breach:?}: {what}\nedited sheet:\n{dump}")
    })?;
    if broken {
        tally.event(Event::Broken(breach));
    }
    Ok(())
}

/// An edit on tables that are not those of its rule.
struct Attempt {
    cabinet: usize,
    edited: Sheet,
    memory: Memory,
}

impl Attempt {
    /// Makes the call and compares all that it leaves. True if the tables differ from those that a
    /// keeping call leaves.
    fn compare(
        &mut self,
        subject: &dyn Subject,
        sheet: &[u8],
        random: &mut Random,
        tally: &mut Tally,
    ) -> Result<bool, String> {
        let entries = self.edited.entries();
        let mut right = self.memory.tables(0, entries);
        let lent = self.memory.lent();
        let asked = Asked::Edit(self.cabinet);
        let given = self.memory.call(subject, asked, sheet, lent, random)?;
        self.off_the_path()?;
        self.answered(&given)?;
        let made = plain::edit(&self.edited, self.cabinet, &mut right);
        if !made.open {
            self.memory.expect(&given, sheet, &made.answer, &right)?;
        }
        tally.answer("edit", given.refusal);
        let broken = right != plain::tables(&self.edited);
        if broken {
            tally.event(match given.refusal {
                0 => Event::BrokenPlan,
                12 => Event::BrokenNoPlan,
                _ => Event::Unlike,
            });
            let plan = plain::led_to(&self.edited, &right);
            if given.refusal == 23 && only_joints(&self.edited, &plan) {
                tally.joints(&[Joint::Unlike]);
            }
        }
        Ok(broken)
    }

    /// Nothing is written but the cost rows of the path from the cabinet to the root, and the
    /// choice rows of the children of these.
    fn off_the_path(&self) -> Result<(), String> {
        let path = ancestors(&self.edited, self.cabinet);
        let parent = |c: usize| usize::from(self.edited.cabinets[c].parent);
        let Memory { costs, choices, .. } = &self.memory;
        let rebuilt = self.rows(costs, |c| path.contains(&c));
        costs.expect("cost table, off the path", &rebuilt)?;
        let rebuilt = self.rows(choices, |c| c != 0 && path.contains(&parent(c)));
        choices.expect("choice table, off the path", &rebuilt)
    }

    /// The rows of a table, some as they are and all others as they were.
    fn rows<T: Dirt>(&self, table: &Guarded<T>, some: impl Fn(usize) -> bool) -> Vec<T> {
        let row = 1 << self.edited.services.len();
        let of = |c: usize| match some(c) {
            true => &table.inside()[c * row..][..row],
            false => &table.before()[c * row..][..row],
        };
        (0..self.edited.cabinets.len())
            .flat_map(of)
            .copied()
            .collect()
    }

    /// The answer is a plan that the check accepts at its cost, 12, or 23.
    fn answered(&self, given: &Given) -> Result<(), String> {
        let output = &self.memory.output;
        let values = given.answer.inside();
        let refused = match given.refusal {
            0 => {
                let plan = &output.inside()[..self.edited.services.len()];
                output.expect("output, past the plan", plan)?;
                let judged = check_sheet(&self.edited, plan);
                return match judged == Ok(values[1]) && values[0] == 0 {
                    true => Ok(()),
                    false => Err(format!("{values:?} for {plan:?}, which gets {judged:?}")),
                };
            }
            12 => [3, 0, values[2]],
            23 => [4, 0, 0],
            other => return Err(format!("answers {other}")),
        };
        given.answer.expect("answer", &refused)?;
        output.expect_same("output")
    }
}
