//! Compares lists of edits on the same tables, with refused ones in between.

use crate::event::Event;
use crate::keeper::Right;
use crate::memory::{Asked, Memory};
use crate::refused;
use crate::{Joint, Subject, Tally};
use second::Sheet;
use second::build::build;
use second::hex::dump;
use second::random::edits::Edits;
use second::random::layout::layout;
use second::random::{Lent, Random};

/// Tables of so many entries are small.
const SMALL: usize = 3000;

/// The road's tables are small, so that much can be asked of it.
pub fn is_small(records: &Sheet) -> bool {
    records.entries() <= SMALL
}

/// A sheet of these records in any layout.
pub fn some_sheet(random: &mut Random, records: &Sheet) -> Vec<u8> {
    let layout = layout(random, records);
    build(records, &layout)
}

/// Lengths that suffice for a road, with places to spare.
pub fn roomy(random: &mut Random, records: &Sheet) -> Lent {
    let entries = records.entries();
    Lent {
        output: records.services.len() + random.below(3),
        costs: entries + random.below(4),
        choices: entries + random.below(4),
    }
}

/// A list of edits that starts from a keeping call. After each edit answer, output and tables are
/// those of a keeping call on its sheet.
pub fn edits(
    subject: &dyn Subject,
    records: &Sheet,
    random: &mut Random,
    tally: &mut Tally,
) -> Result<(), String> {
    let lent = roomy(random, records);
    let steps = if is_small(records) {
        random.between(3, 8)
    } else {
        3
    };
    let mut list = List {
        subject,
        edits: Edits::new(records),
        memory: Memory::dirty(random, lent),
        before: None,
        done: 0,
    };
    let first = some_sheet(random, records);
    let right = Right::of(records);
    list.call(Asked::Keep, &first, &right, random)?;
    list.before = right.answer.plan;
    tally.list();
    for _ in 0..steps {
        list.edit(random, tally)?;
    }
    Ok(())
}

/// A list of edits on the way.
struct List<'a> {
    subject: &'a dyn Subject,
    edits: Edits,
    memory: Memory,
    /// The plan of the last call, if it gave one, and the number of edits so far.
    before: Option<Vec<u16>>,
    done: usize,
}

impl List<'_> {
    /// The next edit, with calls that are refused before it, and on small roads a keeping call
    /// beside it.
    fn edit(&mut self, random: &mut Random, tally: &mut Tally) -> Result<(), String> {
        let cabinet = self.edits.after(random, self.before.as_deref());
        let records = self.edits.sheet().clone();
        let right = Right::of(&records);
        if random.once_in(2) {
            let between = refused::Between {
                records: &records,
                cabinet,
                solvable: right.answer.refusal == 0,
                edited: self.done > 0,
            };
            between.call(self.subject, &mut self.memory, random, tally)?;
        }
        let sheet = some_sheet(random, &records);
        self.call(Asked::Edit(cabinet), &sheet, &right, random)?;
        if is_small(&records) {
            self.keep_beside(&records, &sheet, &right, random)?;
        }
        tally.answer("edit", right.answer.refusal);
        self.note(&records, cabinet, right.answer.refusal, tally);
        self.before = right.answer.plan;
        self.done += 1;
        Ok(())
    }

    /// One call on the list's memory.
    fn call(
        &mut self,
        asked: Asked,
        sheet: &[u8],
        right: &Right,
        random: &mut Random,
    ) -> Result<(), String> {
        let lent = self.memory.lent();
        let given = self.memory.call(self.subject, asked, sheet, lent, random);
        let compared = given.and_then(|given| {
            self.memory
                .expect(&given, sheet, &right.answer, &right.tables)
        });
        compared.map_err(|what| {
            let dump = dump(sheet);
            format!(
                "{asked:?} after {} edits: {what}\nedited sheet:\n{dump}",
                self.done
            )
        })
    }

    /// A keeping call with memory of its own leaves what the edit did.
    fn keep_beside(
        &self,
        records: &Sheet,
        sheet: &[u8],
        right: &Right,
        random: &mut Random,
    ) -> Result<(), String> {
        let lent = roomy(random, records);
        let mut memory = Memory::dirty(random, lent);
        let given = memory.call(self.subject, Asked::Keep, sheet, lent, random)?;
        let kept = memory.expect(&given, sheet, &right.answer, &right.tables);
        kept.map_err(|what| format!("keep beside an edit: {what}\nsheet:\n{}", dump(sheet)))
    }

    /// Tells the tally what kind of edit it was.
    fn note(&self, records: &Sheet, cabinet: usize, refusal: u64, tally: &mut Tally) {
        let s = records.cabinets.len();
        let mut others = (1..s).map(|c| usize::from(records.cabinets[c].parent));
        let is_leaf = others.all(|parent| parent != cabinet);
        match (cabinet, is_leaf) {
            (0, false) => tally.event(Event::Root),
            (0, true) => {}
            (_, true) => tally.event(Event::Leaf),
            (_, false) => tally.event(Event::Between),
        }
        match refusal {
            0 if self.done > 0 && self.before.is_none() => tally.event(Event::PlanAgain),
            _ => {}
        }
        tally.event(if refusal == 0 {
            Event::Plan
        } else {
            Event::NoPlan
        });
        let before = self.before.as_deref();
        tally.joints(&Joint::of_edit(&self.edits, cabinet, before, refusal));
    }
}
