//! Edits that are refused between others, which write nothing at all.

use crate::editor::some_sheet;
use crate::event::Event;
use crate::memory::{Asked, Memory};
use crate::{Subject, Tally};
use second::random::damage::damage;
use second::random::{Lent, Random};
use second::{Answer, Sheet, Tables};

/// The edit that comes next in a list, of which forms are refused before it.
pub struct Between<'a> {
    pub records: &'a Sheet,
    pub cabinet: usize,
    /// The road has a plan then.
    pub solvable: bool,
    /// There was an edit before.
    pub edited: bool,
}

impl Between<'_> {
    /// A refused form of the edit: for its sheet, for what is lent, or for the cabinet's number.
    pub fn call(
        &self,
        subject: &dyn Subject,
        memory: &mut Memory,
        random: &mut Random,
        tally: &mut Tally,
    ) -> Result<(), String> {
        let number = match random.once_in(2) {
            true => self.number(random),
            false => self.cabinet,
        };
        let mut lent = memory.lent();
        let mut number = number;
        let mut sheet = some_sheet(random, self.records);
        match random.below(4) {
            0 => sheet = damage(random, self.records).1,
            1 => lent.output = random.below(self.records.services.len()),
            2 => self.shorten(random, &mut lent),
            _ => number = self.number(random),
        }
        let refusal = self.refusal(&sheet, lent, number);
        if refusal == 0 || second::read(&sheet).is_ok_and(|read| read != *self.records) {
            return Ok(());
        }
        let given = memory.call(subject, Asked::Edit(number), &sheet, lent, random);
        let right = Answer::refused(refusal, 0);
        let untouched = Tables::default();
        given
            .and_then(|given| memory.expect(&given, &sheet, &right, &untouched))
            .map_err(|what| format!("edit of {number} with {lent:?} between edits: {what}"))?;
        tally.answer("edit", refusal);
        self.note(refusal, number, tally);
        Ok(())
    }

    /// A number that no cabinet has; in fewer bits some would be that of a cabinet.
    fn number(&self, random: &mut Random) -> usize {
        let s = self.records.cabinets.len();
        let wide = random.pick(&[1 << 8, 1 << 16, 1 << 32]) + self.cabinet;
        random.pick(&[s, s, s + 1, usize::MAX, wide])
    }

    /// Lends one table or both shorter than is needed, sometimes the output too.
    fn shorten(&self, random: &mut Random, lent: &mut Lent) {
        let entries = self.records.entries();
        let which = random.between(1, 3);
        let short = random.pick(&[entries - 1, entries / 2, 0]);
        if which & 1 != 0 {
            lent.costs = short;
        }
        if which & 2 != 0 {
            lent.choices = short;
        }
        if random.once_in(6) {
            lent.output = random.below(self.records.services.len());
        }
    }

    /// The first refusal: of the sheet, of what is lent, or of the number.
    fn refusal(&self, sheet: &[u8], lent: Lent, number: usize) -> u64 {
        let records = match second::read(sheet) {
            Ok(records) => records,
            Err(refusal) => return refusal,
        };
        match second::plan::lent(&records, lent.output, lent.costs, lent.choices) {
            0 if number >= records.cabinets.len() => 14,
            refusal => refusal,
        }
    }

    /// Tells the tally what was refused.
    fn note(&self, refusal: u64, number: usize, tally: &mut Tally) {
        let is_cabinet = number < self.records.cabinets.len();
        match refusal {
            14 if self.solvable => tally.event(Event::Number),
            14 => tally.event(Event::NumberBefore12),
            10 if !is_cabinet => tally.event(Event::OutputBefore14),
            11 if !is_cabinet => tally.event(Event::TablesBefore14),
            10 | 11 => {}
            _ if !is_cabinet => tally.event(Event::SheetBefore14),
            _ => {}
        }
        if refusal != 10 && refusal != 11 && refusal != 14 && self.edited {
            tally.event(Event::SheetBetween);
        }
    }
}
