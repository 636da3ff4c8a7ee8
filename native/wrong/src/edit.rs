//! The edit and its faults.

use crate::keep::{Lent, refused};
use crate::rows::{NONE, Rows};
use crate::slip::Slip;
use crate::span::Site;
use crate::splice::Where;
use crate::{Fault, Faulty};
use second::Sheet;

impl Faulty {
    /// The refusal, and group, cost and count.
    pub fn edit_answer(
        &self,
        bytes: &[u8],
        cabinet: usize,
        lent: &mut Lent,
        site: Site,
    ) -> (u64, [u64; 3]) {
        let sheet = match self.records(bytes) {
            Ok(sheet) => sheet,
            Err(refusal) => {
                if self.has(Fault::EditTouchedInReader) {
                    lent.touch();
                }
                return refused(refusal);
            }
        };
        let cabinet = self.taken_number(cabinet);
        let refusal = self.edit_refusal(&sheet, cabinet, lent, site);
        if refusal != 0 {
            if self.touches(refusal) {
                lent.touch();
            }
            return match refusal {
                14 if self.has(Fault::EditGroup14) => (14, [2, 0, 0]),
                14 => refused(14),
                _ => self.lent_refused(refusal, &sheet, lent, site),
            };
        }
        // A number that should have been refused stands for the last cabinet.
        let cabinet = cabinet.min(sheet.cabinets.len() - 1);
        let found = [0, 1].map(|_| self.found(&sheet, lent, site));
        let ([Some(old), Some(rows)], Some(part)) = (found, self.part(&sheet, lent, site)) else {
            return (0, [0; 3]);
        };
        let rows = self.rebuilt(&sheet, cabinet, rows);
        let (refusal, values) = self.edit_tables(&sheet, cabinet, [&old, &rows], part);
        self.spill(&sheet, refusal, lent, site);
        (refusal, values)
    }

    /// The number as it is taken.
    fn taken_number(&self, cabinet: usize) -> usize {
        match self.0 {
            Some(Fault::EditNumber8) => cabinet % (1 << 8),
            Some(Fault::EditNumber16) => cabinet % (1 << 16),
            Some(Fault::EditNumber32) => cabinet % (1 << 32),
            _ => cabinet,
        }
    }

    /// The first of 10, 24, 11 and 14 that applies, or 0.
    fn edit_refusal(&self, sheet: &Sheet, cabinet: usize, lent: &Lent, site: Site) -> u64 {
        let s = sheet.cabinets.len();
        let short = self.short(sheet, lent, site);
        let unknown = match self.0 {
            Some(Fault::EditNumberS) => cabinet > s,
            Some(Fault::EditNumberMost) => cabinet == usize::MAX,
            Some(Fault::EditNumberFree) => false,
            Some(Fault::EditNumberNotIn12) => cabinet >= s && self.has_plan(sheet),
            Some(Fault::EditNumberIn12) => cabinet >= s && !self.has_plan(sheet),
            _ => cabinet >= s,
        };
        match (short, unknown) {
            (10, true) if self.has(Fault::Edit14Before10) => 14,
            (11, true) if self.has(Fault::Edit14Before11) => 14,
            (24, true) if self.slip(site) == Some(Slip::After14) => 14,
            (0, true) => 14,
            _ => short,
        }
    }

    /// The road has a plan.
    fn has_plan(&self, sheet: &Sheet) -> bool {
        Faulty(None).rows(sheet, &[], &[]).cost() < NONE
    }

    /// A refusal with this number writes to the tables.
    fn touches(&self, refusal: u64) -> bool {
        match refusal {
            10 => self.has(Fault::EditTouchedIn10),
            11 => self.has(Fault::EditTouchedIn11),
            14 => self.has(Fault::EditTouchedIn14),
            _ => false,
        }
    }

    /// Writes the rows that are rebuilt, and answers.
    fn edit_tables(
        &self,
        sheet: &Sheet,
        cabinet: usize,
        [old, rows]: [&Rows; 2],
        mut lent: Lent,
    ) -> (u64, [u64; 3]) {
        let path = self.edit_path(sheet, cabinet);
        let cost = rows.cost();
        let none = cost >= NONE;
        if !none || !self.has(Fault::EditNotIn12) {
            self.write_rows(sheet, &path, [old, rows], &mut lent);
        }
        let count = self.edit_count(sheet, &path, old, &lent);
        let (refusal, values) = match none {
            true => self.edit_none(count),
            false => self.edit_plan(sheet, rows, cost, count, lent.output),
        };
        if none && self.has(Fault::EditOutputIn12) {
            lent.output.fill(0);
        }
        let cleared = refusal == 12 && self.has(Fault::EditClearedIn12)
            || refusal == 23 && self.has(Fault::EditClearedIn23);
        if cleared {
            lent.clear(sheet.entries());
        }
        (refusal, values)
    }

    /// The splits counted for all cabinets.
    fn edit_count(&self, sheet: &Sheet, path: &[usize], old: &Rows, lent: &Lent) -> u64 {
        let r = sheet.services.len();
        let entry = |c: usize| u64::from(lent.choices[c << r]);
        let all = 1..sheet.cabinets.len();
        let parent = |c: usize| usize::from(sheet.cabinets[c].parent);
        match self.0 {
            Some(Fault::EditOldCount) => all.map(|c| old.counted[c]).sum(),
            Some(Fault::EditCountOfPath) => {
                let joined = all.filter(|&c| path.contains(&parent(c)));
                joined.map(entry).sum()
            }
            Some(Fault::EditCount16) => all.map(entry).sum::<u64>() % (1 << 16),
            Some(Fault::EditCountBound) => all.map(|_| 3_u64.pow(r as u32)).sum(),
            _ => all.map(entry).sum(),
        }
    }

    /// The answer where there is no plan.
    fn edit_none(&self, count: u64) -> (u64, [u64; 3]) {
        match self.0 {
            Some(Fault::EditNoCountIn12) => (12, [3, 0, 0]),
            Some(Fault::EditGroup12) => (12, [4, 0, count]),
            Some(Fault::Edit23For12) => refused(23),
            _ => (12, [3, 0, count]),
        }
    }

    /// The answer where the root's row has a cost: the plan if the check accepts it at that cost.
    fn edit_plan(
        &self,
        sheet: &Sheet,
        rows: &Rows,
        cost: u64,
        count: u64,
        output: &mut [u16],
    ) -> (u64, [u64; 3]) {
        let plan = self.edited_plan(sheet, rows);
        let (refusal, checked) = self.checker(Where::Edit).judge(sheet, &plan);
        let accepted = self.accepts(refusal, checked, cost);
        if accepted || self.has(Fault::EditOutputIn23) {
            output
                .iter_mut()
                .zip(&plan)
                .for_each(|(place, &c)| *place = c);
        }
        if accepted && self.has(Fault::EditOutputPast) {
            output
                .iter_mut()
                .skip(plan.len())
                .for_each(|place| *place = 0);
        }
        match (accepted, self.0) {
            (true, Some(Fault::EditCostOfCheck)) => (0, [0, checked, count]),
            (true, _) => (0, [0, cost, count]),
            (_, Some(Fault::EditCountIn23)) => (23, [4, 0, count]),
            (_, Some(Fault::EditCostIn23)) => (23, [4, cost, 0]),
            (_, Some(Fault::EditGroup23)) => (23, [2, 0, 0]),
            (_, Some(Fault::Edit12For23)) => (12, [3, 0, count]),
            (_, Some(Fault::EditCheckIn23)) if refusal != 0 => refused(refusal),
            _ => refused(23),
        }
    }

    /// The plan is handed out, by the refusal and the cost of the check and the cost of the tables.
    fn accepts(&self, refusal: u64, checked: u64, cost: u64) -> bool {
        match self.0 {
            Some(Fault::EditUnchecked) => true,
            Some(Fault::EditCostNot | Fault::EditCostOfCheck) => refusal == 0,
            Some(Fault::EditCostLess) => refusal == 0 && checked <= cost,
            Some(Fault::EditCostMore) => refusal == 0 && checked >= cost,
            Some(Fault::EditValidNot) => refusal != 0 || checked == cost,
            _ => refusal == 0 && checked == cost,
        }
    }
}
