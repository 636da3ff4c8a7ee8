//! The keeping call and its faults.

use crate::rows::{NONE, Rows};
use crate::span::Site;
use crate::{Fault, Faulty};
use second::{Sheet, group};

/// What a caller lends.
pub struct Lent<'a> {
    pub output: &'a mut [u16],
    pub costs: &'a mut [u64],
    pub choices: &'a mut [u16],
}

impl Lent<'_> {
    /// The lengths of output, cost table and choice table.
    pub fn lengths(&self) -> [usize; 3] {
        [self.output.len(), self.costs.len(), self.choices.len()]
    }

    /// Changes the first entry of both tables.
    pub fn touch(&mut self) {
        self.costs.iter_mut().take(1).for_each(|e| *e ^= 1);
        self.choices.iter_mut().take(1).for_each(|e| *e ^= 1);
    }

    /// Sets as many of the first entries of both tables to 0.
    pub fn clear(&mut self, entries: usize) {
        self.costs.iter_mut().take(entries).for_each(|e| *e = 0);
        self.choices.iter_mut().take(entries).for_each(|e| *e = 0);
    }
}

/// The refusal, with its group and no cost or count.
pub fn refused(refusal: u64) -> (u64, [u64; 3]) {
    (refusal, [group(refusal), 0, 0])
}

impl Faulty {
    /// The refusal, and group, cost and count.
    pub fn keep_answer(&self, bytes: &[u8], lent: &mut Lent, site: Site) -> (u64, [u64; 3]) {
        let sheet = match self.records(bytes) {
            Ok(sheet) => sheet,
            Err(refusal) => {
                if self.has(Fault::KeepTouchedInReader) {
                    lent.touch();
                }
                return refused(refusal);
            }
        };
        let short = self.short(&sheet, lent, site);
        if short != 0 {
            let touched = match short {
                10 => self.has(Fault::KeepTouchedIn10),
                11 => self.has(Fault::KeepTouchedIn11),
                _ => false,
            };
            if touched {
                lent.touch();
            }
            return self.lent_refused(short, &sheet, lent, site);
        }
        let keeper = match self.has(Fault::KeepTieEarlier) {
            true => Faulty(Some(Fault::TieEarlier)),
            false => Faulty(self.0),
        };
        let Some(mut part) = self.part(&sheet, lent, site) else {
            return (0, [0; 3]);
        };
        let rows = keeper.rows(&sheet, part.costs, part.choices);
        let (cost, count) = (rows.cost(), rows.count);
        let refusal = if cost >= NONE { 12 } else { 0 };
        self.keep_output(&sheet, &rows, refusal, part.output);
        let rows = self.kept_rows(&sheet, rows);
        self.keep_tables(&sheet, &rows, refusal, &mut part);
        self.spill(&sheet, refusal, lent, site);
        self.keep_values(refusal, cost, count)
    }

    /// Group, cost and count.
    fn keep_values(&self, refusal: u64, cost: u64, count: u64) -> (u64, [u64; 3]) {
        match refusal {
            0 => (0, [0, cost, count]),
            _ if self.has(Fault::KeepNoCountIn12) => (12, [3, 0, 0]),
            _ if self.has(Fault::KeepGroup12) => (12, [2, 0, count]),
            _ => (12, [3, 0, count]),
        }
    }

    /// Writes the plan.
    fn keep_output(&self, sheet: &Sheet, rows: &Rows, refusal: u64, output: &mut [u16]) {
        if self.has(Fault::KeepOutputCleared) {
            output.fill(0);
        }
        if refusal == 12 && !self.has(Fault::KeepOutputIn12) {
            return;
        }
        let mut plan = self.read_back(sheet, rows);
        if self.has(Fault::KeepOutputNot) {
            plan.clear();
        }
        output
            .iter_mut()
            .zip(plan)
            .for_each(|(place, c)| *place = c);
    }

    /// Leaves the tables as they should be.
    fn keep_tables(&self, sheet: &Sheet, rows: &Rows, refusal: u64, lent: &mut Lent) {
        let (s, n) = (sheet.cabinets.len(), 1 << sheet.services.len());
        if refusal == 12 && self.has(Fault::KeepNotIn12) {
            return;
        }
        for c in 0..s {
            for set in 0..n {
                lent.costs[c * n + set] = self.kept_cost(rows, c, set);
                if c != 0 || !self.has(Fault::KeepRootChoices) {
                    lent.choices[c * n + set] = self.kept_choice(rows, c, set);
                }
            }
        }
        match self.0 {
            Some(Fault::KeepCleared) => lent.clear(s * n),
            Some(Fault::KeepClearedIn12) if refusal == 12 => lent.clear(s * n),
            Some(Fault::KeepRootCleared) => lent.clear(n),
            Some(Fault::KeepCostsCleared) => lent.costs[..s * n].fill(0),
            Some(Fault::KeepOnePast) => {
                lent.costs[s * n..].iter_mut().take(1).for_each(|e| *e = 0);
                let past = lent.choices[s * n..].iter_mut();
                past.take(1).for_each(|e| *e = 0);
            }
            Some(Fault::KeepRestCleared) => lent.costs[s * n..].fill(0),
            _ => {}
        }
    }

    /// The cost entry of a set on a cabinet.
    fn kept_cost(&self, rows: &Rows, c: usize, set: usize) -> u64 {
        match (rows.costs[c][set], self.0) {
            (NONE.., Some(Fault::KeepNoneMost)) => u64::MAX,
            (NONE.., Some(Fault::KeepNoneZero)) => 0,
            (cost, _) => cost,
        }
    }

    /// The choice entry of a set for a cabinet.
    fn kept_choice(&self, rows: &Rows, c: usize, set: usize) -> u16 {
        let stays = rows.choices[c][set];
        let entry = match (c, set, self.0) {
            (0, ..) => 0,
            (_, 0, Some(Fault::KeepNoCounts)) => 0,
            (_, 0, Some(Fault::KeepCountSum)) => rows.count as usize,
            (_, 0, Some(Fault::KeepCountParent)) => rows.counted[c - 1] as usize,
            (_, 0, _) => rows.counted[c] as usize,
            (_, _, Some(Fault::KeepRests)) => set & !stays,
            _ => stays,
        };
        entry as u16
    }
}
