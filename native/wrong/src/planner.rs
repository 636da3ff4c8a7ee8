//! The planner and its faults.

use crate::keep::{Lent, refused};
use crate::rows::{NONE, Rows, children};
use crate::span::Site;
use crate::{Fault, Faulty};
use second::Sheet;

impl Faulty {
    /// The refusal, and group, cost and count.
    pub fn plan_answer(&self, bytes: &[u8], lent: &mut Lent, site: Site) -> (u64, [u64; 3]) {
        let sheet = match self.records(bytes) {
            Ok(sheet) => sheet,
            Err(refusal) => {
                if self.has(Fault::PlanTouchedInReader) {
                    lent.output.fill(0);
                }
                return refused(self.lent_first(bytes, lent, site, refusal));
            }
        };
        let short = self.short(&sheet, lent, site);
        if short == 11 && self.has(Fault::PlanTouchedIn11) {
            lent.costs.fill(0);
        }
        if short != 0 {
            return match self.has(Fault::PlanRoadFirst) {
                true => self.road_first(short, &sheet),
                false => self.lent_refused(short, &sheet, lent, site),
            };
        }
        let Some(part) = self.part(&sheet, lent, site) else {
            return (0, [0; 3]);
        };
        let rows = self.rows(&sheet, part.costs, part.choices);
        let cost = rows.cost();
        let none = cost >= NONE || self.has(Fault::PlanNever);
        let refusal = if none { 12 } else { 0 };
        self.leave(&sheet, &rows, refusal, part);
        self.spill(&sheet, refusal, lent, site);
        self.values(refusal, cost, rows.count)
    }

    /// Group, cost and count for a plan or for 12.
    fn values(&self, refusal: u64, cost: u64, count: u64) -> (u64, [u64; 3]) {
        if refusal == 0 {
            let cost = match self.has(Fault::PlanCost32) {
                true => cost % (1 << 32),
                false => cost,
            };
            return (0, [0, cost, count]);
        }
        let group = if self.has(Fault::PlanGroup12) { 2 } else { 3 };
        let count = if self.has(Fault::PlanNoCountIn12) {
            0
        } else {
            count
        };
        (12, [group, 0, count])
    }

    /// 12 if the road has no plan, else this refusal.
    pub fn road_first(&self, refusal: u64, sheet: &Sheet) -> (u64, [u64; 3]) {
        let rows = Faulty(None).rows(sheet, &[], &[]);
        match rows.cost() >= NONE {
            true => (12, [3, 0, rows.count]),
            false => refused(refusal),
        }
    }

    /// The reader's refusal, unless that of what is lent comes before it.
    fn lent_first(&self, bytes: &[u8], lent: &Lent, site: Site, refusal: u64) -> u64 {
        if refusal < 18 || !self.has(Fault::PlanLentBefore18) {
            return refusal;
        }
        match self.short(&self.gather(bytes), lent, site) {
            0 => refusal,
            short => short,
        }
    }

    /// The rows, which hold at first what the tables held.
    pub fn rows(&self, sheet: &Sheet, costs: &[u64], choices: &[u16]) -> Rows {
        let mut rows = self.loaded(sheet, costs, choices);
        self.fill(sheet, &mut rows);
        rows
    }

    /// Rows that hold what the tables do, without keys.
    pub fn loaded(&self, sheet: &Sheet, costs: &[u64], choices: &[u16]) -> Rows {
        let (s, n) = (sheet.cabinets.len(), 1_usize << sheet.services.len());
        let cost = |i: usize| costs.get(i).copied().unwrap_or(0);
        let choice = |i: usize| usize::from(choices.get(i).copied().unwrap_or(0));
        Rows {
            costs: (0..s)
                .map(|c| (0..n).map(|x| cost(c * n + x)).collect())
                .collect(),
            choices: (0..s)
                .map(|c| (0..n).map(|x| choice(c * n + x)).collect())
                .collect(),
            keys: vec![vec![]; s],
            counted: (0..s).map(|c| choice(c * n) as u64).collect(),
            count: 0,
        }
    }

    /// Writes the plan and leaves the tables as they should be.
    fn leave(&self, sheet: &Sheet, rows: &Rows, refusal: u64, lent: Lent) {
        let Lent {
            output,
            costs,
            choices,
        } = lent;
        if refusal == 0 {
            if self.has(Fault::PlanOutputCleared) {
                output.fill(0);
            }
            let plan = self.read_back(sheet, rows);
            output
                .iter_mut()
                .zip(plan)
                .for_each(|(place, c)| *place = c);
        } else if self.has(Fault::PlanOutputIn12) {
            output.fill(0);
        }
        let kept =
            self.has(Fault::PlanNotCleared) || refusal == 12 && self.has(Fault::PlanNotClearedIn12);
        if kept {
            return;
        }
        let entries = match self.0 {
            Some(Fault::PlanAllCleared) => usize::MAX,
            Some(Fault::PlanStride1024) => sheet.cabinets.len() * 1024,
            _ => sheet.entries(),
        };
        costs.iter_mut().take(entries).for_each(|e| *e = 0);
        if !self.has(Fault::PlanChoicesKept) {
            choices.iter_mut().take(entries).for_each(|e| *e = 0);
        }
    }

    /// The plan by the choices kept.
    pub fn read_back(&self, sheet: &Sheet, rows: &Rows) -> Vec<u16> {
        let (r, s) = (sheet.services.len(), sheet.cabinets.len());
        let mut plan = vec![0; r];
        let mut held = vec![0; s];
        held[0] = (1 << r) - 1;
        for p in 0..s {
            let below = children(sheet, p);
            for &c in below.iter().rev() {
                let kept = rows.choices[c][held[p]] & held[p];
                held[c] = held[p] & !kept;
                held[p] = kept;
            }
            for (service, place) in plan.iter_mut().enumerate() {
                if held[p] >> service & 1 == 0 {
                    continue;
                }
                let extra = self.has(Fault::PlanExtraLeaf)
                    && below.len() > 2
                    && sheet.services[service] == 0;
                *place = if extra { s as u16 } else { p as u16 };
                if self.has(Fault::PlanIdleOnRoot) && sheet.services[service] == 0 {
                    *place = 0;
                }
            }
        }
        if self.has(Fault::PlanOnRoot) {
            plan.fill(0);
        }
        if self.has(Fault::PlanMirrored) {
            plan.reverse();
        }
        plan
    }
}
