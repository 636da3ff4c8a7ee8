//! The rows of the planner and their faults.

use crate::keys::Key;
use crate::ties::{Best, Split};
use crate::{Fault, Faulty};
use second::Sheet;
use second::path::Paths;
use second::splits::{count_over, part_before};

/// A figure that is no cost.
pub const NONE: u64 = 1_000_000_000_000_001;

/// Costs, choices, and the keys of what the choices give each set, a row of sets for each cabinet;
/// the splits counted when each cabinet was joined; and the count.
pub struct Rows {
    pub costs: Vec<Vec<u64>>,
    pub choices: Vec<Vec<usize>>,
    pub keys: Vec<Vec<Key>>,
    pub counted: Vec<u64>,
    pub count: u64,
}

impl Rows {
    /// The least cost of all services on the whole road, or a figure that is none.
    pub fn cost(&self) -> u64 {
        self.costs[0].last().copied().unwrap_or(NONE)
    }
}

/// The children of a cabinet in rising order.
pub fn children(sheet: &Sheet, p: usize) -> Vec<usize> {
    let all = 1..sheet.cabinets.len();
    all.filter(|&c| usize::from(sheet.cabinets[c].parent) == p)
        .collect()
}

/// The subsets of a set, in falling order.
fn subsets(set: usize) -> impl Iterator<Item = usize> {
    let next = move |&a: &usize| (a != 0).then(|| (a - 1) & set);
    std::iter::successors(Some(set), next)
}

impl Faulty {
    /// Fills rows that hold something already.
    pub fn fill(&self, sheet: &Sheet, rows: &mut Rows) {
        rows.count = 0;
        let bars = self.bars(sheet);
        for p in (0..sheet.cabinets.len()).rev() {
            self.rebuild(sheet, &bars, p, rows);
        }
        self.recount(sheet, rows);
    }

    /// Rebuilds the row of p and joins its children to it.
    pub fn rebuild(&self, sheet: &Sheet, bars: &[usize], p: usize, rows: &mut Rows) {
        let mut below = children(sheet, p);
        let barred = self.barred_at(sheet, bars, p);
        self.own(sheet, p, barred, &mut rows.costs[p]);
        rows.keys[p] = self.own_keys(sheet, p);
        if self.has(Fault::PlanFallingChildren) {
            below.reverse();
        }
        let leaf = p == 0 && below.len() == 1 && self.has(Fault::PlanRootLeaf);
        if leaf || self.has(Fault::PlanOnRoot) {
            below.clear();
        }
        for c in below {
            let before = rows.count;
            self.join(sheet, p, c, rows);
            rows.counted[c] = rows.count - before;
        }
    }

    /// Counts made in another way than by joining.
    fn recount(&self, sheet: &Sheet, rows: &mut Rows) {
        let (r, s) = (sheet.services.len(), sheet.cabinets.len());
        rows.count = self.other_framing(sheet).unwrap_or(rows.count);
        rows.count = self.other_joints(sheet).unwrap_or(rows.count);
        match self.0 {
            Some(Fault::PlanLargerLeftOut) => {
                let smaller = |c: usize| {
                    let part = part_before(sheet, c).into_iter();
                    part.filter(|&v| v < c).collect()
                };
                rows.count = count_over(sheet, &Paths::new(sheet), smaller);
            }
            Some(Fault::PlanBarsNotCounted) => {
                let unbarred = Sheet {
                    barred: vec![],
                    ..sheet.clone()
                };
                let part = |c| part_before(sheet, c);
                rows.count = count_over(&unbarred, &Paths::new(sheet), part);
            }
            Some(Fault::PlanCountBound) => rows.count = (s as u64 - 1) * 3_u64.pow(r as u32),
            Some(Fault::PlanNoServices) if r == 0 => rows.count = 0,
            _ => {}
        }
    }

    /// What the cabinet charges for each set that it holds alone.
    fn own(&self, sheet: &Sheet, p: usize, barred: usize, row: &mut [u64]) {
        let cabinet = &sheet.cabinets[p];
        let capacity = u64::from(cabinet.capacity);
        for (set, figure) in row.iter_mut().enumerate() {
            let services = sheet.services.iter().enumerate();
            let inside = services.filter(|(i, _)| set >> i & 1 == 1);
            let demand: u64 = inside.map(|(_, &d)| u64::from(d)).sum();
            let fits = match self.0 {
                Some(Fault::PlanFill16) => demand % 65_536 <= capacity,
                _ => demand <= capacity,
            };
            let allowed = !self.forbids(p, set, barred) && !self.keeps_off(sheet, p, set);
            if fits && allowed {
                *figure = demand * u64::from(cabinet.price);
            } else if !self.has(Fault::PlanOldCosts) {
                *figure = NONE;
            }
        }
    }

    /// Weighs all splits between p with what was joined to it and c.
    fn join(&self, sheet: &Sheet, p: usize, c: usize, rows: &mut Rows) {
        let n = 1 << sheet.services.len();
        let link: Vec<u64> = (0..n).map(|set| self.link(sheet, c, set, n - 1)).collect();
        let keys = self.child_keys(rows, p, c);
        let sets: Vec<usize> = match self.has(Fault::PlanRisingSets) {
            true => (0..n).collect(),
            false => (0..n).rev().collect(),
        };
        let by_set = self.has(Fault::PlanOuterStreams) || self.has(Fault::PlanFramingWithin);
        for set in sets {
            let charge = |rest: usize| match by_set {
                true => self.link(sheet, c, rest, set),
                false => link[rest],
            };
            let best = self.best_split(rows, [p, c], set, &keys, charge);
            rows.costs[p][set] = best.cost;
            if !self.has(Fault::KeyNotRenewed) {
                rows.keys[p][set] = best.key;
            }
            if best.stays != 0 || !self.has(Fault::PlanOldChoices) {
                rows.choices[c][set] = best.stays;
            }
        }
    }

    /// The best split of a set between p and c, with what c's link charges for the rest. The set
    /// that stays falls.
    fn best_split(
        &self,
        rows: &mut Rows,
        [p, c]: [usize; 2],
        set: usize,
        keys: &[Key],
        charge: impl Fn(usize) -> u64,
    ) -> Split {
        let mut best = Best::none();
        for stays in subsets(set) {
            let left_out = stays == 0 && self.has(Fault::PlanWithoutEmpty)
                || stays == set && self.has(Fault::PlanWithoutFull);
            if left_out {
                continue;
            }
            let rest = set & !stays;
            let figures = [rows.costs[p][stays], rows.costs[c][rest], charge(rest)];
            let whole = figures.iter().all(|&figure| figure < NONE);
            let without_none = figures.iter().filter(|&&figure| figure < NONE).sum();
            let split = Split {
                stays,
                cost: if whole { without_none } else { NONE },
                key: self.split_key(rows.keys[p][stays], keys[rest]),
            };
            let better = self.take(p, &mut best, split, without_none);
            rows.count += u64::from(match self.0 {
                Some(Fault::PlanCountSums) => whole,
                Some(Fault::PlanCountBest) => better,
                _ => figures[0] < NONE,
            });
        }
        best.split
    }
}
