//! Which services are barred from a cabinet, and the faults of the check and the planner in it.

use crate::{Fault, Faulty};
use second::Sheet;

impl Faulty {
    /// For each cabinet the set of services that are barred from it.
    pub fn bars(&self, sheet: &Sheet) -> Vec<usize> {
        let mut bars = vec![0; sheet.cabinets.len()];
        let all = sheet.barred.len();
        let looked_at = match self.0 {
            Some(Fault::BarsLast) => all.saturating_sub(1),
            Some(Fault::BarsFirst) => all.min(1),
            Some(Fault::BarsIn8Bits) => all % 256,
            _ => all,
        };
        for pair in &sheet.barred[..looked_at] {
            let (service, cabinet) = match self.has(Fault::BarsSwapped) {
                true => (pair.cabinet, pair.service),
                false => (pair.service, pair.cabinet),
            };
            let Some(set) = bars.get_mut(usize::from(cabinet)) else {
                continue;
            };
            let bit = 1_usize.checked_shl(service.into()).unwrap_or(0);
            match self.0 {
                Some(Fault::BarsReplace) => *set = bit,
                Some(Fault::BarsToggle) => *set ^= bit,
                Some(Fault::BarsEightServices) => *set |= bit % 256,
                _ => *set |= bit,
            }
        }
        bars
    }

    /// A service of the plan is on a cabinet that it is barred from.
    pub fn forbidden(&self, sheet: &Sheet, plan: &[u16]) -> bool {
        let bars = self.bars(sheet);
        let s = sheet.cabinets.len();
        let mut places = plan.iter().map(|&c| usize::from(c)).enumerate();
        places.any(|(service, c)| {
            let at = match self.0 {
                Some(Fault::CheckBarsNot) => s,
                Some(Fault::CheckBarsParent) if c < s => parent(sheet, c),
                Some(Fault::CheckBarsNext) => c + 1,
                _ => c,
            };
            bars.get(at).is_some_and(|set| set >> service & 1 == 1)
        })
    }

    /// A set of services may not be on a cabinet, by what is barred there.
    pub fn forbids(&self, c: usize, set: usize, barred: usize) -> bool {
        match self.0 {
            Some(Fault::PlanBarsNot) => false,
            Some(Fault::PlanBarsNotAtRoot) if c == 0 => false,
            Some(Fault::PlanBarsAll) => set != 0 && set & barred == set,
            Some(Fault::PlanBarsEmpty) => barred != 0,
            _ => set & barred != 0,
        }
    }

    /// The set barred from a cabinet, as the planner looks it up.
    pub fn barred_at(&self, sheet: &Sheet, bars: &[usize], c: usize) -> usize {
        let at = match self.0 {
            Some(Fault::PlanBarsParent) => parent(sheet, c),
            Some(Fault::PlanBarsNext) => c + 1,
            _ => c,
        };
        bars.get(at).copied().unwrap_or(0)
    }
}

/// The parent of a cabinet; the root stands for its own.
fn parent(sheet: &Sheet, c: usize) -> usize {
    match c {
        0 => 0,
        _ => usize::from(sheet.cabinets[c].parent),
    }
}
