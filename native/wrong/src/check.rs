//! The check and its faults.

use crate::joints::Found;
use crate::loads::{Line, Load};
use crate::{Fault, Faulty};
use second::{Sheet, group};

impl Faulty {
    /// The refusal, with group and cost in the answer.
    pub fn check_answer(&self, bytes: &[u8], plan: &[u16], answer: &mut [u64; 2]) -> u64 {
        let (refusal, cost) = match self.records(bytes) {
            Ok(sheet) => self.judge(&sheet, plan),
            Err(refusal) => (self.length_first(bytes, plan, refusal), 0),
        };
        let group = match refusal {
            14 if self.has(Fault::CheckGroup) => 2,
            20 if self.has(Fault::CheckBarsGroup) => 1,
            _ => group(refusal),
        };
        if refusal == 0 || !self.has(Fault::CheckAnswerKept) {
            *answer = [group, cost];
        }
        refusal
    }

    /// The reader's refusal, unless 13 comes before it.
    fn length_first(&self, bytes: &[u8], plan: &[u16], refusal: u64) -> u64 {
        let length = plan.len() == usize::from(self.word(bytes, 0));
        match refusal {
            18 | 19 if !length && self.has(Fault::CheckLengthBefore18) => 13,
            _ => refusal,
        }
    }

    /// The refusal of a plan, and its cost.
    pub fn judge(&self, sheet: &Sheet, plan: &[u16]) -> (u64, u64) {
        let (r, s) = (sheet.services.len(), sheet.cabinets.len());
        let stray = self.strays(sheet, plan);
        let long = plan.len() > r && !self.has(Fault::CheckLongPlan);
        let short = plan.len() < r && !self.has(Fault::CheckShortPlan);
        if long || short {
            return (self.stray_first(stray, 13), 0);
        }
        let mut plan = plan.to_vec();
        plan.resize(r, 0);
        if self.has(Fault::CheckCabinetS) {
            let stands_for = |c: u16| if usize::from(c) == s { 0 } else { c };
            plan = plan.into_iter().map(stands_for).collect();
        }
        let forbidden = self.forbidden(sheet, &plan);
        if plan.iter().any(|&c| usize::from(c) >= s) {
            let bars_first = forbidden && self.has(Fault::CheckBarsBefore14);
            let number = self.stray_first(stray, 14);
            return (if bars_first { 20 } else { number }, 0);
        }
        let loads = self.loads(sheet, &plan);
        let jammed = (1..s).any(|c| self.jammed(sheet, c, &loads[c]));
        let found = Found {
            forbidden,
            overfull: (0..s).any(|c| self.overfull(sheet, c, &loads[c])),
            stray: self.strays(sheet, &plan),
            jammed: jammed || self.passes_joint(sheet, &plan),
        };
        let cost = self.cost(sheet, &plan, &loads);
        let refusal = self.spliced(&found, self.first(&found));
        let given = refusal == 0 || self.has(Fault::CheckCostRefused) || self.with_cost(&found);
        (refusal, if given { cost } else { 0 })
    }

    /// The first of 20, 15 and 16 that applies, or 0.
    fn first(&self, found: &Found) -> u64 {
        let order = match self.0 {
            Some(Fault::CheckLinksFirst) => [20, 16, 15],
            Some(Fault::CheckBarsAfter15) => [15, 20, 16],
            Some(Fault::CheckBarsAfter16) => [15, 16, 20],
            _ => [20, 15, 16],
        };
        let applies = |number: &u64| match number {
            20 => found.forbidden,
            15 => found.overfull || found.stray,
            _ => found.jammed,
        };
        order.into_iter().find(applies).unwrap_or(0)
    }

    /// The cabinet holds too much.
    fn overfull(&self, sheet: &Sheet, c: usize, load: &Load) -> bool {
        let capacity = u64::from(sheet.cabinets[c].capacity);
        match self.0 {
            Some(Fault::CheckFill16) => load.fill % 65_536 > capacity,
            Some(Fault::CheckServiceAlone) => load.largest > capacity,
            Some(Fault::CheckFull) => load.fill > 0 && load.fill >= capacity,
            _ => load.fill > capacity,
        }
    }

    /// A direction of the cabinet's link carries too much.
    fn jammed(&self, sheet: &Sheet, c: usize, Load { up, down, .. }: &Load) -> bool {
        let rise = u64::from(sheet.cabinets[c].up_capacity);
        let fall = u64::from(sheet.cabinets[c].down_capacity);
        match self.0 {
            Some(Fault::CheckStreamAlone) => up.largest > rise || down.largest > fall,
            Some(Fault::CheckLink16) => up.load % 65_536 > rise || down.load % 65_536 > fall,
            Some(Fault::CheckCapacitySwapped) => up.load > fall || down.load > rise,
            Some(Fault::CheckTogether) => up.load + down.load > rise.max(fall),
            Some(Fault::CheckDownFree) => up.load > rise,
            Some(Fault::CheckFullLink) => {
                up.load > 0 && up.load >= rise || down.load > 0 && down.load >= fall
            }
            _ => up.load > rise || down.load > fall,
        }
    }

    fn cost(&self, sheet: &Sheet, plan: &[u16], loads: &[Load]) -> u64 {
        if self.has(Fault::CheckStreamCostOnce) {
            return self.cost_once(sheet, plan, loads);
        }
        let charge = |(c, load): (usize, &Load)| {
            let cabinet = &sheet.cabinets[c];
            let (up, down) = match self.0 {
                Some(Fault::CheckAlike) => (cabinet.up_price, cabinet.up_price),
                Some(Fault::CheckSwapped) => (cabinet.down_price, cabinet.up_price),
                _ => (cabinet.up_price, cabinet.down_price),
            };
            let priced = |line: &Line| match self.has(Fault::CheckFramingPriced) {
                true => line.load,
                false => line.demand,
            };
            let links = priced(&load.up) * u64::from(up) + priced(&load.down) * u64::from(down);
            load.fill * u64::from(cabinet.price) + links
        };
        let cost: u64 = loads.iter().enumerate().map(charge).sum();
        match self.has(Fault::CheckCost32) {
            true => cost % (1 << 32),
            false => cost,
        }
    }

    /// The cost when each stream pays for the first link of its path only.
    fn cost_once(&self, sheet: &Sheet, plan: &[u16], loads: &[Load]) -> u64 {
        let fills = loads.iter().zip(&sheet.cabinets);
        let fills: u64 = fills.map(|(l, c)| l.fill * u64::from(c.price)).sum();
        let first = |stream| {
            let price = match self.walk(sheet, plan, stream).first() {
                Some(&(c, true)) => sheet.cabinets[c].up_price,
                Some(&(c, false)) => sheet.cabinets[c].down_price,
                None => 0,
            };
            u64::from(stream.demand) * u64::from(price)
        };
        fills + sheet.streams.iter().map(first).sum::<u64>()
    }
}
