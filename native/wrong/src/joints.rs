//! Which cabinets are joints, and the faults of the calls in it.

use crate::loads::Runs;
use crate::rows::{NONE, Rows, children};
use crate::splice::{Splice, Where};
use crate::{Fault, Faulty};
use second::Sheet;
use second::path::ancestors;

/// What the check finds wrong with a plan.
pub struct Found {
    /// A barred pair.
    pub forbidden: bool,
    /// A cabinet that is overfull.
    pub overfull: bool,
    /// A service on a joint.
    pub stray: bool,
    /// A direction of a link that is overfull.
    pub jammed: bool,
}

impl Found {
    /// A service on a joint, with no cabinet overfull.
    fn alone(&self) -> bool {
        self.stray && !self.overfull
    }
}

/// A check that takes no cabinet as a joint.
const CHECK: Faulty = Faulty(Some(Fault::Joint(Where::Check, Splice::Not)));
/// A planner that takes none.
const PLAN: Faulty = Faulty(Some(Fault::Joint(Where::Plan, Splice::Not)));

impl Faulty {
    /// What these calls get wrong about joints.
    pub fn splice(&self, place: Where) -> Option<Splice> {
        match self.0 {
            Some(Fault::Joint(Where::Both, splice))
                if matches!(place, Where::Check | Where::Plan) =>
            {
                Some(splice)
            }
            Some(Fault::Joint(at, splice)) if at == place => Some(splice),
            _ => None,
        }
    }

    /// The check finds a service on a joint.
    pub fn strays(&self, sheet: &Sheet, plan: &[u16]) -> bool {
        let splice = self.splice(Where::Check);
        (0..sheet.cabinets.len()).any(|c| {
            let places = plan.iter().take(sheet.services.len()).enumerate();
            let there = places.filter(|(_, place)| usize::from(**place) == c);
            let set = there.map(|(service, _)| 1 << service).sum();
            is_joint(splice, sheet, c) && minds(splice, sheet, set)
        })
    }

    /// 13 or 14, unless 15 for a joint comes before it.
    pub fn stray_first(&self, stray: bool, refusal: u64) -> u64 {
        let first = match self.splice(Where::Check) {
            Some(Splice::Before13) => 13,
            Some(Splice::Before14) => 14,
            _ => 0,
        };
        if stray && refusal == first {
            15
        } else {
            refusal
        }
    }

    /// The number given where 15, 16 or 20 applies, this one by the right order.
    pub fn spliced(&self, found: &Found, refusal: u64) -> u64 {
        match (self.splice(Where::Check), refusal) {
            (Some(Splice::Before20), 20) if found.stray => 15,
            (Some(Splice::After16), 15) if found.alone() && found.jammed => 16,
            (Some(Splice::Is14), 15) if found.alone() => 14,
            (Some(Splice::Is16), 15) if found.alone() => 16,
            (Some(Splice::Is20), 15) if found.alone() => 20,
            _ => refusal,
        }
    }

    /// The plan's cost comes with 15.
    pub fn with_cost(&self, found: &Found) -> bool {
        let first = found.alone() && !found.forbidden;
        first && self.splice(Where::Check) == Some(Splice::WithCost)
    }

    /// The check finds a stream that is held up at a joint.
    pub fn passes_joint(&self, sheet: &Sheet, plan: &[u16]) -> bool {
        let runs = self.runs(sheet, plan, usize::MAX);
        let mut links = runs.iter().enumerate().skip(1);
        links.any(|(c, runs)| self.held_up(Where::Check, sheet, c, runs))
    }

    /// The planner keeps a set off a cabinet that it takes as a joint.
    pub fn keeps_off(&self, sheet: &Sheet, c: usize, set: usize) -> bool {
        let splice = self.splice(Where::Plan);
        is_joint(splice, sheet, c) && minds(splice, sheet, set)
    }

    /// Streams run along the link of c and are held up at a joint above or below it.
    pub fn held_up(&self, place: Where, sheet: &Sheet, c: usize, runs: &Runs) -> bool {
        let parent = usize::from(sheet.cabinets[c].parent);
        let joint = sheet.cabinets[c].is_joint() || sheet.cabinets[parent].is_joint();
        let used = runs.iter().any(|streams| !streams.is_empty());
        joint && used && self.splice(place) == Some(Splice::Impassable)
    }

    /// The count of splits if only the rows, or only the count, are reckoned with joints.
    pub fn other_joints(&self, sheet: &Sheet) -> Option<u64> {
        let other = match self.splice(Where::Plan)? {
            Splice::NotCounted => PLAN,
            Splice::CountOnly => Faulty(None),
            _ => return None,
        };
        Some(other.rows(sheet, &[], &[]).count)
    }

    /// The rows that a keeping call leaves.
    pub fn kept_rows(&self, sheet: &Sheet, mut rows: Rows) -> Rows {
        let splice = self.splice(Where::Keep);
        if splice == Some(Splice::KeptOpen) {
            return PLAN.rows(sheet, &[], &[]);
        }
        for (cabinet, row) in sheet.cabinets.iter().zip(&mut rows.costs) {
            match splice.filter(|_| cabinet.is_joint()) {
                Some(Splice::KeptShut) => row[1..].fill(NONE),
                Some(Splice::KeptZero) => row.fill(0),
                Some(Splice::KeptEmpty) => row[0] = NONE,
                _ => {}
            }
        }
        rows
    }

    /// What rebuilds the row of p after an edit of a cabinet.
    pub fn rebuilder(&self, p: usize, cabinet: usize) -> Option<Faulty> {
        let open = match self.splice(Where::Edit)? {
            Splice::Open => true,
            Splice::MadeNot => p == cabinet,
            Splice::AboveNot => p != cabinet,
            _ => false,
        };
        open.then_some(PLAN)
    }

    /// The cabinet has no others under it, its row had no cost for any service, and it is left so.
    pub fn stays_shut(&self, sheet: &Sheet, cabinet: usize, rows: &Rows) -> bool {
        let shut = rows.costs[cabinet][1..].iter().all(|&cost| cost >= NONE);
        let leaf = children(sheet, cabinet).is_empty();
        shut && leaf && self.splice(Where::Edit) == Some(Splice::BoxedNot)
    }

    /// What checks plans for an edit or a bill.
    pub fn checker(&self, place: Where) -> Faulty {
        match self.splice(place) {
            Some(Splice::Unchecked) => CHECK,
            _ => self.clone(),
        }
    }
}

/// A cabinet is taken as a joint.
fn is_joint(splice: Option<Splice>, sheet: &Sheet, c: usize) -> bool {
    let cabinet = &sheet.cabinets[c];
    let joint = cabinet.is_joint();
    let leaf = || children(sheet, c).is_empty();
    let carries = cabinet.up_capacity > 0 || cabinet.down_capacity > 0;
    let jointed = |v: usize| sheet.cabinets[v].is_joint();
    match splice {
        Some(Splice::Not | Splice::CountOnly) => false,
        Some(Splice::RootOnly) => joint && c == 0,
        Some(Splice::RootNever) => joint && c != 0,
        Some(Splice::LeavesOnly) => joint && leaf(),
        Some(Splice::LeavesNever) => joint && !leaf(),
        Some(Splice::LastNever) => joint && c + 1 != sheet.cabinets.len(),
        Some(Splice::ByPrice) => cabinet.price == 0,
        Some(Splice::PricedNever) => joint && cabinet.price == 0,
        Some(Splice::CapacityOne) => cabinet.capacity <= 1,
        Some(Splice::ByUpCapacity) => c != 0 && cabinet.up_capacity == 0,
        Some(Splice::CutOffToo) => joint || c != 0 && !carries,
        Some(Splice::LinkedNever) => joint && !carries,
        Some(Splice::ByParent) => c != 0 && jointed(usize::from(cabinet.parent)),
        Some(Splice::ByNext) => sheet
            .cabinets
            .get(c + 1)
            .is_some_and(|next| next.is_joint()),
        Some(Splice::UnderToo) => ancestors(sheet, c).into_iter().any(jointed),
        Some(Splice::BarredNever) => {
            joint
                && sheet
                    .barred
                    .iter()
                    .all(|pair| usize::from(pair.cabinet) != c)
        }
        _ => joint,
    }
}

/// A set of services may not be on a joint.
fn minds(splice: Option<Splice>, sheet: &Sheet, set: usize) -> bool {
    let ends = sheet
        .streams
        .iter()
        .flat_map(|stream| [stream.from, stream.to]);
    let sending = ends.fold(0_usize, |set, end| set | 1 << end);
    let last = 1_usize << sheet.services.len().saturating_sub(1);
    match splice {
        Some(Splice::QuietOnly) => set & !sending != 0,
        Some(Splice::SendingOnly) => set & sending != 0,
        Some(Splice::FirstOnly) => set & 1 != 0,
        Some(Splice::LastNot) => set & !last != 0,
        Some(Splice::OneTaken) => set.count_ones() > 1,
        Some(Splice::SeveralTaken) => set.count_ones() == 1,
        Some(Splice::NoneRefused) => true,
        _ => set != 0,
    }
}
