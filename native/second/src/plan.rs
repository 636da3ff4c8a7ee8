//! The planner: tries every plan in order, the lowest cabinet for service 0 first, then for service
//! 1, and so on, and keeps the first of the cheapest valid ones.

use crate::bars::Bars;
use crate::check::judge;
use crate::path::Paths;
use crate::read::read;
use crate::refusal::group;
use crate::sheet::Sheet;
use crate::splits;

/// The most plans that are tried.
pub const MOST_PLANS: u64 = 2_000_000;

/// What the planner answers. Cost and count are 0 in every refusal but the count in 12.
#[derive(Clone, Debug, Default, PartialEq, Eq)]
pub struct Answer {
    pub refusal: u64,
    pub group: u64,
    pub cost: u64,
    pub count: u64,
    /// The first of the cheapest plans, on success.
    pub plan: Option<Vec<u16>>,
    /// How many other valid plans are known to cost as much: all of them where every plan was
    /// tried.
    pub ties: u64,
}

impl Answer {
    /// A refusal, with the count of splits that comes with it.
    pub fn refused(refusal: u64, count: u64) -> Answer {
        Answer {
            refusal,
            group: group(refusal),
            count,
            ..Answer::default()
        }
    }
}

/// How many plans the road has: s to the power r.
pub fn plans(sheet: &Sheet) -> u64 {
    let s = sheet.cabinets.len() as u64;
    s.saturating_pow(sheet.services.len() as u32)
}

/// The refusal of the lent lengths for an accepted sheet, 10 before 11, or 0.
pub fn lent(sheet: &Sheet, output: usize, costs: usize, choices: usize) -> u64 {
    let entries = sheet.entries();
    if output < sheet.services.len() {
        10
    } else if costs < entries || choices < entries {
        11
    } else {
        0
    }
}

/// The planner's answer for a sheet and the lengths of what is lent.
///
/// # Panics
///
/// When every plan would have to be tried and the road has more than `MOST_PLANS`.
pub fn plan(bytes: &[u8], output: usize, costs: usize, choices: usize) -> Answer {
    let sheet = match read(bytes) {
        Ok(sheet) => sheet,
        Err(refusal) => return Answer::refused(refusal, 0),
    };
    match lent(&sheet, output, costs, choices) {
        0 => solve(&sheet),
        refusal => Answer::refused(refusal, 0),
    }
}

/// The answer for an accepted sheet when enough is lent.
pub fn solve(sheet: &Sheet) -> Answer {
    assert!(plans(sheet) <= MOST_PLANS, "too many plans to try");
    let paths = Paths::new(sheet);
    let count = splits::count(sheet, &paths);
    match cheapest(sheet, &paths) {
        None => Answer::refused(12, count),
        Some(cheapest) => Answer {
            cost: cheapest.cost,
            count,
            plan: Some(cheapest.first),
            ties: cheapest.later,
            ..Answer::default()
        },
    }
}

/// The least cost of a valid plan, the first plan of that cost, and how many come after it.
struct Cheapest {
    cost: u64,
    first: Vec<u16>,
    later: u64,
}

/// The cheapest valid plans, if there is a valid one.
fn cheapest(sheet: &Sheet, paths: &Paths) -> Option<Cheapest> {
    let bars = Bars::new(sheet);
    let mut best: Option<Cheapest> = None;
    let mut plan = vec![0; sheet.services.len()];
    loop {
        if let Ok(cost) = judge(sheet, &bars, &plan, |a, b| paths.between(a, b)) {
            best = Some(settle(best, cost, &plan));
        }
        if !advance(&mut plan, sheet.cabinets.len()) {
            return best;
        }
    }
}

/// The cheapest plans with one more valid plan, which comes after all of them.
fn settle(best: Option<Cheapest>, cost: u64, plan: &[u16]) -> Cheapest {
    match best {
        Some(best) if best.cost < cost => best,
        Some(best) if best.cost == cost => Cheapest {
            later: best.later + 1,
            ..best
        },
        _ => Cheapest {
            cost,
            first: plan.to_vec(),
            later: 0,
        },
    }
}

/// The next list of numbers below `base`, the first place being the most significant; false behind
/// the last.
pub fn advance(places: &mut [u16], base: usize) -> bool {
    for place in places.iter_mut().rev() {
        *place += 1;
        if usize::from(*place) < base {
            return true;
        }
        *place = 0;
    }
    false
}
