//! The check: the cost of a plan, or the first refusal.

use crate::bars::Bars;
use crate::framing::taken;
use crate::path::{Step, path};
use crate::read::read;
use crate::sheet::Sheet;

/// What the streams that run along one direction of a link put on it.
#[derive(Clone, Copy, Debug, Default, PartialEq, Eq)]
pub struct Line {
    /// Their demands, which are priced.
    pub demand: u64,
    /// Their demands with their framing, which the capacity must suffice for.
    pub load: u64,
}

impl Line {
    /// Puts a stream of this demand on the line.
    fn add(&mut self, demand: u16) {
        self.demand += u64::from(demand);
        self.load += taken(demand);
    }
}

/// The demand and the number of services on each cabinet, and what is on each direction of each
/// link; a link goes by the cabinet below.
#[derive(Clone, Debug, PartialEq, Eq)]
pub struct Loads {
    pub cabinets: Vec<u64>,
    pub services: Vec<usize>,
    pub up: Vec<Line>,
    pub down: Vec<Line>,
}

impl Loads {
    pub fn new(cabinets: usize) -> Loads {
        Loads {
            cabinets: vec![0; cabinets],
            services: vec![0; cabinets],
            up: vec![Line::default(); cabinets],
            down: vec![Line::default(); cabinets],
        }
    }

    /// Puts a service of this demand on a cabinet.
    pub fn place(&mut self, cabinet: usize, demand: u16) {
        self.cabinets[cabinet] += u64::from(demand);
        self.services[cabinet] += 1;
    }

    /// Puts a stream of this demand on every link of its path.
    pub fn run(&mut self, steps: &[Step], demand: u16) {
        for step in steps {
            match *step {
                Step::Up(c) => self.up[c].add(demand),
                Step::Down(c) => self.down[c].add(demand),
            }
        }
    }

    /// The cabinet is not overfull, and if it is a joint, no service is on it.
    pub fn holds(&self, sheet: &Sheet, c: usize) -> bool {
        let stray = self.services[c] > 0 && sheet.cabinets[c].is_joint();
        self.fits(sheet, c) && !stray
    }

    /// The demands on the cabinet are no more than its capacity.
    pub fn fits(&self, sheet: &Sheet, c: usize) -> bool {
        self.cabinets[c] <= u64::from(sheet.cabinets[c].capacity)
    }

    /// Neither direction of the cabinet's link has a load above its capacity.
    pub fn carries(&self, sheet: &Sheet, c: usize) -> bool {
        let cabinet = &sheet.cabinets[c];
        self.up[c].load <= u64::from(cabinet.up_capacity)
            && self.down[c].load <= u64::from(cabinet.down_capacity)
    }

    /// The same if framing took no line.
    fn carries_unframed(&self, sheet: &Sheet, c: usize) -> bool {
        let cabinet = &sheet.cabinets[c];
        self.up[c].demand <= u64::from(cabinet.up_capacity)
            && self.down[c].demand <= u64::from(cabinet.down_capacity)
    }
}

/// The cost of the plan on the sheet, or the first refusal: the reader's, then 13, 14, 20, 15, 16.
pub fn check(bytes: &[u8], plan: &[u16]) -> Result<u64, u64> {
    let sheet = read(bytes)?;
    check_sheet(&sheet, plan)
}

/// The same for an accepted sheet.
pub fn check_sheet(sheet: &Sheet, plan: &[u16]) -> Result<u64, u64> {
    if plan.len() != sheet.services.len() {
        return Err(13);
    }
    if plan.iter().any(|&c| usize::from(c) >= sheet.cabinets.len()) {
        return Err(14);
    }
    let bars = Bars::new(sheet);
    judge(sheet, &bars, plan, |from, to| path(sheet, from, to))
}

/// The plan gets 16, and would be valid if framing took no line.
pub fn only_framing(sheet: &Sheet, plan: &[u16]) -> bool {
    check_sheet(sheet, plan) == Err(16) && {
        let loads = loads(sheet, plan, |from, to| path(sheet, from, to));
        (1..sheet.cabinets.len()).all(|c| loads.carries_unframed(sheet, c))
    }
}

/// The plan gets 15 for a service on a joint: no cabinet is overfull.
pub fn only_joints(sheet: &Sheet, plan: &[u16]) -> bool {
    check_sheet(sheet, plan) == Err(15) && {
        let loads = loads(sheet, plan, |from, to| path(sheet, from, to));
        (0..sheet.cabinets.len()).all(|c| loads.fits(sheet, c))
    }
}

/// Validity and cost of a plan that has a cabinet of the road for each service.
pub fn judge<P: AsRef<[Step]>>(
    sheet: &Sheet,
    bars: &Bars,
    plan: &[u16],
    path: impl Fn(usize, usize) -> P,
) -> Result<u64, u64> {
    if bars.forbid(plan) {
        return Err(20);
    }
    let loads = loads(sheet, plan, path);
    let s = sheet.cabinets.len();
    if !(0..s).all(|c| loads.holds(sheet, c)) {
        return Err(15);
    }
    if !(1..s).all(|c| loads.carries(sheet, c)) {
        return Err(16);
    }
    Ok(cost(sheet, &loads))
}

/// What the plan puts on every cabinet and link.
pub fn loads<P: AsRef<[Step]>>(
    sheet: &Sheet,
    plan: &[u16],
    path: impl Fn(usize, usize) -> P,
) -> Loads {
    let mut loads = Loads::new(sheet.cabinets.len());
    for (&cabinet, &demand) in plan.iter().zip(&sheet.services) {
        loads.place(usize::from(cabinet), demand);
    }
    for stream in &sheet.streams {
        let place = |service: u16| usize::from(plan[usize::from(service)]);
        let steps = path(place(stream.from), place(stream.to));
        loads.run(steps.as_ref(), stream.demand);
    }
    loads
}

/// Every demand times the price of the cabinet that holds it or the link direction that carries it;
/// framing is not priced.
fn cost(sheet: &Sheet, loads: &Loads) -> u64 {
    let charge = |c: usize| {
        let cabinet = &sheet.cabinets[c];
        loads.cabinets[c] * u64::from(cabinet.price)
            + loads.up[c].demand * u64::from(cabinet.up_price)
            + loads.down[c].demand * u64::from(cabinet.down_price)
    };
    (0..sheet.cabinets.len()).map(charge).sum()
}
