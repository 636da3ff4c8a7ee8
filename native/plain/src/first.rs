//! The first of the cheapest plans, found by asking for the least cost alone.

use crate::{Rules, figures};
use second::{Pair, Sheet};

/// The cost of a cheapest plan, if there is a valid one.
fn least_cost(sheet: &Sheet) -> Option<u64> {
    figures(sheet, Rules::ALL).0
}

/// The first of the cheapest plans, if there is a valid one. Each service in turn goes to the
/// lowest cabinet with which the least cost stays, and is barred from all others from then on.
pub fn first_plan(sheet: &Sheet) -> Option<Vec<u16>> {
    let cost = least_cost(sheet)?;
    let mut sheet = sheet.clone();
    let mut plan = vec![];
    for service in 0..sheet.services.len() as u16 {
        let cabinet = lowest_cabinet(&sheet, service, cost);
        bar(&mut sheet, service, |c| c != cabinet);
        plan.push(cabinet);
    }
    Some(plan)
}

/// The lowest cabinet on which the service leaves the road its least cost: the lowest that it can
/// be held at or below.
fn lowest_cabinet(sheet: &Sheet, service: u16, cost: u64) -> u16 {
    let (mut low, mut high) = (0, sheet.cabinets.len() as u16 - 1);
    while low < high {
        let middle = (low + high) / 2;
        let mut held = sheet.clone();
        bar(&mut held, service, |c| c > middle);
        match least_cost(&held) == Some(cost) {
            true => high = middle,
            false => low = middle + 1,
        }
    }
    low
}

/// Bars a service from the cabinets that are named.
fn bar(sheet: &mut Sheet, service: u16, names: impl Fn(u16) -> bool) {
    let cabinets = (0..sheet.cabinets.len() as u16).filter(|&c| names(c));
    let pairs = cabinets.map(|cabinet| Pair { service, cabinet });
    sheet.barred.extend(pairs);
}
