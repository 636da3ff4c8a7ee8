//! The planner by rows of sets of services, in plain Rust: the measure for speed, and, with the
//! first of the cheapest plans found beside it, the answer for roads that have too many plans to
//! try; and the tables of keeping calls and edits, with ties settled by keys.
#![forbid(unsafe_code)]

mod charges;
mod first;
mod join;
mod kept;
mod keyed;
mod rules;

pub use first::first_plan;
pub use kept::{Edited, answer, edit, led_to, tables};
pub use rules::Rules;

use charges::Charges;
use second::plan::lent;
use second::{Answer, Sheet, read};

/// A figure that is no cost.
pub const NONE: u64 = 1_000_000_000_000_001;

/// Plans with lent tables, each with a row of 2^r entries for each cabinet. A cheapest plan, which
/// need not be the first, goes to the first places of the output; the entries used are 0
/// afterwards.
pub fn plan(sheet: &[u8], output: &mut [u16], costs: &mut [u64], choices: &mut [u16]) -> Answer {
    let sheet = match read(sheet) {
        Ok(sheet) => sheet,
        Err(refusal) => return Answer::refused(refusal, 0),
    };
    let refusal = lent(&sheet, output.len(), costs.len(), choices.len());
    if refusal != 0 {
        return Answer::refused(refusal, 0);
    }
    let entries = sheet.entries();
    let costs = &mut costs[..entries];
    let choices = &mut choices[..entries];
    let count = fill(&sheet, Rules::ALL, costs, choices);
    let all = (1 << sheet.services.len()) - 1;
    let cost = costs[all];
    if cost < NONE {
        read_back(&sheet, choices, output);
    }
    costs.fill(0);
    choices.fill(0);
    if cost >= NONE {
        return Answer::refused(12, count);
    }
    let plan = Some(output[..sheet.services.len()].to_vec());
    Answer {
        cost,
        count,
        plan,
        ..Answer::default()
    }
}

/// The cost of a cheapest plan, if there is a valid one, and the count of splits weighed, by these
/// rules.
pub fn figures(sheet: &Sheet, rules: Rules) -> (Option<u64>, u64) {
    let row = 1 << sheet.services.len();
    let entries = sheet.cabinets.len() * row;
    let mut costs = vec![0; entries];
    let count = fill(sheet, rules, &mut costs, &mut vec![0; entries]);
    (Some(costs[row - 1]).filter(|&cost| cost < NONE), count)
}

/// The children of each cabinet in rising order.
fn children(sheet: &Sheet) -> Vec<Vec<usize>> {
    let mut children = vec![vec![]; sheet.cabinets.len()];
    for (c, cabinet) in sheet.cabinets.iter().enumerate().skip(1) {
        children[usize::from(cabinet.parent)].push(c);
    }
    children
}

/// Fills the rows from the last cabinet to the root and counts the splits weighed.
fn fill(sheet: &Sheet, rules: Rules, costs: &mut [u64], choices: &mut [u16]) -> u64 {
    let row = 1 << sheet.services.len();
    let charges = Charges::new(sheet, rules);
    let mut link = vec![0; row];
    let mut count = 0;
    for (p, children) in children(sheet).iter().enumerate().rev() {
        charges.cabinet(p, &sheet.cabinets[p], &mut costs[p * row..][..row]);
        for &c in children {
            charges.link(&sheet.cabinets[c], &mut link);
            let (low, high) = costs.split_at_mut(c * row);
            let placed = &mut low[p * row..][..row];
            count += join::join(placed, &high[..row], &link, &mut choices[c * row..][..row]);
        }
    }
    count
}

/// Hands each cabinet its services by the choices kept, from the root down.
fn read_back(sheet: &Sheet, choices: &[u16], output: &mut [u16]) {
    let r = sheet.services.len();
    let mut held = vec![0_usize; sheet.cabinets.len()];
    held[0] = (1 << r) - 1;
    for (p, children) in children(sheet).iter().enumerate() {
        for &c in children.iter().rev() {
            let kept = usize::from(choices[(c << r) + held[p]]);
            held[c] = held[p] & !kept;
            held[p] = kept;
        }
        for (service, place) in output[..r].iter_mut().enumerate() {
            if held[p] >> service & 1 == 1 {
                *place = p as u16;
            }
        }
    }
}
