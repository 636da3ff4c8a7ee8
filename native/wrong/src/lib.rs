//! Implementations that are wrong on purpose. Each has one fault; the comparison must tell each
//! from the right one, and must find nothing where there is no fault.
#![forbid(unsafe_code)]

mod bars;
mod bill;
mod check;
mod copy;
mod edit;
mod fault;
mod figures;
mod fourth;
mod framing;
mod joints;
mod keep;
mod keys;
mod lines;
mod link;
mod loads;
mod net;
mod path;
mod planner;
mod reader;
mod rows;
mod sentences;
mod slip;
mod span;
mod splice;
mod subject;
mod ties;
mod writer;

pub use fault::Fault;
pub use slip::Slip;
pub use splice::{Splice, Where};
pub use subject::Faulty;

use differ::{Tally, compare, compare_bounds, compare_spans};
use second::random::{Random, Size, case};
use second::{barred, billed, copies, framed, jointed, tied};

/// The sizes of the random roads.
const SIZE: Size = Size {
    services: 4,
    cabinets: 6,
};

/// Compares up to so many random cases, then those written down for barred pairs, for ties, for
/// framing, for joints, for bills and for tidy copies, then the spans written down, and the bound
/// for all numbers around the limits. Gives the first case that shows a difference, and the first
/// line of what it shows.
pub fn first_difference(fault: Option<Fault>, cases: usize, seed: u64) -> Option<(String, String)> {
    let subject = Faulty(fault);
    let mut random = Random::new(seed);
    let mut tally = Tally::default();
    for number in 1..=cases {
        let case = case(&mut random, SIZE);
        if let Err(what) = compare(&subject, &case, &mut random, &mut tally) {
            return Some((number.to_string(), first_line(&what)));
        }
    }
    let barred = barred::all().into_iter().map(|d| (d.name, d.case()));
    let tied = tied::all().into_iter().map(|t| (t.name, t.case()));
    let roads = framed::all().into_iter().chain(jointed::all());
    let roads = roads.map(|road| (road.name, road.case()));
    let billed = billed::all().into_iter().map(|b| (b.name, b.case()));
    let copies = copies::all().into_iter().map(|c| (c.name, c.case()));
    let written_down = barred.chain(tied).chain(roads).chain(billed).chain(copies);
    for (name, case) in written_down {
        if let Err(what) = compare(&subject, &case, &mut random, &mut tally) {
            return Some((name.to_string(), first_line(&what)));
        }
    }
    if let Err(what) = compare_spans(&subject, &mut random, &mut tally) {
        return Some(("of the spans".to_string(), first_line(&what)));
    }
    compare_bounds(&subject, &mut random, &mut tally)
        .err()
        .map(|what| ("of the bounds".to_string(), first_line(&what)))
}

fn first_line(text: &str) -> String {
    text.lines().next().unwrap_or_default().to_string()
}
