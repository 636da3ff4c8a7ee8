//! The proved planner beside the second one.
#![forbid(unsafe_code)]

mod expected;
mod options;
mod proved;
pub mod rehung;
mod rehung_tally;

pub use options::Options;
pub use proved::Proved;
pub use rehung_tally::{RehungTally, Seen};

use differ::{Tally, compare, compare_bounds, compare_spans};
use second::random::case::{Origin, with_calls};
use second::random::layout::layout;
use second::random::road::{Kind, of_kind};
use second::random::{Case, Random, Size, case};
use second::{barred, billed, copies, framed, jointed, tied};

/// Compares the bound for all numbers around the limits, the spans written down, then all cases:
/// those written down for barred pairs, for ties, for framing, for joints, for bills and for tidy
/// copies, random ones, and large roads. The error is the first difference in full, or what the cases
/// written down, or enough random ones, should have shown and did not.
pub fn run(options: &Options) -> Result<Tally, String> {
    let mut tally = Tally::default();
    let mut random = Random::new(options.seed);
    let size = Size {
        services: options.services,
        cabinets: options.cabinets,
    };
    compare_bounds(&Proved, &mut random, &mut tally)?;
    compare_spans(&Proved, &mut random.beside(), &mut tally)?;
    for (name, case) in written_down() {
        compare(&Proved, &case, &mut random, &mut tally)
            .map_err(|what| format!("{name}: {what}"))?;
    }
    let before = tally.clone();
    for number in 0..options.cases + options.large {
        let case = match number < options.cases {
            true => case(&mut random, size),
            false => large(&mut random, size),
        };
        compare(&Proved, &case, &mut random, &mut tally)
            .map_err(|what| format!("case {number} of seed {}: {what}", options.seed))?;
    }
    match expected::missing(options, &before, &tally) {
        Some(missing) => Err(missing),
        None => Ok(tally),
    }
}

/// The cases written down for barred pairs, for ties, for framing, for joints, for bills and for
/// tidy copies, by name.
fn written_down() -> impl Iterator<Item = (&'static str, Case)> {
    let barred = barred::all().into_iter().map(|d| (d.name, d.case()));
    let tied = tied::all().into_iter().map(|t| (t.name, t.case()));
    let roads = framed::all().into_iter().chain(jointed::all());
    let roads = roads.map(|road| (road.name, road.case()));
    let billed = billed::all().into_iter().map(|b| (b.name, b.case()));
    let copies = copies::all().into_iter().map(|c| (c.name, c.case()));
    barred.chain(tied).chain(roads).chain(billed).chain(copies)
}

/// A road with too many plans to try.
fn large(random: &mut Random, size: Size) -> Case {
    let sheet = of_kind(random, Kind::Large, size);
    let layout = layout(random, &sheet);
    let bytes = second::build(&sheet, &layout);
    with_calls(random, Origin::Road(Kind::Large), bytes)
}
