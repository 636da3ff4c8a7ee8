//! Runs planning and keeping calls on whole tables and on a span of larger ones by turns.

use crate::roads::{Shape, sheet};
use crate::timing::{ENTRIES, OUTPUT, median};
use gazrieksne::{Planned, Refusal, Span, keep, keep_span, plan, plan_span};
use second::limits::{CABINETS, SERVICES};
use std::hint::black_box;
use std::time::Instant;

/// Median seconds of a call on whole tables, and of the same on a span.
pub struct Times {
    pub call: &'static str,
    pub whole: f64,
    pub span: f64,
}

/// The span, in the middle of tables three times as long.
const MIDDLE: Span = Span {
    first: ENTRIES,
    number: ENTRIES,
};

/// An output and both tables.
struct Lent {
    output: Vec<u16>,
    costs: Vec<u64>,
    choices: Vec<u16>,
}

impl Lent {
    fn of(entries: usize) -> Lent {
        Lent {
            output: vec![0; OUTPUT],
            costs: vec![0; entries],
            choices: vec![0; entries],
        }
    }

    /// The seconds of a call and what it gives.
    fn time(&mut self, call: Call, sheet: &[u8]) -> (f64, Result<Planned, Refusal>) {
        let Lent {
            output,
            costs,
            choices,
        } = self;
        let start = Instant::now();
        let given = call(black_box(sheet), output, costs, choices);
        (start.elapsed().as_secs_f64(), given)
    }
}

/// A call that plans.
type Call = fn(&[u8], &mut [u16], &mut [u64], &mut [u16]) -> Result<Planned, Refusal>;

/// Times both calls on the largest random tree.
pub fn all(runs: usize) -> [Times; 2] {
    let planned: Call =
        |sheet, output, costs, choices| plan_span(sheet, output, costs, choices, MIDDLE);
    let kept: Call =
        |sheet, output, costs, choices| keep_span(sheet, output, costs, choices, MIDDLE);
    [
        times("plan", plan, planned, runs),
        times("keep", keep, kept, runs),
    ]
}

/// Times a call on whole tables and on the span, one after the other in each run; both must give
/// the same.
fn times(call: &'static str, on_whole: Call, on_span: Call, runs: usize) -> Times {
    let sheet = sheet(Shape::TREE, SERVICES, CABINETS);
    let (mut whole, mut larger) = (Lent::of(ENTRIES), Lent::of(3 * ENTRIES));
    let (mut wholes, mut spans) = (vec![], vec![]);
    for _ in 0..runs.max(1) {
        let (seconds, right) = whole.time(on_whole, &sheet);
        wholes.push(seconds);
        let (seconds, given) = larger.time(on_span, &sheet);
        spans.push(seconds);
        assert_eq!(given, right, "the span differs from whole tables");
        assert!(larger.output == whole.output, "other outputs");
        let entries = MIDDLE.of(&larger.costs);
        assert!(entries == Some(&whole.costs[..]), "other cost tables");
    }
    Times {
        call,
        whole: median(wholes),
        span: median(spans),
    }
}
