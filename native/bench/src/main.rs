//! Times the proved planner beside the planner by rows in plain Rust, which leaves ties to the
//! earlier split, in one run, and prints a Markdown table; then edits beside whole new runs; then
//! calls on a span in the middle of larger tables beside those on whole tables; then the check and
//! the bill of a plan on the largest chain. `bench [RUNS]`: the median of so many runs of each
//! planner, of each edit, and of each call on a span, 7 by default.
#![forbid(unsafe_code)]

mod edits;
mod plans;
mod roads;
mod spans;
mod timing;

use roads::Shape;

const SERVICES: [usize; 4] = [4, 6, 8, 10];

fn main() {
    let argument = std::env::args().nth(1);
    let runs = argument.and_then(|text| text.parse().ok()).unwrap_or(7);
    println!("| road | services | cabinets | weighed | proved, ms | plain, ms | proved / plain |");
    println!("|---|---:|---:|---:|---:|---:|---:|");
    let (mut product, mut rows) = (0.0, 0.0);
    for shape in Shape::ALL {
        for services in SERVICES {
            for &cabinets in shape.cabinets() {
                let sheet = roads::sheet(shape, services, cabinets);
                let times = timing::both(&sheet, runs);
                let ratio = times.proved / times.plain;
                println!(
                    "| {} | {services} | {cabinets} | {} | {:.3} | {:.3} | {ratio:.2} |",
                    shape.name(),
                    times.count,
                    times.proved * 1e3,
                    times.plain * 1e3,
                );
                if shape.is_usual() {
                    product += ratio.ln();
                    rows += 1.0;
                }
            }
        }
    }
    println!();
    println!(
        "Geometric mean of the ratios of star, chain and random tree: {:.2}",
        (product / rows).exp()
    );
    println!();
    of_edits(runs);
    println!();
    of_spans(runs);
    println!();
    of_a_plan();
}

/// Prints the times of edits, each beside a keeping call on the same sheet.
fn of_edits(runs: usize) {
    println!(
        "| edit | joins on its path | all joins | edit, ms | whole run, ms | edit / whole run |"
    );
    println!("|---|---:|---:|---:|---:|---:|");
    for edit in edits::all() {
        let times = edit.times(runs);
        println!(
            "| {} | {} | {} | {:.3} | {:.3} | {:.3} |",
            edit.name,
            edit.joins(),
            edit.all_joins(),
            times.edit * 1e3,
            times.keep * 1e3,
            times.edit / times.keep,
        );
    }
}

/// Prints the times of calls on whole tables, each beside the same on a span of larger ones.
fn of_spans(runs: usize) {
    println!("| call on the largest random tree | whole tables, ms | span, ms | span / whole |");
    println!("|---|---:|---:|---:|");
    for times in spans::all(runs) {
        println!(
            "| {} | {:.3} | {:.3} | {:.2} |",
            times.call,
            times.whole * 1e3,
            times.span * 1e3,
            times.span / times.whole,
        );
    }
}

/// Prints the times of check and bill.
fn of_a_plan() {
    let (sheet, plan) = roads::largest_chain();
    let times = plans::both(&sheet, &plan);
    println!(
        "| call on the largest chain | least of {}, µs |",
        plans::CALLS
    );
    println!("|---|---:|");
    println!("| check | {:.1} |", times.check * 1e6);
    println!("| bill | {:.1} |", times.bill * 1e6);
}
