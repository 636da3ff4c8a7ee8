//! The proved planner and the second one give the same answers, and every refusal is among them.

use compare::{Options, run};
use differ::{Event, Tally};
use second::feature::Feature;

/// Every refusal of an edit, thousands of lists, and edits and calls on spans of every kind.
fn every_edit(tally: &Tally) {
    for refusal in (0..=12).chain([14, 18, 19, 23]) {
        assert!(tally.times("edit", refusal) > 0, "edit: {refusal}");
    }
    assert!(tally.lists() > 2000, "{} lists of edits", tally.lists());
    for event in Event::all() {
        assert!(tally.met(event) > 10, "{event:?}: {}", tally.met(event));
    }
}

/// Every refusal of the calls on spans, and hundreds of lists of calls on two.
fn every_span(tally: &Tally) {
    for refusal in (0..=12).chain([18, 19, 24]) {
        for call in ["plan in a span", "keep in a span", "edit in a span"] {
            assert!(tally.times(call, refusal) > 0, "{call}: {refusal}");
        }
    }
    for refusal in [14, 23] {
        let times = tally.times("edit in a span", refusal);
        assert!(times > 0, "edit in a span: {refusal}");
    }
    assert!(
        tally.sharing_lists() > 500,
        "{} lists",
        tally.sharing_lists()
    );
}

#[test]
fn no_difference_and_every_refusal() {
    let options = Options {
        cases: 4000,
        large: 4,
        seed: 11,
        ..Options::default()
    };
    let tally = run(&options).unwrap_or_else(|difference| panic!("{difference}"));
    for refusal in (0..=9).chain([18, 19]) {
        assert!(tally.times("read", refusal) > 0, "read: {refusal}");
    }
    for refusal in (0..=9).chain(13..=16).chain(18..=20) {
        assert!(tally.times("check", refusal) > 0, "check: {refusal}");
    }
    for refusal in (0..=12).chain([18, 19]) {
        assert!(tally.times("plan", refusal) > 0, "plan: {refusal}");
        assert!(tally.times("keep", refusal) > 0, "keep: {refusal}");
    }
    every_edit(&tally);
    every_span(&tally);
    for refusal in (0..=9).chain(13..=16).chain([18, 19, 20, 22]) {
        assert!(tally.times("bill", refusal) > 0, "bill: {refusal}");
    }
    for refusal in (0..=9).chain([18, 19, 21]) {
        assert!(tally.times("tidy", refusal) > 0, "tidy: {refusal}");
    }
    assert!(tally.tied() > 200, "{} plans tied", tally.tied());
    let framed = [tally.framed_plans(), tally.framed_roads()];
    assert!(framed.iter().all(|&times| times > 50), "{framed:?}");
    for feature in Feature::all() {
        assert!(tally.billed(feature) > 0, "{feature:?}");
    }
    for found in [0, 1] {
        assert!(tally.times("barred", found) > 0, "barred: {found}");
    }
    for refusal in [0, 2] {
        assert!(tally.times("bound", refusal) > 0, "bound: {refusal}");
    }
}

/// The cases written down make a few hundred calls of the bound at most; all others are those for
/// every number of services and of cabinets.
#[test]
fn the_bound_in_and_around_the_limits() {
    let options = Options {
        cases: 0,
        large: 0,
        ..Options::default()
    };
    let tally = run(&options).unwrap_or_else(|difference| panic!("{difference}"));
    let within = 11 * 200;
    assert!(tally.times("bound", 0) >= within);
    assert!(tally.times("bound", 2) >= 98 * 308 - within);
}
