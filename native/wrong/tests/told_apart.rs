//! Every fault is seen within some thousand cases, and none where there is none.

use differ::{Tally, compare, compare_bounds};
use second::random::{Case, Random};
use second::{billed, framed, jointed};
use wrong::{Fault, Faulty, first_difference};

#[test]
fn no_difference_without_a_fault() {
    assert_eq!(first_difference(None, 5000, 7), None);
}

#[test]
fn every_fault_is_seen() {
    for fault in Fault::all() {
        let seen = first_difference(Some(fault), 5000, 7);
        assert!(seen.is_some(), "not seen: {}", fault.sentence());
    }
}

#[test]
fn every_fault_of_the_bound_is_seen_by_the_bounds_alone() {
    let mut seen = 0;
    for fault in Fault::all() {
        if fault.sentence().starts_with("bound:") {
            let mut random = Random::new(7);
            let compared = compare_bounds(&Faulty(Some(fault)), &mut random, &mut Tally::default());
            assert!(compared.is_err(), "not seen: {}", fault.sentence());
            seen += 1;
        }
    }
    assert!(seen >= 10);
}

/// Random roads show them, and soon; the cases written down are not needed.
#[test]
fn every_fault_of_keeping_calls_and_edits_is_seen_within_a_thousand_cases() {
    for (start, least) in [("keep:", 24), ("edit:", 64)] {
        let mut seen = 0;
        for fault in Fault::all() {
            if fault.sentence().starts_with(start) {
                let found = first_difference(Some(fault), 1000, 3);
                let case = found.map(|(case, _)| case).unwrap_or_default();
                assert!(case.parse::<usize>().is_ok(), "{}", fault.sentence());
                seen += 1;
            }
        }
        assert!(seen >= least, "{seen} faults of {start}");
    }
}

/// How many faults there are whose sentence starts so; each must be seen by one of these cases.
fn seen_by(cases: &[Case], start: &str) -> usize {
    let mut seen = 0;
    for fault in Fault::all() {
        if fault.sentence().starts_with(start) {
            let (mut random, mut tally) = (Random::new(7), Tally::default());
            let subject = Faulty(Some(fault));
            let mut cases = cases.iter();
            let differs = cases.any(|c| compare(&subject, c, &mut random, &mut tally).is_err());
            assert!(differs, "not seen: {}", fault.sentence());
            seen += 1;
        }
    }
    seen
}

#[test]
fn every_fault_of_framing_is_seen_by_the_roads_written_down_for_it() {
    let cases: Vec<Case> = framed::all().iter().map(|road| road.case()).collect();
    assert!(seen_by(&cases, "framing in") >= 25);
}

#[test]
fn every_fault_of_joints_is_seen_by_the_roads_written_down_for_them() {
    let cases: Vec<Case> = jointed::all().iter().map(|road| road.case()).collect();
    assert!(seen_by(&cases, "joints in") >= 90);
}

#[test]
fn every_fault_of_the_bill_is_seen_by_the_bills_written_down() {
    let cases: Vec<Case> = billed::all().iter().map(|billed| billed.case()).collect();
    assert!(seen_by(&cases, "bill:") >= 105);
}
