//! What random cases show about joints, and of the faults in them.

use differ::{Event, Joint, Tally, Turn, compare};
use second::random::{Random, Size, case};
use wrong::{Fault, Faulty, first_difference};

/// All that is told apart about joints comes up, and soon.
#[test]
fn random_cases_have_all_there_is_about_joints() {
    let size = Size {
        services: 4,
        cabinets: 6,
    };
    let (mut random, mut tally) = (Random::new(11), Tally::default());
    for _ in 0..1000 {
        let case = case(&mut random, size);
        let compared = compare(&Faulty(None), &case, &mut random, &mut tally);
        assert_eq!(compared, Ok(()));
    }
    let made = [Turn::MadeJoint, Turn::MadeCabinet].map(Event::Sharing);
    for event in Joint::ALL.map(Event::Joint).into_iter().chain(made) {
        let times = tally.met(event);
        assert!(times >= 5, "{event:?} {times} times");
    }
}

/// Random roads show each of the dozens of faults, and soon; the roads written down are not needed.
#[test]
fn every_fault_is_seen_within_a_thousand_cases() {
    let mut all = Fault::all();
    all.retain(|fault| matches!(fault, Fault::Joint(..)));
    assert!(all.len() >= 90, "{} faults", all.len());
    for fault in all {
        let found = first_difference(Some(fault), 1000, 3);
        let case = found.map(|(case, _)| case).unwrap_or_default();
        assert!(case.parse::<usize>().is_ok(), "{}", fault.sentence());
    }
}
