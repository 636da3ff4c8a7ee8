//! Every fault of spans is seen by random calls, and by the spans written down alone.

use differ::{Call, Event, Spot, Tally, compare_sharing, compare_spans};
use second::random::road::road;
use second::random::{Random, Size};
use wrong::{Fault, Faulty, Slip, first_difference};

/// All faults of spans.
fn faults() -> Vec<Fault> {
    let mut all = Fault::all();
    all.retain(|fault| matches!(fault, Fault::Span(..)));
    all
}

/// Each call has dozens, and each of these is shown by random roads, and soon; the spans written
/// down are not needed.
#[test]
fn every_fault_is_seen_within_a_thousand_cases() {
    for call in Call::ALL {
        let mut of_call = faults();
        of_call.retain(|fault| matches!(fault, Fault::Span(other, _) if *other == call));
        assert!(of_call.len() >= 50, "{} faults of {call:?}", of_call.len());
        for fault in of_call {
            let found = first_difference(Some(fault), 1000, 3);
            let case = found.map(|(case, _)| case).unwrap_or_default();
            assert!(case.parse::<usize>().is_ok(), "{}", fault.sentence());
        }
    }
}

#[test]
fn every_fault_is_seen_by_the_spans_written_down() {
    for fault in faults() {
        let (mut random, mut tally) = (Random::new(7), Tally::default());
        let compared = compare_spans(&Faulty(Some(fault)), &mut random, &mut tally);
        assert!(compared.is_err(), "not seen: {}", fault.sentence());
    }
}

/// What one road would do to another's entries, or find in them.
const OF_TWO: [Slip; 17] = [
    Slip::FromStart,
    Slip::CostsFromStart,
    Slip::ChoicesFromStart,
    Slip::ReadFromStart,
    Slip::ReadChoicesFromStart,
    Slip::WholeRows,
    Slip::FromEnd,
    Slip::CostBefore,
    Slip::ChoiceBefore,
    Slip::CostPast,
    Slip::ChoicePast,
    Slip::CostBehind,
    Slip::ChoiceBehind,
    Slip::SpanCleared,
    Slip::TablesCleared,
    Slip::TablesIn12,
    Slip::TouchedIn24,
];

/// Lists of calls on two spans show these alone.
#[test]
fn what_goes_wrong_between_two_roads_is_seen_by_lists_of_calls() {
    let size = Size {
        services: 3,
        cabinets: 4,
    };
    for fault in faults() {
        if !matches!(fault, Fault::Span(_, slip) if OF_TWO.contains(&slip)) {
            continue;
        }
        let (mut random, mut tally) = (Random::new(9), Tally::default());
        let differs = (0..500).any(|_| {
            let (_, records) = road(&mut random, size);
            compare_sharing(&Faulty(Some(fault)), &records, &mut random, &mut tally).is_err()
        });
        assert!(differs, "not seen: {}", fault.sentence());
    }
}

/// The spans written down show all that is told apart about spans, in each of the calls.
#[test]
fn the_spans_written_down_lie_in_every_way() {
    let (mut random, mut tally) = (Random::new(7), Tally::default());
    let compared = compare_spans(&Faulty(None), &mut random, &mut tally);
    assert_eq!(compared, Ok(()));
    for call in Call::ALL {
        for spot in Spot::ALL.into_iter().filter(|spot| spot.is_of(call)) {
            assert!(tally.met(Event::Span(call, spot)) > 0, "{call:?}, {spot:?}");
        }
    }
}
