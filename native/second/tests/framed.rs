//! What a stream takes of a link, and what framing alone decides.

use second::check::{check_sheet, only_framing};
use second::framed::all;
use second::framing::{FRAMING, taken};
use second::measured::m_records;

#[test]
fn what_a_stream_takes() {
    assert_eq!(FRAMING, 2);
    assert_eq!([0, 1, 2, 10_000].map(taken), [0, 3, 4, 10_002]);
}

/// Every plan here that gets 16 would be valid without framing.
#[test]
fn framing_alone() {
    for road in all() {
        for (plan, answer) in &road.checks {
            let jammed = *answer == Err(16);
            assert_eq!(only_framing(&road.sheet, plan), jammed, "{}", road.name);
        }
    }
}

/// Where the demand alone is above the capacity, framing is not the only reason.
#[test]
fn not_framing_alone() {
    let mut sheet = m_records();
    assert_eq!(check_sheet(&sheet, &[2, 0]), Err(16));
    assert!(!only_framing(&sheet, &[2, 0]));
    sheet.cabinets[2].up_capacity = 3;
    assert_eq!(check_sheet(&sheet, &[2, 0]), Err(16));
    assert!(only_framing(&sheet, &[2, 0]));
    sheet.cabinets[2].up_capacity = 5;
    assert_eq!(check_sheet(&sheet, &[2, 0]), Ok(17));
    assert!(!only_framing(&sheet, &[2, 0]));
}
