//! What is told apart about the form of a sheet, on M and a road without records.

use second::form::Form::{self, *};
use second::form::forms;
use second::measured::{self, m_barred};
use second::{Layout, Sheet, build};

/// The properties of a sheet that is laid out so.
fn spread(sheet: &Sheet, order: &[usize], gaps: [usize; 5]) -> Vec<Form> {
    forms(&build(sheet, &Layout::spread(sheet, order, gaps)))
}

#[test]
fn blocks_of_m() {
    let m = m_barred(&[]);
    assert_eq!(spread(&m, &[0, 1, 2], [0; 5]), [Tidy]);
    assert_eq!(spread(&m, &[0, 1, 2], [0, 0, 0, 0, 1]), [Gaps]);
    assert_eq!(spread(&m, &[0, 1, 2], [0, 2, 0, 0, 0]), [Gaps]);
    assert_eq!(spread(&m, &[0, 1, 2], [0, 0, 1, 0, 0]), [Gaps, OddOffset]);
    assert_eq!(spread(&m, &[0, 2, 1], [0; 5]), [OtherOrder]);
    assert_eq!(spread(&m, &[0, 1, 2, 3], [0; 5]), [CountOfNone]);
    assert_eq!(spread(&m, &[0, 1, 3, 2], [0; 5]), [OtherOrder, CountOfNone]);
    assert_eq!(forms(&measured::m()[..67]), []);
}

#[test]
fn pairs_of_m() {
    let form = |pairs: &[[u16; 2]]| spread(&m_barred(pairs), &[0, 1, 2, 3], [0; 5]);
    assert_eq!(form(&[[0, 1], [0, 2], [1, 0]]), [Tidy]);
    assert_eq!(form(&[[0, 1], [0, 1]]), [RepeatedPairs]);
    assert_eq!(form(&[[0, 2], [0, 1]]), [FallingPairs]);
    assert_eq!(form(&[[1, 0], [0, 1]]), [FallingPairs]);
    let around = form(&[[0, 1], [0, 2], [0, 1]]);
    assert_eq!(around, [RepeatedPairs, FallingPairs]);
}

#[test]
fn without_records() {
    let mut m = m_barred(&[]);
    m.streams.clear();
    let at = |m: &Sheet, services, streams| {
        let mut layout = Layout::tight(m);
        layout.offsets[0] = services;
        layout.offsets[2] = streams;
        forms(&build(m, &layout))
    };
    assert_eq!(at(&m, 16, 62), [Tidy, NoStream]);
    assert_eq!(at(&m, 16, 61), [EmptyElsewhere, NoStream]);
    m.services.clear();
    assert_eq!(at(&m, 16, 58), [Tidy, NoService, NoStream]);
    assert_eq!(at(&m, 58, 58), [EmptyElsewhere, NoService, NoStream]);
}
